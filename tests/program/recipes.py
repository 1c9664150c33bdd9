#!/usr/bin/env python3
"""The recipes of GUIDE.md that take messages out of an e-mail and out of a capture of TCP, where ripmime and tshark are installed.

The e-mail has a text and a message as an attachment; the capture has three messages in segments of ten octets, and what the other side answers.
Needs the program built.
Usage: recipes.py
"""
import os
import re
import shutil
import struct
import subprocess
import sys
import tempfile
from email.message import EmailMessage
from pathlib import Path

sys.path.insert(0, str(Path(__file__).resolve().parents[1]))

from model.tables import PROGRAM, TOP

MESSAGE = (TOP / "examples/expired-long-form.ber").read_bytes()
FOUND = "Expired, 44 octets, not normal, normal form 33 octets\n"
PORTS = 40000, 499
SYN, ACK, PUSH = 2, 16, 8


def mail():
    """An e-mail with a text, and a message beside it."""
    made = EmailMessage()
    made["From"], made["To"], made["Subject"] = "ill@library.example", "ill@other.example", "a request"
    made.set_content("The request is attached.\n")
    made.add_attachment(MESSAGE, maintype="application", subtype="iso-10161-ill-1", filename="request.ber")
    return made.as_bytes()


def frame(is_answer, sent, taken, flags, octets=b""):
    """An Ethernet frame with a segment of TCP, from one side or the other."""
    ports, hosts = (PORTS[::-1], (2, 1)) if is_answer else (PORTS, (1, 2))
    segment = struct.pack(">HHIIBBHHH", *ports, sent, taken, 5 << 4, flags, 65535, 0, 0) + octets
    addresses = [bytes([10, 0, 0, host]) for host in hosts]
    packet = struct.pack(">BBHHHBBH4s4s", 0x45, 0, 20 + len(segment), 1, 0, 64, 6, 0, *addresses) + segment
    return bytes(12) + b"\x08\x00" + packet


def capture(octets):
    """A capture, as tcpdump writes it, of a connection on which these octets are sent."""
    frames = [frame(False, 0, 0, SYN), frame(True, 0, 1, SYN | ACK), frame(False, 1, 1, ACK)]
    frames += [frame(False, 1 + at, 1, ACK | PUSH, octets[at : at + 10]) for at in range(0, len(octets), 10)]
    head = struct.pack("<IHHiIII", 0xA1B2C3D4, 2, 4, 0, 0, 65535, 1)
    return head + b"".join(struct.pack("<IIII", time, 0, len(it), len(it)) + it for time, it in enumerate(frames))


def recipes():
    """The lines of GUIDE.md that begin with one of the two tools."""
    blocks = re.findall(r"```sh no-run\n(.*?)```", (TOP / "docs/GUIDE.md").read_text(), re.S)
    return {line.split()[0]: line for block in blocks for line in block.splitlines() if line.split()[0] in ("ripmime", "tshark")}


def main():
    wanted = {"ripmime": f"parts/request.ber: message 1: {FOUND}", "tshark": "".join(f"message {number}: {FOUND}" for number in (1, 2, 3))}
    found = recipes()
    if found.keys() != wanted.keys():
        sys.exit(f"recipes.py: GUIDE.md has recipes for {sorted(found)}")
    with tempfile.TemporaryDirectory() as place:
        folder = Path(place)
        (folder / "mail.eml").write_bytes(mail())
        (folder / "cap.pcap").write_bytes(capture(3 * MESSAGE))
        (folder / "bin").mkdir()
        os.symlink(PROGRAM, folder / "bin/illcanon")
        environment = {**os.environ, "PATH": f"{folder}/bin:{os.environ['PATH']}"}
        for tool, line in found.items():
            if not shutil.which(tool):
                print(f"recipes.py: without {tool}, its recipe is left out")
                continue
            done = subprocess.run(["bash", "-c", line], cwd=folder, env=environment, capture_output=True, text=True, check=False)
            if done.stdout != wanted[tool]:
                sys.exit(f"recipes.py: {line}:\n{done.stdout}{done.stderr}")
            print(f"recipes.py: {tool} gives the messages that were put in")


if __name__ == "__main__":
    main()
