"""The test vectors, and what each says of the calls' answers: no expected value is taken from a program of this repository."""
import hashlib
import json
import zlib
from pathlib import Path

VECTORS = Path(__file__).resolve().parents[3] / "vectors"

# The octets of a test vector, above which it is not run again in the module profile.
MOST_AGAIN = 100000


def octets_of(vector, name="octets", runs="runs"):
    if name in vector:
        return bytes.fromhex(vector[name])
    return b"".join(bytes.fromhex(unit) * count for unit, count in vector[runs])


def size_of(vector):
    if "line_octets" in vector:
        return len(vector["line_octets"]) // 2
    if "line" in vector or "line_runs" in vector:
        return sum(len(text) * count for text, count in vector.get("line_runs", [(vector.get("line"), 1)]))
    return len(vector["octets"]) // 2 if "octets" in vector else sum(len(unit) // 2 * count for unit, count in vector["runs"])


def tests():
    """Each test vector in each profile that it is for: as answers.js takes it."""
    found = []
    for path in sorted(VECTORS.glob("*.json")):
        if path.name == "schema.json":
            continue
        group_file = json.loads(path.read_text(encoding="utf-8"))
        own = group_file.get("profile", "2")
        for group in group_file["groups"]:
            for vector in group["vectors"]:
                profiles = vector.get("profiles", [own])
                for profile in profiles:
                    if profile == profiles[0] or size_of(vector) <= MOST_AGAIN:
                        found.append({"vector": vector, "profile": profile, "isStream": path.stem == "streams", "isLine": path.stem == "json"})
    return found


def sum_of(octets):
    return f"{len(octets)}:{zlib.crc32(octets):08x}"


def refusal_of(vector):
    part = f" {vector['part']}" if vector.get("part") else ""
    return f"{vector['cause']}@{vector['offset']}{part}"


def stream_expected(vector):
    normal = octets_of(vector, "normal", "normal_runs")
    too_many = vector.get("cause") == "TooManyMessages"  # a limit of the program: a stream for the calls has none
    end = "end" if vector["result"] == "valid" or too_many else refusal_of(vector)
    return f"stream {vector['messages']} {len(normal)}:{zlib.crc32(normal):x} {end}"


def line_expected(vector):
    if vector["result"] == "refused":
        return f"build {vector['cause']}@{vector['pointer']}"
    return f"build {sum_of(octets_of(vector, 'normal', 'normal_runs'))}"


def expected(test):
    """The line that answers.js has to give first."""
    vector = test["vector"]
    if test["isStream"]:
        return stream_expected(vector)
    if test["isLine"]:
        return line_expected(vector)
    if vector["result"] == "refused":
        why = refusal_of(vector)
        first = first_refused(vector, why)
        return f"normalise {why}; check {why}; digest {why}; same {why}; build {why}; first {first}"
    octets, normal = octets_of(vector), octets_of(vector, "normal", "normal_runs")
    is_normal = str(octets == normal).lower()
    digest = hashlib.sha256(normal).hexdigest()
    return f"normalise {sum_of(normal)}; check {is_normal}; digest {digest}; same true; build {sum_of(normal)}; first {len(octets)} {len(normal)} {is_normal}"


def first_refused(vector, why):
    """What is found first in octets that are refused as one message: None stands for a message with octets after it."""
    if not size_of(vector):
        return "none"
    return "*" if vector["cause"] == "TrailingBytes" else why


def agrees(line, wanted):
    """Says whether a line is the expected one, in which `*` stands for any end."""
    return line.startswith(wanted[:-1]) if wanted.endswith("*") else line == wanted
