"""Makes the wheel: the package, with the shared object that `make` builds in bindings/c. Needs nothing but Python (PEP 517)."""
from __future__ import annotations

import base64
import hashlib
import os
import sys
import sysconfig
import zipfile

HERE = os.path.dirname(os.path.dirname(os.path.abspath(__file__)))
LIBRARY = os.path.join(HERE, "..", "c", "build", "libillcanon.so")
NAME, VERSION = "illcanon", "0.2.0"
INFO = f"{NAME}-{VERSION}.dist-info"

METADATA = f"""Metadata-Version: 2.1
Name: {NAME}
Version: {VERSION}
Summary: The one DER normal form of each message of the interlibrary loan protocol, ISO 10161-1
Requires-Python: >=3.8
"""


def platform_tag() -> str:
    return "py3-none-" + sysconfig.get_platform().replace("-", "_").replace(".", "_")


def files() -> list[tuple[str, bytes]]:
    """What the wheel holds, by name."""
    if not os.path.exists(LIBRARY):
        sys.exit(f"{os.path.relpath(LIBRARY)} is absent: run make in bindings/c first")
    found = [(f"{NAME}/libillcanon.so", read(LIBRARY))]
    package = os.path.join(HERE, NAME)
    for name in sorted(os.listdir(package)):
        if name.endswith((".py", ".typed")):
            found.append((f"{NAME}/{name}", read(os.path.join(package, name))))
    wheel = f"Wheel-Version: 1.0\nGenerator: {NAME}\nRoot-Is-Purelib: false\nTag: {platform_tag()}\n"
    return found + [(f"{INFO}/METADATA", METADATA.encode()), (f"{INFO}/WHEEL", wheel.encode())]


def read(name: str) -> bytes:
    with open(name, "rb") as file:
        return file.read()


def record(name: str, octets: bytes) -> str:
    digest = base64.urlsafe_b64encode(hashlib.sha256(octets).digest()).decode().rstrip("=")
    return f"{name},sha256={digest},{len(octets)}\n"


def get_requires_for_build_wheel(config_settings: object = None) -> list[str]:
    return []


def build_wheel(wheel_directory: str, config_settings: object = None, metadata_directory: object = None) -> str:
    """Writes the wheel, and returns its name."""
    name = f"{NAME}-{VERSION}-{platform_tag()}.whl"
    listed = files()
    lines = "".join(record(*entry) for entry in listed) + f"{INFO}/RECORD,,\n"
    with zipfile.ZipFile(os.path.join(wheel_directory, name), "w", zipfile.ZIP_DEFLATED) as wheel:
        for entry in [*listed, (f"{INFO}/RECORD", lines.encode())]:
            wheel.writestr(zipfile.ZipInfo(entry[0], (2020, 1, 1, 0, 0, 0)), entry[1])
    return name
