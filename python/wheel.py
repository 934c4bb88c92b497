"""Makes the wheel of the Python module with the shared library inside: python3 python/wheel.py FOLDER [MACHINE], where MACHINE is x86_64-linux if
it is not given. `pip install ./python` calls it too, and gets the library of its own machine.

The standard library is enough. The files stand in the wheel as they are, without compression, with one date, in one order: the bytes depend on the
files alone, and on no version of Python or zlib.
"""
from __future__ import annotations

import base64
import hashlib
import platform
import sys
import zipfile
from pathlib import Path
from typing import Any

HERE = Path(__file__).resolve().parent
TOP = HERE.parent
RELEASE = TOP / "release"
NAME = "rr_recurrence"
# The name of the library in the wheel, the platform's name in the wheel that is handed on, and the one that pip takes on the machine itself.
# (The library for Linux needs the C library 2.14, but on x86_64 a processor that distributions ask for since the one with 2.34.)
MACHINES = {
    "x86_64-linux": ("librr.so", "manylinux_2_34_x86_64", "linux_x86_64"),
    "aarch64-linux": ("librr.so", "manylinux_2_17_aarch64", "linux_aarch64"),
    "aarch64-macos": ("librr.dylib", "macosx_11_0_arm64", "macosx_11_0_arm64"),
    "x86_64-macos": ("librr.dylib", "macosx_11_0_x86_64", "macosx_11_0_x86_64"),
    "x86_64-windows": ("librr.dll", "win_amd64", "win_amd64"),
}


def here() -> str:
    """The name of the machine that runs this."""
    machine = platform.machine().lower()
    system = {"darwin": "macos", "win32": "windows"}.get(sys.platform, sys.platform)
    return f"{ {'amd64': 'x86_64', 'arm64': 'aarch64'}.get(machine, machine) }-{system}"


def library(machine: str) -> Path:
    """The shared library for a machine."""
    if machine not in MACHINES:
        sys.exit(f"wheel.py: there is no library for {machine}; those made are for {', '.join(MACHINES)}")
    file = RELEASE / f"librr-{machine}.{MACHINES[machine][0].split('.')[1]}"
    if not file.exists():
        sys.exit(f"wheel.py: there is no {file}; pip 21.3 or later builds in the checkout, and release/make_for makes libraries for other machines")
    return file


def files(machine: str, tag: str, version: str) -> list[tuple[str, bytes]]:
    """The name and the bytes of each file of the wheel, without the list of them."""
    info = f"{NAME}-{version}.dist-info"
    metadata = f"""Metadata-Version: 2.1
Name: {NAME.replace('_', '-')}
Version: {version}
Summary: Whether recurrence rules of calendars have equal occurrences, for all years to come
License: MIT OR Apache-2.0
Requires-Python: >=3.8
"""
    wheel = f"Wheel-Version: 1.0\nGenerator: rr\nRoot-Is-Purelib: false\nTag: py3-none-{tag}\n"
    modules = sorted((HERE / "rr").glob("*.py"))
    return [
        *((f"rr/{module.name}", module.read_bytes()) for module in modules),
        ("rr/py.typed", b""),
        ("rr/VERSION", f"{version}\n".encode()),
        (f"rr/{MACHINES[machine][0]}", library(machine).read_bytes()),
        *((f"{info}/licenses/{name.name}", name.read_bytes()) for name in (TOP / "LICENSE-APACHE", TOP / "LICENSE-MIT", TOP / "docs/LICENCES.md")),
        (f"{info}/METADATA", metadata.encode()),
        (f"{info}/WHEEL", wheel.encode()),
    ]


def write_wheel(folder: str, machine: str, tag: str) -> str:
    """Writes the wheel for a machine into a folder, and gives its name."""
    version = (RELEASE / "VERSION").read_text(encoding="ascii").strip()
    inside, listed = files(machine, tag, version), f"{NAME}-{version}.dist-info/RECORD"
    rows = []
    for name, data in inside:
        digest = base64.urlsafe_b64encode(hashlib.sha256(data).digest()).rstrip(b"=").decode()
        rows.append(f"{name},sha256={digest},{len(data)}\n")
    inside.append((listed, "".join([*rows, f"{listed},,\n"]).encode()))
    made = f"{NAME}-{version}-py3-none-{tag}.whl"
    with zipfile.ZipFile(Path(folder) / made, "w", zipfile.ZIP_STORED) as wheel:
        for name, data in inside:
            entry = zipfile.ZipInfo(name, (1980, 1, 1, 0, 0, 0))
            mode = 0o100755 if name.startswith("rr/librr.") else 0o100644
            entry.create_system, entry.external_attr = 3, mode << 16
            wheel.writestr(entry, data)
    return made


def build_wheel(wheel_directory: str, config_settings: Any = None, metadata_directory: Any = None) -> str:
    """What pip calls for `pip install ./python`."""
    machine = here()
    library(machine)
    return write_wheel(wheel_directory, machine, MACHINES[machine][2])


def build_sdist(sdist_directory: str, config_settings: Any = None) -> str:
    """What pip calls for the sources, which are not given on: the library is made of them by the Rattle kit alone."""
    sys.exit("wheel.py: there is no package of sources; build the wheel")


def main() -> None:
    if len(sys.argv) not in (2, 3):
        sys.exit("usage: wheel.py FOLDER [MACHINE]")
    machine = sys.argv[2] if len(sys.argv) == 3 else "x86_64-linux"
    library(machine)
    print(write_wheel(sys.argv[1], machine, MACHINES[machine][1]))


if __name__ == "__main__":
    main()
