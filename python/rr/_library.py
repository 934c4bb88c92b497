"""Where the shared library is, and its functions."""
from __future__ import annotations

import ctypes
import os
import platform
import sys
from pathlib import Path
from typing import Any

_HERE = Path(__file__).resolve().parent
_RELEASE = _HERE.parent.parent / "release"
_ENDING = {"darwin": "dylib", "win32": "dll"}.get(sys.platform, "so")


def _file() -> str:
    """The file of the shared library, or the name under which the system is to find it."""
    system = {"darwin": "macos", "win32": "windows"}.get(sys.platform, sys.platform)
    machine = platform.machine().lower()
    machine = {"amd64": "x86_64", "arm64": "aarch64"}.get(machine, machine)
    places = [_HERE / f"librr.{_ENDING}", _RELEASE / f"librr-{machine}-{system}.{_ENDING}"]
    found = [str(place) for place in places if place.exists()]
    return os.environ.get("RR_LIBRARY") or (found[0] if found else "librr.so.1" if _ENDING == "so" else f"librr.{_ENDING}")


def _load() -> ctypes.CDLL:
    try:
        return ctypes.CDLL(_file())
    except OSError as error:
        machine = f"{platform.system()} on {platform.machine()}, Python of {ctypes.sizeof(ctypes.c_void_p) * 8} bits"
        raise ImportError(f"rr has no shared library for this machine ({machine}); RR_LIBRARY may name one. {error}") from error


def version() -> str:
    """The version of the release, which stands in one file: beside the module, or in the repository."""
    found = [place for place in (_HERE / "VERSION", _RELEASE / "VERSION") if place.exists()]
    return found[0].read_text(encoding="ascii").strip() if found else "unknown"


NO, REFUSED, USAGE, NO_MEMORY, NO_TEXT, TOO_SMALL = 1, 2, 3, 6, 7, 8

_library = _load()


def _function(name: str) -> Any:
    """A function of the library; all have the form that include/rr.h says."""
    function = getattr(_library, name)
    function.restype = ctypes.c_uint32
    function.argtypes = [ctypes.c_char_p, ctypes.c_size_t] * 3 + [ctypes.c_void_p, ctypes.c_size_t, ctypes.POINTER(ctypes.c_uint64)]
    return function


rr_answer = _function("rr_answer")
# (a library of an older release compares no calendars, and asks of no many at once)
rr_calendars_answer = _function("rr_calendars_answer") if hasattr(_library, "rr_calendars_answer") else None
rr_clear_answer = _function("rr_clear_answer") if hasattr(_library, "rr_clear_answer") else None
