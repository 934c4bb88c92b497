"""python -m rr WORDS: the words, the answers and the exit statuses of the program rr, over the shared library."""
from __future__ import annotations

import os
import re
import sys

from . import OutOfMemory, __version__, answer
from ._library import NO_TEXT, USAGE
from ._series import read_file

_READ_FAULT, _WRITE_FAULT, _NO_MEMORY = 4, 5, 6


def _names(words: list[str]) -> list[str]:
    """The names of the files of the operands."""
    found = [re.fullmatch(r"(?:rrule|vcal|graph|list|canon|rscale)(?:@.{6})?:(.+)", word, re.DOTALL) for word in words]
    return [it.group(1) for it in found if it][:2]


def _answer(words: list[str]) -> tuple[int, bytes]:
    """The status and what is printed. No file is read if the words are no command."""
    names = _names(words)
    status, said = answer(words)
    if status in (USAGE, NO_TEXT) or not names:
        return status, said
    texts = []
    for name in names:
        try:
            texts.append(read_file(0 if name == "-" else name))
        except OSError as error:
            print(f"rr: {name} could not be read: {error.strerror}", file=sys.stderr)
            return _READ_FAULT, b""
    return answer(words, texts[0], texts[-1])


def _put(said: bytes) -> bool:
    """Whether all was written. If the reader of the output has gone nothing is said of it, as by the program."""
    try:
        sys.stdout.buffer.write(said)
        sys.stdout.flush()
        return True
    except BrokenPipeError:
        pass
    except OSError as error:
        print(f"rr: the output could not be written: {error.strerror}", file=sys.stderr)
    # What is left in the buffer is written once more when the interpreter ends: into nothing, or that would fail too and be said.
    os.dup2(os.open(os.devnull, os.O_WRONLY), sys.stdout.fileno())
    return False


def main() -> int:
    if sys.argv[1:] == ["--version"]:
        status, said = 0, f"rr {__version__}\n".encode()
    else:
        try:
            status, said = _answer(sys.argv[1:])
        except OutOfMemory:
            print("rr: out of memory", file=sys.stderr)
            return _NO_MEMORY
    return status if _put(said) else _WRITE_FAULT


if __name__ == "__main__":
    sys.exit(main())
