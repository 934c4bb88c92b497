#!/usr/bin/env python3
"""bench/wrapper.py [PROGRAM]

What the wrapper `rr` costs beyond the program that it runs, in one run: the least time of each of some rounds, and its ratio to a digest of all
sources, which stands for the machine. It copies the sources into a checkout of its own, whose release is of them, with PROGRAM as its program,
so it takes any checkout. The ratio may be at most twice what it was when the limit was set. The last line is 'N passed, M failed'.
Python 3 and its standard library are enough.
"""
import shutil
import subprocess
import sys
import tempfile
import time
from pathlib import Path

TOP = Path(__file__).resolve().parent.parent
SHIPPED = TOP / "release/rr-x86_64-linux"
ROUNDS = 40
LIMIT = 0.25
QUESTION = ["equal", f"rrule:{TOP}/examples/every-other-day.ics", f"rrule:{TOP}/examples/every-third-day.ics"]


def checkout(top, program):
    """Makes the checkout: sources, wrapper and a release that is of them."""
    shutil.copytree(TOP / "crates", top / "crates", ignore=shutil.ignore_patterns("out"))
    shutil.copy(TOP / "crates.txt", top)
    shutil.copy(TOP / "rr", top)
    (top / "release").mkdir()
    for name in ("wrapper.sh", "sources.sh", "digest", "VERSION"):
        shutil.copy(TOP / "release" / name, top / "release")
    for name in ("rr-x86_64-linux", "rr-x86_64-linux-static"):
        shutil.copy(program, top / "release" / name)
    digest = subprocess.run([top / "release/digest"], stdout=subprocess.PIPE, check=True).stdout
    (top / "release/SOURCES").write_bytes(digest + b"a kit\n")


def seconds(words):
    """How long a run of these words takes."""
    began = time.perf_counter()
    subprocess.run(words, stdin=subprocess.DEVNULL, stdout=subprocess.DEVNULL, stderr=subprocess.DEVNULL, check=False)
    return time.perf_counter() - began


def main():
    program = Path(sys.argv[1]).resolve() if len(sys.argv) > 1 else SHIPPED
    with tempfile.TemporaryDirectory() as room:
        top = Path(room)
        checkout(top, program)
        runs = {"program": [top / "release/rr-x86_64-linux", *QUESTION], "wrapper": [top / "rr", *QUESTION], "digest": [top / "release/digest"]}
        said = [subprocess.run(runs[it], stdout=subprocess.PIPE, check=False).stdout for it in ("program", "wrapper")]
        # (one after the other in each round, so that all meet the same load)
        least = {name: min(times) for name, times in zip(runs, zip(*[[seconds(words) for words in runs.values()] for _ in range(ROUNDS)]))}
    beyond = least["wrapper"] - least["program"]
    ratio = beyond / least["digest"]
    print(f"the program {least['program'] * 1e3:.1f} ms, a digest of all sources {least['digest'] * 1e3:.1f} ms")
    print(f"the wrapper beyond the program {beyond * 1e3:.1f} ms, {ratio:.2f} of the digest, at most {LIMIT}: {'ok' if ratio <= LIMIT else 'SLOW'}")
    passed = (said[0] == said[1] != b"") + (ratio <= LIMIT)
    print(f"{passed} passed, {2 - passed} failed")
    return passed < 2


if __name__ == "__main__":
    sys.exit(main())
