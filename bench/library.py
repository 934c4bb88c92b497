#!/usr/bin/env python3
"""bench/library.py [PROGRAM [LIBRARY]]

What a verdict on a pair costs through the library, and how many times that a process a pair costs, and a comparison of ten years by
dateutil, a library of Python (python3-dateutil), where that is installed. All is measured in one run, from Python, on the same pairs, and
of many calls the shortest counts. The ratios tell more than the times, which depend on the machine. The comparison of ten years finds
no later difference, and is no verdict.
"""
import datetime
import os
import subprocess
import sys
import tempfile
import time
from pathlib import Path

TOP = Path(__file__).resolve().parent.parent
PROGRAM = os.path.abspath(sys.argv[1] if len(sys.argv) > 1 else TOP / "release/rr-x86_64-linux")
if len(sys.argv) > 2:
    os.environ["RR_LIBRARY"] = os.path.abspath(sys.argv[2])
sys.path.insert(0, str(TOP / "python"))
import rr

try:
    from dateutil.rrule import rrulestr
except ImportError:
    rrulestr = None

TEN_YEARS = datetime.timedelta(days=3653)
# The seconds for which each way is tried on each pair.
SECONDS = 0.5
PAIRS = [
    ("each day at 09:30", "20240101T093000", "FREQ=DAILY", "FREQ=DAILY;INTERVAL=1"),
    ("Monday, Wednesday, Friday", "20240101", "FREQ=WEEKLY;BYDAY=MO,WE,FR", "FREQ=DAILY;BYDAY=MO,WE,FR"),
    ("ten weeks, by number and by end", "20240101", "FREQ=WEEKLY;COUNT=10", "FREQ=WEEKLY;UNTIL=20240304"),
    ("leap days", "20240229", "FREQ=YEARLY;BYMONTH=2;BYMONTHDAY=29", "FREQ=YEARLY"),
    ("the second Tuesday of the month", "20240109", "FREQ=MONTHLY;BYDAY=2TU", "FREQ=MONTHLY;BYDAY=TU;BYSETPOS=2"),
]


def seconds_of(call):
    """The seconds that the shortest of many calls takes."""
    least, number, ends = float("inf"), 0, time.monotonic() + SECONDS
    while time.monotonic() < ends or number < 5:
        begun = time.perf_counter()
        call()
        least, number = min(least, time.perf_counter() - begun), number + 1
    return least


def occurrences_by_dateutil(text):
    rule = rrulestr(text)
    first = rule[0]
    return rule.between(first, first + TEN_YEARS, inc=True)


def main():
    print(f"{'':34}{'library':>12}{'pairs a second':>16}{'a process':>12}{'ten years by dateutil':>24}")
    sums = [0.0, 0.0, 0.0]
    with tempfile.TemporaryDirectory() as room:
        for name, start, *rules in PAIRS:
            texts = [f"DTSTART:{start}\nRRULE:{rule}\n" for rule in rules]
            files = [Path(room, it) for it in "ab"]
            for file, text in zip(files, texts):
                file.write_text(text)
            words = [PROGRAM, "equal", *[f"rrule:{it}" for it in files]]
            assert rr.equal(*texts) is True and subprocess.run(words, stdout=subprocess.PIPE).stdout == b"yes\n", name
            taken = [seconds_of(lambda: rr.equal(*texts)), seconds_of(lambda: subprocess.run(words, stdout=subprocess.DEVNULL)), None]
            if rrulestr:
                taken[2] = seconds_of(lambda: occurrences_by_dateutil(texts[0]) == occurrences_by_dateutil(texts[1]))
            show(name, taken)
            sums = [one + (other or 0) for one, other in zip(sums, taken)]
    show("all five, one of each", [*(it / len(PAIRS) for it in sums[:2]), sums[2] / len(PAIRS) if rrulestr else None])
    if not rrulestr:
        print("skipped: python3-dateutil is not installed")


def show(name, taken):
    """A line of the table: the seconds through the library, and the ratios to it."""
    library, process, window = taken
    ratio = "-" if window is None else f"{window / library:.1f} x"
    print(f"{name:34}{library * 1e6:9.0f} us{1 / library:16.0f}{process / library:10.1f} x{ratio:>24}")


main()
