#!/usr/bin/env python3
"""bench/report.py [PROGRAM [EVENTS]]

What a page and JSON cost beside the report in lines: 10,000 events that are equal, and the same of which each differs. The page of either has to
come in 5 seconds and to have at most 10 MB, and JSON in 5 seconds. Prints for each the seconds of a processor, the least of three runs, how many
times those of the lines they are, and the bytes. The status is 0 if all of that is so. Python 3 and its standard library are enough.
"""
import os
import resource
import subprocess
import sys
import tempfile
from pathlib import Path

TOP = Path(__file__).resolve().parent.parent
RULES = ("FREQ=WEEKLY;BYDAY=MO", "FREQ=WEEKLY;BYDAY=MO,WE", "FREQ=WEEKLY;INTERVAL=2;BYDAY=MO", "FREQ=MONTHLY;BYMONTHDAY=8", "FREQ=MONTHLY;BYDAY=2MO",
         "FREQ=YEARLY", "FREQ=DAILY;COUNT=5", "FREQ=DAILY")
SECONDS, BYTES = 5, 10_000_000


def calendar(events, is_changed):
    """Everyday events from Monday, 8 January 2024, on; if they are changed, each lacks its first occurrence."""
    lines = ["BEGIN:VCALENDAR", "VERSION:2.0", "PRODID:-//Bench//Report//EN"]
    for number in range(events):
        start = f"20240108T{8 + number % 10:02}{number % 4 * 15:02}00"
        lines += ["BEGIN:VEVENT", f"UID:{number:06}-event@bench.example", "DTSTAMP:20240101T080000Z", f"SUMMARY:Event {number}",
                  f"DTSTART:{start}", "DURATION:PT1H", f"RRULE:{RULES[number % len(RULES)]}"]
        lines += [f"EXDATE:{start}"] * is_changed + ["END:VEVENT"]
    return "".join(line + "\r\n" for line in lines + ["END:VCALENDAR"])


def run(words):
    """Processor seconds, the least of three runs, and the bytes that are put."""
    least, put = None, 0
    for _ in range(3):
        before = resource.getrusage(resource.RUSAGE_CHILDREN)
        made = subprocess.run(words, stdout=subprocess.PIPE, check=False)
        after = resource.getrusage(resource.RUSAGE_CHILDREN)
        if made.returncode > 1:
            sys.exit(f"report.py: status {made.returncode}")
        seconds = after.ru_utime + after.ru_stime - before.ru_utime - before.ru_stime
        least, put = seconds if least is None else min(least, seconds), len(made.stdout)
    return least, put


def main():
    program = sys.argv[1] if len(sys.argv) > 1 else str(TOP / "crates/rr_calendars/out/rr_calendars")
    events = int(sys.argv[2]) if len(sys.argv) > 2 else 10_000
    if not os.access(program, os.X_OK):
        sys.exit(f"report.py: {program} is not built")
    is_good = True
    with tempfile.TemporaryDirectory() as room:
        old, new = Path(room, "old.ics"), Path(room, "new.ics")
        old.write_text(calendar(events, False), newline="")
        for name, is_changed in (("equal", False), ("each differs", True)):
            new.write_text(calendar(events, is_changed), newline="")
            lines, _ = run([program, str(old), str(new)])
            print(f"{name}: lines {lines:.2f} s")
            for form in ("--html", "--json"):
                seconds, put = run([program, str(old), str(new), form])
                is_good &= seconds <= SECONDS and (form == "--json" or put <= BYTES)
                print(f"  {form} {seconds:.2f} s, {seconds / max(lines, 0.01):.2f} times, {put:,} bytes")
    sys.exit(0 if is_good else 1)


main()
