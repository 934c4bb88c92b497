#!/usr/bin/env python3
"""examples/scale/make.py FOLDER COUNT DIFFERENT

Writes two folders of series, of which some differ. FOLDER/sent and FOLDER/received get COUNT files each; DIFFERENT pairs of them, spread evenly,
differ at some time to come. The other pairs have the same occurrences in other words. Beside them stand some files as a folder of
exports has them: names with blanks, files that are refused, files that one of both folders lacks. FOLDER/expected has a line for each pair
that is not equal: what is said of it, without the moment of a `no`, a tab, and the name.
"""
import sys
from pathlib import Path

WEEKDAYS = ["MO", "TU", "WE", "TH", "FR", "SA", "SU"]


def pair(number, differs):
    """The same series in two ways, or two that differ, of one of four kinds."""
    kind, n = number % 4, number // 4
    if kind == 0:  # a weekday, and each seventh day
        day = 1 + n % 7
        start = f"DTSTART;VALUE=DATE:2024010{day}"
        sent, received = f"FREQ=WEEKLY;BYDAY={WEEKDAYS[day - 1]}", f"FREQ=DAILY;INTERVAL={14 if differs else 7}"
    elif kind == 1:  # the second Tuesday of each month, by number and by position
        start = f"DTSTART:20240109T{8 + n % 12:02}{n % 60:02}00"
        sent, received = "FREQ=MONTHLY;BYDAY=2TU", f"FREQ=MONTHLY;BYDAY=TU;BYSETPOS=2{';COUNT=500' if differs else ''}"
    elif kind == 2:  # a day of each month, or of each second one
        day = 28 + n % 4
        start = f"DTSTART;VALUE=DATE:202401{day}"
        sent, received = "FREQ=MONTHLY", f"FREQ=MONTHLY;BYMONTHDAY={day}{';INTERVAL=2' if differs else ''}"
    else:  # workdays, the first of 2030 taken out
        time = f"T{6 + n % 15:02}3000"
        start, days = f"DTSTART:20240101{time}", ",".join(WEEKDAYS[:5])
        sent, received = f"FREQ=WEEKLY;BYDAY={days}", f"FREQ=DAILY;BYDAY={days}" + (f"\nEXDATE:20300101{time}" if differs else "")
    return f"{start}\nRRULE:{sent}\n", f"{start}\nRRULE:{received}\n"


WEEKLY = "DTSTART;VALUE=DATE:20230102\nRRULE:FREQ=WEEKLY\n"
FORTNIGHTLY = "DTSTART;VALUE=DATE:20230102\nRRULE:FREQ=WEEKLY;INTERVAL=2\n"
EVENT = "BEGIN:VEVENT\nDTSTART;VALUE=DATE:20240101\nRRULE:FREQ=DAILY\nEND:VEVENT\n"
OTHER = "BEGIN:VEVENT\nDTSTART;VALUE=DATE:20240102\nRRULE:FREQ=YEARLY\nEND:VEVENT\n"
# Name, what was sent, what was received, and what is said of the pair if it is not equal.
ODD = [
    ("team meeting.ics", WEEKLY, WEEKLY, None),
    ("it's a \"choir\" $HOME.ics", WEEKLY, FORTNIGHTLY, "no"),
    ("whole calendar 1.ics", EVENT, EVENT + OTHER, "refused B SeveralEvents"),
    ("whole calendar 2.ics", EVENT, OTHER + EVENT, "refused B SeveralEvents"),
    ("latin.ics", WEEKLY, "DTSTART;VALUE=DATE:20240101\nRRULE:FREQ=SOMETIMES\n", "refused B BadRule 2"),
    ("lost on the way.ics", WEEKLY, None, "missing B"),
    ("new.ics", None, WEEKLY, "missing A"),
]


def main():
    folder, count, different = Path(sys.argv[1]), int(sys.argv[2]), int(sys.argv[3])
    (folder / "sent").mkdir(parents=True)
    (folder / "received").mkdir()
    step = count // different if different else count + 1
    pairs = list(ODD)
    for number in range(count):
        differs = number // step < different and number % step == number // step % 4
        pairs.append((f"{number:06}.ics", *pair(number, differs), "no" if differs else None))
    for name, sent, received, _ in pairs:
        for side, text in (("sent", sent), ("received", received)):
            if text is not None:
                (folder / side / name).write_text(text)
    (folder / "expected").write_text("".join(f"{said}\t{name}\n" for name, _, _, said in sorted(pairs) if said))


main()
