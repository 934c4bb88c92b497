#!/usr/bin/env python3
"""bench/examples.py

Looks whether each calendar text of examples/ is legal where lenient readers don't look (RFC 5545): lines end with CR LF and have at
most 75 bytes, components close, VERSION and PRODID stand, each event has UID and DTSTAMP, a date of eight digits has VALUE=DATE, and an
UNTIL beside a TZID is in UTC. Then it has icalendar, a library of Python, parse them where that is installed.
"""
import re
import sys
from pathlib import Path

EXAMPLES = Path(__file__).resolve().parent.parent / "examples"


def faults_of_lines(data):
    """The faults of a text's physical lines."""
    lines = data.split(b"\r\n")
    if lines.pop() != b"" or any(b"\n" in line or b"\r" in line for line in lines):
        yield "a line does not end with CR LF"
    if any(len(line) > 75 for line in lines):
        yield "a line has more than 75 bytes"


def components_of(text):
    """The lines of each component, by its name, and whether all close."""
    found, stack = [], []
    for line in text.replace("\r\n ", "").split("\r\n"):
        name, _, value = line.partition(":")
        if name == "BEGIN":
            stack.append((value, []))
            found.append(stack[-1])
        elif name == "END":
            if not stack or stack.pop()[0] != value:
                return found, False
        elif line and stack:
            stack[-1][1].append((name.split(";")[0], name, value))
        elif line:
            return found, False
    return found, not stack


def faults_of_dates(lines):
    """The faults of a component's dates."""
    for prop, name, value in lines:
        if prop in ("DTSTART", "DTEND", "RDATE", "EXDATE", "RECURRENCE-ID"):
            if re.fullmatch(r"\d{8}(,\d{8})*", value) and ";VALUE=DATE" not in name:
                yield f"{prop} is a date without VALUE=DATE"
        if prop == "RRULE" and "UNTIL=" in value:
            has_zone = any(it == "DTSTART" and "TZID=" in its for it, its, _ in lines)
            if has_zone and not re.search(r"UNTIL=\d{8}T\d{6}Z", value):
                yield "UNTIL beside a TZID is not in UTC"


def faults_of(data):
    yield from faults_of_lines(data)
    components, close = components_of(data.decode())
    if not close or not components or components[0][0] != "VCALENDAR":
        yield "its components do not close, or it is no VCALENDAR"
        return
    for kind, lines in components:
        has = {prop for prop, _, _ in lines}
        needed = {"VCALENDAR": {"VERSION", "PRODID"}, "VEVENT": {"UID", "DTSTAMP", "DTSTART"}, "VTIMEZONE": {"TZID"}}.get(kind, set())
        if needed - has:
            yield f"{kind} lacks {', '.join(sorted(needed - has))}"
        yield from faults_of_dates(lines)


def parsed():
    """Has icalendar parse each file; a list of faults, or None where it is not installed."""
    try:
        import icalendar
    except ImportError:
        return None
    faults = []
    for file in sorted(EXAMPLES.glob("*.ics")):
        calendar = icalendar.Calendar.from_ical(file.read_bytes())
        faults += [f"{file.name}: {error}" for part in calendar.walk() for error in part.errors]
    return faults


def main():
    files = sorted(EXAMPLES.glob("*.ics"))
    faults = [f"{file.name}: {fault}" for file in files for fault in faults_of(file.read_bytes())]
    faults += [f"{file.name}: {fault}" for file in sorted(EXAMPLES.glob("*.vcs")) for fault in faults_of_lines(file.read_bytes())]
    by_library = parsed()
    if by_library is None:
        print("skipped: python3-icalendar is not installed")
    print("\n".join(faults + (by_library or [])) or f"{len(files)} calendar texts are legal")
    return bool(faults or by_library)


sys.exit(main())
