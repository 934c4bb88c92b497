#!/usr/bin/env python3
"""bench/true_time.py [PROGRAM] [--only-pairs | --only-times]

Compares what rr-calendars says of events in two zones with a brute force over Python's zoneinfo: each series is listed from 1970 to 2500 by
dateutil (or day by day), each local time is turned into a moment of UTC, and the two sets of moments are compared. The zones are written as
VTIMEZONE, as Google and Outlook write them, and two that list their changes up to 2037 alone; among the series are local times that a zone passes over,
and that it shows twice. One run of the program answers all pairs. Then it measures 10,000 events in equal zones beside 10,000 of which each
zone differs. It prints each wrong line, 'N pairs, M wrong' and the times; the status is 1 if a line is wrong, or if zones that differ take three times
as long. It needs Python 3.9, dateutil and the system's time zone database, and stands outside the gate.
"""
import bisect
import datetime as dates
import functools
import random
import resource
import subprocess
import sys
import tempfile
import zoneinfo
from dataclasses import dataclass, field
from pathlib import Path

from dateutil.rrule import rrulestr

TOP = Path(__file__).resolve().parent.parent
UTC = dates.timezone.utc
EPOCH = dates.datetime(1970, 1, 1)
END = dates.datetime(2500, 1, 1)
DAY = 86_400
PAIRS = 240


def seconds(moment):
    span = moment - EPOCH
    return span.days * DAY + span.seconds


# ---- zones


@dataclass
class Zone:
    """A zone by its lines of VTIMEZONE, if it is not UTC, and by what Python knows of it."""

    name: str
    observances: list
    known: object = None
    last: int = None

    def is_listed(self):
        return self.last is not None

    def moment_of(self, local):
        """The moment of UTC that a local time names: the first of two; in a gap by the offset before it (RFC 5545, section 3.3.5)."""
        at = int((EPOCH + dates.timedelta(seconds=local)).replace(tzinfo=self.known, fold=0).timestamp())
        if self.is_listed() and at >= self.last:
            return local - self.offset_at(self.last)
        return at

    def offset_at(self, moment):
        if self.is_listed():
            moment = min(moment, self.last)
        return int(dates.datetime.fromtimestamp(moment, UTC).astimezone(self.known).utcoffset().total_seconds())

    def lines(self):
        found = ["BEGIN:VTIMEZONE", f"TZID:{self.name}"]
        for kind, before, after, start, *more in self.observances:
            found += [f"BEGIN:{kind}", f"TZOFFSETFROM:{before}", f"TZOFFSETTO:{after}", f"DTSTART:{start}", *more, f"END:{kind}"]
        return found + ["END:VTIMEZONE"] if self.observances else []

    def start(self, text):
        return f"DTSTART:{text}Z" if self.name == "Z" else f"DTSTART;TZID={self.name}:{text}"


def rule(month, day, until=""):
    return f"RRULE:FREQ=YEARLY;BYMONTH={month};BYDAY={day}" + (f";UNTIL={until}" if until else "")


def fixed(name, text):
    sign = -1 if text[0] == "-" else 1
    ahead = dates.timedelta(hours=int(text[1:3]), minutes=int(text[3:5])) * sign
    return Zone(name, [("STANDARD", text, text, "19700101T000000")], dates.timezone(ahead))


def known(name, place, *observances):
    return Zone(name, list(observances), zoneinfo.ZoneInfo(place))


BERLIN = [("DAYLIGHT", "+0100", "+0200", "19700329T020000", rule(3, "-1SU")), ("STANDARD", "+0200", "+0100", "19701025T030000", rule(10, "-1SU"))]
OUTLOOK = [("STANDARD", "+0200", "+0100", "16010101T030000", rule(10, "-1SU")), ("DAYLIGHT", "+0100", "+0200", "16010101T020000", rule(3, "-1SU"))]
LAST_BERLIN = seconds(dates.datetime(2037, 10, 25, 1))
BERLIN_2037 = [
    ("DAYLIGHT", "+0100", "+0200", "19700329T020000", rule(3, "-1SU", "20370329T010000Z")),
    ("STANDARD", "+0200", "+0100", "19701025T030000", rule(10, "-1SU", "20371025T010000Z")),
]
BERLIN_OLD = [
    ("DAYLIGHT", "+0100", "+0200", "19810329T020000", rule(3, "-1SU")),
    ("STANDARD", "+0200", "+0100", "19800928T030000", rule(9, "-1SU", "19950924T010000Z")),
    ("STANDARD", "+0200", "+0100", "19961027T030000", rule(10, "-1SU")),
]
ZONES = {
    zone.name: zone
    for zone in (
        known("Google/Berlin", "Europe/Berlin", *BERLIN),
        known("Outlook/Berlin", "Europe/Berlin", *OUTLOOK),
        known("Old/Berlin", "Europe/Berlin", *BERLIN_OLD),
        Zone("Listed/Berlin", BERLIN_2037, zoneinfo.ZoneInfo("Europe/Berlin"), LAST_BERLIN),
        known("New_York", "America/New_York", ("DAYLIGHT", "-0500", "-0400", "20070311T020000", rule(3, "2SU")),
              ("STANDARD", "-0400", "-0500", "20071104T020000", rule(11, "1SU"))),
        known("London", "Europe/London", ("DAYLIGHT", "+0000", "+0100", "19700329T010000", rule(3, "-1SU")),
              ("STANDARD", "+0100", "+0000", "19701025T020000", rule(10, "-1SU"))),
        known("Lord_Howe", "Australia/Lord_Howe", ("DAYLIGHT", "+1030", "+1100", "20081005T020000", rule(10, "1SU")),
              ("STANDARD", "+1100", "+1030", "20080406T020000", rule(4, "1SU"))),
        known("Sydney", "Australia/Sydney", ("STANDARD", "+1100", "+1000", "20080406T030000", rule(4, "1SU")),
              ("DAYLIGHT", "+1000", "+1100", "20081005T020000", rule(10, "1SU"))),
        known("Kolkata", "Asia/Kolkata", ("STANDARD", "+0530", "+0530", "19700101T000000")),
        known("St_Johns", "America/St_Johns", ("DAYLIGHT", "-0330", "-0230", "20120311T020000", rule(3, "2SU")),
              ("STANDARD", "-0230", "-0330", "20121104T020000", rule(11, "1SU"))),
        Zone("Z", [], UTC),
        fixed("Fixed+0100", "+0100"),
        fixed("Fixed+0530", "+0530"),
        fixed("Fixed-0500", "-0500"),
        fixed("Fixed+0000", "+0000"),
    )
}

# ---- series


@dataclass
class Series:
    """A series of local times: its start, its rule, and dates more."""

    start: str
    rule: str = ""
    more: list = field(default_factory=list)

    def lines(self, zone):
        found = [zone.start(self.start)] + ([f"RRULE:{self.rule}"] if self.rule else [])
        if self.more:
            found.append(f"RDATE;TZID={zone.name}:{','.join(self.more)}" if zone.name != "Z" else "RDATE:" + ",".join(f"{it}Z" for it in self.more))
        return found

    def local_times(self):
        """Its local times up to 2500, in seconds."""
        start = dates.datetime.strptime(self.start, "%Y%m%dT%H%M%S")
        found = {start} | {dates.datetime.strptime(it, "%Y%m%dT%H%M%S") for it in self.more}
        if self.rule:
            found.update(rrulestr(f"RRULE:{self.rule}", dtstart=start).between(start, END, inc=True))
        return sorted(map(seconds, found))


HOURS = "0900 0230 0315 2330 0010 0800 1400 0330 0145 0215".split()
SERIES = {f"weekly{hour}": Series(f"20240108T{hour}00", "FREQ=WEEKLY") for hour in HOURS}
SERIES.update({
    "daily0230": Series("20240108T023000", "FREQ=DAILY"),
    "daily0330": Series("20240108T033000", "FREQ=DAILY"),
    "daily0330-and-a-gap": Series("20240108T033000", "FREQ=DAILY", ["20240331T023000"]),
    "sundays0230": Series("20240107T023000", "FREQ=WEEKLY;BYDAY=SU"),
    "fortnight": Series("20240108T090000", "FREQ=WEEKLY;INTERVAL=2"),
    "monthly31": Series("20240131T011500", "FREQ=MONTHLY"),
    "in-the-gap": Series("20240331T023000", "FREQ=YEARLY;BYMONTH=3;BYDAY=-1SU"),
    "after-the-gap": Series("20240331T033000", "FREQ=YEARLY;BYMONTH=3;BYDAY=-1SU"),
    "twice": Series("20241027T023000", "FREQ=YEARLY;BYMONTH=10;BYDAY=-1SU"),
    "in-the-gap-of-New-York": Series("20240310T023000", "FREQ=YEARLY;BYMONTH=3;BYDAY=2SU"),
    "after-the-gap-of-New-York": Series("20240310T033000", "FREQ=YEARLY;BYMONTH=3;BYDAY=2SU"),
    "januaries": Series("20240108T090000", "FREQ=YEARLY;BYMONTH=1"),
    "januaries0800": Series("20240108T080000", "FREQ=YEARLY;BYMONTH=1"),
    "once": Series("20240108T090000"),
    "once0800": Series("20240108T080000"),
    "ten": Series("20240108T090000", "FREQ=WEEKLY;COUNT=10"),
    "ten0800": Series("20240108T080000", "FREQ=WEEKLY;COUNT=10"),
    "weekly-and-more": Series("20240108T080000", "FREQ=WEEKLY", ["20240601T070000"]),
})

# Pairs that are wanted whatever is drawn.
NAMED = """
weekly0900 Google/Berlin weekly0900 Outlook/Berlin, weekly0900 Google/Berlin weekly0800 Z, weekly0900 Google/Berlin weekly0900 Z
weekly0900 Google/Berlin weekly0900 Fixed+0100, weekly0900 Google/Berlin weekly0900 Listed/Berlin, weekly0900 Google/Berlin weekly0900 Old/Berlin
weekly0900 Google/Berlin weekly0900 New_York, daily0230 Google/Berlin daily0230 Outlook/Berlin, in-the-gap Google/Berlin after-the-gap Outlook/Berlin
in-the-gap Google/Berlin after-the-gap Google/Berlin, daily0330 Google/Berlin daily0330-and-a-gap Google/Berlin, januaries Google/Berlin januaries0800 Z
januaries Google/Berlin januaries Fixed+0100, januaries Google/Berlin januaries Listed/Berlin, once Google/Berlin once0800 Z, ten Google/Berlin ten0800 Z
weekly0900 Kolkata weekly0330 Z, weekly0900 Kolkata weekly0900 Fixed+0530, weekly0900 New_York weekly1400 London, weekly0900 Google/Berlin weekly0800 London
twice Google/Berlin twice Outlook/Berlin, sundays0230 Google/Berlin sundays0230 Outlook/Berlin, weekly0900 London weekly0900 Z, januaries London januaries Z
fortnight Google/Berlin fortnight Outlook/Berlin, monthly31 Google/Berlin monthly31 Outlook/Berlin, weekly0900 London weekly0900 Fixed+0000
in-the-gap-of-New-York New_York after-the-gap-of-New-York New_York, weekly0145 Lord_Howe weekly0215 Lord_Howe, weekly0215 Lord_Howe weekly0145 Sydney
once Z once Fixed+0000, weekly0900 Z weekly0900 Z, fortnight Google/Berlin fortnight London
"""


def pairs():
    found = [tuple(it.split()) for it in NAMED.replace("\n", ",").split(",") if it.strip()]
    drawn = random.Random(11)
    series, zones = list(SERIES), list(ZONES)
    while len(found) < PAIRS:
        a = drawn.choice(series)
        b = a if drawn.random() < 0.6 else drawn.choice(series)
        zone_a = drawn.choice(zones)
        zone_b = drawn.choice(zones) if drawn.random() < 0.7 else zone_a
        found.append((a, zone_a, b, zone_b))
    return found


# ---- by brute force


@functools.lru_cache(None)
def local_times(series):
    return SERIES[series].local_times()


@functools.lru_cache(80)
def moments(series, zone):
    return {ZONES[zone].moment_of(it) for it in local_times(series)}


def moment_text(zone, moment):
    """A moment in local time of a zone, with its offset."""
    ahead = zone.offset_at(moment)
    text = (EPOCH + dates.timedelta(seconds=moment + ahead)).isoformat()
    if zone.name == "Z":
        return text + "Z"
    size = abs(ahead) // 60
    return f"{text}{'-' if ahead < 0 else '+'}{size // 60:02}:{size % 60:02}"


def expected(uid, a, zone_a, b, zone_b):
    """What is to be said of two series in their zones."""
    of_a, of_b = moments(a, zone_a), moments(b, zone_b)
    differing = [it for it in of_a ^ of_b if it < seconds(END) - 2 * DAY]
    if not differing:
        return f"equal {uid}"
    first = min(differing)
    side, zone = ("A", zone_a) if first in of_a else ("B", zone_b)
    mark = " zone" if local_times(a) == local_times(b) else ""
    return f"differs {uid} no {moment_text(ZONES[zone], first)} {side}{mark}"


# ---- the program


def calendar(events, zones):
    lines = ["BEGIN:VCALENDAR", "VERSION:2.0"]
    for name in zones:
        lines += ZONES[name].lines()
    for uid, series, zone in events:
        lines += ["BEGIN:VEVENT", f"UID:{uid}", *series.lines(ZONES[zone]), "END:VEVENT"]
    return "\r\n".join([*lines, "END:VCALENDAR", ""])


def said(program, old, new):
    """What the program says of two texts, and how many seconds of a processor it takes, so that a busy machine changes little."""
    with tempfile.TemporaryDirectory() as folder:
        paths = [Path(folder, name) for name in ("old.ics", "new.ics")]
        for path, text in zip(paths, (old, new)):
            path.write_bytes(text.encode())
        begun = resource.getrusage(resource.RUSAGE_CHILDREN)
        run = subprocess.run([program, *map(str, paths)], stdout=subprocess.PIPE, check=False)
        ended = resource.getrusage(resource.RUSAGE_CHILDREN)
        return run.stdout.decode().splitlines(), ended.ru_utime + ended.ru_stime - begun.ru_utime - begun.ru_stime


def try_pairs(program):
    """How many lines are wrong."""
    wanted, old, new = [], [], []
    for number, (a, zone_a, b, zone_b) in enumerate(pairs()):
        uid = f"{number:03}"
        wanted.append((expected(uid, a, zone_a, b, zone_b), (a, zone_a, b, zone_b)))
        old.append((uid, SERIES[a], zone_a))
        new.append((uid, SERIES[b], zone_b))
    lines, taken = said(program, calendar(old, ZONES), calendar(new, ZONES))
    wrong = 0
    for (line, pair), found in zip(wanted, lines + [""] * len(wanted)):
        if found != line:
            wrong += 1
            print(f"{' '.join(pair)}: said '{found}', expected '{line}'")
    differing = sum(line.startswith("differs") for line, _ in wanted)
    marked = sum(line.endswith("zone") for line, _ in wanted)
    print(f"{len(wanted)} pairs, {wrong} wrong, in {taken:.1f} s; {differing} differ, {marked} of them in their zones alone")
    return wrong


# ---- how long it takes

RULES = ["FREQ=WEEKLY", "FREQ=DAILY", "FREQ=MONTHLY", "FREQ=WEEKLY;INTERVAL=2", "FREQ=YEARLY"]


def large(zone, hour):
    events = [(f"{i:05}", Series(f"20240108T{hour:02}{i % 60:02}00", RULES[i % len(RULES)]), zone) for i in range(10_000)]
    return calendar(events, [zone])


def try_times(program):
    """Whether zones that differ take three times as long as equal ones."""
    texts = {
        "equal zones": (large("Google/Berlin", 9), large("Google/Berlin", 9)),
        "one zone by two names": (large("Google/Berlin", 9), large("Outlook/Berlin", 9)),
        "zones that differ": (large("Google/Berlin", 9), large("New_York", 9)),
        "Berlin beside UTC": (large("Google/Berlin", 9), large("Z", 8)),
        "Berlin at nine, London at eight": (large("Google/Berlin", 9), large("London", 8)),
    }
    best = {name: min(said(program, *both)[1] for _ in range(3)) for name, both in texts.items()}
    for name, taken in best.items():
        print(f"10,000 events, {name}: {taken:.2f} s, {taken / best['equal zones']:.1f} times equal zones")
    return best["zones that differ"] >= 3 * best["equal zones"]


def main():
    words = [word for word in sys.argv[1:] if not word.startswith("--")]
    program = words[0] if words else str(TOP / "crates/rr_calendars/out/rr_calendars")
    failed = False
    if "--only-times" not in sys.argv:
        failed |= try_pairs(program) > 0
    if "--only-pairs" not in sys.argv:
        failed |= try_times(program)
    return 1 if failed else 0


if __name__ == "__main__":
    sys.exit(main())
