#!/usr/bin/env python3
"""bench/zones.py [PROGRAM]

Compares the local times that `rrule@zone:FILE` reads with those of the system's time zone database, by Python's zoneinfo. For each zone below
it writes a VTIMEZONE of the years 1970 to 2037, with rules where three years or more have one and dates elsewhere, and an event that
states as RDATE, in UTC, each second around each switch, an hour before and behind it, and a moment of each month. What `rr list` prints has to be
the local times of the database. A moment in the second pass of an hour that is shown twice has no local time: as an EXDATE it must take
out nothing, and as an RDATE be refused. It prints a line for each zone that differs, and at last how many moments agree.
"""
import calendar
import datetime
import subprocess
import sys
import zoneinfo
from pathlib import Path

HERE = Path(__file__).resolve().parent.parent
UTC = datetime.timezone.utc
EPOCH = datetime.datetime(1970, 1, 1)
FIRST, LAST = 0, int(datetime.datetime(2038, 1, 1, tzinfo=UTC).timestamp())
HOUR = 3_600
WEEKDAYS = ("MO", "TU", "WE", "TH", "FR", "SA", "SU")
ZONES = """
Africa/Cairo Africa/Casablanca Africa/Johannesburg Africa/Monrovia America/Anchorage America/Argentina/Buenos_Aires America/Caracas America/Chicago
America/Denver America/Godthab America/Havana America/Los_Angeles America/Mexico_City America/New_York America/Phoenix America/Santiago
America/Sao_Paulo America/St_Johns America/Toronto Antarctica/Troll Asia/Amman Asia/Gaza Asia/Jerusalem Asia/Kathmandu Asia/Kolkata Asia/Shanghai
Asia/Tehran Asia/Tokyo Atlantic/Azores Australia/Adelaide Australia/Lord_Howe Australia/Sydney Europe/Berlin Europe/Chisinau Europe/Dublin
Europe/Istanbul Europe/Kyiv Europe/Lisbon Europe/London Europe/Moscow Pacific/Apia Pacific/Auckland Pacific/Chatham Pacific/Kiritimati UTC
""".split()


def moment(seconds):
    """A moment as a calendar text writes it, without Z."""
    return (EPOCH + datetime.timedelta(seconds=seconds)).strftime("%Y%m%dT%H%M%S")


def offset_at(zone, at):
    """Local time less UTC in seconds."""
    return int(datetime.datetime.fromtimestamp(at, UTC).astimezone(zone).utcoffset().total_seconds())


def is_second_pass(zone, at):
    """Whether the clock has shown this local time before."""
    return datetime.datetime.fromtimestamp(at, UTC).astimezone(zone).fold == 1


def switches_of(zone):
    """Each switch: its moment, and the offsets before and after it."""
    found, at, offset = [], FIRST, offset_at(zone, FIRST)
    while at < LAST:
        late = min(at + 6 * HOUR, LAST)
        if offset_at(zone, late) != offset:
            early = at
            while late - early > 1:
                middle = (early + late) // 2
                early, late = (middle, late) if offset_at(zone, middle) == offset else (early, middle)
            found.append((late, offset, offset_at(zone, late)))
            offset = offset_at(zone, late)
        at = late
    return found


def offset_text(seconds):
    """An offset as +HHMM or +HHMMSS."""
    size = abs(seconds)
    text = f"{'+' if seconds >= 0 else '-'}{size // HOUR:02}{size // 60 % 60:02}"
    return text + (f"{size % 60:02}" if size % 60 else "")


def places_of(local):
    """The places in its month that name the day of a switch: counted from the front, and from the end where it is the last."""
    days = calendar.monthrange(local.year, local.month)[1]
    found = {(local.month, local.time(), (local.day - 1) // 7 + 1, local.weekday())}
    if local.day + 7 > days:
        found.add((local.month, local.time(), -1, local.weekday()))
    return found


def years_in_a_row(switches, used, first, place):
    """The switches from one on that stand at one place of their years, with the same offsets and no year between them."""
    at, before, after = switches[first]
    found, year = [first], (EPOCH + datetime.timedelta(seconds=at + before)).year
    for index in range(first + 1, len(switches)):
        at, *offsets = switches[index]
        local = EPOCH + datetime.timedelta(seconds=at + offsets[0])
        if index in used or local.year != year + 1 or offsets != [before, after]:
            continue
        if place in places_of(local):
            found.append(index)
            year += 1
    return found


def observances_of(switches):
    """The observances of a zone: offsets, start, and a rule or further dates."""
    used, found, single = set(), [], {}
    for index, (at, before, after) in enumerate(switches):
        if index in used:
            continue
        local = EPOCH + datetime.timedelta(seconds=at + before)
        runs = [(years_in_a_row(switches, used, index, place), place) for place in places_of(local)]
        run, (month, _, count, weekday) = max(runs, key=lambda it: len(it[0]))
        if len(run) < 3:
            single.setdefault((before, after), []).append(moment(at + before))
            continue
        used.update(run)
        rule = f"RRULE:FREQ=YEARLY;BYMONTH={month};BYDAY={count}{WEEKDAYS[weekday]}"
        last = switches[run[-1]][0]
        if last < LAST - 400 * 24 * HOUR:
            rule += f";UNTIL={moment(last)}Z"
        found.append((before, after, moment(at + before), rule))
    for (before, after), dates in single.items():
        found.append((before, after, dates[0], "RDATE:" + ",".join(dates[1:]) if dates[1:] else ""))
    return found


def zone_text(name, zone, switches):
    """A VTIMEZONE."""
    observances = observances_of(switches) or [(offset_at(zone, FIRST), offset_at(zone, FIRST), moment(FIRST), "")]
    lines = ["BEGIN:VTIMEZONE", "TZID:" + name]
    for before, after, start, more in observances:
        kind = "DAYLIGHT" if after > before else "STANDARD"
        lines += ["BEGIN:" + kind, "TZOFFSETFROM:" + offset_text(before), "TZOFFSETTO:" + offset_text(after), "DTSTART:" + start]
        lines += [more] if more else []
        lines.append("END:" + kind)
    return lines + ["END:VTIMEZONE"]


def moments_of(switches):
    """The moments that are tried."""
    found = {at + more for at, _, _ in switches for more in (-HOUR, -HOUR + 1, -1, 0, 1, HOUR - 1, HOUR)}
    found.update(range(12_345, LAST, 2_629_746))
    return sorted(at for at in found if FIRST <= at < LAST)


def text_of(name, lines, event):
    """A calendar text with one event."""
    return "\r\n".join(["BEGIN:VCALENDAR", *lines, "BEGIN:VEVENT", f"DTSTART;TZID={name}:19691230T000000", *event, "END:VEVENT", "END:VCALENDAR", ""])


def listed(program, text):
    """What the program lists of a text, as moments without Z; or its refusal."""
    run = subprocess.run([program, "list", "100000", "rrule@zone:-"], input=text.encode(), stdout=subprocess.PIPE, stderr=subprocess.DEVNULL, check=False)
    lines = run.stdout.decode().split()
    return [line.replace("-", "").replace(":", "") for line in lines] if run.returncode == 0 else " ".join(lines)


def faults_of(program, name):
    """How many moments of a zone were tried, and what differs."""
    zone = zoneinfo.ZoneInfo(name)
    switches = switches_of(zone)
    lines, moments = zone_text(name, zone, switches), moments_of(switches)
    once = [at for at in moments if not is_second_pass(zone, at)]
    again = [at for at in moments if is_second_pass(zone, at)]
    found = []
    for first in range(0, len(once), 500):
        some = once[first:first + 500]
        want = sorted({"19691230T000000"} | {moment(at + offset_at(zone, at)) for at in some})
        got = listed(program, text_of(name, lines, [f"RDATE:{moment(at)}Z" for at in some]))
        if got != want:
            found.append(f"{name}: {got if isinstance(got, str) else sorted(set(got) ^ set(want))[:6]}")
    if again:
        stated = sorted({moment(at + offset_at(zone, at)) for at in again})
        got = listed(program, text_of(name, lines, [f"RDATE;TZID={name}:{it}" for it in stated] + [f"EXDATE:{moment(at)}Z" for at in again]))
        if got != ["19691230T000000", *stated]:
            found.append(f"{name}: an exception in a second pass took out {got}")
        got = listed(program, text_of(name, lines, [f"RDATE:{moment(again[0])}Z"]))
        if got != "refused A UtcMoment":
            found.append(f"{name}: a date in a second pass is {got}")
    return len(moments), found


def main():
    program = sys.argv[1] if len(sys.argv) > 1 else str(HERE / "crates/rr_cli/out/rr_cli")
    tried, differing = 0, 0
    for name in ZONES:
        count, found = faults_of(program, name)
        tried += count
        differing += len(found)
        for line in found:
            print(line)
    print(f"{len(ZONES)} zones, {tried} moments, {differing} differ")
    return differing > 0


if __name__ == "__main__":
    sys.exit(main())
