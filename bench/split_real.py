#!/usr/bin/env python3
"""bench/split_real.py PROGRAM FOLDER [--jobs N] [-v]

Plans the series of real calendars for Microsoft Graph, and prints what share of them one pattern has, and what share a plan. It takes each
calendar in the files below the folder (`BEGIN:VCALENDAR` to `END:VCALENDAR`, in files of other kinds too, as the tests of calendar
programs have them), and of each event and each observance of a time zone the lines that state its occurrences, if it has an RRULE or an
RDATE; equal ones once. Moments in UTC are read at +00:00, and a calendar of version 1.0 as `vcal`. Each series is asked for by `translate
graph` and by `split 12 graph`, and if that finds no plan by `split 64 graph`; each plan is checked as `bench/split.py` does it. An endless
series without a plan is cut ten years after its start, by `common` with a daily series, and asked for again. A finite series that is refused and
a plan that is wrong are named. With -v so is each series without a plan. How far it is stands on standard error. The status is 0 if no finite
series is refused and no plan is wrong.
"""
import argparse
import collections
import concurrent.futures
import os
import re
import sys
import tempfile
import time
from dataclasses import dataclass
from pathlib import Path

from split import PARTS, NotChecked, Program, Progress, Wrong, check_plan, has_rule, parts_of, rules_of_calendar

MOST_PARTS = "64"
MOST_BYTES = 3_000_000
SECONDS_EACH = 300
YEARS = 10
COLUMNS = (1, 2, 4, 12, 24, 64)
NOT_SAYABLE = b"refused A NotSayable\n"


# ---- the series


def calendars_of(folder):
    """Each calendar in the files below a folder: the file, and the bytes of the calendar."""
    for file in sorted(Path(folder).rglob("*")):
        if file.is_symlink() or not file.is_file() or file.stat().st_size > MOST_BYTES:
            continue
        data = file.read_bytes()
        for calendar in re.findall(rb"^BEGIN:VCALENDAR\s*?\n.*?^END:VCALENDAR\b", data, re.M | re.S):
            yield file, calendar


def series_of(calendars):
    """Each series once: the languages it may be in, and its text."""
    found = {}
    for _, calendar in calendars:
        text = calendar.decode("utf-8", "surrogateescape")
        languages = ("vcal", "vcal@+00:00") if re.search(r"^VERSION:1\.0\s*$", text, re.M) else ("rrule", "rrule@+00:00")
        found.update(dict.fromkeys((languages, rule) for rule in rules_of_calendar(text) if has_rule(rule)))
    return list(found)


# ---- what becomes of a series


@dataclass
class Told:
    """What is known of a series: the name of its refusal, if it is not read; whether it ends; whether one pattern has it; and how many
    series and exceptions its plan has, and how long that took. Without a plan `parts` is None."""

    text: str
    refused: str = ""
    ends: bool = False
    one: bool = False
    parts: int = None
    exceptions: int = 0
    seconds: float = 0.0
    has_plan_if_cut: bool = False
    unchecked: str = ""
    wrong: str = ""


def read_in(program, languages, text):
    """The operand and the canonical text of a series, or None and its refusal."""
    for language in languages:
        status, out = program.run("canon", language + ":{0}", texts=[text])
        if status == 0:
            return language, out
        if b"UtcMoment" not in out:
            break
    return None, out


def planned(program, operand, text):
    """The plan with the fewest series that may be asked for, or None; and how long it took."""
    begun = time.monotonic()
    for most in (PARTS, MOST_PARTS):
        status, out = program.run("split", most, "graph", operand + ":{0}", texts=[text])
        if status == 0:
            return out, time.monotonic() - begun
        if out != NOT_SAYABLE:
            raise Wrong(f"the answer {out!r} with status {status}")
    return None, time.monotonic() - begun


def ask_for_plan(program, told, operand, text, days):
    """Tells whether one pattern has a series, and its plan, which is checked."""
    told.one = program.run("translate", "graph", operand + ":{0}", texts=[text])[0] == 0
    plan, told.seconds = planned(program, operand, text)
    if plan is not None:
        told.parts, told.exceptions = parts_of("graph", plan)
        check_plan(program, days, "graph", plan)
        if told.one and (told.parts, told.exceptions) != (1, 0):
            raise Wrong("one pattern has the occurrences, and the plan is another one")


def days_after(text):
    """A daily series at the time of a series, from its start up to ten years later."""
    year, day, time = re.search(r"^DTSTART[^:\n]*:(\d{4})(\d{4})(T\d{6})?", text, re.M | re.I).groups()
    end = f"{int(year) + YEARS}{day if day != '0229' else '0228'}"
    start = f"DTSTART:{year}{day}{time}" if time else f"DTSTART;VALUE=DATE:{year}{day}"
    return f"{start}\nRRULE:FREQ=DAILY;UNTIL={end}{time or ''}\n"


def has_plan_if_cut(program, operand, text, days):
    """Whether there is a plan of what an endless series has within ten years. One with several times of the day is not cut."""
    if not re.search(rb"^(t \d+|days)$", days, re.M):
        return False
    daily = days_after(text.decode(errors="surrogateescape")).encode()
    status, cut = program.run("common", operand + ":{0}", "rrule:{1}", texts=[text, daily])
    if status != 0:
        raise NotChecked(f"`common` is refused: {cut.decode().strip()}")
    status, plan = program.run("split", PARTS, "graph", "canon:{0}", texts=[cut])
    if status == 0:
        check_plan(program, cut, "graph", plan)
    return status == 0


def told_of(program, languages, text):
    """What is known of a series."""
    bytes_ = text.encode(errors="surrogateescape")
    operand, days = read_in(program, languages, bytes_)
    told = Told(text)
    if operand is None:
        told.refused = re.sub(r" \d+$", "", days.decode().strip().removeprefix("refused A "))
        return told
    # (a canonical text has a line `q` if the set repeats for ever)
    told.ends = not re.search(rb"^q ", days, re.M)
    try:
        ask_for_plan(program, told, operand, bytes_, days)
        if told.parts is None and not told.ends:
            told.has_plan_if_cut = has_plan_if_cut(program, operand, bytes_, days)
    except Wrong as why:
        told.wrong = str(why)
    except NotChecked as why:
        told.unchecked = str(why)
    return told


def tried(path, languages, text):
    with tempfile.TemporaryDirectory() as folder:
        return told_of(Program(path, folder, time.monotonic() + SECONDS_EACH), languages, text)


# ---- what is printed


def row_of(name, told):
    """A row of the table: how many series, how many one pattern has, and how many a plan of at most so many series."""
    within = [sum(one.parts is not None and one.parts <= most for one in told) for most in COLUMNS]
    return f"| {name} | {len(told)} | {sum(one.one for one in told)} | " + " | ".join(map(str, within)) + " |"


def print_table(told):
    read = [one for one in told if not one.refused]
    print("| Series | in all | one pattern | " + " | ".join(f"at most {most}" for most in COLUMNS) + " |")
    print("|" + "---|" * (3 + len(COLUMNS)))
    print(row_of("without end", [one for one in read if not one.ends]))
    print(row_of("with an end", [one for one in read if one.ends]))
    print(row_of("all", read))


def print_rest(told, is_verbose):
    """What is not in the table, and what is wrong; whether anything is."""
    refused = collections.Counter(one.refused for one in told if one.refused)
    print("not read: " + ", ".join(f"{count} {name}" for name, count in refused.most_common()))
    seconds = sorted(one.seconds for one in told if not one.refused)
    if seconds:
        print(f"seconds of `split`: median {seconds[len(seconds) // 2]:.3f}, most {seconds[-1]:.3f}")
    checked = [one for one in told if one.parts is not None and not one.unchecked and not one.wrong]
    print(f"plans checked: {len(checked)}, not checked: {sum(bool(one.unchecked) for one in told)}")
    faults = [f"wrong: {one.wrong}: {one.text!r}" for one in told if one.wrong]
    lost = [one for one in told if not one.refused and one.parts is None and not one.wrong and not one.unchecked]
    faults += [f"finite and refused: {one.text!r}" for one in lost if one.ends]
    endless = [one for one in lost if not one.ends]
    saved = sum(one.has_plan_if_cut for one in endless)
    print(f"without end and without a plan: {len(endless)}, of which {saved} have one if cut after {YEARS} years")
    for line in faults + [f"not checked: {one.unchecked}: {one.text!r}" for one in told if one.unchecked]:
        print(line)
    for one in lost if is_verbose else []:
        print(f"no plan{', but if cut' if one.has_plan_if_cut else ''}: {one.text!r}")
    print(f"finite and refused: {sum(one.ends for one in lost)}, wrong: {sum(bool(one.wrong) for one in told)}")
    return bool(faults)


def options():
    ask = argparse.ArgumentParser(usage=__doc__)
    ask.add_argument("program")
    ask.add_argument("folder")
    ask.add_argument("--jobs", type=int, default=os.cpu_count() or 1)
    ask.add_argument("-v", action="store_true")
    return ask.parse_args()


def main():
    given = options()
    calendars = list(calendars_of(given.folder))
    files = {file for file, _ in calendars}
    series = series_of(calendars)
    print(f"{len(files)} files with {len(calendars)} calendars and {len(series)} different series")
    progress = Progress(len(series))
    told = []
    with concurrent.futures.ThreadPoolExecutor(given.jobs) as pool:
        for one in pool.map(lambda it: tried(given.program, *it), series):
            told.append(one)
            progress.step()
    print_table(told)
    return 1 if print_rest(told, given.v) or not told else 0


if __name__ == "__main__":
    sys.exit(main())
