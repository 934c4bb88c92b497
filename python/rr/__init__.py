# Copyright the rr authors. SPDX-License-Identifier: MIT OR Apache-2.0
"""Whether a repeating series survived a trip between calendars, for all years to come.

>>> import rr
>>> sent = "DTSTART;VALUE=DATE:20240101\\nRRULE:FREQ=DAILY;INTERVAL=7\\n"
>>> received = "DTSTART;VALUE=DATE:20240101\\nRRULE:FREQ=WEEKLY;INTERVAL=2\\n"
>>> rr.equal(sent, received)
Differs(moment=datetime.date(2024, 1, 8), side='A')
>>> if not rr.equal(sent, received):
...     print("lost")
lost
>>> rr.occurrences(received, 3)
[datetime.date(2024, 1, 1), datetime.date(2024, 1, 15), datetime.date(2024, 1, 29)]

A series is the text or the bytes of a calendar file, the `Path` of one, or a list of dates or moments. One in another language, or with
an offset from UTC, is a `Series`:

>>> phone = rr.Series("DTSTART:20240101T090000\\nRRULE:D1 #0\\n", "vcal")
>>> rr.nth(phone, 366)
datetime.datetime(2024, 12, 31, 9, 0)
>>> rr.within(rr.occurrences(phone, 3), phone)
True

Two whole calendars are compared event by event, found again by their UIDs, or without them:

>>> daily = "BEGIN:VEVENT\\nUID:stand-up\\nDTSTART:20240101T090000\\nRRULE:FREQ=DAILY\\nEND:VEVENT\\n"
>>> said = rr.calendars(daily, daily.replace("FREQ", "COUNT=10;FREQ"))
>>> said.counts.differs, said.lines[0].moment
(1, datetime.datetime(2024, 1, 11, 9, 0))

What can't be read, or is beyond the limits, is refused by an exception that says why:

>>> rr.check("DTSTART;VALUE=DATE:20240101\\nRRULE:FREQ=NEVER\\n")
Traceback (most recent call last):
    ...
rr.Refused: A: BadRule 2

Calls keep nothing, and the interpreter's lock is not held while one runs: threads may call at once. `python -m rr` takes the words of the
program. The shared library is the file that the environment's RR_LIBRARY names, or librr.so beside this module (librr.dylib on a Mac,
librr.dll on Windows), or the one that is shipped beside it in the repository, or librr.so.1 if the system finds it. If none can be
loaded, the import fails with an ImportError that names the machine.
"""
from __future__ import annotations

import ctypes
import datetime
import json
from dataclasses import dataclass
from typing import Any, Callable, Iterable, Iterator, Literal, overload

from ._library import NO, NO_MEMORY, REFUSED, TOO_SMALL, USAGE, rr_answer, rr_calendars_answer, rr_clear_answer, version
from ._report import Calendar, Counts, EventNumber, Key, Length, More, Report, ReportLine, Shown, calendar_of, file_name, names_of, report_of, shown_of
from ._series import AnySeries, Language, Moment, Operand, Series, Text, is_aware, moment_of, offset_text, operand, text_of

__all__ = [
    "AnySeries", "Calendar", "Clash", "Counts", "Differs", "EventNumber", "Key", "Language", "Length", "Moment", "More", "OutOfMemory", "Part", "Plan",
    "Refused", "Report", "ReportLine", "Series", "Shown", "Text", "__version__",
    "answer", "calendars", "canon", "canon1", "check", "clashes", "clear", "common", "differences", "disjoint", "equal", "infer", "minus", "nth",
    "occurrences", "rank", "report", "split", "translate", "union", "upcoming", "window", "within",
]

__version__ = version()
# What a line and most texts have room in, and most reports beside the bytes of their calendars; a longer answer costs a second call.
_ROOM, _TEXT_ROOM, _REPORT_ROOM = 4096, 65_536, 4_194_304
_LINE = len("2024-02-29T09:30:00\n")


@dataclass(frozen=True)
class Differs:
    """A no: the first moment that shows it, and whose occurrence that is, 'A', 'B' or 'both'. It is false in a condition."""

    moment: Moment
    side: str

    def __bool__(self) -> bool:
        return False


@dataclass(frozen=True)
class Clash:
    """A no of `clear`, or one of `clashes`: the first second that is shared, and the occurrences of A and of B that run then. It is false in a
    condition."""

    moment: Moment
    a: Moment
    b: Moment

    def __bool__(self) -> bool:
        return False


@dataclass(frozen=True)
class Part:
    """A series of a plan: an event of Microsoft Graph, or its recurrence alone if it is of dates, and the instances of it to cancel."""

    event: dict[str, Any]
    cancelled: list[Moment]


@dataclass(frozen=True)
class Plan:
    """Series and single events that together have the occurrences of one series, each once."""

    parts: list[Part]
    single: list[Moment]


class Refused(ValueError):
    """An operand is refused: which one ('A', 'B' or 'both'), by what name, and if the name has one its place: the number of a line, of
    NotSynchronised that of a rule, of BadMember the name of a member. docs/REFUSALS.md says of each name what to do.

    >>> try:
    ...     equal("DTSTART;VALUE=DATE:20240101\\nRRULE:FREQ=DAILY\\n", "DTSTART;VALUE=DATE:20240101\\nRRULE:FREQ=WEEKLY;BYDAY=TU\\n")
    ... except Refused as refused:
    ...     (refused.operand, refused.name, refused.place)
    ('B', 'NotSynchronised', 1)
    """

    def __init__(self, operand: str, name: str, place: int | str | None = None):
        super().__init__(operand, name, place)
        self.operand, self.name, self.place = operand, name, place

    def __str__(self) -> str:
        return f"{self.operand}: {self.name}" if self.place is None else f"{self.operand}: {self.name} {self.place}"


class OutOfMemory(MemoryError):
    """There was no memory for the answer."""


def answer(words: list[str], a: bytes = b"", b: bytes = b"", room: int = _ROOM) -> tuple[int, bytes]:
    """The program's exit status and what it prints, for the words of its command line and the bytes of the operands. If the answer has
    more bytes than the room, it is computed once more. Bytes of a word that are no text may stand in it as the interpreter has them.

    >>> answer(["check", "rrule:a"], b"DTSTART;VALUE=DATE:20240101\\nRRULE:FREQ=WEEKLY\\n")
    (0, b'cycle 7\\n')
    """
    return _answer_by(rr_answer, words, a, b, room)


def _answer_by(function: Callable[..., int], words: list[str], a: bytes, b: bytes, room: int) -> tuple[int, bytes]:
    """What a function of the library answers."""
    if any("\0" in word for word in words):
        raise ValueError("a word has no zero byte")
    said, length = "\0".join(words).encode("utf-8", "surrogateescape"), ctypes.c_uint64()
    while True:
        out = ctypes.create_string_buffer(max(room, 1))
        status = function(said, len(said), a, len(a), b, len(b), out, room, ctypes.byref(length))
        if status == NO_MEMORY:
            raise OutOfMemory
        if status != TOO_SMALL:
            return status, ctypes.string_at(out, length.value)
        room = length.value


def _seconds_of(duration: datetime.timedelta | int) -> str:
    """A duration in seconds, as it is written in a word."""
    if isinstance(duration, int):
        return str(duration)
    if duration.microseconds:
        raise ValueError("a duration has whole seconds")
    return str(duration // datetime.timedelta(seconds=1))


def _count(n: int, most: int) -> str:
    """A number from 1 on, as it is written in a word."""
    if not 1 <= n <= most:
        raise ValueError(f"the number is 1 to {most:,}, and not {n:,}")
    return str(n)


def _place(place: str | None = None) -> int | str | None:
    return int(place) if place and place.isdecimal() else place


def _refused(line: str) -> Refused:
    """The refusal of a whole operand, by the line that says it."""
    _, side, name, *place = line.split()
    return Refused(side, name, _place(*place))


def _ask(words: list[str], a: Operand, b: Operand | None = None, room: int = _ROOM) -> tuple[int, str]:
    """The status and the answer, if it is no refusal. The words end with those of the operands."""
    status, out = answer(words, a.data, b"" if b is None else b.data, room)
    if status == REFUSED:
        raise _refused(out.decode())
    if status >= USAGE:
        raise ValueError(f"not within what rr takes: {' '.join(words)}")
    return status, out.decode()


def _of_one(words: list[str], a: Operand, room: int = _ROOM) -> tuple[int, str]:
    return _ask([*words, a.word("a")], a, room=room)


def _of_two(command: str, a: Operand, b: Operand, room: int = _ROOM) -> tuple[int, str]:
    return _ask([command, a.word("a"), b.word("b")], a, b, room)


def _text_of_one(command: list[str], series: AnySeries) -> str:
    return _of_one(command, operand(series), _TEXT_ROOM)[1]


def _text_of_two(command: str, a: AnySeries, b: AnySeries) -> str:
    return _of_two(command, operand(a), operand(b), _TEXT_ROOM)[1]


def _moments(series: Operand, lines: list[str]) -> list[Moment]:
    """Printed moments of a series."""
    zone = series.zone() if lines and "T" in lines[0] else None
    return [moment_of(line, zone) for line in lines]


def _shared(text: str, a: Operand, b: Operand) -> Moment:
    """A printed moment of both, which has a zone if both have it."""
    return a.moment(text) if "T" not in text or a.zone() == b.zone() else moment_of(text)


def _verdict(question: str, a: AnySeries, b: AnySeries) -> Literal[True] | Differs:
    one, other = operand(a), operand(b)
    status, out = _of_two(question, one, other)
    if status != NO:
        return True
    _, moment, side = out.split()
    sides = {"A": one, "B": other}
    return Differs(sides[side].moment(moment) if side in sides else _shared(moment, one, other), side)


def equal(a: AnySeries, b: AnySeries) -> Literal[True] | Differs:
    """Whether both have the same occurrences for all years, or else the first that only one of them has.

    >>> weekdays = "DTSTART;VALUE=DATE:20240101\\nRRULE:FREQ=WEEKLY;BYDAY=MO,TU,WE,TH,FR\\n"
    >>> days = "DTSTART;VALUE=DATE:20240101\\nRRULE:FREQ=DAILY;BYDAY=MO,TU,WE,TH,FR\\n"
    >>> equal(weekdays, days)
    True
    >>> equal(weekdays, days + "EXDATE;VALUE=DATE:20300101\\n")
    Differs(moment=datetime.date(2030, 1, 1), side='A')
    """
    return _verdict("equal", a, b)


def within(a: AnySeries, b: AnySeries) -> Literal[True] | Differs:
    """Whether each occurrence of a is one of b, or else the first that is not.

    >>> within("DTSTART;VALUE=DATE:20240102\\nRRULE:FREQ=DAILY\\n", "DTSTART;VALUE=DATE:20240101\\nRRULE:FREQ=DAILY\\n")
    True
    """
    return _verdict("within", a, b)


def disjoint(a: AnySeries, b: AnySeries) -> Literal[True] | Differs:
    """Whether they have no occurrence in common, or else the first that both have.

    >>> disjoint("DTSTART;VALUE=DATE:20240101\\nRRULE:FREQ=WEEKLY\\n", "DTSTART;VALUE=DATE:20240101\\nRRULE:FREQ=MONTHLY\\n")
    Differs(moment=datetime.date(2024, 1, 1), side='both')
    """
    return _verdict("disjoint", a, b)


def differences(a: AnySeries, b: AnySeries, n: int) -> list[Differs]:
    """The first n occurrences that exactly one of a and b has, each with its side, or all if there are fewer; n is 1 to 10,000.

    >>> differences("DTSTART;VALUE=DATE:20240101\\nRRULE:FREQ=DAILY;INTERVAL=2\\n", "DTSTART;VALUE=DATE:20240101\\nRRULE:FREQ=DAILY;INTERVAL=3\\n", 2)
    [Differs(moment=datetime.date(2024, 1, 3), side='A'), Differs(moment=datetime.date(2024, 1, 4), side='B')]
    """
    one, other = operand(a), operand(b)
    _, out = _ask(["differences", _count(n, 10_000), one.word("a"), other.word("b")], one, other, max(_ROOM, (_LINE + 2) * n))
    zones = {"A": one.zone(), "B": other.zone()}
    return [Differs(moment_of(text, zones[side] if "T" in text else None), side) for text, side in map(str.split, out.splitlines())]


def clear(a: AnySeries, a_lasts: datetime.timedelta | int, b: AnySeries, b_lasts: datetime.timedelta | int) -> Literal[True] | Clash:
    """Whether a and b never run at the same time, or else the first second in which they do. Each occurrence lasts as long as is said,
    1 second to 366 days; a number is of seconds.

    >>> course = "DTSTART:20240101T090000\\nRRULE:FREQ=WEEKLY\\n"
    >>> board = "DTSTART:20240105T100000\\nRRULE:FREQ=MONTHLY\\n"
    >>> clear(course, datetime.timedelta(minutes=90), board, 3600)
    Clash(moment=datetime.datetime(2024, 2, 5, 10, 0), a=datetime.datetime(2024, 2, 5, 9, 0), b=datetime.datetime(2024, 2, 5, 10, 0))
    >>> clear(course, 3600, board, 3600)
    True
    """
    one, other = operand(a), operand(b)
    status, out = _ask(["clear", _seconds_of(a_lasts), one.word("a"), _seconds_of(b_lasts), other.word("b")], one, other)
    return True if status != NO else _clash(out, one, other)


def _clash(line: str, one: Operand, other: Operand) -> Clash:
    """The first clash of two series, by the line that says it."""
    _, moment, a, b = line.split()
    return Clash(_shared(moment, one, other), one.moment(a), other.moment(b))


def clashes(
    candidate: AnySeries, lasts: datetime.timedelta | int, others: Iterable[tuple[AnySeries, datetime.timedelta | int]]
) -> dict[int, Clash | Refused]:
    """With which of many others a candidate clashes, by their numbers from 0 on: the first clash of each, as `clear` has it, or its refusal.
    Those that the candidate is clear of are not there, so if it is clear of all, nothing is. The others are pairs of a series and how long
    each of its occurrences lasts. The candidate is read and made ready once; if it is refused itself, that is a Refused.

    >>> course = "DTSTART:20240101T090000\\nRRULE:FREQ=WEEKLY\\n"
    >>> board = "DTSTART:20240105T100000\\nRRULE:FREQ=MONTHLY\\n"
    >>> hour = datetime.timedelta(hours=1)
    >>> clashes(course, datetime.timedelta(minutes=90), [(board, hour), ("DTSTART:20240102T090000\\nRRULE:FREQ=WEEKLY\\n", hour)])
    {0: Clash(moment=datetime.datetime(2024, 2, 5, 10, 0), a=datetime.datetime(2024, 2, 5, 9, 0), b=datetime.datetime(2024, 2, 5, 10, 0))}
    >>> clashes(course, hour, [(board, hour)])
    {}
    """
    if rr_clear_answer is None:
        raise NotImplementedError("the shared library is of an older release, and asks only of two series at once")
    one, rest = operand(candidate), [(operand(series), _seconds_of(it)) for series, it in others]
    words = [_seconds_of(lasts), one.word("a")]
    for it, seconds in rest:
        words += [seconds, it.word("b"), str(len(it.data))]
    status, out = _answer_by(rr_clear_answer, words, one.data, b"".join(it.data for it, _ in rest), _ROOM + 4 * _LINE * len(rest))
    if status >= USAGE:
        raise ValueError(f"not within what rr takes: {' '.join(words[:64])}")
    text = out.decode()
    if text.startswith("refused A "):
        raise _refused(text)
    lines = enumerate(zip(text.splitlines(), (it for it, _ in rest)))
    return {number: _refused(line) if line.startswith("refused ") else _clash(line, one, it) for number, (line, it) in lines if line != "yes"}


def canon(series: AnySeries) -> str:
    """The canonical text, which is equal exactly for equal occurrences: a key to group series by, and an operand again.

    >>> text = canon("DTSTART;VALUE=DATE:20240101\\nRRULE:FREQ=DAILY\\n")
    >>> text
    'rrcanon 2\\ndays\\nf 2024-01-01\\nq 2024-01-01 1\\nc 0 0 1\\n'
    >>> canon(Series(text, "canon")) == text
    True
    """
    return _text_of_one(["canon"], series)


def canon1(series: AnySeries) -> str:
    """The canonical text in its first version, which writes out each second.

    >>> canon1("DTSTART;VALUE=DATE:20240101\\n")
    'rrcanon 1\\ndays\\nf 2024-01-01\\nb 0 0 1\\n'
    """
    return _text_of_one(["canon1"], series)


def union(a: AnySeries, b: AnySeries) -> str:
    """The canonical text of what a or b has.

    >>> equal(Series(union("DTSTART;VALUE=DATE:20240101\\n", "DTSTART;VALUE=DATE:20240102\\n"), "canon"), Series("2024-01-01\\n2024-01-02\\n", "list"))
    True
    """
    return _text_of_two("union", a, b)


def common(a: AnySeries, b: AnySeries) -> str:
    """The canonical text of what both have.

    >>> common("DTSTART;VALUE=DATE:20240101\\n", "DTSTART;VALUE=DATE:20240102\\n")
    'rrcanon 2\\nnone\\n'
    """
    return _text_of_two("common", a, b)


def minus(a: AnySeries, b: AnySeries) -> str:
    """The canonical text of what a has and b has not.

    >>> minus(Series("2024-01-01\\n2024-01-02\\n", "list"), "DTSTART;VALUE=DATE:20240102\\n") == canon("DTSTART;VALUE=DATE:20240101\\n")
    True
    """
    return _text_of_two("minus", a, b)


def check(series: AnySeries) -> int:
    """A number of days after which the endless rules of a series repeat; 1 if there is none.

    It is told by the rules' frequencies, intervals and parts, and may be more than the least such number.

    >>> check("DTSTART;VALUE=DATE:20240101\\nRRULE:FREQ=WEEKLY;INTERVAL=2\\n")
    14
    """
    return int(_of_one(["check"], operand(series))[1].split()[1])


def occurrences(series: AnySeries, n: int) -> list[Moment]:
    """The first n occurrences, or all if there are fewer; n is 1 to 100,000.

    >>> occurrences("DTSTART:20240229T093000\\nRRULE:FREQ=YEARLY\\n", 2)
    [datetime.datetime(2024, 2, 29, 9, 30), datetime.datetime(2028, 2, 29, 9, 30)]
    >>> occurrences("DTSTART;VALUE=DATE:99991231\\nRRULE:FREQ=DAILY\\n", 2)
    [datetime.date(9999, 12, 31), '10000-01-01']
    """
    it = operand(series)
    return _moments(it, _of_one(["list", _count(n, 100_000)], it, max(_ROOM, _LINE * n))[1].splitlines())


def nth(series: AnySeries, n: int) -> Moment | None:
    """The n-th occurrence, or None if there are fewer; n is 1 to 1,125,899,906,842,624.

    >>> nth("DTSTART;VALUE=DATE:20240101\\nRRULE:FREQ=WEEKLY\\n", 20_872)
    datetime.date(2424, 1, 1)
    >>> nth("DTSTART;VALUE=DATE:20240101\\n", 2)
    """
    it = operand(series)
    status, out = _of_one(["nth", _count(n, 1_125_899_906_842_624)], it)
    return None if status == NO else it.moment(out.strip())


def rank(series: AnySeries, moment: Moment) -> int:
    """How many occurrences are not after a date or a moment of the years 1 to 9999.

    >>> rank("DTSTART;VALUE=DATE:20240101\\nRRULE:FREQ=WEEKLY\\n", datetime.date(2024, 12, 31))
    53
    """
    it = operand(series)
    zone = it.zone() if is_aware(moment) else None
    return int(_of_one(["rank", text_of(moment, zone)], it)[1])


def upcoming(series: AnySeries, moment: Moment, n: int) -> list[Moment]:
    """The first n occurrences that do not come before a date or a moment of the years 1 to 9999, or all if there are fewer; n is 1 to
    100,000. A date comes before the moments of its day.

    >>> upcoming("DTSTART;VALUE=DATE:20240101\\nRRULE:FREQ=WEEKLY\\n", datetime.date(2424, 1, 2), 2)
    [datetime.date(2424, 1, 8), datetime.date(2424, 1, 15)]
    """
    it = operand(series)
    first = text_of(moment, it.zone() if is_aware(moment) else None)
    return _moments(it, _of_one(["from", first, _count(n, 100_000)], it, max(_ROOM, _LINE * n))[1].splitlines())


def window(series: AnySeries, start: Moment, end: Moment) -> Iterator[Moment]:
    """The occurrences that do not come before one date or moment of the years 1 to 9999 and come before another, in order, however many
    there are.

    >>> list(window("DTSTART;VALUE=DATE:20240101\\nRRULE:FREQ=WEEKLY\\n", datetime.date(2024, 12, 20), datetime.date(2025, 1, 6)))
    [datetime.date(2024, 12, 23), datetime.date(2024, 12, 30)]
    """
    it = operand(series)
    first, last = (text_of(moment, it.zone() if is_aware(moment) else None) for moment in (start, end))
    status, printed = NO, None
    while status == NO:  # there are more than the program prints at once, and the last one is asked for again
        status, out = _of_one(["between", printed or first, last], it, _TEXT_ROOM)
        lines = out.splitlines()
        yield from _moments(it, [line for line in lines if line != printed])
        printed = lines[-1] if lines else None


def translate(series: AnySeries, language: Literal["rrule", "vcal", "graph"]) -> str:
    """A text in another language that has exactly the occurrences; refused as NotSayable if none of those looked for has them.

    >>> translate("DTSTART:20240101T090000\\nRRULE:FREQ=DAILY\\n", "vcal")
    'DTSTART:20240101T090000\\r\\nRRULE:D1 #0\\r\\n'
    """
    return _text_of_one(["translate", language], series)


def split(series: AnySeries, n: int) -> Plan:
    """At most n series of Microsoft Graph, each with the instances of it to cancel, and single events, which together have exactly the
    occurrences, each once; n is 1 to 64. Refused as NotSayable if the parts that are tried one after another do not lead there.

    >>> plan = split("DTSTART:20240101T093000\\nRRULE:FREQ=DAILY\\nEXDATE:20240301T093000\\nRDATE:20240301T140000\\n", 12)
    >>> plan.parts[0].event["recurrence"]["pattern"], plan.parts[0].cancelled
    ({'interval': 1, 'type': 'daily'}, [datetime.datetime(2024, 3, 1, 9, 30)])
    >>> plan.single
    [datetime.datetime(2024, 3, 1, 14, 0)]
    """
    it = operand(series)
    plan = json.loads(_of_one(["split", _count(n, 64), "graph"], it, _TEXT_ROOM)[1])
    parts = [Part(part["event"], _moments(it, part["cancelled"])) for part in plan["parts"]]
    return Plan(parts, _moments(it, plan["single"]))


def infer(series: AnySeries) -> str:
    """The first single rule of iCalendar that has the occurrences; refused as NotSayable if none of those looked for has them.

    >>> infer(Series("2024-01-31\\n2024-03-31\\n2024-05-31\\n", "list"))
    'DTSTART;VALUE=DATE:20240131\\r\\nRRULE:FREQ=MONTHLY;COUNT=3;BYMONTHDAY=31\\r\\n'
    """
    return _text_of_one(["infer"], series)


@overload
def calendars(old: Calendar, new: Calendar, offset: datetime.timedelta | None = None, show: None = None, differences: bool = False, titles: bool = False, strict: bool = False, by_uid: bool = False) -> Report: ...
@overload
def calendars(old: Calendar, new: Calendar, offset: datetime.timedelta | None = None, *, show: Key, differences: bool = False, titles: bool = False, strict: bool = False, by_uid: bool = False) -> Shown: ...
def calendars(
    old: Calendar,
    new: Calendar,
    offset: datetime.timedelta | None = None,
    show: Key | None = None,
    differences: bool = False,
    titles: bool = False,
    strict: bool = False,
    by_uid: bool = False,
) -> Report | Shown:
    """What is said of two calendars, as docs/CALENDARS.md has it: each event is found again by its UID, and one whose UID the other calendar lacks by
    its title and its occurrences, unless by_uid says that UIDs alone count; its line has the other key as its partner. Events are compared by their
    moments if the zones of both sides are defined in the two calendars; a file of further zones, as the program takes, is not for this call. Moments
    in UTC beside a local start are read by the zones of the calendar, and those that no zone turns by the offset, which says how far local time is
    ahead of UTC, also for events without a zone. With differences the lines of equal events are left out, but not those whose zones are not known.
    With titles each line has the title of its events. With show only the events of that UID are asked for, or, if neither calendar has it, those of
    the one UID or pair whose events have it as their title; the months from the first difference of their local times on are painted, and it is said
    how many differences more there are, and until when. A calendar that can't be read as a whole is Refused, and a UID that neither has is a
    KeyError. Events that both calendars state in the same words, which can't be read, are alike, and no fault. What is at odds with RFC 5545 is read
    as calendars show it, and its line has readings that say how; with strict it is refused.

    >>> board = "BEGIN:VEVENT\\nUID:board\\nDTSTART;VALUE=DATE:20240105\\nRRULE:FREQ=MONTHLY\\nEND:VEVENT\\n"
    >>> lunch = "BEGIN:VEVENT\\nUID:lunch\\nDTSTART:20240105T123000\\nEND:VEVENT\\n"
    >>> said = calendars(board + lunch, board.replace("MONTHLY", "MONTHLY;INTERVAL=2"))
    >>> for line in said.lines:
    ...     line.key, line.said, line.side, line.moment
    ('board', 'differs', 'A', datetime.date(2024, 2, 5))
    ('lunch', 'only', 'A', None)
    >>> said.counts
    Counts(events=2, equal=0, differs=1, only_a=1, only_b=0, refused=0, other_zone=0, alike=0, matched=0)
    >>> bool(said), bool(calendars(board + lunch, lunch + board))
    (False, True)
    >>> calendars(board, lunch, show="lunch").line.side
    'B'
    >>> renamed = calendars(board, board.replace("UID:board", "UID:7"))
    >>> renamed.lines[0].key, renamed.lines[0].said, renamed.lines[0].partner, renamed.counts.matched
    ('board', 'equal', '7', 1)
    >>> [line.said for line in calendars(board, board.replace("UID:board", "UID:7"), by_uid=True).lines]
    ['only', 'only']
    >>> party = "BEGIN:VEVENT\\nUID:7\\nSUMMARY:Summer party\\nDTSTART:20240701T170000\\nRRULE:FREQ=SOMETIMES\\nEND:VEVENT\\n"
    >>> said = calendars(party, party, titles=True)
    >>> said.lines[0].title, said.lines[0].said, said.lines[0].refusal, bool(said)
    ('Summer party', 'alike', 'BadRule', True)
    >>> calendars(party, lunch, show="Summer party").line.key
    '7'
    """
    a, b = calendar_of(old), calendar_of(new)
    words = ["a", "b", *_options(offset, differences=differences, titles=titles, strict=strict, by_uid=by_uid)]
    asked = [words] if show is None else [[*words, "--show", name] for name in names_of(show)]
    texts = (_calendars_text(it, a, b) for it in asked)
    text = next((it for it in texts if not it.startswith("unknown ")), None)
    if text is None:
        raise KeyError(show)
    said = report_of(text) if show is None else shown_of(text)
    if said is None:
        raise _refused(text)
    return said


def _calendars_text(words: list[str], a: bytes, b: bytes, room: int = _ROOM) -> str:
    """What is printed of two calendars, which may be longer than they by so many bytes."""
    if rr_calendars_answer is None:
        raise NotImplementedError("the shared library is of an older release, and compares no calendars")
    status, out = _answer_by(rr_calendars_answer, words, a, b, room + len(a) + len(b))
    if status >= USAGE:
        raise ValueError(f"not within what rr takes: {' '.join(words)}")
    return out.decode()


def _options(offset: datetime.timedelta | None, **options: bool) -> list[str]:
    """The words of an offset and of options that are given by their names."""
    words = [] if offset is None else ["--offset", offset_text(offset)]
    return words + [f"--{name.replace('_', '-')}" for name, is_given in options.items() if is_given]


@overload
def report(old: Calendar, new: Calendar, offset: datetime.timedelta | None = None, *, html: Literal[False] = False, differences: bool = False, strict: bool = False, by_uid: bool = False) -> dict[str, Any]: ...
@overload
def report(old: Calendar, new: Calendar, offset: datetime.timedelta | None = None, *, html: Literal[True], differences: bool = False, strict: bool = False, by_uid: bool = False) -> str: ...
def report(
    old: Calendar,
    new: Calendar,
    offset: datetime.timedelta | None = None,
    *,
    html: bool = False,
    differences: bool = False,
    strict: bool = False,
    by_uid: bool = False,
) -> dict[str, Any] | str:
    """The same report as a dictionary of JSON, as docs/CALENDARS.md has its members; with html it is a page to look at, which needs nothing from
    elsewhere, as a text to be written in UTF-8. Both have titles. The name of a calendar is its path; of one that is no file it is `old` or `new`.
    The refusal of a whole calendar is no exception here: the report says so, in its member `refused`.

    >>> lunch = "BEGIN:VEVENT\\nUID:lunch\\nSUMMARY:Lunch\\nDTSTART:20240105T123000\\nEND:VEVENT\\n"
    >>> said = report(lunch, lunch.replace("T12", "T13"))
    >>> said["status"], said["counts"]["differs"], said["old"]["name"]
    (1, 1, 'old')
    >>> [(event["key"], event["title"], event["verdict"], event["moment"], event["side"]) for event in said["events"]]
    [({'uid': 'lunch'}, 'Lunch', 'differs', '2024-01-05T12:30:00', 'A')]
    >>> report(lunch, "")["refused"]["side"], report(lunch, lunch, html=True)[:15]
    ('B', '<!doctype html>')
    """
    a, b = calendar_of(old), calendar_of(new)
    words = [file_name(old, "old"), file_name(new, "new"), "--html" if html else "--json"]
    text = _calendars_text(words + _options(offset, differences=differences, strict=strict, by_uid=by_uid), a, b, _REPORT_ROOM)
    if html:
        return text
    said: dict[str, Any] = json.loads(text)
    return said
