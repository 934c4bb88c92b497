"""What is said of two whole calendars, in types."""
from __future__ import annotations

import datetime
import os
import re
from dataclasses import dataclass
from typing import Literal, NamedTuple, Union

from ._series import Moment, is_file_name, moment_of, read_file

# The most bytes of a calendar, and one.
_MOST = 67_108_865

Calendar = Union[str, bytes, bytearray, memoryview, "os.PathLike[str]"]
"""The text or the bytes of a calendar, or the path of its file, which is read at each call."""
Key = Union[str, int]
"""The UID of events; of an event without one the number of the line that begins it, or in a list of Microsoft Graph its EventNumber."""
Said = Literal["equal", "differs", "length", "only", "refused", "alike"]
Reading = Literal["until", "start", "day"]


class Length(NamedTuple):
    """How long an occurrence is: so many days of the calendar, each of 23 to 25 hours, and so many exact seconds after them."""

    days: int
    seconds: int


class EventNumber(int):
    """The number of an event in a list of Microsoft Graph, from 1. It is no line: the key of event 8 is not that of line 8."""

    def __eq__(self, other: object) -> bool:
        return isinstance(other, EventNumber) and int(self) == int(other)

    def __ne__(self, other: object) -> bool:
        return not self == other

    def __hash__(self) -> int:
        return hash(("event", int(self)))

    def __repr__(self) -> str:
        return f"EventNumber({int(self)})"


@dataclass(frozen=True)
class ReportLine:
    """What is said of the events of one UID, or of two UIDs whose events were found to belong together.

    key         the UID as the file has it, or the line or the EventNumber of an event without one; of a pair that in the old calendar
    said        'equal': both have the same occurrences, at the same moments; 'differs': they do not; 'length': they do, but one of them is of another
                length in the one than in the other; 'only': one calendar alone has events of it;
                'refused': they can't be compared; 'alike': they can't be compared, but both state them in the same words, so nothing of them
                is lost: that is no fault
    side        unless equal: 'A' is the old calendar, 'B' the new one. Whose occurrence it is, which has the events, or in which they are refused;
                'A' if they are alike
    moment      if they differ: the first occurrence that only one of them has, as a date or a moment of the local clock of that side, which is aware
                if the zones of both are known
    refusal     if they are refused or alike: the name. docs/REFUSALS.md and docs/CALENDARS.md say of each name what to do
    place       if they are refused or alike: the number of the line, of Graph that of the event, or of the rule if they are NotSynchronised
    other_zone  of equal events: local times are equal, but their zones have other names, and not both are defined, so nobody can tell more; if they
                differ: local times are equal for ever, and the zones alone differ
    floating    they differ since those of the side state neither a zone nor UTC, and the others do: there is no moment
    lengths     after 'length': how long the first occurrence that has two lengths is in A, and in B
    readings    if they were compared: how what is at odds with RFC 5545 was read in A or in B. 'until': an UNTIL of the other kind than its start's,
                as its day; 'start': a start that its rule does not choose, as an occurrence; 'day': an EXDATE or RECURRENCE-ID that is a date, as the
                occurrence of that day
    title       if titles are asked for: the title of its first event in A, otherwise in B, empty if that has none; otherwise None
    partner     of events that were found again without a UID: their key in the new calendar, which may be the same line; otherwise None
    other_title they were found so, and have another title there
    """

    key: Key
    said: Said
    side: Literal["A", "B"] | None = None
    moment: Moment | None = None
    refusal: str | None = None
    place: int | None = None
    other_zone: bool = False
    floating: bool = False
    title: str | None = None
    lengths: tuple[Length, Length] | None = None
    readings: tuple[Reading, ...] = ()
    partner: Key | None = None
    other_title: bool = False


@dataclass(frozen=True)
class Counts:
    """How many lines there are, and of how many each is said; other_zone counts those of equal whose zones are not known to be one, and matched the pairs
    that were found without their UID. Those that are alike are not among the refused ones."""

    events: int
    equal: int
    differs: int
    only_a: int
    only_b: int
    refused: int
    other_zone: int
    alike: int = 0
    matched: int = 0


@dataclass(frozen=True)
class Report:
    """What is said of two calendars: a line for each UID or pair of them, in the order of their bytes, and the counts. It is true in a condition if all are equal or alike, and
    of none that is equal the zones are unknown: where the program has status 0."""

    lines: tuple[ReportLine, ...]
    counts: Counts

    def __bool__(self) -> bool:
        return self.counts.equal + self.counts.alike == self.counts.events and not self.counts.other_zone


@dataclass(frozen=True)
class More:
    """How many occurrences only one of two calendars has, beside the first of them.

    count  how many, exactly; None if they never end, or end but are more than 9,999
    until  the last of them, as a date or a moment of the local clock; None if there is none, or if the count is None
    ends   whether there is a last one
    """

    count: int | None
    until: Moment | None
    ends: bool


@dataclass(frozen=True)
class Shown:
    """What is said of the events of one UID or pair, and, if they differ, the months from the first difference on, as the program paints them, and how
    many differences more there are; otherwise the picture is empty, and more is None. It is true in a condition if they are alike, or equal
    and their zones are known to be."""

    line: ReportLine
    picture: str
    more: More | None = None

    def __bool__(self) -> bool:
        return self.line.said in ("equal", "alike") and not self.line.other_zone


def calendar_of(calendar: Calendar) -> bytes:
    """The bytes of a calendar; a file is read here."""
    if isinstance(calendar, (str, bytes, bytearray, memoryview)):
        data = calendar.encode() if isinstance(calendar, str) else bytes(calendar)
        if is_file_name(data):
            raise ValueError(f"{calendar!r} is no calendar text but probably the name of a file, which is given as a pathlib.Path")
        return data
    if isinstance(calendar, os.PathLike):
        return read_file(calendar, _MOST)
    raise TypeError(f"a calendar is a text, bytes or a Path, and not {calendar!r}")


def file_name(calendar: Calendar, name: str) -> str:
    """The word by which a calendar is named: its path, before which ./ stands if it would be an option, standard input or a language otherwise;
    of one that is no file this name.

    >>> import pathlib
    >>> [file_name(pathlib.PurePosixPath(it), "old") for it in ("a/b.ics", "-", "--b", "graph:b", "c:b")], file_name("BEGIN:VEVENT", "old")
    (['a/b.ics', './-', './--b', './graph:b', 'c:b'], 'old')
    """
    if not isinstance(calendar, os.PathLike):
        return name
    path = os.fspath(calendar).encode("utf-8", "backslashreplace").decode()
    return f"./{path}" if re.match("-|(ics|graph|vcal)[:@]", path) else path


def name_of(key: Key) -> str:
    r"""A key as it is printed and asked for: of a UID each byte but the visible ones of ASCII, and the backslash, is escaped.

    >>> print(name_of(12), name_of("a@b"), name_of("caf\u00e9 \\"), name_of(EventNumber(12)))
    line 12 a@b caf\xc3\xa9\x20\x5c event 12
    """
    if isinstance(key, EventNumber):
        return f"event {int(key)}"
    if isinstance(key, int):
        return f"line {key}"
    return "".join(chr(byte) if 0x20 < byte < 0x7F and byte != 0x5C else f"\\x{byte:02x}" for byte in key.encode("utf-8", "surrogateescape"))


# A character that is escaped in a title: all but the visible ones, with the quote and the backslash. The library prints titles so.
_HIDDEN = re.compile(
    "[^ !#-\\[\\]-~\u00a1-\u00ac\u00ae-\u02ff\u0370-\u0482\u048a-\u058f\u05d0-\u05ea\u0620-\u064a\u0900-\u0dff\u0e01-\u0e5b\u10a0-\u10ff\u1e00-\u1fff"
    "\u2010-\u2027\u2030-\u205e\u20a0-\u20bf\u2100-\u2bff\u3001-\u303f\u3041-\u30ff\u3400-\u9fff\uac00-\ud7a3\uff01-\uff60\U0001f300-\U0001faff]"
)


def names_of(key: Key) -> list[str]:
    r"""The names by which events are asked for, one after the other: their key as it is printed, then the title as it is printed. The name of
    an event without a UID is no title.

    >>> print(names_of("a@b"), names_of(12), names_of("line 12"))
    ['a@b'] ['line 12'] ['line\\x2012']
    >>> names_of('The "new" caf\u00e9')[1] == 'The \\x22new\\x22 caf\u00e9'
    True
    """
    name = name_of(key)
    if isinstance(key, int) or re.fullmatch("(?:line|event) [0-9]+", key):
        return [name]
    title = _HIDDEN.sub(lambda it: "".join(f"\\x{byte:02x}" for byte in it.group().encode("utf-8", "surrogateescape")), key)
    return [name] if title == name else [name, title]


def _unescaped(printed: str) -> str:
    r"""A UID or a title by how it is printed. Bytes that are no text stand in it as the interpreter has them in names of files.

    >>> _unescaped(r"caf\xc3\xa9\x20\x5c") == "caf\u00e9 \\"
    True
    """
    return re.sub(rb"\\x([0-9a-f]{2})", lambda it: bytes([int(it.group(1), 16)]), printed.encode()).decode("utf-8", "surrogateescape")


_KEY = r"(?:line (?P<line>[0-9]+)|event (?P<event>[0-9]+)|(?P<uid>\S+))"
_REFUSAL = "(?P<refusal>[A-Za-z]+(?: [^ 0-9]\\S*)*) (?P<place>[0-9]+)"
# The key in the new calendar, if the events were found again without their UID; then a word may say that their title there is another one.
_KEYS = _KEY + r"(?P<pair> = (?:line (?P<other_line>[0-9]+)|event (?P<other_event>[0-9]+)|(?P<other_uid>\S+)))?"
_OTHER = "(?P<other>(?(pair) title|(?!)))?"
_MARKS = "(?P<until> until)?(?P<start> start)?(?P<day> day)?" + _OTHER
_LENGTH = "(?:[0-9]+d)?[0-9]*(?<=[0-9d])"
_TITLE = '(?: "(?P<title>[^"]*)")?'
_READINGS: tuple[Reading, ...] = ("until", "start", "day")
_FORMS: list[tuple[Said, str]] = [
    ("equal", f"equal {_KEYS}(?P<zone> zone)?{_MARKS}"),
    ("differs", f"differs {_KEYS} (?:no (?P<moment>\\S+)|(?P<floating>floating)) (?P<side>[AB])(?P<zone> zone)?{_MARKS}"),
    ("length", f"length {_KEYS} (?P<a>{_LENGTH}) (?P<b>{_LENGTH}){_MARKS}"),
    ("only", f"only (?P<side>[AB]) {_KEY}"),
    ("refused", f"refused {_KEYS} (?P<side>[AB]) {_REFUSAL}{_OTHER}"),
    ("alike", f"alike {_KEYS} (?P<side>[AB]) {_REFUSAL}{_OTHER}"),
]


def line_of(text: str) -> ReportLine | None:
    """A line of a report, or None if it is none of a UID.

    >>> line_of("differs oncall@team.example no 2024-06-28 A zone")
    ReportLine(key='oncall@team.example', said='differs', side='A', moment=datetime.date(2024, 6, 28), refusal=None, place=None, other_zone=True, floating=False, title=None, lengths=None, readings=(), partner=None, other_title=False)
    >>> line_of("differs u no 2024-04-01T09:00:00+02:00 A").moment.isoformat(), line_of("differs u floating B").floating
    ('2024-04-01T09:00:00+02:00', True)
    >>> line_of("only B line 12").key, line_of("only B event 12").key
    (12, EventNumber(12))
    >>> line_of("refused u B BadMember recurrence 3").refusal
    'BadMember recurrence'
    >>> line_of(r'alike u A NotSynchronised 1 "The \\x22new\\x22 caf\u00e9"')
    ReportLine(key='u', said='alike', side='A', moment=None, refusal='NotSynchronised', place=1, other_zone=False, floating=False, title='The "new" caf\u00e9', lengths=None, readings=(), partner=None, other_title=False)
    >>> line_of('equal "u"').title, line_of('equal "u" zone ""').title, line_of('only A line 12 "12"').title
    (None, '', '12')
    >>> line_of("refused A BadLine 3")
    >>> line_of("length u 3600 1d").lengths, line_of("length u 3600 1d until").readings, line_of("equal u zone start day").readings
    ((Length(days=0, seconds=3600), Length(days=1, seconds=0)), ('until',), ('start', 'day'))
    >>> found = [line_of(it) for it in ("equal a = b", "refused a = line 8 B CycleTooLong 3 title", 'differs = = = floating A title ""', "equal a title", "only A a = b")]
    >>> [it and (it.key, it.partner, it.refusal, it.other_title, it.title) for it in found]
    [('a', 'b', None, False, None), ('a', 8, 'CycleTooLong', True, None), ('=', '=', None, True, ''), None, None]
    """
    for said, form in _FORMS:
        it = re.fullmatch(form + _TITLE, text)
        if it is not None:
            return _line(said, it.groupdict())
    return None


def _line(said: Said, it: dict[str, str | None]) -> ReportLine:
    side, moment, place, title = (it.get(name) for name in ("side", "moment", "place", "title"))
    return ReportLine(
        _key(it["line"], it["event"], it["uid"]),
        said,
        None if side is None else "A" if side == "A" else "B",
        None if moment is None else told_moment(moment),
        it.get("refusal"),
        None if place is None else int(place),
        it.get("zone") is not None,
        it.get("floating") is not None,
        None if title is None else _unescaped(title),
        None if said != "length" else (_length(it["a"] or ""), _length(it["b"] or "")),
        tuple(reading for reading in _READINGS if it.get(reading) is not None),
        None if it.get("pair") is None else _key(it["other_line"], it["other_event"], it["other_uid"]),
        it.get("other") is not None,
    )


def _key(line: str | None, event: str | None, uid: str | None) -> Key:
    """A key by the number of its line, by that of its event, or by its UID as it is printed."""
    return _unescaped(uid) if uid is not None else EventNumber(event) if event is not None else int(line or 0)


def _length(text: str) -> Length:
    """A length as a line tells it.

    >>> _length("3600"), _length("1d"), _length("2d60")
    (Length(days=0, seconds=3600), Length(days=1, seconds=0), Length(days=2, seconds=60))
    """
    days, behind, seconds = text.rpartition("d")
    return Length(int(days) if behind else 0, int(seconds or 0))


def told_moment(text: str) -> Moment:
    """A date or moment as a line tells it: aware if it is known how far its local time is ahead of UTC.

    >>> told_moment("2024-04-01T07:00:00Z").isoformat(), told_moment("2024-04-01T09:00:00-03:30").isoformat()
    ('2024-04-01T07:00:00+00:00', '2024-04-01T09:00:00-03:30')
    >>> told_moment("2024-04-01"), told_moment("10000-04-01T09:00:00+02:00")
    (datetime.date(2024, 4, 1), '10000-04-01T09:00:00+02:00')
    """
    it = re.fullmatch(r"(.+T[0-9:]+)(?:Z|([-+])([0-9]{2}):([0-9]{2})(?::([0-9]{2}))?)", text)
    if it is None:
        return moment_of(text)
    hours, minutes, seconds = (int(it[place] or 0) for place in (3, 4, 5))
    ahead = datetime.timedelta(hours=hours, minutes=minutes, seconds=seconds)
    local = moment_of(it[1], datetime.timezone(-ahead if it[2] == "-" else ahead))
    return text if isinstance(local, str) else local


def report_of(text: str) -> Report | None:
    """A report by what is printed, or None if it is none, but the refusal of a calendar.

    >>> report_of("only A u\\nevents 1 equal 0 differs 0 only-A 1 only-B 0 refused 0\\n").counts
    Counts(events=1, equal=0, differs=0, only_a=1, only_b=0, refused=0, other_zone=0, alike=0, matched=0)
    >>> both = report_of("equal u\\nalike v A PeriodValue 9\\nevents 2 equal 1 differs 0 only-A 0 only-B 0 refused 0 zone 0 alike 1 matched 0\\n")
    >>> both.counts.alike, both.counts.refused, both.counts.matched, bool(both)
    (1, 0, 0, True)
    """
    *lines, last = text.splitlines()
    if not last.startswith("events "):
        return None
    words = last.split()
    number = {name: int(count) for name, count in zip(words[::2], words[1::2])}
    counts = Counts(*(number.get(name, 0) for name in ("events", "equal", "differs", "only-A", "only-B", "refused", "zone", "alike", "matched")))
    return Report(tuple(it for it in map(line_of, lines) if it is not None), counts)


def shown_of(text: str) -> Shown | None:
    """What is shown of one UID by what is printed, or None if that is the refusal of a calendar."""
    first, _, rest = text.partition("\n")
    second, _, below = rest.partition("\n")
    line, more = line_of(first), more_of(second)
    if line is None:
        return None
    return Shown(line, rest.lstrip("\n")) if more is None else Shown(line, below.lstrip("\n"), more)


def more_of(text: str) -> More | None:
    """How many differences more there are, by the line that says so, or None if it is none.

    >>> more_of("more 51 until 2025-03-31")
    More(count=51, until=datetime.date(2025, 3, 31), ends=True)
    >>> more_of("more 0").count, more_of("more for ever").ends, more_of("more 9999 at least").count
    (0, False, None)
    """
    it = re.fullmatch(r"more (?:(?P<count>[0-9]+)(?: until (?P<until>\S+)|(?P<least> at least))?|for ever)", text)
    if it is None:
        return None
    count, until = it["count"], it["until"]
    return More(None if count is None or it["least"] else int(count), None if until is None else moment_of(until), count is not None)
