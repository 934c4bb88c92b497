"""What a series may be given as, and how it is handed on."""
from __future__ import annotations

import datetime
import json
import os
import re
from dataclasses import dataclass
from typing import Collection, Literal, Union

# The most bytes of a text, and one.
_MOST = 1_048_577

Language = Literal["rrule", "vcal", "graph", "list", "canon", "rscale"]
Moment = Union[datetime.date, datetime.datetime, str]
"""A date, or a moment of the local clock; its text if the year is past 9999, which the standard library does not have."""
Text = Union[str, bytes, bytearray, memoryview, "os.PathLike[str]", Collection[Moment]]
"""A text, the path of a file, which is read at each call, or dates or moments in any order."""


@dataclass(frozen=True)
class Series:
    """A text, its language, how far local time is ahead of UTC if a moment of the text is in UTC, and the zone of its local clock.

    >>> import rr
    >>> course = "DTSTART:20240101T090000\\nRRULE:FREQ=DAILY;UNTIL=20240102T080000Z\\n"
    >>> for moment in rr.occurrences(rr.Series(course, offset=datetime.timedelta(hours=1)), 5):
    ...     print(moment)
    2024-01-01 09:00:00+01:00
    2024-01-02 09:00:00+01:00

    A moment comes back aware, with a tzinfo, if its series is in UTC or has a zone or an offset, and naive otherwise. A series is in UTC
    if its start is, unless an offset turns it, as that of a Graph event; or if it is a list of aware moments. Its zone is the one given
    here, or its offset if none is given. An offset is taken to hold all year: for a place with summer time give the zone too. With the word
    "zone" for an offset the moments in UTC of an rrule or rscale text are read by the zones that it defines. An aware moment that is asked
    about is turned to the zone of the series first. No verdict depends on a zone: the readings of two clocks are compared.

    >>> utc = "DTSTART:20240101T090000Z\\nRRULE:FREQ=DAILY\\n"
    >>> second = rr.nth(utc, 2)
    >>> second
    datetime.datetime(2024, 1, 2, 9, 0, tzinfo=datetime.timezone.utc)
    >>> rr.rank(utc, second.astimezone(datetime.timezone(datetime.timedelta(hours=-5))))
    2
    """

    text: Text
    language: Language = "rrule"
    offset: datetime.timedelta | Literal["zone"] | None = None
    zone: datetime.tzinfo | None = None


AnySeries = Union[Series, Text]


def _zone_of(offset: datetime.timedelta | Literal["zone"] | None) -> datetime.timezone | None:
    """The zone of a stated offset; that of the word `zone` is not known here."""
    return None if offset is None or offset == "zone" else datetime.timezone(offset)


def is_aware(moment: object) -> bool:
    return isinstance(moment, datetime.datetime) and moment.tzinfo is not None


def moment_of(text: str, zone: datetime.tzinfo | None = None) -> Moment:
    """What a printed date or moment is in the standard library.

    >>> moment_of("2024-01-03"), moment_of("2024-01-03T09:30:00"), moment_of("10000-01-01")
    (datetime.date(2024, 1, 3), datetime.datetime(2024, 1, 3, 9, 30), '10000-01-01')
    """
    if not re.match(r"(?!0000)\d{4}-", text):
        return text
    return datetime.datetime.fromisoformat(text).replace(tzinfo=zone) if "T" in text else datetime.date.fromisoformat(text)


def text_of(moment: object, zone: datetime.tzinfo | None) -> str:
    """A date or moment as it is written in a word. A moment has whole seconds; an aware one is turned to the zone.

    >>> text_of(datetime.datetime(2024, 1, 1, 23, tzinfo=datetime.timezone.utc), datetime.timezone(datetime.timedelta(hours=1)))
    '2024-01-02T00:00:00'
    """
    if isinstance(moment, str):
        return moment
    if not isinstance(moment, datetime.date):
        raise TypeError(f"a moment is a date, a datetime or its text, and not {moment!r}")
    if not isinstance(moment, datetime.datetime):
        return moment.isoformat()
    if moment.microsecond:
        raise ValueError("a moment has whole seconds")
    if moment.tzinfo is None:
        return moment.isoformat()
    if zone is None:
        raise ValueError("an aware moment is for a series in UTC, or one with an offset or a zone")
    return moment.astimezone(zone).replace(tzinfo=None).isoformat()


def read_file(file: str | int | os.PathLike[str], most: int = _MOST) -> bytes:
    """What is read of a file: if it has more than a text may have, one byte more, so that it is refused."""
    with open(file, "rb") as opened:
        return opened.read(most)


def offset_text(offset: datetime.timedelta) -> str:
    """An offset from UTC as it is written in a word.

    >>> offset_text(datetime.timedelta(hours=-3, minutes=-30))
    '-03:30'
    """
    minutes = offset // datetime.timedelta(minutes=1)
    if datetime.timedelta(minutes=minutes) != offset:
        raise ValueError("an offset has whole minutes")
    return f"{'-' if minutes < 0 else '+'}{abs(minutes) // 60:02}:{abs(minutes) % 60:02}"


@dataclass(frozen=True)
class Operand:
    """A series as it is handed on: its bytes, what stands before the colon of its word, and the zone that was given."""

    data: bytes
    language: Language
    offset: datetime.timedelta | Literal["zone"] | None
    given: datetime.tzinfo | None

    def word(self, name: str) -> str:
        """The word for the series, under a name."""
        if self.offset is None:
            return f"{self.language}:{name}"
        if self.offset == "zone":
            return f"{self.language}@zone:{name}"
        return f"{self.language}@{offset_text(self.offset)}:{name}"

    def zone(self) -> datetime.tzinfo | None:
        """The zone of its moments, if they have one."""
        if self.language in ("rrule", "rscale", "vcal") and _event_starts_in_utc(self.data):
            return datetime.timezone.utc
        if self.given is not None:
            return self.given
        stated = _zone_of(self.offset)
        if stated is not None:
            return stated
        return datetime.timezone.utc if self.language == "graph" and _graph_starts_in_utc(self.data) else None

    def moment(self, text: str) -> Moment:
        """A printed moment of the series."""
        return moment_of(text, self.zone() if "T" in text else None)


def operand(series: AnySeries) -> Operand:
    """A series as it is handed on; a file is read here."""
    it = series if isinstance(series, Series) else Series(series)
    text = it.text
    if isinstance(text, (str, bytes, bytearray, memoryview)):
        data = text.encode() if isinstance(text, str) else bytes(text)
        if is_file_name(data, it.language):
            raise ValueError(f"{text!r} is no calendar text but probably the name of a file, which is given as a pathlib.Path")
        return Operand(data, it.language, it.offset, it.zone)
    if isinstance(text, os.PathLike):
        return Operand(read_file(text), it.language, it.offset, it.zone)
    if isinstance(text, Collection):
        return _list(text, it)
    raise TypeError(f"a series is a text, bytes, a Path, dates or moments, or a Series, and not {text!r}")


def _list(moments: Collection[object], series: Series) -> Operand:
    """Dates or moments as the language list has them. Aware ones are written in UTC if the series has no zone and no offset.

    >>> _list([datetime.date(2024, 3, 31), datetime.date(2024, 1, 31)], Series([])).data
    b'2024-01-31\\n2024-03-31\\n'
    """
    if series.language not in ("rrule", "list"):
        raise ValueError(f"dates or moments are a series in the language list, and not in {series.language}")
    aware = {is_aware(moment) for moment in moments}
    if len(aware) > 1:
        raise ValueError("of the moments of a series all are aware or none is")
    zone = series.zone
    if zone is None and True in aware:
        zone = _zone_of(series.offset) or datetime.timezone.utc
    lines = sorted({f"{text_of(moment, zone)}\n" for moment in moments}, key=lambda line: (line.find("-"), line))
    return Operand("".join(lines).encode(), "list", series.offset, zone)


def is_file_name(text: bytes, language: Language = "rrule") -> bool:
    """Whether a text is probably the name of a file: it has no line end, and no colon but that of a drive. A list may be one date.

    >>> is_file_name(b"team.ics"), is_file_name(b"C:/team.ics"), is_file_name(b"2024-01-01", "list")
    (True, True, False)
    """
    if not text or b"\n" in text or b"\r" in text:
        return False
    if language == "list" and not text.strip(b"0123456789-"):
        return False
    return b":" not in text or re.match(rb"[A-Za-z]:[\\/]", text) is not None


def _event_starts_in_utc(text: bytes) -> bool:
    """Whether the DTSTART of the event, or of a text without components, ends with Z.

    >>> _event_starts_in_utc(b"BEGIN:VEVENT\\nDTSTART:20240101T09\\n 0000Z\\nEND:VEVENT\\n")
    True
    """
    within: list[bytes] = []
    for line in re.sub(rb"\r?\n[ \t]", b"", text).split(b"\n"):
        name, _, value = line.strip().upper().rpartition(b":")
        if name == b"BEGIN":
            within.append(value)
        elif name == b"END":
            del within[-1:]
        elif name.split(b";")[0] == b"DTSTART" and within[-1:] in ([], [b"VEVENT"]):
            return value.endswith(b"Z")
    return False


def _graph_starts_in_utc(text: bytes) -> bool:
    """Whether the start of an event of Microsoft Graph is in UTC.

    >>> _graph_starts_in_utc(b'{"start": {"dateTime": "2024-01-01T09:00:00", "timeZone": "UTC"}}')
    True
    """
    try:
        start = json.loads(text)["start"]
        return start.get("timeZone") == "UTC" or str(start["dateTime"]).endswith("Z")
    except (ValueError, KeyError, TypeError, AttributeError, RecursionError):
        return False
