"""What the plain evaluator answers to a question, as text."""
import itertools

from evaluator import FIRST_READINGS, format_moment, occurrences, parse_moment, parse_start


def texts(series, count, after=None, readings=FIRST_READINGS):
    """The first occurrences, at most that many, and whether these are all."""
    _, is_date, is_utc = parse_start(series["start"])
    found = list(itertools.islice(occurrences(series, after and parse_moment(after), readings), count + 1))
    return [format_moment(moment, is_date, is_utc) for moment in found[:count]], len(found) <= count


def read_as(series, taken, count):
    """The same in a reading of an open case, which takes other readings, another rule, or other dates or exceptions."""
    other = {**series, **{key: taken[key] for key in ("dates", "exceptions") if key in taken}, **({"rules": [taken["rule"]]} if "rule" in taken else {})}
    return texts(other, count, None, {**FIRST_READINGS, **taken.get("readings", {})})
