"""What a case is before its expected values are worked out."""
from dataclasses import dataclass, field


@dataclass
class Draft:
    """A series, what decides it, and how much of it is asked. Its start is the first moment from `since` on that the first rule chooses."""

    name: str
    why: str
    since: str
    rules: list
    tags: list = field(default_factory=list)
    dates: list = field(default_factory=list)
    exceptions: list = field(default_factory=list)
    first: int = 10


def draft(name, why, since, *rules, tags=(), dates=(), exceptions=(), first=10):
    return Draft(name, why, since, list(rules), [name, *tags], list(dates), list(exceptions), first)
