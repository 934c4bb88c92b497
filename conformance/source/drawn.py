"""Rules that are drawn: parts beside each other as nobody writes them down, which find what families do not. The sentence of each is the
table of BYxxx parts for its own parts, with INTERVAL, COUNT and UNTIL if it has them."""
from drafts import draft

WEEKDAYS = ["MO", "TU", "WE", "TH", "FR", "SA", "SU"]


class Draws:
    """Numbers by the generator of ISO C's example, so that the file is the same wherever it is made."""

    def __init__(self, seed):
        self.state = seed

    def below(self, bound):
        self.state = (self.state * 1103515245 + 12345) % 2147483648
        return self.state // 65536 % bound

    def some(self, values, most):
        """A few of the values, in their order, each once."""
        chosen = {self.below(len(values)) for _ in range(1 + self.below(most))}
        return ",".join(str(values[index]) for index in sorted(chosen))


def rule_of(draws):
    """A rule with one to three BYxxx parts that the standard allows beside each other, and an interval."""
    freq = ("DAILY", "WEEKLY", "MONTHLY", "MONTHLY", "YEARLY", "YEARLY", "HOURLY", "MINUTELY")[draws.below(8)]
    parts = {"FREQ": freq}
    if draws.below(2):
        parts["INTERVAL"] = str(2 + draws.below(4))
    if draws.below(2):
        parts["BYMONTH"] = draws.some(range(1, 13), 4)
    if freq == "YEARLY" and draws.below(4) == 0:
        parts["BYYEARDAY"] = draws.some([number * 30 + 1 for number in range(12)] + [-1, -60, -200], 6)
    elif freq != "WEEKLY" and draws.below(2):
        parts["BYMONTHDAY"] = draws.some(list(range(1, 32)) + [-1, -2, -5, -10], 8)
    if draws.below(2) or len(parts) == 1:
        numbered = freq in ("MONTHLY", "YEARLY") and draws.below(3) == 0
        days = WEEKDAYS if not numbered else [f"{number}{day}" for number in (1, 2, 3, -1, -2) for day in WEEKDAYS]
        parts["BYDAY"] = draws.some(days, 4)
    if draws.below(4) == 0:
        parts["BYHOUR"] = draws.some(range(24), 3)
    if draws.below(5) == 0:
        parts["BYMINUTE"] = draws.some(range(0, 60, 5), 3)
    if draws.below(4) == 0 and any(name.startswith("BY") for name in parts) and freq != "MINUTELY":
        parts["BYSETPOS"] = draws.some([1, 2, 3, -1, -2], 2)
    if draws.below(4) == 0:
        parts["WKST"] = WEEKDAYS[draws.below(7)]
    if draws.below(5) == 0:
        parts["COUNT"] = str(1 + draws.below(12))
    return ";".join(f"{name}={value}" for name, value in parts.items())


def drawn(seed=63):
    """Drafts without end; those that have no start within forty years are for the caller to pass over."""
    draws = Draws(seed)
    while True:
        rule = rule_of(draws)
        day = f"{2020 + draws.below(10)}{1 + draws.below(12):02}{1 + draws.below(28):02}"
        is_date = draws.below(2) and not any(word in rule for word in ("HOUR", "MINUTE"))
        yield draft("drawn", "table", day if is_date else f"{day}T{draws.below(24):02}{5 * draws.below(12):02}00", rule, first=8)
