"""Pairs of series: the same occurrences for ever, or a first one that only one of them has. `yes` or `no` says what is meant, and the
evaluator works it out."""
from sentences import *

DAYS = ["MO", "TU", "WE", "TH", "FR", "SA", "SU"]
ALL = ",".join(DAYS)
WORK = "MO,TU,WE,TH,FR"
HOURS = ",".join(map(str, range(24)))


def listed(first, last):
    return ",".join(map(str, range(first, last + 1)))


def series(since, rule, dates=(), exceptions=()):
    return {"since": since, "rules": [rule], "dates": list(dates), "exceptions": list(exceptions)}


def pair(tag, why, since, a, b, meant, **beside_b):
    return tag, why, series(since, a), series(since, b, **beside_b), meant


def positions():
    """Numbers of BYDAY beside BYSETPOS and days of the month."""
    why = f"{DAY_IN_MONTH} {SET_POSITION}"
    for number, day in zip((1, 2, 3, 4, 5, -1, -2, -3, -4, -5), DAYS + DAYS):
        yield pair("set-position", why, "20240101", f"FREQ=MONTHLY;BYDAY={number}{day}", f"FREQ=MONTHLY;BYDAY={day};BYSETPOS={number}", "yes")
    for number, day in ((1, "SA"), (2, "TU"), (3, "FR"), (4, "TH")):
        days = listed(7 * number - 6, 7 * number)
        yield pair("numbered-day-in-month", f"{DAY_IN_MONTH} The days {days} of a month have each weekday once.", "20240101T080000",
                   f"FREQ=MONTHLY;BYDAY={number}{day}", f"FREQ=MONTHLY;BYMONTHDAY={days};BYDAY={day}", "yes")
    yield pair("numbered-day-in-month", f"{DAY_IN_MONTH} The last seven days of a month have each weekday once.", "20240101",
               "FREQ=MONTHLY;BYDAY=-1FR", "FREQ=MONTHLY;BYMONTHDAY=-7,-6,-5,-4,-3,-2,-1;BYDAY=FR", "yes")
    for a, b, meant in (
            ("5FR", "-1FR", "no"),
            ("4FR", "-1FR", "no"),
            ("4FR", "-2FR", "no"),
            ("1MO,2MO,3MO,4MO,5MO", "MO", "yes"),
            ("-1MO,-2MO,-3MO,-4MO", "MO", "no")):
        yield pair("numbered-day-in-month", DAY_IN_MONTH, "20240101", f"FREQ=MONTHLY;BYDAY={a}", f"FREQ=MONTHLY;BYDAY={b}", meant)
    yield pair("set-position", SET_POSITION, "20240131", f"FREQ=MONTHLY;BYDAY={WORK};BYSETPOS=-1", f"FREQ=MONTHLY;BYMONTHDAY=-1;BYDAY={WORK}", "no")
    yield pair("set-position", SET_POSITION, "20240131", "FREQ=MONTHLY;BYMONTHDAY=-1", "FREQ=MONTHLY;BYMONTHDAY=28,29,30,31;BYSETPOS=-1", "yes")
    yield pair("set-position", SET_POSITION_BEYOND, "20240131", "FREQ=MONTHLY;BYMONTHDAY=31", "FREQ=MONTHLY;BYMONTHDAY=28,29,30,31;BYSETPOS=4", "yes")
    yield pair("set-position", SET_POSITION, "20241231", "FREQ=YEARLY;BYYEARDAY=-1", f"FREQ=YEARLY;BYDAY={ALL};BYSETPOS=-1", "yes")
    yield pair("set-position", SET_POSITION_BEYOND, "20241231", "FREQ=YEARLY;BYYEARDAY=366", f"FREQ=YEARLY;BYDAY={ALL};BYSETPOS=366", "yes")


def weeks():
    """Week numbers and week starts."""
    same = "Week n from Monday on is the one that has the year's n-th Thursday. "
    for number in (1, 20, 52, 53, -1):
        yield pair("week-number", same + WEEK_OVER_YEAR, "20240101", f"FREQ=YEARLY;BYWEEKNO={number};BYDAY=TH", f"FREQ=YEARLY;BYDAY={number}TH", "yes")
        yield pair("week-number", "Week n from Sunday on is the one that has the year's n-th Wednesday. " + WEEK_OVER_YEAR, "20240101",
                   f"FREQ=YEARLY;WKST=SU;BYWEEKNO={number};BYDAY=WE", f"FREQ=YEARLY;BYDAY={number}WE", "yes")
    for number, day in ((1, "MO"), (52, "FR"), (-1, "SU"), (2, "TU")):
        yield pair("week-number", WEEK_OVER_YEAR, "20240101", f"FREQ=YEARLY;BYWEEKNO={number};BYDAY={day}", f"FREQ=YEARLY;BYDAY={number}{day}", "no")
    yield pair("week-number", WEEK_OVER_YEAR, "20240101", "FREQ=YEARLY;BYWEEKNO=-1;BYDAY=MO", "FREQ=YEARLY;BYWEEKNO=52;BYDAY=MO", "no")
    yield pair("week-number", WEEK_OVER_YEAR, "20240107", "FREQ=YEARLY;BYWEEKNO=1;BYDAY=SU", "FREQ=YEARLY;BYWEEKNO=1;BYDAY=SU;WKST=SU", "no")
    for days, since in (("TU,SU", "20240109"), ("MO,SU", "20240101"), ("SA,SU", "20240106T100000"), ("MO,WE,FR,SU", "20240103")):
        yield pair("week-start", WEEK_START, since, f"FREQ=WEEKLY;INTERVAL=2;BYDAY={days}", f"FREQ=WEEKLY;INTERVAL=2;BYDAY={days};WKST=SU", "no")
        yield pair("week-start", WEEK_START_IDLE, since, f"FREQ=WEEKLY;BYDAY={days}", f"FREQ=WEEKLY;BYDAY={days};WKST=SU", "yes")
    yield pair("week-start", WEEK_START, "20240101", "FREQ=WEEKLY;INTERVAL=2;BYDAY=MO,FR", "FREQ=WEEKLY;INTERVAL=2;BYDAY=MO,FR;WKST=SU", "yes")
    yield pair("week-start", WEEK_START, "20240101", "FREQ=WEEKLY;INTERVAL=2;BYDAY=TU", "FREQ=WEEKLY;INTERVAL=2;BYDAY=TU;WKST=WE", "yes")


def frequencies():
    """One set in two frequencies."""
    for since, a, b, meant in (
            ("20240101", "FREQ=WEEKLY;BYDAY=MO", "FREQ=DAILY;INTERVAL=7", "yes"),
            ("20240101", "FREQ=WEEKLY;INTERVAL=2", "FREQ=DAILY;INTERVAL=14", "yes"),
            ("20240101", "FREQ=WEEKLY;INTERVAL=3", "FREQ=DAILY;INTERVAL=20", "no"),
            ("20240101T093000", "FREQ=HOURLY;INTERVAL=24", "FREQ=DAILY", "yes"),
            ("20240101T093000", "FREQ=HOURLY;INTERVAL=25", "FREQ=DAILY", "no"),
            ("20240101T093000", "FREQ=MINUTELY;INTERVAL=1440", "FREQ=DAILY", "yes"),
            ("20240101T093000", "FREQ=SECONDLY;INTERVAL=86400", "FREQ=DAILY", "yes"),
            ("20240101T000000", "FREQ=MINUTELY;INTERVAL=15", "FREQ=HOURLY;BYMINUTE=0,15,30,45", "yes"),
            ("20240101T000000", "FREQ=HOURLY", f"FREQ=DAILY;BYHOUR={HOURS}", "yes"),
            ("20240101T080000", "FREQ=DAILY;BYHOUR=8,20", "FREQ=HOURLY;INTERVAL=12", "yes"),
            ("20240101T080000", "FREQ=DAILY;BYHOUR=8,16,23", "FREQ=HOURLY;INTERVAL=8", "no"),
            ("20240101T093000", "FREQ=WEEKLY", "FREQ=HOURLY;INTERVAL=168", "yes"),
            ("20240115", "FREQ=YEARLY", "FREQ=MONTHLY;INTERVAL=12", "yes"), ("20240115", "FREQ=YEARLY;INTERVAL=2", "FREQ=MONTHLY;INTERVAL=24", "yes"),
            ("20240115", "FREQ=YEARLY", "FREQ=DAILY;INTERVAL=365", "no"), ("20240301", "FREQ=YEARLY", "FREQ=DAILY;INTERVAL=365", "no"),
            ("20240115", "FREQ=MONTHLY;INTERVAL=3", "FREQ=YEARLY;BYMONTH=1,4,7,10", "yes"),
            ("20240131", "FREQ=MONTHLY;INTERVAL=3", "FREQ=YEARLY;BYMONTH=1,7,10;BYMONTHDAY=31", "yes"),
            ("20240131", "FREQ=MONTHLY", "FREQ=YEARLY;BYMONTHDAY=31", "yes"), ("20240101", "FREQ=DAILY", f"FREQ=WEEKLY;BYDAY={ALL}", "yes"),
            ("20240101", f"FREQ=DAILY;BYDAY={WORK}", f"FREQ=WEEKLY;BYDAY={WORK}", "yes"),
            ("20240101", "FREQ=DAILY;BYMONTH=1", f"FREQ=YEARLY;BYMONTH=1;BYDAY={ALL}", "yes"),
            ("20240307", "FREQ=YEARLY;BYMONTH=3;BYDAY=TH", "FREQ=DAILY;BYMONTH=3;BYDAY=TH", "yes"),
            ("20240307", "FREQ=YEARLY;BYMONTH=3;BYDAY=TH", "FREQ=WEEKLY;BYMONTH=3;BYDAY=TH", "yes"),
            ("20240307", "FREQ=YEARLY;BYMONTH=3;BYDAY=TH", "FREQ=MONTHLY;BYMONTH=3;BYDAY=1TH,2TH,3TH,4TH", "no"),
            ("20240913", "FREQ=MONTHLY;BYMONTHDAY=13;BYDAY=FR", "FREQ=DAILY;BYMONTHDAY=13;BYDAY=FR", "yes"),
            ("20240913", "FREQ=MONTHLY;BYMONTHDAY=13;BYDAY=FR", "FREQ=YEARLY;BYMONTHDAY=13;BYDAY=FR", "yes"),
            ("20240101", "FREQ=DAILY", f"FREQ=MONTHLY;BYMONTHDAY={listed(1, 31)}", "yes"),
            ("20240101", "FREQ=DAILY", f"FREQ=MONTHLY;BYMONTHDAY={listed(1, 30)}", "no"),
            ("20240101", "FREQ=DAILY", f"FREQ=YEARLY;BYYEARDAY={listed(1, 365)}", "no"),
            ("20240101", "FREQ=DAILY", f"FREQ=YEARLY;BYYEARDAY={listed(1, 366)}", "yes"),
            ("20240101T000000", "FREQ=SECONDLY;INTERVAL=20", "FREQ=MINUTELY;BYSECOND=0,20,40", "yes"),
            ("20240101T000000", "FREQ=SECONDLY;INTERVAL=25", "FREQ=MINUTELY;BYSECOND=0,25,50", "no"),
            ("20240101T000000", "FREQ=MINUTELY;INTERVAL=7", "FREQ=HOURLY;BYMINUTE=0,7,14,21,28,35,42,49,56", "no")):
        yield pair("frequencies", PLAIN_FREQUENCY, since, a, b, meant)


PLAIN_FREQUENCY = f"{SECTION}, FREQ and INTERVAL: the rule repeats every n-th second, minute, hour, day, week, month or year, and BYxxx parts limit or expand that."


def missing():
    """Days that a month or a year lacks, leap days, days from the back."""
    for why, since, a, b, meant in (
            (MISSING_DAY, "20240131", "FREQ=MONTHLY;BYMONTHDAY=31", "FREQ=MONTHLY;BYMONTHDAY=-1", "no"),
            (MISSING_DAY, "20240131", "FREQ=MONTHLY", "FREQ=MONTHLY;BYMONTHDAY=31", "yes"),
            (MISSING_DAY, "20240130", "FREQ=MONTHLY", "FREQ=MONTHLY;BYMONTHDAY=30,-2", "no"),
            (MISSING_DAY, "20240131", "FREQ=MONTHLY", "FREQ=YEARLY;BYMONTH=1,3,5,7,8,10,12;BYMONTHDAY=31", "yes"),
            (MISSING_DAY, "20240130", "FREQ=MONTHLY;BYMONTHDAY=30", "FREQ=YEARLY;BYMONTH=1,3,4,5,6,7,8,9,10,11,12;BYMONTHDAY=30", "yes"),
            (YEAR_DAY, "20241231", "FREQ=YEARLY;BYYEARDAY=366", "FREQ=YEARLY;BYMONTH=12;BYMONTHDAY=31", "no"),
            (YEAR_DAY_BACK, "20241231", "FREQ=YEARLY;BYYEARDAY=-1", "FREQ=YEARLY;BYMONTH=12;BYMONTHDAY=31", "yes"),
            (YEAR_DAY, "20240101", "FREQ=YEARLY;BYYEARDAY=1", "FREQ=YEARLY", "yes"),
            (YEAR_DAY, "20240229", "FREQ=YEARLY;BYYEARDAY=60", "FREQ=YEARLY", "no"),
            (YEAR_DAY, "20230301", "FREQ=YEARLY;BYYEARDAY=60", "FREQ=YEARLY", "no"),
            (YEAR_DAY_BACK, "20240301", "FREQ=YEARLY;BYYEARDAY=-306", "FREQ=YEARLY", "yes"),
            (YEAR_DAY_BACK, "20240101", "FREQ=YEARLY;BYYEARDAY=-366", "FREQ=YEARLY;INTERVAL=4", "no"),
            (LEAP_DAY, "20240229", "FREQ=YEARLY", "FREQ=YEARLY;INTERVAL=4", "yes"),
            (LEAP_DAY, "20240229", "FREQ=YEARLY", "FREQ=YEARLY;INTERVAL=2", "yes"),
            (LEAP_DAY, "20240229", "FREQ=YEARLY", "FREQ=YEARLY;INTERVAL=8", "no"),
            (LEAP_DAY, "20240229", "FREQ=YEARLY;INTERVAL=4;BYMONTH=2;BYMONTHDAY=-1", "FREQ=YEARLY;INTERVAL=4;BYMONTH=2;BYMONTHDAY=29", "no"),
            (LEAP_DAY, "20240229", "FREQ=YEARLY;BYMONTH=2;BYMONTHDAY=29", "FREQ=YEARLY;BYMONTH=2;BYMONTHDAY=-1;INTERVAL=4", "no"),
            (LEAP_DAY, "20240229", "FREQ=YEARLY;BYMONTH=2;BYMONTHDAY=29", "FREQ=MONTHLY;BYMONTHDAY=29;BYMONTH=2", "yes"),
            (LEAP_DAY, "20240229", "FREQ=YEARLY;BYMONTH=2;BYMONTHDAY=29", "FREQ=YEARLY;BYMONTH=2;BYMONTHDAY=-29", "no"),
            (MONTH_DAY_BACK, "20240201", "FREQ=YEARLY;BYMONTH=2;BYMONTHDAY=-29", "FREQ=YEARLY;INTERVAL=4", "no"),
            (MONTH_DAY_BACK, "20240101", "FREQ=MONTHLY;BYMONTHDAY=-31", "FREQ=YEARLY;BYMONTH=1,3,5,7,8,10,12;BYMONTHDAY=1", "yes"),
            (MONTH_DAY_BACK, "20240131", "FREQ=YEARLY;BYMONTH=1,4;BYMONTHDAY=-1", "FREQ=YEARLY;BYMONTH=1,4;BYMONTHDAY=30,31;BYSETPOS=2,3", "yes"),
            (YEARLY_MONTH_DAY, "20240115", "FREQ=YEARLY;BYMONTHDAY=15", "FREQ=MONTHLY;BYMONTHDAY=15", "yes"),
            (YEARLY_MONTH_DAY, "20240115", "FREQ=YEARLY;BYMONTHDAY=15", "FREQ=YEARLY;BYMONTH=1;BYMONTHDAY=15", "no"),
            (DAY_IN_YEAR, "20240513", "FREQ=YEARLY;BYDAY=20MO", f"FREQ=YEARLY;BYYEARDAY={listed(134, 140)};BYDAY=MO", "yes"),
            (DAY_IN_YEAR, "20241230", "FREQ=YEARLY;BYDAY=53MO", "FREQ=YEARLY;BYDAY=-1MO", "no"),
            (DAY_IN_MONTH_OF_YEAR, "20241128", "FREQ=YEARLY;BYMONTH=11;BYDAY=4TH", "FREQ=YEARLY;BYMONTH=11;BYDAY=-1TH", "no"),
            (DAY_IN_MONTH_OF_YEAR, "20241128", "FREQ=YEARLY;BYMONTH=11;BYDAY=4TH", "FREQ=MONTHLY;BYMONTH=11;BYDAY=4TH", "yes"),
            (DAY_IN_MONTH_OF_YEAR, "20241105", "FREQ=YEARLY;INTERVAL=4;BYMONTH=11;BYDAY=TU;BYMONTHDAY=2,3,4,5,6,7,8", "FREQ=YEARLY;INTERVAL=4;BYMONTH=11;BYDAY=1TU", "no"),
            (FROM_START % "month and its day", "20240704", "FREQ=YEARLY", "FREQ=YEARLY;BYMONTH=7;BYMONTHDAY=4", "yes"),
            (FROM_START % "day of the month", "20240321", "FREQ=YEARLY;BYMONTH=3,9", "FREQ=YEARLY;BYMONTH=3,9;BYMONTHDAY=21", "yes"),
            (FROM_START % "weekday", "20240103", "FREQ=WEEKLY", "FREQ=WEEKLY;BYDAY=WE", "yes"),
            (FROM_START % "time", "20240101T093015", "FREQ=DAILY", "FREQ=DAILY;BYHOUR=9;BYMINUTE=30;BYSECOND=15", "yes"),
            (WEEK_DAY_FROM_START, "20240515", "FREQ=YEARLY;BYWEEKNO=20", "FREQ=YEARLY;BYWEEKNO=20;BYDAY=WE", "yes")):
        tag = {MISSING_DAY: "missing-day", LEAP_DAY: "leap-day", YEAR_DAY: "year-day", YEAR_DAY_BACK: "year-day-from-the-back", MONTH_DAY_BACK: "month-day-from-the-back",
               YEARLY_MONTH_DAY: "yearly-month-day", DAY_IN_YEAR: "numbered-day-in-year", DAY_IN_MONTH_OF_YEAR: "numbered-day-in-month-of-year"}.get(why, "from-start")
        yield pair(tag, why, since, a, b, meant)


def ends():
    """COUNT beside UNTIL, and dates beside a rule."""
    for why, since, a, b, meant in (
            (COUNT, "20240101", "FREQ=DAILY;COUNT=10", "FREQ=DAILY;UNTIL=20240110", "yes"),
            (COUNT, "20240101", "FREQ=DAILY;COUNT=10", "FREQ=DAILY;UNTIL=20240111", "no"),
            (COUNT, "20240101", "FREQ=WEEKLY;BYDAY=MO,TH;COUNT=9", "FREQ=WEEKLY;BYDAY=MO,TH;UNTIL=20240131", "yes"),
            (COUNT, "20240131", "FREQ=MONTHLY;COUNT=7", "FREQ=MONTHLY;UNTIL=20241231", "yes"),
            (COUNT, "20240131", "FREQ=MONTHLY;COUNT=12", "FREQ=MONTHLY;UNTIL=20241231", "no"),
            (COUNT, "20240229", "FREQ=YEARLY;COUNT=3", "FREQ=YEARLY;UNTIL=20320229", "yes"),
            (COUNT, "20960229", "FREQ=YEARLY;COUNT=2", "FREQ=YEARLY;UNTIL=21000301", "no"),
            (COUNT, "20240101", "FREQ=DAILY;COUNT=1000", "FREQ=DAILY", "no"),
            (UNTIL, "20240101T235959", "FREQ=DAILY;UNTIL=20240105T235959", "FREQ=DAILY;UNTIL=20240105T235958", "no"),
            (UNTIL, "20240101T090000", "FREQ=DAILY;UNTIL=20240105T090000", "FREQ=DAILY;UNTIL=20240106T085959", "yes"),
            (UNTIL, "20240101T000000", "FREQ=HOURLY;UNTIL=20240101T235959", "FREQ=HOURLY;COUNT=24", "yes"),
            (UNTIL, "20240101T000000", "FREQ=HOURLY;UNTIL=20240102T000000", "FREQ=HOURLY;COUNT=24", "no"),
            (UNTIL_DATE, "20240101", "FREQ=WEEKLY;UNTIL=20240129", "FREQ=WEEKLY;UNTIL=20240204", "yes"),
            (UNTIL_DATE, "20240101", "FREQ=WEEKLY;UNTIL=20240129", "FREQ=WEEKLY;UNTIL=20240205", "no")):
        yield pair({COUNT: "count", UNTIL: "until-at-the-last-second", UNTIL_DATE: "until-is-a-date"}[why], why, since, a, b, meant)
    for tag, why, since, a, b, beside, meant in (
            ("exception", EXCEPTION, "20240101", "FREQ=DAILY;INTERVAL=7", "FREQ=WEEKLY", {"exceptions": ["29991230"]}, "no"),
            ("exception", EXCEPTION, "20240101", "FREQ=WEEKLY", "FREQ=WEEKLY", {"exceptions": ["20240102"]}, "yes"),
            ("exception", EXCEPTION, "20240101", "FREQ=DAILY", "FREQ=DAILY", {"exceptions": ["21000228"]}, "no"),
            ("exception", EXCEPTION, "20240229", "FREQ=YEARLY", "FREQ=YEARLY;INTERVAL=2", {"exceptions": ["24000229"]}, "no"),
            ("date-twice", DATE_TWICE, "20240101", "FREQ=WEEKLY", "FREQ=WEEKLY", {"dates": ["20240108", "21000104"]}, "yes"),
            ("date-added", DATE_ADDED, "20240101", "FREQ=WEEKLY", "FREQ=WEEKLY", {"dates": ["20240109"]}, "no"),
            ("date-added", DATE_ADDED, "20240101", "FREQ=DAILY;COUNT=5", "FREQ=DAILY;COUNT=4", {"dates": ["20240105"]}, "yes"),
            ("date-twice", DATE_TWICE, "20240101", "FREQ=DAILY;COUNT=4", "FREQ=DAILY;COUNT=4", {"dates": ["20240102"]}, "yes"),
            ("count-and-exception", EXCEPTION_COUNTED, "20240101", "FREQ=DAILY;COUNT=4", "FREQ=DAILY;COUNT=5", {"exceptions": ["20240105"]}, "yes"),
            ("count-and-exception", EXCEPTION_COUNTED, "20240101", "FREQ=DAILY;COUNT=4", "FREQ=DAILY;COUNT=5", {"exceptions": ["20240103"]}, "no"),
            ("exception-wins", EXCEPTION_WINS, "20240101", "FREQ=WEEKLY", "FREQ=WEEKLY", {"dates": ["20240110"], "exceptions": ["20240110"]}, "yes"),
            ("set-position-first-interval", SET_POSITION_FIRST, "20240103", f"FREQ=WEEKLY;BYDAY={WORK};BYSETPOS=3", "FREQ=WEEKLY;BYDAY=WE", {}, "yes"),
            ("set-position-first-interval", SET_POSITION_FIRST, "20240103", f"FREQ=WEEKLY;BYDAY={WORK};BYSETPOS=1,3", "FREQ=WEEKLY;BYDAY=MO,WE", {}, "yes"),
            ("set-position-first-interval", SET_POSITION_FIRST, "20240120", "FREQ=MONTHLY;BYMONTHDAY=10,20,30;BYSETPOS=2", "FREQ=MONTHLY;BYMONTHDAY=20", {}, "yes")):
        yield pair(tag, why, since, a, b, meant, **beside)


FAMILIES = [positions, weeks, frequencies, missing, ends]
