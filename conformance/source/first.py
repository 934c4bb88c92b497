"""Cases that ask for the first occurrences, family by family: what goes wrong, the deciding sentence, a day from which the first start that
the rule chooses is taken, and the rules."""
import itertools

from drafts import draft
from sentences import *

WORK_DAYS = "MO,TU,WE,TH,FR"


def week_starts():
    """WKST with INTERVAL."""
    for interval, (days, since), week_start in itertools.product(
            (2, 3), (("TU,SU", "20240305"), ("MO,WE,FR", "20240101T083000"), ("SA,SU", "20240309"), ("SU,MO", "20241229T180000")),
            ("MO", "SU", "WE", "SA")):
        yield draft("week-start", WEEK_START, since, f"FREQ=WEEKLY;INTERVAL={interval};WKST={week_start};BYDAY={days}")
    for days, since in (("MO", "20240101"), ("TU,TH,SU", "20240201"), ("SA,SU,MO", "20240601T070000")):
        for week_start in ("SU", "TH"):
            yield draft("week-start", WEEK_START_IDLE, since, f"FREQ=WEEKLY;WKST={week_start};BYDAY={days}")


def set_positions():
    """BYSETPOS."""
    for days, positions in itertools.product((WORK_DAYS, "SA,SU", "TU"), ("1", "-1", "2,-2", "1,3,-1")):
        yield draft("set-position", SET_POSITION, "20240101", f"FREQ=MONTHLY;BYDAY={days};BYSETPOS={positions}")
    for rule, since in (
            ("FREQ=MONTHLY;BYMONTHDAY=13,14,15;BYDAY=MO,TU,WE,TH,FR;BYSETPOS=-1", "20240101"),
            ("FREQ=MONTHLY;INTERVAL=3;BYDAY=MO,TU,WE,TH,FR;BYSETPOS=-1", "20240101T170000"),
            ("FREQ=MONTHLY;BYMONTHDAY=28,29,30,31;BYSETPOS=-1", "20240101"),
            ("FREQ=YEARLY;BYDAY=MO,TU,WE,TH,FR;BYSETPOS=1", "20240101"),
            ("FREQ=YEARLY;BYDAY=MO,TU,WE,TH,FR;BYSETPOS=-1", "20240101"),
            ("FREQ=YEARLY;BYDAY=SU;BYSETPOS=1,13,26,39,52", "20240101"),
            ("FREQ=YEARLY;BYMONTH=3,6,9,12;BYDAY=FR;BYSETPOS=1,-1", "20240101"),
            ("FREQ=YEARLY;BYMONTH=11;BYDAY=TH;BYSETPOS=4", "20240101"),
            ("FREQ=YEARLY;BYYEARDAY=1,100,200,366;BYSETPOS=-1", "20240101"),
            ("FREQ=DAILY;BYHOUR=8,12,18;BYSETPOS=2", "20240101T080000"),
            ("FREQ=DAILY;BYHOUR=8,12,18;BYMINUTE=0,30;BYSETPOS=1,-1", "20240101T080000"),
            ("FREQ=DAILY;INTERVAL=2;BYHOUR=6,7;BYMINUTE=15,45;BYSECOND=0,30;BYSETPOS=3,-3", "20240101T060000"),
            ("FREQ=HOURLY;BYMINUTE=5,25,45;BYSETPOS=-1", "20240101T080500"),
            ("FREQ=HOURLY;INTERVAL=5;BYMINUTE=0,20,40;BYSECOND=0,30;BYSETPOS=2,-2", "20240101T080000"),
            ("FREQ=MINUTELY;INTERVAL=7;BYSECOND=10,20,30;BYSETPOS=1", "20240101T080010"),
            ("FREQ=MINUTELY;BYSECOND=0,15,30,45;BYSETPOS=2,3", "20240101T080000"),
            ("FREQ=MONTHLY;BYDAY=MO,WE;BYHOUR=9,17;BYSETPOS=1,-1", "20240101T090000"),
            ("FREQ=WEEKLY;BYDAY=MO,WE,FR;BYSETPOS=2", "20240101"),
            ("FREQ=WEEKLY;BYDAY=MO,WE,FR;BYSETPOS=-1", "20240101"),
            ("FREQ=WEEKLY;INTERVAL=2;BYDAY=SU,MO;BYSETPOS=1;WKST=SU", "20240101"),
            ("FREQ=WEEKLY;INTERVAL=2;BYDAY=SU,MO;BYSETPOS=1;WKST=MO", "20240101")):
        yield draft("set-position", SET_POSITION, since, rule)
    for rule, since in (
            ("FREQ=WEEKLY;WKST=WE;BYDAY=MO,WE,TH,SA;BYSETPOS=1,2", "20300801"),
            ("FREQ=WEEKLY;BYDAY=MO,TU,WE,TH,FR;BYSETPOS=1,3", "20240103"),
            ("FREQ=WEEKLY;INTERVAL=2;BYDAY=TU,TH,SA;BYSETPOS=2,3", "20240104T100000"),
            ("FREQ=MONTHLY;BYDAY=MO,TU,WE,TH,FR;BYSETPOS=1,10", "20240112"),
            ("FREQ=MONTHLY;BYMONTHDAY=5,10,15,20;BYSETPOS=2,4", "20240110"),
            ("FREQ=YEARLY;BYMONTH=1,4,7,10;BYMONTHDAY=1;BYSETPOS=1,3", "20240701"),
            ("FREQ=DAILY;BYHOUR=8,12,18;BYSETPOS=1,3", "20240101T180000"),
            ("FREQ=HOURLY;BYMINUTE=10,20,30,40;BYSETPOS=1,2,4", "20240101T092000")):
        yield draft("set-position-first-interval", SET_POSITION_FIRST, since, rule, tags=["set-position"])
    for rule, since in (
            ("FREQ=MONTHLY;BYDAY=FR;BYSETPOS=5", "20240101"),
            ("FREQ=MONTHLY;BYDAY=SA,SU;BYSETPOS=10", "20240101"),
            ("FREQ=MONTHLY;BYDAY=MO;BYSETPOS=-5", "20240101T120000"),
            ("FREQ=MONTHLY;BYMONTHDAY=29,30,31;BYSETPOS=3", "20240131"),
            ("FREQ=YEARLY;BYDAY=MO;BYSETPOS=53", "20240101"),
            ("FREQ=YEARLY;BYMONTH=2;BYDAY=MO,TU,WE,TH,FR,SA,SU;BYSETPOS=29", "20240101")):
        yield draft("set-position-beyond", SET_POSITION_BEYOND, since, rule, tags=["set-position"])


def week_numbers():
    """BYWEEKNO, over the year's end too."""
    for number, (day, week_start) in itertools.product(("2", "20", "-3", "10,40"), (("MO", "MO"), ("SU", "MO"), ("SU", "SU"), ("WE", "TH"))):
        yield draft("week-number", WEEK_NUMBER, "20240108", f"FREQ=YEARLY;BYWEEKNO={number};BYDAY={day};WKST={week_start}")
    for number, (day, week_start) in itertools.product(
            ("1", "53", "-1", "1,52"), (("MO", "MO"), ("SA,SU", "MO"), ("SU", "SU"), ("MO,TU,WE,TH,FR,SA,SU", "MO"), ("MO,FR", "WE"))):
        yield draft("week-over-new-year", WEEK_OVER_YEAR, "20240101", f"FREQ=YEARLY;BYWEEKNO={number};BYDAY={day};WKST={week_start}", first=16,
                    tags=["week-number"])
    for rule, since in (("FREQ=YEARLY;BYWEEKNO=20", "20240515"), ("FREQ=YEARLY;BYWEEKNO=20,30;WKST=SU", "20240512T090000"),
                        ("FREQ=YEARLY;BYWEEKNO=-10", "20241021"), ("FREQ=YEARLY;INTERVAL=2;BYWEEKNO=26", "20240628")):
        yield draft("week-day-from-start", WEEK_DAY_FROM_START, since, rule, tags=["week-number", "from-start"])
    for rule, since in (("FREQ=YEARLY;INTERVAL=2;BYWEEKNO=10,20;BYDAY=TU", "20240101"),
                        ("FREQ=YEARLY;INTERVAL=3;BYWEEKNO=-20;BYDAY=SA;WKST=SU", "20240101T101500"),
                        ("FREQ=YEARLY;BYWEEKNO=15,16,17;BYMONTH=4;BYDAY=MO", "20240101"),
                        ("FREQ=YEARLY;BYWEEKNO=27;BYDAY=MO,TU;BYHOUR=8,9", "20240101T080000")):
        yield draft("week-number", WEEK_NUMBER, since, rule)


def numbered_days():
    """BYDAY with numbers."""
    for number in ("1MO", "10TU", "20MO", "52SU", "53SU", "53TU", "-1FR", "-10WE", "-53TH", "1SU,-1SU", "1TU,13FR"):
        yield draft("numbered-day-in-year", DAY_IN_YEAR, "20240101", f"FREQ=YEARLY;BYDAY={number}")
    for rule, since in (("FREQ=YEARLY;INTERVAL=2;BYDAY=10MO,-10MO", "20240101"), ("FREQ=YEARLY;BYDAY=26WE;BYHOUR=9,15", "20240101T090000"),
                        ("FREQ=YEARLY;BYDAY=53MO,53SA", "20240101"), ("FREQ=YEARLY;BYDAY=+3SU", "20240101")):
        yield draft("numbered-day-in-year", DAY_IN_YEAR, since, rule)
    for month, days in (("3", "2SU"), ("11", "1SU"), ("10", "-1SU"), ("3,10", "-1SU"), ("5", "-1MO"), ("2", "5FR"), ("1,7", "1MO,3WE"), ("11", "4TH"),
                        ("6", "5SA,-5SA"), ("9", "1MO"), ("2,8", "-1FR"), ("12", "-2TU")):
        yield draft("numbered-day-in-month-of-year", DAY_IN_MONTH_OF_YEAR, "20240101T020000", f"FREQ=YEARLY;BYMONTH={month};BYDAY={days}")
    for interval, days in ((3, "1MO"), (4, "-1TH"), (2, "5SU")):
        yield draft("numbered-day-in-month-of-year", DAY_IN_MONTH_OF_YEAR, "20240101", f"FREQ=YEARLY;INTERVAL={interval};BYMONTH=3,9;BYDAY={days}")
    yield draft("numbered-day-in-year", DAY_IN_YEAR, "20240101", "FREQ=YEARLY;BYMONTHDAY=1,2,3,4,5;BYDAY=1MO")
    yield draft("numbered-day-in-month-of-year", DAY_IN_MONTH_OF_YEAR, "20240101", "FREQ=YEARLY;BYMONTH=3,11;BYMONTHDAY=1,3,5,7;BYDAY=1SU")
    yield draft("numbered-day-in-month", DAY_IN_MONTH, "20240101", "FREQ=MONTHLY;BYMONTHDAY=8,9,10;BYDAY=2WE")
    for days in ("1MO", "2TU", "3WE", "4TH", "5FR", "-1FR", "-2MO", "-3SU", "-4SA", "-5WE", "1SU,3SU", "1MO,-1FR", "5MO,5TU", "2SA,-2SA", "+1TU"):
        yield draft("numbered-day-in-month", DAY_IN_MONTH, "20240101", f"FREQ=MONTHLY;BYDAY={days}")
    for rule, since in (
            ("FREQ=MONTHLY;INTERVAL=2;BYDAY=2TU", "20240101"), ("FREQ=MONTHLY;INTERVAL=5;BYDAY=-1MO", "20240101T093000"),
            ("FREQ=MONTHLY;BYMONTH=3,6,9,12;BYDAY=3FR", "20240101"), ("FREQ=MONTHLY;BYDAY=1MO,1TU,1WE,1TH,1FR;BYSETPOS=1", "20240101"),
            ("FREQ=MONTHLY;BYDAY=TU,1FR", "20240101"), ("FREQ=MONTHLY;INTERVAL=7;BYDAY=5SA", "20240101")):
        yield draft("numbered-day-in-month", DAY_IN_MONTH, since, rule)


def missing_days():
    """Days that a month or a year lacks."""
    for rule, since in (
            ("FREQ=MONTHLY", "20240131"), ("FREQ=MONTHLY", "20240130"), ("FREQ=MONTHLY", "20230129"), ("FREQ=MONTHLY;INTERVAL=2", "20240831T090000"),
            ("FREQ=MONTHLY;INTERVAL=6", "20240831"), ("FREQ=MONTHLY;BYMONTHDAY=31", "20240101"), ("FREQ=MONTHLY;BYMONTHDAY=29,30,31", "20230101"),
            ("FREQ=MONTHLY;BYMONTHDAY=30;COUNT=8", "20240101"),
            ("FREQ=MONTHLY;BYMONTHDAY=-31", "20240101"),
            ("FREQ=MONTHLY;BYMONTHDAY=-30,-29", "20240101"),
            ("FREQ=YEARLY;BYMONTH=1,2,3,4", "20240131"), ("FREQ=YEARLY;BYMONTH=2,4,6;BYMONTHDAY=30", "20240101"),
            ("FREQ=DAILY;BYMONTHDAY=31", "20240101T000000"), ("FREQ=YEARLY;BYMONTHDAY=31", "20240101"), ("FREQ=MONTHLY;COUNT=5", "20240131T235959"),
            ("FREQ=YEARLY;INTERVAL=2;BYMONTH=2,3;BYMONTHDAY=-30,29", "20240101")):
        yield draft("missing-day", MISSING_DAY, since, rule)
    for rule, since in (
            ("FREQ=YEARLY", "20240229"),
            ("FREQ=YEARLY", "20960229"),
            ("FREQ=YEARLY;COUNT=3", "18960229T120000"),
            ("FREQ=YEARLY;INTERVAL=2", "20240229"),
            ("FREQ=YEARLY;INTERVAL=3", "20240229"), ("FREQ=YEARLY;INTERVAL=5", "20240229"), ("FREQ=YEARLY;INTERVAL=100", "20000229"),
            ("FREQ=YEARLY;BYMONTH=2;BYMONTHDAY=29", "20240101T093000"), ("FREQ=YEARLY;BYMONTH=2;BYMONTHDAY=-29", "20240101"),
            ("FREQ=MONTHLY;INTERVAL=12", "20240229"), ("FREQ=MONTHLY;BYMONTH=2", "20240229"), ("FREQ=MONTHLY;BYMONTH=2;BYMONTHDAY=-1", "20240101"),
            ("FREQ=DAILY;BYMONTH=2;BYMONTHDAY=29", "20240101"), ("FREQ=YEARLY;BYMONTH=2;BYMONTHDAY=29;BYDAY=SA", "20240101"),
            ("FREQ=DAILY;INTERVAL=2;BYMONTH=2;BYMONTHDAY=29", "20240229"), ("FREQ=YEARLY;UNTIL=21050101", "20880229")):
        yield draft("leap-day", LEAP_DAY, since, rule)


def days_by_number():
    """BYYEARDAY and BYMONTHDAY, from the front and the back, and BYMONTHDAY in YEARLY."""
    for numbers in ("1", "60", "366", "100,200,300", "1,-1", "59,60,61"):
        yield draft("year-day", YEAR_DAY, "20240101", f"FREQ=YEARLY;BYYEARDAY={numbers}")
    for rule in ("FREQ=YEARLY;INTERVAL=3;BYYEARDAY=60,366", "FREQ=YEARLY;BYYEARDAY=61;BYDAY=FR", "FREQ=YEARLY;BYYEARDAY=1,32,60;BYMONTH=2,3"):
        yield draft("year-day", YEAR_DAY, "20240101", rule)
    for numbers in ("-1", "-306", "-366", "-365", "-31,-30"):
        yield draft("year-day-from-the-back", YEAR_DAY_BACK, "20240101T070000", f"FREQ=YEARLY;BYYEARDAY={numbers}")
    for numbers in ("-1", "-10", "-2,2", "-28", "15,-15", "1,-1"):
        yield draft("month-day-from-the-back", MONTH_DAY_BACK, "20240101", f"FREQ=MONTHLY;BYMONTHDAY={numbers}")
    for rule in ("FREQ=YEARLY;BYMONTH=2;BYMONTHDAY=-1", "FREQ=YEARLY;BYMONTH=2,4;BYMONTHDAY=-2,-1", "FREQ=MONTHLY;INTERVAL=3;BYMONTHDAY=-7",
                 "FREQ=MONTHLY;BYMONTHDAY=-3,-2,-1;BYDAY=FR"):
        yield draft("month-day-from-the-back", MONTH_DAY_BACK, "20240101", rule)
    for rule, since in (
            ("FREQ=YEARLY;BYMONTHDAY=15", "20240101"),
            ("FREQ=YEARLY;BYMONTHDAY=1,-1", "20240101"),
            ("FREQ=YEARLY;INTERVAL=2;BYMONTHDAY=13", "20240101"),
                        ("FREQ=YEARLY;BYMONTHDAY=13;BYDAY=FR", "20240101"), ("FREQ=YEARLY;BYMONTHDAY=10;COUNT=14", "20240610T120000"),
                        ("FREQ=YEARLY;BYMONTHDAY=15;BYMONTH=1,6", "20240101")):
        yield draft("yearly-month-day", YEARLY_MONTH_DAY, since, rule, first=14)
    for rule in ("FREQ=MONTHLY;BYMONTHDAY=31,-1", "FREQ=MONTHLY;BYMONTHDAY=15,-15,16,-16", "FREQ=MONTHLY;BYDAY=5FR,-1FR", "FREQ=MONTHLY;BYDAY=1MO,MO",
                 "FREQ=YEARLY;BYYEARDAY=366,-1,365", "FREQ=YEARLY;BYDAY=53MO,-1MO", "FREQ=DAILY;BYHOUR=9,9", "FREQ=MONTHLY;BYMONTHDAY=28,29,30,31,-1;COUNT=9"):
        yield draft("named-twice", LISTED_TWICE, "20240101T090000" if "HOUR" in rule else "20240101", rule)


def ends():
    """UNTIL and COUNT."""
    for rule, since in (
            ("FREQ=DAILY;UNTIL=20240105T235959", "20240101T235959"), ("FREQ=DAILY;UNTIL=20240105T235958", "20240101T235959"),
            ("FREQ=WEEKLY;UNTIL=20240129T090000", "20240101T090000"), ("FREQ=WEEKLY;UNTIL=20240129T085959", "20240101T090000"),
            ("FREQ=HOURLY;INTERVAL=6;UNTIL=20240102T000000", "20240101T000000"),
            ("FREQ=MINUTELY;INTERVAL=20;UNTIL=20240101T095959", "20240101T090000"),
            ("FREQ=SECONDLY;INTERVAL=15;UNTIL=20240101T000100", "20240101T000000"),
            ("FREQ=MONTHLY;BYDAY=-1FR;UNTIL=20240628T120000", "20240101T120000"),
            ("FREQ=MONTHLY;BYDAY=MO,TU,WE,TH,FR;BYSETPOS=-1;UNTIL=20240531T100000", "20240101T100000"),
            ("FREQ=DAILY;UNTIL=20240101T090000", "20240101T090000"),
            ("FREQ=YEARLY;BYMONTH=12;BYMONTHDAY=31;UNTIL=20301231T235959", "20240101T235959")):
        yield draft("until-at-the-last-second", UNTIL, since, rule, first=40)
    for rule, since in (
            ("FREQ=DAILY;UNTIL=20240105", "20240101"),
            ("FREQ=WEEKLY;BYDAY=MO,WE,FR;UNTIL=20240131", "20240101"),
            ("FREQ=MONTHLY;UNTIL=20241230", "20240131"),
                        ("FREQ=YEARLY;UNTIL=20290228", "20240229"),
                        ("FREQ=DAILY;INTERVAL=3;UNTIL=20240115", "20240101"),
                        ("FREQ=DAILY;UNTIL=20240101", "20240101")):
        yield draft("until-is-a-date", UNTIL_DATE, since, rule, first=40)
    for rule, since in (("FREQ=DAILY;UNTIL=20240105T093000Z", "20240101T093000Z"), ("FREQ=DAILY;UNTIL=20240105T092959Z", "20240101T093000Z"),
                        ("FREQ=MONTHLY;BYMONTHDAY=-1;UNTIL=20240531T220000Z", "20240131T220000Z"),
                        ("FREQ=HOURLY;INTERVAL=5;UNTIL=20240102T000000Z", "20240101T230000Z")):
        yield draft("start-in-utc", UNTIL_UTC, since, rule, first=40)
    for rule, since in (
            ("FREQ=DAILY;COUNT=1", "20240101"),
            ("FREQ=WEEKLY;BYDAY=MO,TH;COUNT=7", "20240104"),
            ("FREQ=MONTHLY;BYMONTHDAY=31;COUNT=4", "20240131T010000"),
                        ("FREQ=YEARLY;BYMONTH=2;BYMONTHDAY=29;COUNT=4", "20960229"),
                        ("FREQ=MONTHLY;BYDAY=SA;COUNT=6", "20240120"),
                        ("FREQ=HOURLY;BYMINUTE=0,30;COUNT=5", "20240101T083000"),
                        ("FREQ=DAILY;BYHOUR=6,18;COUNT=3", "20240101T180000"), ("FREQ=MONTHLY;BYDAY=MO,TU,WE;BYSETPOS=1,-1;COUNT=5", "20240131"),
                        ("FREQ=YEARLY;BYWEEKNO=1;BYDAY=MO,SU;COUNT=4", "20240107"),
                        ("FREQ=WEEKLY;INTERVAL=2;WKST=SU;BYDAY=SU,SA;COUNT=5", "20240106T080000")):
        yield draft("count", COUNT, since, rule, first=40)


def dates_beside():
    """RDATE and EXDATE beside a rule."""
    for why, rule, since, dates, exceptions, tag in (
            (EXCEPTION, "FREQ=DAILY", "20240101", [], ["20240103", "20240105"], "exception"),
            (EXCEPTION, "FREQ=WEEKLY;BYDAY=MO,FR", "20240101T093000", [], ["20240105T093000", "20240106T093000"], "exception"),
            (EXCEPTION, "FREQ=MONTHLY;BYDAY=-1FR", "20240126", [], ["20240329"], "exception"),
            (EXCEPTION, "FREQ=HOURLY;INTERVAL=8", "20240101T000000", [], ["20240101T080000", "20240102T000000"], "exception"),
            (EXCEPTION, "FREQ=YEARLY;INTERVAL=4", "20240229", [], ["20280229"], "exception"),
            (EXCEPTION_COUNTED, "FREQ=DAILY;COUNT=5", "20240101", [], ["20240102"], "count-and-exception"),
            (EXCEPTION_COUNTED, "FREQ=WEEKLY;BYDAY=TU,TH;COUNT=6", "20240102T080000", [], ["20240104T080000", "20240118T080000"], "count-and-exception"),
            (EXCEPTION_COUNTED, "FREQ=MONTHLY;BYDAY=MO;BYSETPOS=1;COUNT=4", "20240101", [], ["20240205"], "count-and-exception"),
            (EXCEPTION_COUNTED, "FREQ=DAILY;UNTIL=20240104", "20240101", [], ["20240104"], "count-and-exception"),
            (EXCEPTION_START, "FREQ=DAILY;COUNT=4", "20240101", [], ["20240101"], "exception-of-the-start"),
            (EXCEPTION_START, "FREQ=WEEKLY;COUNT=3", "20240101T120000", [], ["20240101T120000"], "exception-of-the-start"),
            (EXCEPTION_START, "FREQ=MONTHLY;BYMONTHDAY=31", "20240131", [], ["20240131"], "exception-of-the-start"),
            (DATE_ADDED, "FREQ=WEEKLY;COUNT=4", "20240101", ["20240103", "20240220"], [], "date-added"),
            (DATE_ADDED, "FREQ=DAILY;INTERVAL=10;COUNT=3", "20240101T090000", ["20240101T150000", "20240112T090000"], [], "date-added"),
            (DATE_ADDED, "FREQ=MONTHLY;BYDAY=1MO", "20240101", ["20240214", "20240229"], [], "date-added"),
            (DATE_ADDED, "FREQ=YEARLY;UNTIL=20260101", "20240101", ["20270101", "20240601"], [], "date-added"),
            (DATE_TWICE, "FREQ=DAILY;COUNT=5", "20240101", ["20240103", "20240109"], [], "date-twice"),
            (DATE_TWICE, "FREQ=WEEKLY", "20240101T090000", ["20240108T090000", "20240108T100000"], [], "date-twice"),
            (DATE_TWICE, "FREQ=MONTHLY", "20240115", ["20240115", "20240215"], [], "date-twice"),
            (DATE_TWICE, "FREQ=WEEKLY;COUNT=3", "20240101", ["20240101", "20240110", "20240110"], [], "date-twice"),
            (EXCEPTION_WINS, "FREQ=WEEKLY;COUNT=3", "20240101", ["20240103", "20240104"], ["20240103", "20240108"], "exception-wins"),
            (EXCEPTION_WINS, "FREQ=DAILY", "20240101T080000", ["20240102T200000"], ["20240102T200000"], "exception-wins"),
            (EXCEPTION_WINS, "FREQ=DAILY;COUNT=2", "20240101", ["20240102"], ["20240102"], "exception-wins"),
            (DATES_ALONE, None, "20240101", ["20240301", "20240201"], [], "dates-alone"),
            (DATES_ALONE, None, "20240101T090000", ["20240301T100000", "20240101T090000"], [], "dates-alone")):
        yield draft(tag, why, since, *([rule] if rule else []), dates=dates, exceptions=exceptions, first=12)


def limits_and_expansions():
    """What a part does in each frequency."""
    for rule, since in (
            ("FREQ=DAILY;BYMONTH=1,12", "20241201"), ("FREQ=DAILY;BYMONTHDAY=1,15,-1", "20240101"), ("FREQ=DAILY;BYDAY=SA,SU", "20240101"),
            ("FREQ=DAILY;BYMONTHDAY=13;BYDAY=FR", "20240101"),
            ("FREQ=DAILY;INTERVAL=2;BYDAY=MO", "20240101"),
            ("FREQ=DAILY;INTERVAL=3;BYMONTH=2", "20240101"),
            ("FREQ=WEEKLY;BYMONTH=1,7;BYDAY=MO", "20240101"),
            ("FREQ=WEEKLY;BYMONTH=2;BYDAY=SA,SU", "20240101T100000"),
            ("FREQ=WEEKLY;INTERVAL=2;BYMONTH=12;BYDAY=TU,SU", "20241201"),
            ("FREQ=WEEKLY;BYMONTH=3", "20240301"),
            ("FREQ=MONTHLY;BYMONTH=2,8;BYMONTHDAY=10,20", "20240101"),
            ("FREQ=MONTHLY;BYMONTHDAY=1,2,3,4,5,6,7;BYDAY=MO", "20240101"),
            ("FREQ=MONTHLY;BYDAY=MO", "20240101"),
            ("FREQ=MONTHLY;BYMONTHDAY=13;BYDAY=FR", "20240101"),
            ("FREQ=MONTHLY;BYMONTH=5;BYDAY=SU", "20240101"),
            ("FREQ=MONTHLY;BYMONTHDAY=15;BYHOUR=8,20", "20240101T080000"),
            ("FREQ=YEARLY;BYMONTH=6;BYDAY=SA", "20240101"),
            ("FREQ=YEARLY;BYDAY=MO", "20240101"),
            ("FREQ=YEARLY;BYMONTH=1;BYMONTHDAY=1,2,3,4,5,6,7;BYDAY=MO,SU", "20240101"), ("FREQ=YEARLY;BYYEARDAY=1,2,3,4,5,6,7;BYDAY=TU", "20240101"),
            ("FREQ=YEARLY;BYMONTH=5,6;BYYEARDAY=140,150,160", "20240101"), ("FREQ=YEARLY;BYMONTH=4;BYHOUR=6;BYMINUTE=0,30", "20240401T060000"),
            ("FREQ=HOURLY;BYHOUR=9,17", "20240101T090000"),
            ("FREQ=HOURLY;BYDAY=WE;BYHOUR=8,9", "20240101T080000"),
            ("FREQ=HOURLY;BYMONTH=2;INTERVAL=5", "20240201T030000"),
            ("FREQ=HOURLY;BYMONTHDAY=-1;BYHOUR=23", "20240101T230000"),
            ("FREQ=HOURLY;BYYEARDAY=1,-1;INTERVAL=10", "20240101T000000"),
            ("FREQ=HOURLY;BYMINUTE=0,20,40;BYHOUR=10", "20240101T100000"),
            ("FREQ=MINUTELY;BYHOUR=12;BYMINUTE=0,30", "20240101T120000"),
            ("FREQ=MINUTELY;INTERVAL=25;BYDAY=SU", "20240107T000000"),
            ("FREQ=MINUTELY;BYMONTH=12;BYMONTHDAY=31;BYHOUR=23;BYMINUTE=59", "20241231T235900"),
            ("FREQ=MINUTELY;BYYEARDAY=366;BYHOUR=0;BYMINUTE=0,1", "20241231T000000"),
            ("FREQ=SECONDLY;BYMINUTE=0;BYSECOND=0,30", "20240101T000000"),
            ("FREQ=SECONDLY;BYMONTH=1;BYMONTHDAY=1;BYHOUR=0;BYMINUTE=0;BYSECOND=0", "20240101T000000"),
            ("FREQ=SECONDLY;INTERVAL=7;BYHOUR=0;BYMINUTE=0", "20240101T000000"),
            ("FREQ=SECONDLY;BYDAY=MO;BYHOUR=0;BYMINUTE=0;BYSECOND=1,59", "20240101T000001")):
        yield draft("limit-or-expand", "table", since, rule)


def intervals():
    """INTERVAL in fine frequencies, over midnight, months and years."""
    for rule, since, said in (
            ("FREQ=HOURLY;INTERVAL=7", "20240101T090000", "7 in an HOURLY rule is every seven hours"),
            ("FREQ=HOURLY;INTERVAL=25", "20240227T230000", "25 in an HOURLY rule is every 25 hours"),
            ("FREQ=HOURLY;INTERVAL=36;COUNT=5", "20241230T120000", "36 in an HOURLY rule is every 36 hours"),
            ("FREQ=MINUTELY;INTERVAL=90", "20240228T230000", "90 in a MINUTELY rule is every 90 minutes"),
            ("FREQ=MINUTELY;INTERVAL=1441", "20241230T235900", "1441 in a MINUTELY rule is every 1441 minutes"),
            ("FREQ=MINUTELY;INTERVAL=7", "20240101T235000", "7 in a MINUTELY rule is every seven minutes"),
            ("FREQ=SECONDLY;INTERVAL=45", "20240101T235800", "45 in a SECONDLY rule is every 45 seconds"),
            ("FREQ=SECONDLY;INTERVAL=100000", "20240101T000000", "100000 in a SECONDLY rule is every 100,000 seconds"),
            ("FREQ=DAILY;INTERVAL=100", "20240101", "100 in a DAILY rule is every 100 days"),
            ("FREQ=DAILY;INTERVAL=365", "20240229", "365 in a DAILY rule is every 365 days"),
            ("FREQ=WEEKLY;INTERVAL=53", "20240101", "53 in a WEEKLY rule is every 53 weeks"),
            ("FREQ=MONTHLY;INTERVAL=13", "20240115", "13 in a MONTHLY rule is every 13 months"),
            ("FREQ=MONTHLY;INTERVAL=18;BYMONTHDAY=1,-1", "20240901T000000", "18 in a MONTHLY rule is every 18 months"),
            ("FREQ=YEARLY;INTERVAL=7;BYMONTH=2,3", "20240210", "7 in a YEARLY rule is every seven years"),
            ("FREQ=HOURLY;INTERVAL=5;BYMINUTE=10,50", "20240101T081000", "5 in an HOURLY rule is every fifth hour"),
            ("FREQ=MINUTELY;INTERVAL=50;BYSECOND=0,30", "20240101T081000", "50 in a MINUTELY rule is every 50th minute")):
        yield draft("interval", INTERVAL % said, since, rule, first=12)


def from_start():
    """What the rule lacks comes from DTSTART."""
    for rule, since, what in (
            ("FREQ=WEEKLY", "20240103T081500", "weekday and the time"),
            ("FREQ=WEEKLY;INTERVAL=3", "20240106", "weekday"),
            ("FREQ=MONTHLY", "20240117T235959", "day of the month and the time"),
            ("FREQ=YEARLY", "20240704", "month and its day"),
            ("FREQ=YEARLY;BYMONTH=3,9", "20240321", "day of the month"),
            ("FREQ=MONTHLY;BYMONTH=3,9", "20240320T101010", "day of the month and the time"),
            ("FREQ=DAILY;BYHOUR=7,19", "20240101T073015", "minute and the second"),
            ("FREQ=DAILY;BYMINUTE=0,30", "20240101T080005", "hour and the second"),
            ("FREQ=DAILY;BYSECOND=0,30", "20240101T081200", "hour and the minute"),
            ("FREQ=HOURLY", "20240101T221530", "minute and the second"),
            ("FREQ=HOURLY;BYMINUTE=1,2", "20240101T220107", "second"),
            ("FREQ=MINUTELY", "20240101T235745", "second"),
            ("FREQ=YEARLY;BYHOUR=0,12", "20240815T123000", "month, its day, the minute and the second"),
            ("FREQ=MONTHLY;BYHOUR=9;BYMINUTE=0", "20240831T090042", "day of the month and the second"),
            ("FREQ=WEEKLY;BYHOUR=9,10", "20240105T090000", "weekday, the minute and the second"),
            ("FREQ=YEARLY;BYDAY=1MO;BYHOUR=8", "20240101T081122", "minute and the second")):
        yield draft("from-start", FROM_START % what, since, rule)


FAMILIES = [week_starts, set_positions, week_numbers, numbered_days, missing_days, days_by_number, ends, dates_beside, limits_and_expansions, intervals, from_start]
