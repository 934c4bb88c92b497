"""Cases that the standard leaves open, each with the readings that are known. A reading is a name with what it means: other readings of the
evaluator, another rule with the same meaning, or the occurrences themselves."""
from sentences import SECTION

UNSYNCHRONISED = "RFC 5545, section 3.8.5.3: the set generated with a DTSTART that is not synchronized with the rule is undefined."
SEVERAL = "RFC 5545, section 3.8.5.3: RRULE should not stand more than once, and the set generated with several is undefined."
WEEK_INTERVAL = f"{SECTION}, BYWEEKNO does not say whether a week at New Year is of the interval of its own year or of each calendar year that it cuts."
LEAP_SECOND = f"{SECTION} allows 60 in BYSECOND, for leap seconds, and does not say what recurs in a minute that has none."
UNTIL_TYPE = f"{SECTION}: UNTIL MUST have the value type of DTSTART; what a rule means that has not is left open."
EXCEPTION_TYPE = "RFC 5545, section 3.8.5.1: EXDATE may be a date beside a DTSTART with a time; whether it takes out all of that day is not said."
DATE_BEFORE = ("RFC 5545, section 3.8.5.3: DTSTART is the first instance of the set; section 3.8.5.2 does not say what an RDATE before it is.")

START_READINGS = {"start only if the rule chooses it": {"readings": {"start": "start only if the rule chooses it"}},
                  "start always counts": {"readings": {"start": "start always counts"}}}
WEEK_READINGS = {"weeks of the interval's year": {"readings": {"weeks": "weeks of the interval's year"}},
                 "weeks that the interval's calendar year cuts": {"readings": {"weeks": "weeks that the interval's calendar year cuts"}}}
RULE_READINGS = {name: {"readings": {"rules": name}} for name in ("all rules together", "the first rule alone", "the last rule alone")}


def left_open():
    """(tag, why, start, rules, dates, exceptions, readings)"""
    for rule, since in (
            ("FREQ=WEEKLY;BYDAY=MO", "20240103"),
            ("FREQ=WEEKLY;BYDAY=MO;COUNT=4", "20240103"),
            ("FREQ=MONTHLY;BYMONTHDAY=15", "20240101"),
                        ("FREQ=MONTHLY;BYDAY=1FR;COUNT=3", "20240110T090000"), ("FREQ=YEARLY;BYMONTH=3;BYDAY=-1SU", "20240101T020000"),
                        ("FREQ=DAILY;BYHOUR=9;COUNT=3", "20240101T083000"), ("FREQ=YEARLY;BYMONTH=2;BYMONTHDAY=29", "20240301"),
                        ("FREQ=DAILY;BYDAY=SA,SU;UNTIL=20240114", "20240102"), ("FREQ=MONTHLY;BYDAY=MO,TU,WE,TH,FR;BYSETPOS=-1", "20240115")):
        yield "start-not-synchronized", UNSYNCHRONISED, since, [rule], [], [], START_READINGS
    yield ("start-not-synchronized", UNSYNCHRONISED + " An example of its own, every Friday the 13th, has such a start, excludes it and lists the first reading.",
           "19970902T090000", ["FREQ=MONTHLY;BYDAY=FR;BYMONTHDAY=13"], [], ["19970902T090000"], {"start only if the rule chooses it": {}})
    for rule, since in (("FREQ=YEARLY;INTERVAL=2;BYWEEKNO=1;BYDAY=MO", "20240101"),
                        ("FREQ=YEARLY;BYWEEKNO=1;BYDAY=MO,TU,WE;BYSETPOS=1", "20240101"),
                        ("FREQ=YEARLY;INTERVAL=3;BYWEEKNO=-1;BYDAY=SA,SU", "20241228"),
                        ("FREQ=YEARLY;BYMONTH=12;BYWEEKNO=1;BYDAY=MO", "20241230")):
        yield "week-over-new-year", WEEK_INTERVAL, since, [rule], [], [], WEEK_READINGS
    for rules, since in (
            (["FREQ=WEEKLY;BYDAY=MO", "FREQ=MONTHLY;BYMONTHDAY=1"], "20240101"),
            (["FREQ=DAILY;COUNT=3", "FREQ=WEEKLY;COUNT=4"], "20240101T090000"),
                         (["FREQ=MONTHLY;BYDAY=1MO", "FREQ=MONTHLY;BYMONTHDAY=1;UNTIL=20240601"], "20240101"),
                         (["FREQ=YEARLY", "FREQ=DAILY;INTERVAL=100"], "20240101")):
        yield "several-rules", SEVERAL, since, rules, [], [], RULE_READINGS
    for a, second, minute in (("FREQ=DAILY;BYSECOND=0,60", "FREQ=DAILY;BYSECOND=0,59", "FREQ=DAILY;BYMINUTE=0,1;BYSECOND=0"),
                              ("FREQ=HOURLY;BYSECOND=0,60", "FREQ=HOURLY;BYSECOND=0,59", "FREQ=HOURLY;BYMINUTE=0,1;BYSECOND=0")):
        yield "leap-second", LEAP_SECOND, "20240101T090000", [a], [], [], {
            "the minute has no second 60": {"rule": a.replace(",60", "")}, "second 59": {"rule": second}, "second 0 of the next minute": {"rule": minute}}
    for rule, since, early, late in (
            ("FREQ=DAILY;UNTIL=20240105", "20240101T090000", "FREQ=DAILY;UNTIL=20240105T000000", "FREQ=DAILY;UNTIL=20240105T235959"),
            ("FREQ=HOURLY;INTERVAL=6;UNTIL=20240102", "20240101T000000", "FREQ=HOURLY;INTERVAL=6;UNTIL=20240102T000000", "FREQ=HOURLY;INTERVAL=6;UNTIL=20240102T235959"),
            ("FREQ=DAILY;UNTIL=20240105T090000", "20240101", "FREQ=DAILY;UNTIL=20240104", "FREQ=DAILY;UNTIL=20240105")):
        yield "until-of-another-type", UNTIL_TYPE, since, [rule], [], [], {"without the day of UNTIL, or to its midnight": {"rule": early}, "with the day of UNTIL": {"rule": late}}
    yield ("exception-of-another-type", EXCEPTION_TYPE, "20240101T090000", ["FREQ=DAILY;COUNT=4"], [], ["20240103"],
           {"the date takes out nothing": {"exceptions": []}, "the date takes out its day": {"exceptions": ["20240103T090000"]}})
    for rule, since, dates in (
            ("FREQ=WEEKLY;COUNT=3", "20240108", ["20240101"]),
            ("FREQ=MONTHLY;BYMONTHDAY=15", "20240115T090000", ["20231224T180000"])):
        yield "date-before-the-start", DATE_BEFORE, since, [rule], dates, [], {"it is an occurrence": {}, "it is left out": {"dates": []}}
