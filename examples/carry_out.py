#!/usr/bin/env python3
"""carry_out.py UID ZONE <PLAN >LIST

Carries out a plan of `rr split N graph` on paper: prints the events that Microsoft Graph has when each series of the plan was made, the
instances that it cancels were deleted, and each single event was made, as the list that `rr-calendars` reads as `graph:LIST`. Their
`iCalUId` is UID if the plan is one event; otherwise UID/1, UID/2 and so on, first the series and then the single events. ZONE is the time
zone of moments; dates have none. A plan that is none ends with a message and the status 1.
"""
import json
import sys

MIDNIGHT = "T00:00:00"


def start_of(moment, zone):
    """The start of an event: a moment in its zone, or the midnight with which a date begins."""
    return {"dateTime": moment, "timeZone": zone} if "T" in moment else {"dateTime": moment + MIDNIGHT, "timeZone": "UTC"}


def series(name, part, zone):
    """The event of a series, with the instances that it lost. A series of dates is stated by its recurrence alone."""
    event = part["event"]
    recurrence = event.get("recurrence", event)
    moment = event["start"]["dateTime"] if "start" in event else recurrence["range"]["startDate"]
    return {
        "id": name,
        "type": "seriesMaster",
        "isAllDay": "T" not in moment,
        "start": start_of(moment, zone),
        "recurrence": recurrence,
        "cancelledOccurrences": [f"OID.{name}.{cancelled[:10]}" for cancelled in part["cancelled"]],
        "exceptionOccurrences": [],
    }


def single(name, moment, zone):
    """An event that does not repeat."""
    return {"id": name, "type": "singleInstance", "isAllDay": "T" not in moment, "start": start_of(moment, zone)}


def events_of(plan, uid, zone):
    """The events of a plan, each with an iCalUId."""
    events = [series(f"series{number}", part, zone) for number, part in enumerate(plan["parts"], 1)]
    events += [single(f"single{number}", moment, zone) for number, moment in enumerate(plan["single"], 1)]
    if len(events) == 1:
        return [{"iCalUId": uid, **events[0]}]
    return [{"iCalUId": f"{uid}/{number}", **event} for number, event in enumerate(events, 1)]


def main():
    if len(sys.argv) != 3:
        sys.exit(__doc__)
    uid, zone = sys.argv[1:]
    try:
        events = events_of(json.load(sys.stdin), uid, zone)
    except (ValueError, KeyError, TypeError):
        sys.exit("carry_out.py: this is no plan for Microsoft Graph")
    print("[" + ",\n ".join(json.dumps(event) for event in events) + "]")


if __name__ == "__main__":
    main()
