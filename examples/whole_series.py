#!/usr/bin/env python3
"""whole_series.py RR UID <LIST >CANONICAL

Puts together again what was split into several events of Microsoft Graph: takes from a list, as `rr-calendars` reads it, the events whose
`iCalUId` is UID or begins with UID/, and prints the canonical text of the occurrences that they have together, without those that are
cancelled, and with moved ones at their new starts. RR is the program `rr`; `rr equal canon:CANONICAL rrule:OLD` then says whether they are the
series that they were. Times are local times: their zones are not looked at. It ends with the status 1 and a message if two events have an
occurrence in common, if the list has none of that UID, or if an event is refused.
"""
import json
import subprocess
import sys
import tempfile
from pathlib import Path


def fail(said):
    sys.exit(f"whole_series.py: {said}")


class Program:
    """rr, and a folder for what it is given."""

    def __init__(self, path, folder):
        self.path, self.folder = path, Path(folder)

    def run(self, *words, texts):
        """The status and the output; {0} in a word is the name of the first text."""
        names = [str(self.folder / str(place)) for place in range(len(texts))]
        for name, text in zip(names, texts):
            Path(name).write_bytes(text)
        done = subprocess.run([self.path, *(word.format(*names) for word in words)], stdout=subprocess.PIPE)
        return done.returncode, done.stdout

    def set_of(self, *words, texts):
        """The canonical text that a command prints."""
        status, out = self.run(*words, texts=texts)
        if status != 0:
            fail(f"rr {' '.join(words)}: {out.decode().strip()}")
        return out


def moment_of(event, day=None):
    """The start of an event, or this time on another day, as a line of a list."""
    at_day, time = event["start"]["dateTime"][:19].split("T")
    return (day or at_day) + ("" if event.get("isAllDay") else "T" + time) + "\n"


def set_of_event(program, event):
    """The canonical text of the occurrences of an event."""
    if not event.get("recurrence"):
        return program.set_of("canon", "list:{0}", texts=[moment_of(event).encode()])
    moved, cancelled = event.get("exceptionOccurrences"), event.get("cancelledOccurrences")
    if moved is None or cancelled is None or not all("occurrenceId" in instance for instance in moved):
        fail(f"{event['iCalUId']} does not say which instances are moved or cancelled")
    gone = cancelled + [instance["occurrenceId"] for instance in moved]
    days = "".join(moment_of(event, identity[-10:]) for identity in gone).encode()
    starts = "".join(moment_of(instance) for instance in moved if not instance.get("isCancelled")).encode()
    pattern = {name: event[name] for name in ("isAllDay", "recurrence", "start") if name in event}
    made = program.set_of("canon", "graph:{0}", texts=[json.dumps(pattern).encode()])
    if days:
        made = program.set_of("minus", "canon:{0}", "list:{1}", texts=[made, days])
    if starts:
        made = program.set_of("union", "canon:{0}", "list:{1}", texts=[made, starts])
    return made


def with_event(program, whole, event):
    """The canonical text of a set with the occurrences of one event more, of which the set has none."""
    made = set_of_event(program, event)
    status, out = program.run("disjoint", "canon:{0}", "canon:{1}", texts=[whole, made])
    if status != 0:
        fail(f"{event['iCalUId']} and an event before it: {out.decode().strip()}")
    return program.set_of("union", "canon:{0}", "canon:{1}", texts=[whole, made])


def events_of(answer, uid):
    """The events of a list that have a UID, or that and a number."""
    listed = answer["value"] if isinstance(answer, dict) else answer
    return [event for event in listed if (event.get("iCalUId", "") + "/").startswith(uid + "/")]


def main():
    if len(sys.argv) != 3:
        sys.exit(__doc__)
    path, uid = sys.argv[1:]
    events = events_of(json.load(sys.stdin), uid)
    if not events:
        fail(f"no event of {uid}")
    with tempfile.TemporaryDirectory() as folder:
        program = Program(path, folder)
        whole = set_of_event(program, events[0])
        for event in events[1:]:
            whole = with_event(program, whole, event)
    sys.stdout.buffer.write(whole)


if __name__ == "__main__":
    main()
