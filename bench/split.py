#!/usr/bin/env python3
"""bench/split.py PROGRAM [FOLDER..] [--seed N] [--count N] [--seconds N] [--jobs N]

Plans the rules of the worked cases, and of the calendar files below the folders, by `split 12 graph` and `split 12 vcal`, and checks each
plan with the same program: what its parts have without their cancelled occurrences, and its single ones, are apart and have the canonical
text of the rule; and each rule of vCalendar 1.0 is the one that `translate vcal` has for its event without dates taken out. The rules come
in an order that the seed decides (1 if none is given), and the first COUNT of them are taken (all). After SECONDS (120) no further one is
begun, and a rule that takes longer than 10 seconds is given up. How far it is stands on standard error. It prints how many rules have a
plan, how many have one pattern or rule already, what was not checked, and each plan that is wrong; the status is 0 if none is and at least
one was checked.
"""
import argparse
import collections
import concurrent.futures
import itertools
import json
import os
import random
import re
import subprocess
import sys
import tempfile
import time
from pathlib import Path

CASES = Path(__file__).resolve().parent.parent / "tests" / "cases"
PARTS = "12"
LANGUAGES = ("rrule", "rrule@+00:00", "vcal")
SECONDS_EACH = 10
SECONDS_BETWEEN_NOTES = 5


class Wrong(Exception):
    """A plan is wrong, for this reason."""


class NotChecked(Exception):
    """Nothing is known of a plan, for this reason."""


class Program:
    """rr, a folder for the texts that it is given, and the moment by which it has to answer."""

    def __init__(self, path, folder, deadline):
        self.path, self.folder, self.deadline = path, Path(folder), deadline

    def run(self, *words, texts=()):
        """The status and the output; {0} in a word is the name of the first text."""
        names = []
        for place, text in enumerate(texts):
            (self.folder / str(place)).write_bytes(text)
            names.append(str(self.folder / str(place)))
        line = [self.path, *(word.format(*names) for word in words)]
        try:
            left = max(self.deadline - time.monotonic(), 0.01)
            done = subprocess.run(line, stdout=subprocess.PIPE, stderr=subprocess.DEVNULL, timeout=left)
        except subprocess.TimeoutExpired:
            raise NotChecked(f"`{words[0]}` takes too long") from None
        return done.returncode, done.stdout

    def canon(self, operand, text):
        """The canonical text, or None where it is refused."""
        status, out = self.run("canon", operand + ":{0}", texts=[text])
        return out if status == 0 else None

    def says_yes(self, *words, texts):
        """Whether a verdict is yes."""
        status, out = self.run(*words, texts=texts)
        if status not in (0, 1):
            raise NotChecked(f"`{words[0]}` is refused: {out.decode().strip()}")
        return status == 0

    def set_of(self, *words, texts):
        """The canonical text that a command on two sets prints."""
        status, out = self.run(*words, texts=texts)
        if status != 0:
            raise NotChecked(f"`{words[0]}` is refused: {out.decode().strip()}")
        return out


# ---- the rules


def worked_rules():
    """The texts with a rule in the worked cases: those of rows, and those of blocks."""
    for file in sorted(CASES.glob("*.txt")):
        written = file.read_text(encoding="utf-8", errors="surrogateescape")
        for line in written.splitlines():
            yield from (text.replace("~", "\n") for text in re.findall(r"\|(DTSTART[^|%\\]*)(?=\|)", line))
        for block in re.findall(r"^[A-Z]\n((?:  .*\n)+)", written, re.M):
            yield re.sub(r"^  ", "", block, flags=re.M)


def rules_of_calendar(text):
    """The lines of each event and observance of a calendar that state its occurrences."""
    unfolded = re.sub(r"\r?\n[ \t]", "", text)
    for part in re.findall(r"^BEGIN:(?:VEVENT|STANDARD|DAYLIGHT)\s*?\n(.*?)^END:(?:VEVENT|STANDARD|DAYLIGHT)", unfolded, re.M | re.S):
        own = re.sub(r"^BEGIN:VALARM.*?^END:VALARM", "", part, flags=re.M | re.S)
        yield "".join(line.strip() + "\n" for line in own.splitlines() if re.match(r"(DTSTART|RRULE|RDATE|EXDATE|EXRULE)\b", line, re.I))


def has_rule(text):
    """Whether a text repeats by its words."""
    return re.search(r"^(RRULE|RDATE)", text, re.M | re.I) is not None


def all_rules(folders):
    """Each text with a rule or dates once."""
    texts = list(worked_rules())
    for folder in folders:
        for file in sorted(Path(folder).rglob("*.ics")):
            texts += rules_of_calendar(file.read_text(encoding="utf-8", errors="surrogateescape"))
    return list(filter(has_rule, dict.fromkeys(texts)))


def read_in(program, text):
    """The operand of the first language that reads a text, and its canonical text; or None."""
    for language in LANGUAGES:
        days = program.canon(language, text)
        if days is not None:
            return language, days
    return None


# ---- what a plan has


def listed(moments):
    """A text of dates or moments."""
    return "".join(moment + "\n" for moment in moments).encode()


def kept_by(program, part):
    """The canonical text of what a part of a plan keeps."""
    days = program.canon("graph", json.dumps(part["event"]).encode())
    if days is None:
        raise Wrong("a part is refused")
    if not part["cancelled"]:
        return days
    cancelled = listed(part["cancelled"])
    if not program.says_yes("within", "list:{0}", "canon:{1}", texts=[cancelled, days]):
        raise Wrong("a part cancels what it has not")
    return program.set_of("minus", "canon:{0}", "list:{1}", texts=[days, cancelled])


def graph_pieces(program, out):
    """The canonical text of what each part of a plan keeps, and of its single events."""
    plan = json.loads(out)
    moments = plan["single"] + [moment for part in plan["parts"] for moment in part["cancelled"]]
    if any(moment.index("-") > 4 for moment in moments):
        raise NotChecked("it has dates past the year 9999, which no list states")
    pieces = [kept_by(program, part) for part in plan["parts"]]
    return pieces + [program.canon("list", listed(plan["single"]))] * bool(plan["single"])


def event_piece(program, event):
    """The canonical text of an event of vCalendar 1.0."""
    rule = b"".join(line for line in event.splitlines(True) if not line.startswith(b"EXDATE"))
    if b"RRULE" in event:
        status, out = program.run("translate", "vcal", "vcal:{0}", texts=[rule])
        if status != 0 or rule != b"BEGIN:VEVENT\r\n" + out + b"END:VEVENT\r\n":
            raise Wrong("the rule of an event is not the one that `translate vcal` has for it")
    days = program.canon("vcal", event)
    if days is None:
        raise Wrong("an event is refused")
    return days


def vcal_pieces(program, out):
    """The canonical text of each event of a plan."""
    events = re.findall(rb"BEGIN:VEVENT\r\n.*?END:VEVENT\r\n", out, re.S)
    if b"".join(events) != out:
        raise Wrong("the text is no list of events")
    return [event_piece(program, event) for event in events]


PIECES = {"graph": graph_pieces, "vcal": vcal_pieces}


def parts_of(target, out):
    """How many series a plan has, and how many exceptions: what is cancelled or taken out, and what is single."""
    if target == "graph":
        plan = json.loads(out)
        return len(plan["parts"]), sum(len(part["cancelled"]) for part in plan["parts"]) + len(plan["single"])
    events = [event.count(b"RRULE") for event in out.split(b"END:VEVENT\r\n")[:-1]]
    single = out.count(b"RDATE") + events.count(0)
    return sum(map(bool, events)), out.count(b"EXDATE") + single


def check_plan(program, days, target, out):
    """Raises Wrong unless the pieces of a plan are apart and have these occurrences together."""
    pieces = PIECES[target](program, out)
    if not pieces:
        if days.splitlines()[1:] != [b"none"]:
            raise Wrong("an empty plan of occurrences")
        return
    made = pieces[0]
    for piece in pieces[1:]:
        if not program.says_yes("disjoint", "canon:{0}", "canon:{1}", texts=[made, piece]):
            raise Wrong("two parts have an occurrence in common")
        made = program.set_of("union", "canon:{0}", "canon:{1}", texts=[made, piece])
    if made != days:
        raise Wrong("another canonical text")


def outcome(program, text, target):
    """What becomes of a rule: a word for the count."""
    bytes_ = text.encode(errors="surrogateescape")
    read = read_in(program, bytes_)
    if read is None:
        return "refused"
    language, days = read
    status, out = program.run("split", PARTS, target, language + ":{0}", texts=[bytes_])
    if status != 0:
        if out != b"refused A NotSayable\n":
            raise Wrong(f"the answer {out!r} with status {status}")
        return "no plan"
    check_plan(program, days, target, out)
    if days.splitlines()[1:] == [b"none"]:
        return "empty"
    one = program.run("translate", target, language + ":{0}", texts=[bytes_])[0] == 0
    if one and (parts_of(target, out) != (1, 0)):
        raise Wrong("one pattern or rule has the occurrences, and the plan is another one")
    return "one pattern or rule" if one else "plan"


# ---- the run


def tried(path, text, target, deadline):
    """What becomes of a rule: a word for the count, and what is wrong or why nothing is known."""
    begun = time.monotonic()
    if begun >= deadline:
        return "not reached", None
    with tempfile.TemporaryDirectory() as folder:
        try:
            return outcome(Program(path, folder, begun + SECONDS_EACH), text, target), None
        except Wrong as why:
            return "wrong", f"wrong: {target}: {why}: {text!r}"
        except NotChecked as why:
            return "not checked", f"not checked: {target}: {why}: {text!r}"


class Progress:
    """Notes on standard error how far a run is, every few seconds."""

    def __init__(self, all_of):
        self.all_of, self.done, self.begun = all_of, 0, time.monotonic()
        self.noted = self.begun

    def step(self):
        self.done += 1
        now = time.monotonic()
        if now - self.noted >= SECONDS_BETWEEN_NOTES:
            self.noted = now
            print(f"{now - self.begun:5.0f} s: {self.done} of {self.all_of}", file=sys.stderr, flush=True)


def chosen_rules(given):
    """The rules in the order of the seed, as many as are asked for."""
    rules = all_rules(given.folders)
    random.Random(given.seed).shuffle(rules)
    return rules[:given.count]


def options():
    ask = argparse.ArgumentParser(usage=__doc__)
    ask.add_argument("program")
    ask.add_argument("folders", nargs="*")
    ask.add_argument("--seed", type=int, default=1)
    ask.add_argument("--count", type=int)
    ask.add_argument("--seconds", type=float, default=120)
    ask.add_argument("--jobs", type=int, default=os.cpu_count() or 1)
    return ask.parse_args()


def main():
    given = options()
    rules = chosen_rules(given)
    asked = list(itertools.product(rules, PIECES))
    deadline = time.monotonic() + given.seconds
    counts, progress = collections.Counter(), Progress(len(asked))
    with concurrent.futures.ThreadPoolExecutor(given.jobs) as pool:
        tasks = {pool.submit(tried, given.program, *one, deadline): one for one in asked}
        for task in concurrent.futures.as_completed(tasks):
            word, said = task.result()
            counts[tasks[task][1], word] += 1
            progress.step()
            if said:
                print(said, flush=True)
    for (target, word), count in sorted(counts.items()):
        print(f"{count:6} {target} {word}")
    wrong = sum(counts[target, "wrong"] for target in PIECES)
    checked = sum(counts[target, word] for target in PIECES for word in ("plan", "one pattern or rule", "empty"))
    print(f"seed {given.seed}: {checked} plans checked, {wrong} wrong")
    return 1 if wrong or not checked else 0


if __name__ == "__main__":
    sys.exit(main())
