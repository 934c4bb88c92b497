#!/usr/bin/env python3
"""bench/pages.py [PROGRAM [CALENDARS]]

Runs each command of README.md and docs/*.md that stands in an indented line after '$', and compares what it prints with the lines
below it. Runs the input of each row of docs/REFUSALS.md and looks for the row's name, of both if two operands stand in its words. Looks whether
docs/TRUST.md has the counts that bench/definitions.py prints and names edits that are there, and README.md two of the counts, whether each
file that a page links to is there, whether no two rows or paragraphs of a page begin alike, and whether README.md has at most 120 lines. PROGRAM stands in for ./rr and for the shipped program, CALENDARS for ./rr-calendars.
It prints each line that differs, then 'N passed, M failed'. Python 3 and its standard library are enough.
"""
import os
import re
import subprocess
import sys
from pathlib import Path

TOP = Path(__file__).resolve().parent.parent
PROGRAM = os.path.abspath(sys.argv[1]) if len(sys.argv) > 1 else str(TOP / "rr")
CALENDARS = os.path.abspath(sys.argv[2]) if len(sys.argv) > 2 else str(TOP / "rr-calendars")
SHIPPED = "release/rr-x86_64-linux"
SECONDS = 300
PAGES = [TOP / "README.md", *sorted((TOP / "docs").glob("*.md"))]
LINKING = sorted({*PAGES, *TOP.glob("*.md"), TOP / "tests/README.md", TOP / "release/README.md"})
README_LINES = 120
# The questions of bench/definitions.py whose lines README.md states, and how many letters of two rows or paragraphs may be the same.
IN_README = ("a verdict on two series", "`equal` of two calendar texts")
ALIKE = 60


def commands_of(page):
    """The commands of a page: the line's number, the command, and the lines below it."""
    found, indent = [], None
    for number, line in enumerate(page.read_text().splitlines(), 1):
        begins = re.fullmatch(r"( {4,})\$ (.*)", line)
        if begins:
            indent = begins.group(1)
            found.append((number, begins.group(2), []))
        elif indent and line.startswith(indent):
            found[-1][2].append(line[len(indent):])
        else:
            indent = None
    return found


def printed(command, given=b""):
    """What a shell command prints, with the program in place of ./rr."""
    # (first, since the path of the given program may have this name in it)
    if len(sys.argv) > 1:
        command = re.sub(rf"(?<![\w/]){re.escape(SHIPPED)}(?![\w-])", lambda _: "'" + PROGRAM + "'", command)
    command = re.sub(r"(?<![\w/])\./rr(?![\w/-])", lambda _: "'" + PROGRAM + "'", command)
    command = re.sub(r"(?<![\w/])\./rr-calendars(?![\w/])", lambda _: "'" + CALENDARS + "'", command)
    try:
        run = subprocess.run(["sh", "-c", command], cwd=TOP, input=given, stdout=subprocess.PIPE, stderr=subprocess.DEVNULL, timeout=SECONDS)
    except subprocess.TimeoutExpired:
        return [f"(no end within {SECONDS} seconds)"]
    return run.stdout.decode().replace("\r\n", "\n").splitlines()


def input_of(cell):
    """The bytes that the last cell of a row of refusals describes."""
    if cell == "1,048,577 line feeds":
        return b"\n" * 1048577
    if cell == "the one byte FF":
        return b"\xff"
    lines = re.findall(r"`([^`]*)`", cell)
    if "seventeen lines" in cell:
        lines = lines[:1] + lines[1:] * 17
    return "".join(line + "\n" for line in lines).encode()


def refusals():
    """The rows of docs/REFUSALS.md: the line's number, name, words and input."""
    for number, line in enumerate((TOP / "docs/REFUSALS.md").read_text().splitlines(), 1):
        cells = [cell.strip() for cell in line.strip("|").split("|")]
        if len(cells) == 6 and cells[4].startswith("`"):
            yield number, cells[0].split()[0], cells[4].strip("`"), input_of(cells[5])


def trusted():
    """What docs/TRUST.md, and README.md of it, say that can be looked up: a text, and whether it holds."""
    page = (TOP / "docs/TRUST.md").read_text()
    counts = subprocess.run([sys.executable, str(TOP / "bench/definitions.py")], stdout=subprocess.PIPE).stdout.decode()
    for question, *numbers in re.findall(r"(.*): (\d+) definitions, (\d+) lines; in Rust (\d+) types and constants, (\d+) lines", counts):
        yield f"{question}: {numbers}", f"| {' | '.join(f'{int(it):,}' for it in numbers)} |" in page
        if question.startswith(IN_README):
            yield f"README.md, {question}: {numbers[1]} lines", f" {int(numbers[1]):,} " in PAGES[0].read_text()
    for crates, edits in re.findall(r"(rr_\w+(?:, rr_\w+)*): (`\w+`(?:, `\w+`)*)", page):
        for crate in crates.split(", "):
            for edit in re.findall(r"\w+", edits):
                places = [f"crates/{crate}/must-fail/{edit}.edit", f"edits/{crate}/{edit}.edit"]
                yield f"{crate}: {edit}", any((TOP / place).is_file() for place in places)


def anchors(page):
    """The names under which the headings of a page are linked to."""
    headings = re.findall(r"^#+ (.*)$", page.read_text(), re.M)
    return {re.sub(r"[^\w -]", "", heading.lower()).replace(" ", "-") for heading in headings}


def links():
    """Each link of a page to a place of the repository, and whether the place is there."""
    for page in LINKING:
        for target in re.findall(r"\]\(([^)\s]+)\)", page.read_text()):
            name, _, anchor = target.partition("#")
            if ":" not in name:
                file = page.parent / name if name else page
                yield page, target, file.exists() and (not anchor or anchor in anchors(file))


def twice(page):
    """The rows and paragraphs of a page that begin as one above them does: the numbers of both lines."""
    seen = {}
    for number, line in enumerate(page.read_text().splitlines(), 1):
        if len(line) >= ALIKE and not line.startswith(" "):
            if line[:ALIKE] in seen:
                yield number, seen[line[:ALIKE]]
            seen[line[:ALIKE]] = number


def main():
    passed, failed = 0, 0

    def note(place, holds, said):
        nonlocal passed, failed
        passed, failed = passed + holds, failed + (not holds)
        if not holds:
            print(f"{place}: {said}")

    for page in PAGES:
        for number, command, wanted in commands_of(page):
            said = printed(command)
            note(f"{page.relative_to(TOP)}:{number}", said == wanted, f"$ {command}\n  prints " + "\n         ".join(said))
    for number, name, words, given in refusals():
        said = printed(f"./rr {words}", given)
        side = "both" if words.count(":") == 2 else "A"
        note(f"docs/REFUSALS.md:{number}", bool(said) and said[0].split()[:3] == ["refused", side, name], f"{name}: {said}")
    for said, holds in trusted():
        note("docs/TRUST.md", holds, said)
    for page, target, holds in links():
        note(page.relative_to(TOP), holds, f"the link {target} leads nowhere")
    for page in LINKING:
        found = list(twice(page))
        note(page.relative_to(TOP), not found, f"lines that begin alike: {found}")
    lines = len(PAGES[0].read_text().splitlines())
    note("README.md", lines <= README_LINES, f"{lines} lines, more than {README_LINES}")
    print(f"{passed} passed, {failed} failed")
    return failed > 0


sys.exit(main())
