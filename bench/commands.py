#!/usr/bin/env python3
"""bench/commands.py [--check]

Writes what commands.txt says of each command and language to the pages and scripts that name them: the help of the wrapper `rr`, the
completions of three shells, the synopsis of docs/rr.1, two tables of README.md, and the table of rr_notes. With --check it writes nothing; it
compares these, and the usage line in code, in its definition and in the worked cases, names each place that is not so, and prints 'N passed, M failed'.
Python 3 and its standard library are enough.
"""
import re
import sys
from dataclasses import dataclass, field
from pathlib import Path

TOP = Path(__file__).resolve().parent.parent
TABLE = "commands.txt"
REFUSALS = "docs/REFUSALS.md"
VERSION = "release/VERSION"
OPERANDS = ("A", "B")
# Words that stand for one of a few names: the languages to translate to, the commands, the refusals.
NAMED = ("LANG", "[COMMAND]", "REFUSAL")
BEGIN, END = "commands.txt: BEGIN", "commands.txt: END"
USAGE_LINES = [
    "crates/rr_answer/src/words.rt", "crates/rr_answer/specs/Command.antt",
    "tests/cases/usage.txt", "tests/cases/rscale.txt", "tests/cases/notes.txt",
]


HELP_END = """
  rr check rrule:event.ics
  rr equal rrule:sent.ics graph:received.json
  rr translate vcal rrule:event.ics >event.vcs

The status is 0 for yes or done, 1 for no, 2 if an operand is refused, 3 for words that are no command, 4 if an operand could not be
read, 5 if the output could not be written, 6 out of memory, 7 if a word is no text in UTF-8.

'rr help COMMAND' says more of a command, as 'rr help list', and 'rr explain REFUSAL' of a refusal, as 'rr explain UtcMoment'. The manual is
docs/MANUAL.md, and share/doc/rr/MANUAL.md in the folder of an installation.
"""


@dataclass
class Command:
    name: str
    words: list

    def text(self):
        return " ".join([self.name, *self.words])


@dataclass
class Group:
    """Commands that share a line of help and a row."""

    commands: list = field(default_factory=list)
    told: dict = field(default_factory=dict)


@dataclass
class Table:
    groups: list
    languages: dict
    usage: list

    def commands(self):
        return [command for group in self.groups for command in group.commands]

    def names(self, kind=None):
        """The names, each once: a command that takes words of its own has a line for each of them."""
        return list(dict.fromkeys(it.name for group in self.groups for it in group.commands if kind in (None, group.told["takes"])))


def fail(said):
    sys.exit(f"{TABLE}, {said}")


def read_table(text):
    table, told = Table([], {}, []), None
    for number, line in enumerate(text.splitlines(), 1):
        word, _, rest = line.partition(" ")
        if not line:
            told = None
        elif line.startswith("#"):
            continue
        elif word == "usage":
            table.usage = rest.split()
        elif word == "command":
            if told is None:
                table.groups.append(Group())
            name, *words = rest.split()
            table.groups[-1].commands.append(Command(name, words))
            told = table.groups[-1].told
        elif word == "language":
            told = table.languages[rest] = {}
        elif told is None or word in told:
            fail(f"line {number}: {line}")
        else:
            told[word] = rest
    check_table(table)
    return table


def check_table(table):
    """Each group and language has the texts that the pages need, and the usage line names commands."""
    for group in table.groups:
        if not {"takes", "help", "page"} <= group.told.keys() <= {"takes", "help", "page", "man", "numbers"}:
            fail(f"{group.commands[0].name}: takes, help and page are wanted, man and numbers are allowed")
    for name, told in table.languages.items():
        if not {"states", "help", "page"} <= told.keys() <= {"states", "help", "page", "target", "also"}:
            fail(f"{name}: states, help and page are wanted, target and also are allowed")
    for name in table.usage:
        if name not in table.names():
            fail(f"usage: there is no command {name}")


def is_itself(word):
    """Whether a word of the table stands for itself."""
    return word.islower()


def usage_line(table):
    words = {it.name: it.text() for it in table.commands()}
    return "usage: rr " + " | ".join(words[name] for name in table.usage)


def targets(table):
    return [name for name, told in table.languages.items() if "target" in told]


def help_page(table):
    lines = ["rr says whether a repeating series survived a trip between calendars, for all years to come.", ""]
    lines += [f"  rr {group.commands[0].text():<19} {group.told['help']}" for group in table.groups]
    lines += ["", "A and B are LANG:FILE or LANG@OFFSET:FILE. OFFSET is as +01:00, or zone, which reads moments in UTC by the VTIMEZONE of the file"]
    lines += ["(rrule and rscale); FILE is a file, or - for standard input, and LANG one of"]
    lines += ["", *(f"  {name:<8} {told['help']}" for name, told in table.languages.items())]
    return "".join(f"{line}\n" for line in lines) + HELP_END


def wrapper_help(table):
    """A here-document, whose marks stand around the whole command of the shell."""
    return f"    cat <<'END'\n{help_page(table)}END\n"


def command_table(table):
    rows = ["| Words | What it prints |", "|---|---|"]
    for group in table.groups:
        names = ", ".join(f"`{command.text()}`" for command in group.commands)
        rows.append(f"| {names} | {group.told['page']} |")
    return rows


def language_table(table):
    others = ", ".join(f"`{name}`" for name in table.names("series"))
    rows = ["| Operand | What the file holds | Goes with |", "|---|---|---|"]
    for name, told in table.languages.items():
        goes = "all commands" if told["states"] == "series" else f"all but {others}"
        if "also" in told:
            goes += f"; also with `{told['also']}`"
        rows.append(f"| `{name}:FILE` | {told['page']} | {goes} |")
    return rows


def tables(table):
    return "".join(f"{line}\n" for line in [*command_table(table), "", *language_table(table)])


def synopsis(table):
    """Commands with the same words share a line. Words but A and B are small, or those that `man` says."""
    def marked(word):
        return f".Cm {word}" if is_itself(word) else word if word in OPERANDS else word.lower()

    alike = {}
    for group in table.groups:
        for command in group.commands:
            small = " ".join(marked(word) for word in command.words)
            alike.setdefault(group.told.get("man", small), []).append(command.name)

    def said(words):
        if words.startswith("["):
            return f".Op Ar {words[1:-1]}\n"
        parts = [part.strip() for part in re.split(r"(\.Cm \S+)", words)]
        return "".join(f"{part if part.startswith('.') else f'.Ar {part}'}\n" for part in parts if part)

    return "".join(f".Nm\n.Cm {' | '.join(names)}\n{said(words)}" for words, names in alike.items())


def places(table, is_such):
    """The places of words that are such, as number:name; the first word after the name is number 3."""
    return list(dict.fromkeys(f"{3 + place}:{it.name}" for it in table.commands() for place, word in enumerate(it.words) if is_such(word)))


def plain_places(table):
    """The places whose word is neither an operand, nor one of a few names, nor itself."""
    return places(table, lambda word: word not in (*OPERANDS, *NAMED) and not is_itself(word))


def bash(table):
    sets = {"commands": table.names(), "languages": table.languages, "targets": targets(table), "refusals": refusals(), "plain": plain_places(table)}
    return "".join(f"    local {name}='{' '.join(words)}'\n" for name, words in sets.items())


def zsh(table):
    sets = {"names": table.names(), "languages": table.languages, "targets": targets(table), "refusals": refusals(), "plain": plain_places(table)}
    return "".join(f"    {name}=({' '.join(words)})\n" for name, words in sets.items())


def fish(table):
    asked = {}
    for command in table.commands():
        for place, word in enumerate(command.words):
            if word in OPERANDS:
                asked.setdefault(2 + place, []).append(command.name)
    operands = "; or ".join(f"__rr_at {place} {' '.join(dict.fromkeys(asked[place]))}" for place in sorted(asked))
    return f"""set -g __rr_languages {' '.join(table.languages)}
complete -c rr -n '__rr_at 1; or __rr_at 2 help' -a '{' '.join(table.names())}'
complete -c rr -n '__rr_at 2 translate' -a '{' '.join(targets(table))}'
complete -c rr -n '__rr_at 2 explain' -a '{' '.join(refusals())}'
complete -c rr -n '__rr_at 3 split' -a 'graph vcal'
complete -c rr -n '{operands}' -a '(__rr_operands)'
"""


def ranges(group):
    """The least and the most of each number of a group, by its word."""
    numbers = group.told.get("numbers", "").split()
    return {word: (least, most) for word, least, most in zip(numbers[::3], numbers[1::3], numbers[2::3])}


def form(group, command):
    """The words of a command with what notes need to know of each."""

    def told(word):
        if word in ranges(group):
            return f"{word}={'-'.join(ranges(group)[word])}"
        return f"{word}:series" if word in OPERANDS and group.told["takes"] == "series" else word

    return " ".join([command.name, *map(told, command.words)])


def notes(table):
    forms = "".join(f"{form(group, command)}\n" for group in table.groups for command in group.commands)
    series = [name for name, told in table.languages.items() if told["states"] == "series"]
    sets = {
        "LANGUAGES": ("The words of all languages.", table.languages),
        "SERIES": ("The words of the languages whose texts state a series.", series),
        "TARGETS": ("The words of the languages that `translate` writes.", targets(table)),
    }
    lines = "".join(f'\n/// {told}\npub const {name}: &str = "{" ".join(words)}";\n' for name, (told, words) in sets.items())
    return f'/// A line for each command: its name, and what is wanted behind it.\npub const FORMS: &str = "\\\n{forms}";\n{lines}'


# ---- what `help`, `version` and `explain` print


def plain(cell):
    """The text of a table's cell, without marks and links."""
    cell = re.sub(r"\[([^\]]*)\]\([^)]*\)", r"\1", cell.strip())
    return re.sub(r"\*(\w+)\*", lambda it: it[1].upper(), cell).replace("`", "")


def grouped(number):
    return f"{int(number):,}"


def listed(names):
    *front, last = names
    return f"{', '.join(front)} or {last}" if front else last


def said_of_operands(table, group, words):
    """What an operand is, in the languages that the commands of a group take."""
    also = [(name, told["also"].split()) for name, told in table.languages.items() if "also" in told]
    names = [name for name, told in table.languages.items() if group.told["takes"] != "series" or told["states"] == "series"]
    beside = [f", and with {word} also {name}" for name, (command, word) in also if group.told["takes"] == "series" and command in words]
    what = "A is" if "B" not in words else "A and B are"
    return f"{what} LANG:FILE or LANG@OFFSET:FILE, as rrule:event.ics; LANG is {listed(names)}{''.join(beside)}."


def command_page(table, group):
    """What is said of the commands of a group: their words, what they print, and what their words are."""
    words = [word for command in group.commands for word in (command.name, *command.words)]
    lines = [f"rr {command.text()}" for command in group.commands]
    lines += ["", f"It prints {plain(group.told['page'])}."]
    lines += [f"{word} is a number from {grouped(least)} to {grouped(most)}." for word, (least, most) in ranges(group).items()]
    for word in ("MOMENT", "FROM", "TO"):
        if word in words:
            lines += [f"{word} is a date or a moment of the years 1 to 9999, as 2024-02-29 or 2024-02-29T09:30:00."]
    if "translate" in words:
        lines += [f"LANG is {listed(targets(table))}."]
    if "A" in words:
        lines += [said_of_operands(table, group, words)]
    return "".join(f"{line}\n" for line in lines)


def refusal_rows():
    """The rows of docs/REFUSALS.md by the name of the refusal: when it comes, in which languages, and what to do."""
    rows = {}
    for line in (TOP / REFUSALS).read_text().splitlines():
        cells = [plain(cell) for cell in line.strip("|").split("|")]
        if len(cells) == 6 and re.fullmatch(r"[A-Z][A-Za-z]+( [A-Z]+)?", cells[0]) and cells[0] != "Name":
            rows.setdefault(cells[0].split()[0], []).append(cells[:4])
    return rows


def refusals():
    return list(refusal_rows())


def refusal_page(rows):
    pages = []
    for name, comes, languages, advice in rows:
        pages.append(f"{name}\n\nIt comes if {comes}.\nLanguages: {languages}.\nWhat to do: {advice}.\n")
    return "\n".join(pages)


def name_of(prefix, name):
    """The name of a text in code, as EXPLAIN_UTC_MOMENT."""
    return f"{prefix}_{re.sub(r'(?<=[a-z])(?=[A-Z])', '_', name).upper()}"


def texts(table):
    """The texts by their names in code, and for each lookup which text a word asks for."""
    made = {"HELP": help_page(table), "VERSION": f"rr {(TOP / VERSION).read_text().strip()}\n"}
    helped, explained = {}, {}
    for group in table.groups:
        name = name_of("HELP", group.commands[0].name)
        made[name] = command_page(table, group)
        helped |= {command.name: name for command in group.commands}
    for refusal, rows in refusal_rows().items():
        explained[refusal] = name_of("EXPLAIN", refusal)
        made[explained[refusal]] = refusal_page(rows)
    for name, text in made.items():
        if not text.isascii() or "\\" in text:
            sys.exit(f"{name}: a page of help is in ASCII and without a backslash")
    return {name: text.replace('"', '\\"') for name, text in made.items()}, {"help_of": helped, "explanation_of": explained}


def constant(name, text):
    """A constant of bytes in the layout of rt fmt, which moves a first line that is too long to a line of its own."""
    begun = f'pub const {name}: &[u8] ='
    first = text.split("\n")[0]
    return f'{begun}{" " if len(begun) + len(first) + 3 <= 100 else chr(10) + "    "}b"{text}";\n\n'


# What a caller is told of each lookup.
DOCSTRINGS = {
    "help_of": "What a command prints and takes, as `help COMMAND` says it; None exactly if there is no command of this name.",
    "explanation_of": "What a refusal means and what to do, as `explain NAME` says it; None exactly if there is no refusal of this name.",
}


# The name of the table in which each lookup looks.
TABLES = {"help_of": "COMMAND_PAGES", "explanation_of": "REFUSAL_PAGES"}


def code_lookup(function, named):
    """A table of pages, and the lookup in it."""
    pages = "".join(f'    Page {{\n        name: "{word}",\n        text: {name},\n    }},\n' for word, name in named.items())
    return f"""const {TABLES[function]}: [Page; {len(named)}] = [
{pages}];

/// {DOCSTRINGS[function]}
pub fn {function}(name: &str) -> Option<&'static [u8]>
    ensures {{ option_map (λ t. t.now) result ≡ {function} name.now }}
{{
    page_in(&{TABLES[function]}, name)
}}

"""


def code_pages(table):
    made, lookups = texts(table)
    lines = "".join(constant(name, text) for name, text in made.items())
    return (lines + "".join(code_lookup(function, named) for function, named in lookups.items()))[:-1]


# What each definition of a page is, in plain words.
WORDS_OF = {
    "HELP": "the page of help", "VERSION": "the line that names the release",
    "help_of": "what a command prints and takes, if there is a command of this name",
    "explanation_of": "what a refusal means and what to do, if there is a refusal of this name",
}


def defined_pages(table):
    made, lookups = texts(table)
    codes = {name: 'codes "' + text.replace("\n", "\\n") + '"' for name, text in made.items()}
    lines = "".join(
        f"-- {WORDS_OF[name]}\nabbrev pub {name.lower()} : List ℕ\n{name.lower()} = {codes[name]}\n\n" for name in ("HELP", "VERSION"))
    for function, named in lookups.items():
        tests = [f'if bytes_eq name (codes "{word}") then Some ({codes[name]})\n' for word, name in named.items()]
        lines += f"-- {WORDS_OF[function]}\nabbrev pub {function} : List ℕ → Option (List ℕ)\n{function} name =\n"
        lines += f"    {'    else '.join(tests)}    else None\n\n"
    return lines


def calendars_release(table):
    release = (TOP / VERSION).read_text().strip()
    told = "/// The line that `--version` prints, with its end.\n"
    return told + constant("VERSION", f"rr-calendars {release}\n") + f'/// The number of the release, as `--version` prints it behind the name.\npub const RELEASE: &str = "{release}";\n'


PLACES = {
    "crates/rr_compare/src/release.rt": calendars_release,
    "crates/rr_answer/src/pages.rt": code_pages, "crates/rr_answer/specs/Pages.antt": defined_pages,
    "crates/rr_notes/src/forms.rt": notes, "rr": wrapper_help, "README.md": tables, "docs/rr.1": synopsis,
    "completions/rr.bash": bash, "completions/_rr": zsh, "completions/rr.fish": fish,
}


def filled(text, lines, name):
    """The text with these lines between its two marks."""
    form = re.compile(rf"^([^\n]*{re.escape(BEGIN)}[^\n]*\n)(.*?)(^[^\n]*{re.escape(END)})", re.S | re.M)
    if len(form.findall(text)) != 1:
        sys.exit(f"{name}: the marks '{BEGIN}' and '{END}' do not stand once")
    return form.sub(lambda found: found[1] + lines + found[3], text)


def stale_pages(table, writes):
    """The pages and scripts that are not as the table says; they are written if that is asked."""
    for name, lines_of in PLACES.items():
        path = TOP / name
        old = path.read_text()
        new = filled(old, lines_of(table), name)
        if new != old:
            yield name
            if writes:
                path.write_text(new)


def other_usage_lines(table):
    """The files whose usage line is another one, or that have none."""
    for name in USAGE_LINES:
        text = re.sub(r'"\s*\+\+ codes "', "", (TOP / name).read_text())
        found = re.findall(r'usage: rr [^"\\~\n]*', text)
        if set(found) != {usage_line(table)}:
            yield name


def main():
    table = read_table((TOP / TABLE).read_text())
    checks = "--check" in sys.argv[1:]
    stale = list(stale_pages(table, not checks))
    for name in stale:
        print(f"{name}: " + (f"not as {TABLE} says; bench/commands.py writes it" if checks else "written"))
    others = list(other_usage_lines(table))
    for name in others:
        print(f"{name}: the usage line is not that of {TABLE}, which is\n  {usage_line(table)}")
    failed = len(others) + (len(stale) if checks else 0)
    if checks:
        print(f"{len(PLACES) + len(USAGE_LINES) - failed} passed, {failed} failed")
    return failed > 0


if __name__ == "__main__":
    sys.exit(main())
