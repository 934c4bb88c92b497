#!/usr/bin/env python3
"""bench/definitions.py

Counts the definitions that a reader has to read, for docs/TRUST.md: those that stand in specs/ and are reached, through the
names and the operators that their texts use, from the clauses of `run`, from a verdict, or from what occurs in a series. A
definition is a signature with its equations, or a record; its lines are those that are not empty. Names are told apart by the
imports of each file. Beside them it counts the types and constants of Rust that these definitions speak of, with the types of
their fields; their lines are those without comments and attributes. The words of the kit's library are not counted.
With -v it prints each file with its definitions, types and constants, in the order in which the definitions can be read.
"""
import re
import sys
from pathlib import Path

TOP = Path(__file__).resolve().parent.parent
CRATES = TOP / "crates"
HEAD = re.compile(r"(?:(?:abbrev|unfoldable|pub|record|data|type|opaque|recursive|mutual) )*([^\s(:=]+)(?: \(| :| =|$)")
WORD = re.compile(r"[^\s(){}\[\];,.:=→λ]+")
OPERATOR = re.compile(r"[^\s(){}\[\];,]+")
TYPE = re.compile(r"^(?:pub )?(?:struct|enum) (\w+)[^;{]*(?:;|\{.*?^\})", re.M | re.S)
CONSTANT = re.compile(r"^pub const (\w+):[^;]*;", re.M)


def blocks_of(file):
    """The definitions of a file of specs/: name and lines."""
    found = {}
    for part in re.split(r"\n\s*\n", file.read_text()):
        lines = [it for it in part.split("\n") if it.strip() and not it.lstrip().startswith("--")]
        if not lines or lines[0].startswith("use "):
            lines = [it for it in lines if not it.startswith("use ")]
        if not lines:
            continue
        name = None
        for line in lines:
            head = re.match(r"(?:(?:abbrev|unfoldable|pub|record|data|opaque) )+([^\s(:]+)", line)
            if head:
                name = head.group(1)
                found.setdefault(name, [])
            if name:
                found[name].append(line)
    return found


def imports_of(file):
    """What each name of a file stands for: (module, name), or (module, None) for a module with another name."""
    found = {}
    text = file.read_text()
    for module, names in re.findall(r"^use Rattle\.([\w.]+)\.\{([^}]*)\}", text, re.M):
        for it in names.split(","):
            name, _, other = it.strip().partition(" as ")
            found[other or name] = (module, name)
    for module, other in re.findall(r"^use Rattle\.([\w.]+) as (\w+)", text, re.M):
        found[other] = (module, None)
    return found


def words_of(lines, names):
    """The words of a definition: names, and the operators among these names that are written infix or by `do`."""
    text = "\n".join(lines)
    found = WORD.findall(text)
    found += [word.split(".")[0] for word in found]
    used = set(OPERATOR.findall(text))
    for name in names:
        parts = [it for it in name.split("◌") if it] if "◌" in name else []
        if used.intersection(parts) or (name == "◌>>=◌" and "do" in used):
            found.append(name)
    return found


def modules():
    """Each module of specs/ with its definitions and imports."""
    found = {}
    for file in sorted(CRATES.glob("*/specs/**/*.antt")):
        parts = file.relative_to(CRATES).with_suffix("").parts
        found[".".join(parts)] = (file, blocks_of(file), imports_of(file))
    return found


def reached(all_modules, roots, passed_over):
    """The definitions that the roots reach, as (module, name), and the names declared in Rust, without what is passed over."""
    seen, declared, left = [], set(), list(roots)
    while left:
        module, name = left.pop()
        if ".specs.declared." in module:
            declared.add((module, name))
        if module not in all_modules or (module, name) in seen or (module, name) in passed_over or name not in all_modules[module][1]:
            continue
        seen.append((module, name))
        _, blocks, imports = all_modules[module]
        for word in words_of(blocks[name], list(imports) + list(blocks)):
            left.append(imports.get(word, (module, word)))
    return seen, declared


def rust_items():
    """Each type and constant of Rust by (crate, name): its file and its lines."""
    found = {}
    for file in sorted(CRATES.glob("*/src/**/*.rt")):
        crate = file.relative_to(CRATES).parts[0]
        text = file.read_text()
        for it in list(TYPE.finditer(text)) + list(CONSTANT.finditer(text)):
            lines = [line for line in it.group(0).split("\n") if line.strip() and not line.strip().startswith(("//", "#["))]
            found.setdefault((crate, it.group(1)), (file, lines))
    return found


def crate_of(items, file, name):
    """The crate of a type that a file of Rust names: its own, or one from which the file imports the name."""
    crate = file.relative_to(CRATES).parts[0]
    others = re.findall(r"^use (rr_\w+)::(?:\{[^}]*\b%s\b[^}]*\}|%s);" % (name, name), file.read_text(), re.M)
    return next((it for it in [crate] + others if (it, name) in items), None)


def spoken_of(items, declared):
    """The types and constants of Rust that are declared to definitions, with the types of their fields, as (crate, name)."""
    left = []
    for module, name in declared:
        parts = module.split(".")
        left.append((parts[0], name if parts[-1] == "TheConstants" else parts[-2] if parts[-1] == "TheVariants" else parts[-1]))
    seen = []
    while left:
        item = left.pop()
        if item not in items or item in seen:
            continue
        seen.append(item)
        file, lines = items[item]
        # (a line that begins with a capital letter begins a variant)
        fields = "\n".join(re.sub(r"^\s+[A-Z]\w*", "", line) for line in lines)
        for word in set(re.findall(r"\b[A-Z]\w*", fields)):
            left.append((crate_of(items, file, word), word))
    return seen


def roots_of(file):
    """The words of the clauses of the functions of a file of Rust."""
    found = []
    for module, names in re.findall(r"^ghost use Rattle\.([\w.]+)\.\{([^}]*)\}", (CRATES / file).read_text(), re.M):
        found += [(module, name.strip()) for name in names.split(",")]
    return found


MODEL = "rr_model.specs."
ANSWER = "rr_answer.specs."
# What else may be asked of two operands than a verdict.
BESIDE_VERDICTS = [(ANSWER + "Clashes", "IsClashSaid"), (ANSWER + "Combined", "IsCombinedSaid")]
# What the clauses of `run` reach and `equal rrule:A rrule:B` does not need: other commands, their words, and other languages.
BESIDE_EQUAL = BESIDE_VERDICTS + [
    (MODEL + "Sets.Verdict", "IsWithinVerdict"),
    (MODEL + "Sets.Verdict", "IsDisjointVerdict"),
    (ANSWER + "Answer", "AreDaysSaid"),
    (ANSWER + "Answer", "IsSeriesSaid"),
    (ANSWER + "Answer", "IsDrillSaid"),
    (ANSWER + "Command", "with_days"),
    (ANSWER + "Command", "with_series"),
    (ANSWER + "Command", "translate_command"),
    (ANSWER + "Command", "list_command"),
    (ANSWER + "Command", "drill_command"),
    (ANSWER + "Command", "clear_command"),
    (ANSWER + "Command", "nth_command"),
    (ANSWER + "Command", "rank_command"),
    (ANSWER + "OperandReading", "vcal_as_series"),
    (ANSWER + "OperandReading", "graph_as_series"),
    (ANSWER + "OperandReading", "IsDescriptorRead"),
    ("rr_ical.specs.Lists", "reads_list"),
    (MODEL + "Sets.Sketch", "StandsIn"),
    ("rr_skip.specs.Reading", "reads_rscale"),
    ("rr_skip.specs.Members", "OccursSkipping"),
    ("rr_skip.specs.Members", "skip_cycle"),
    ("rr_skip.specs.Judged", "IsSkipLimitRefusal"),
]
# Each question with what it begins with, and what it passes over.
QUESTIONS = {
    "what occurs in a series": ([(MODEL + "Series.Occurrences", "Occurs")], []),
    "a verdict on two series": (
        [
            (MODEL + "Series.Occurrences", "Occurs"),
            (MODEL + "Sets.Verdict", "IsEqualVerdict"),
            (MODEL + "Sets.Verdict", "IsWithinVerdict"),
            (MODEL + "Sets.Verdict", "IsDisjointVerdict"),
            (ANSWER + "Verdicts", "IsSaidOfBoth"),
        ],
        BESIDE_VERDICTS,
    ),
    "what is said of two series, clashes and combined sets too": ([(ANSWER + "Answer", "IsPairAnswer")], []),
    "how a text of RFC 5545 is read": ([("rr_rule_parts.specs.Calendars", "reads_calendar")], []),
    "`equal` of two calendar texts, as it is printed": (roots_of("rr_cli/src/program.rt"), BESIDE_EQUAL),
    "the clauses of `run` of rr": (roots_of("rr_cli/src/program.rt"), []),
    "what is said of two whole calendars": ([("rr_trip.specs.Report", "IsReport"), ("rr_compare.specs.Calendars", "calendar_of")], []),
    "the clauses of `run` of rr-calendars": (roots_of("rr_calendars/src/program.rt"), []),
}


def print_names(named, file_of):
    """Each file with its names, in the order in which they come."""
    order = {}
    for item in named:
        order.setdefault(file_of(item), []).append(item[1])
    for file, names in order.items():
        print(f"    {file.relative_to(TOP)}: {' '.join(names)}")


def main():
    all_modules, items = modules(), rust_items()
    for question, (roots, passed_over) in QUESTIONS.items():
        found, declared = reached(all_modules, roots, passed_over)
        spoken = spoken_of(items, declared)
        lines = sum(len(all_modules[module][1][name]) for module, name in found)
        rust = sum(len(items[it][1]) for it in spoken)
        print(f"{question}: {len(found)} definitions, {lines} lines; in Rust {len(spoken)} types and constants, {rust} lines")
        if "-v" in sys.argv[1:]:
            print_names(reversed(found), lambda it: all_modules[it[0]][0])
            print_names(spoken, lambda it: items[it][0])


main()
