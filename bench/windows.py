#!/usr/bin/env python3
"""bench/windows.py [FOLDER] | --check

Writes the table of Windows' names of zones beside those of tzdata into crates/rr_windows, for the code and for the definition: a line for each name of
Windows, with a colon behind it and then the names that stand for it, whatever the territory, first that of all territories. Behind each name of tzdata
stand its other spellings. The data are those of the Unicode CLDR, as Debian's package unicode-cldr-core has them in FOLDER
(/usr/share/unicode/cldr/common): supplemental/windowsZones.xml and bcp47/timezone.xml. With --check it writes nothing and needs no package: it looks
whether code and definition have the same table, and whether each name stands in it once, and prints 'N passed, M failed'.
Python 3 and its standard library are enough.
"""
import re
import sys
import xml.etree.ElementTree as tree
from collections import Counter
from pathlib import Path

TOP = Path(__file__).resolve().parent.parent
CODE = TOP / "crates/rr_windows/src/table.rt"
DEFINITION = TOP / "crates/rr_windows/specs/Table.antt"
FOLDER = "/usr/share/unicode/cldr/common"

CODE_HEAD = """\
// Windows' names of zones beside those of tzdata, from windowsZones.xml of the Unicode CLDR.
ghost use Rattle.std.specs.Prelude.{◌≡◌};
ghost use Rattle.rr_windows.specs.Table.{table};

// A line for each name of Windows: a colon, then the names of tzdata. `bench/windows.py` writes it.
const TABLE: &str = "\\
"""

CODE_TAIL = """\
";

// The table.
#[tactic(auto, unfolding(crate::specs::Table::table))]
pub(crate) fn table() -> &'static str
    ensures { result.now ≡ table }
{
    TABLE
}
"""

DEFINITION_HEAD = """\
-- Windows' names of zones beside those of tzdata, from windowsZones.xml of the Unicode CLDR.
use Rattle.std.specs.Prelude.{ℕ, List, codes}

-- a line for each name of Windows: a colon, then the names of tzdata; bench/windows.py writes it
unfoldable pub table : List ℕ
"""


def spellings(folder):
    """The spellings of each name of tzdata, by the first of them."""
    names = {}
    for entry in tree.parse(f"{folder}/bcp47/timezone.xml").iter("type"):
        alias = (entry.get("alias") or "").split()
        if alias:
            names[alias[0]] = alias
    return names


def rows(folder):
    """Each name of Windows with the names of tzdata that stand for it."""
    same, table = spellings(folder), {}
    for entry in tree.parse(f"{folder}/supplemental/windowsZones.xml").iter("mapZone"):
        names = table.setdefault(entry.get("other"), [])
        for name in entry.get("type").split():
            for spelling in same.get(name, [name]):
                if spelling not in names and spelling not in table:
                    names.append(spelling)
    return table


def table_text(table):
    return "\n".join(f"{windows}:{' '.join(names)}" for windows, names in table.items())


def write(text):
    CODE.write_text(CODE_HEAD + text + CODE_TAIL)
    DEFINITION.write_text(DEFINITION_HEAD + 'table = codes "' + text.replace("\n", "\\n") + '"\n')


def read():
    """The table in the code, and the table in the definition."""
    code = re.search(r'= "\\\n(.*?)";', CODE.read_text(), re.S).group(1)
    definition = re.search(r'table = codes "(.*)"', DEFINITION.read_text()).group(1)
    return code, definition.replace("\\n", "\n")


def check():
    code, definition = read()
    names = Counter()
    for line in code.split("\n"):
        windows, colon, others = line.partition(":")
        names.update([windows] + others.split(" ") if colon else [""])
    found = {
        "code and definition have the same table": code == definition,
        "each name stands in it once, and none is empty": max(names.values()) == 1 and "" not in names,
        "it has no byte that a text of the code writes otherwise": not set(code) & set('"\\'),
    }
    failed = [what for what, holds in found.items() if not holds]
    for what in failed:
        print(f"failed: {what}")
    print(f"{len(found) - len(failed)} passed, {len(failed)} failed")
    return 1 if failed else 0


if __name__ == "__main__":
    if sys.argv[1:] == ["--check"]:
        sys.exit(check())
    write(table_text(rows(sys.argv[1] if len(sys.argv) > 1 else FOLDER)))
