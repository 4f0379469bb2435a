"""Compares every table of whole numbers in the sources with its rule, and those of different files with each other.

usage: shipped.py

A table that is missing or has no known rule, and a long number outside of every table, are faults too: nothing is left out
unnoticed.
"""
from itertools import combinations, zip_longest
from pathlib import Path
from typing import NamedTuple
import re
import sys

# Importing it leaves nothing in its folder.
sys.dont_write_bytecode = True
import rules

ROOT = Path(__file__).resolve().parents[2]


class Language(NamedTuple):
    """How a language writes what is skipped, a table (its name, and what is in its brackets), and a word of it."""
    skipped: str
    table: str
    word: str


C = Language(r"\\\n|/\*[\s\S]*?\*/|//.*", r"#define (\w+)\s*\{([^}]*)\}", r"UINT64_C\((\d+)\)")
RUST = Language(r"//.*", r"const (\w+): \[u64; \d+\] = \[([^\]]*)\]", r"\b(\d+)\b")
RATTLE = Language(r"--.*", r"(?m)^(\w+)\s*=\s*([^=\[]*)\[\]", r"\b(\d+)\b")

POLYNOMIAL = rules.polynomial()
CDTS = {deviation: rules.cdt(deviation) for deviation in (107, 215, 250, 271)}

# The tables of each file, with what they are by their rules.
FILES = {
    "hosts/c/bliss_box.h": (C, {"BLISS_POLYNOMIAL": POLYNOMIAL} | {f"BLISS_CDT_{deviation}": cdt for deviation, cdt in CDTS.items()}),
    "hosts/rust/wrapper/src/tables.rs": (RUST, {"CDT": CDTS[215], "CDT_107": CDTS[107], "CDT_250": CDTS[250], "CDT_271": CDTS[271]}),
    "crates/known_points/specs/DefaultCdt.antt": (RATTLE, {f"cdt{deviation}": cdt for deviation, cdt in CDTS.items()}),
}


class Word(NamedTuple):
    """A word of a table, and where in the text its digits are."""
    number: int
    start: int
    end: int


class Table(NamedTuple):
    file: str
    text: str
    name: str
    words: list

    def numbers(self):
        return [word.number for word in self.words]

    def rule(self):
        """What the table should be, or None where its name is not known."""
        return FILES[self.file][1].get(self.name)

    def at(self, place):
        """A place in a message, with its line; behind the end it has the last line."""
        start = max((word.start for word in self.words[:place + 1]), default=0)
        line = self.text.count("\n", 0, start) + 1
        return f"{self.file}:{line}: word {place} of {self.name}"


def text_of(file):
    """A file that is missing is empty: so are its tables missing."""
    path = ROOT / file
    return path.read_text() if path.exists() else ""


def read(file, text):
    """The tables of a file, and the faults of its form."""
    language, _ = FILES[file]
    code = re.sub(language.skipped, lambda found: " " * len(found[0]), text)
    tables, faults = [], []
    for found in re.finditer(language.table, code):
        words = re.compile(language.word).finditer(code, *found.span(2))
        tables.append(Table(file, text, found[1], [Word(int(word[1]), *word.span(1)) for word in words]))
        if re.search(r"[^\s,∷]", re.sub(language.word, "", found[2])):
            faults.append(f"{file}: {found[1]} is not a list of whole numbers")
    outside = re.sub(language.table, "", code)
    faults += [f"{file}: {number} stands outside of every table" for number in re.findall(r"\d{10,}", outside)]
    return tables, faults


def first_difference(numbers, others):
    """The first place in which two tables differ, with both numbers, or None. Behind its end a table has None."""
    pairs = enumerate(zip_longest(numbers, others))
    return next(((place, *pair) for place, pair in pairs if pair[0] != pair[1]), None)


def against_rules(file, tables):
    _, rule_of = FILES[file]
    faults = [f"{file}: {name} is missing" for name in rule_of if name not in [table.name for table in tables]]
    for table in tables:
        if table.rule() is None:
            faults.append(f"{file}: {table.name} has no known rule")
        elif difference := first_difference(table.numbers(), table.rule()):
            place, number, right = difference
            faults.append(f"{table.at(place)} is {number}, and by its rule {right}")
    return faults


def against_each_other(tables):
    """Where two tables of one rule differ."""
    faults = []
    for table, other in combinations(tables, 2):
        difference = first_difference(table.numbers(), other.numbers())
        if table.rule() == other.rule() and difference:
            place, number, other_number = difference
            faults.append(f"{table.at(place)} is {number}, and {other_number} in {other.name} of {other.file}")
    return faults


def main():
    shipped, faults = [], []
    for file in FILES:
        tables, of_form = read(file, text_of(file))
        shipped += tables
        faults += of_form + against_rules(file, tables)
    faults += against_each_other(shipped)
    if faults:
        sys.exit("\n".join(faults))
    words = sum(len(table.words) for table in shipped)
    print(f"{len(shipped)} tables of {len(FILES)} files are those of their rules, and of each other: {words} words")


if __name__ == "__main__":
    main()
