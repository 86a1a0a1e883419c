"""Which functions decide by which rule: rules_in_code.txt, beside the rules of docs/AUDIT_RULES.md and the sources.

tables_of_code makes of all three what a reader wants: each rule with its definitions and functions, and where they are.
"""

import functools
import pathlib
import re
from collections.abc import Iterable, Iterator
from typing import NamedTuple

from tools.tests.core import contracts
from tools.tests.core.contracts import Definition, Key

TOP = pathlib.Path(__file__).resolve().parents[3]
RULES, TABLE = TOP / "docs" / "AUDIT_RULES.md", pathlib.Path(__file__).with_suffix(".txt")
CODED = re.compile(r"`([^`]+)`")
# A function of a row: its file and name, and the words of its contract, or another function by which it is tied.
FUNCTION = re.compile(
    r"(?P<file>[\w/]+\.rt) (?P<name>[\w:]*\w)(?:: (?P<words>\w+(?: \w+)*)| (?P<way>in|by) (?P<other>[\w:]+))"
)
SECTION = re.compile(r"^## (\d+)\. .*\n((?:(?!^## ).*\n)*)", re.M)


class Rule(NamedTuple):
    """A rule of AUDIT_RULES.md."""

    words: str
    definitions: list[str]
    sections: list[str]
    is_of_rfc: bool


class Row(NamedTuple):
    """Rules that the same functions decide by: how they begin, their definitions, and these functions."""

    rules: list[str]
    definitions: list[str]
    functions: list[str]


class Fault(Exception):
    """Why a row is not so."""


def cells(line: str) -> list[str]:
    return [cell.strip() for cell in line.strip().strip("|").split("|")]


def tables(text: str) -> dict[str, list[dict[str, str]]]:
    """The rows of the tables of each section, each cell by its head."""
    found: dict[str, list[dict[str, str]]] = {}
    for number, body in SECTION.findall(text):
        for head, lines in re.findall(r"^(\|.*)\n\|[-|]+\n((?:\|.*\n)+)", body, re.M):
            found.setdefault(number, []).extend(
                dict(zip(cells(head), cells(line), strict=True)) for line in lines.splitlines()
            )
    return found


def sections_in(cell: str) -> list[str]:
    """The sections that a cell names, those from one to another too."""
    found = []
    for first, last in re.findall(r"(\d+(?:\.\d+)+)(?: to (\d+(?:\.\d+)+))?", cell):
        chapter, _, low = first.rpartition(".")
        high = int(last.rpartition(".")[2] or low)
        found += [f"{chapter}.{number}" for number in range(int(low), high + 1)]
    return found


def rules_of(text: str) -> dict[str, list[Rule]]:
    """The rules of each section."""
    return {
        number: [
            Rule(
                next(iter(row.values())),
                CODED.findall(row["definition"]),
                sections_in(row.get("RFC 9113", "")),
                row.get("source", "RFC").startswith("RFC"),
            )
            for row in rows
        ]
        for number, rows in tables(text).items()
    }


def begins(rule: Rule, words: str) -> bool:
    """Do the words begin the rule? One or two signs, as a number of a step, are the whole of it."""
    return rule.words == words or len(words) > 2 and rule.words.startswith(words)


def table_of(text: str, rules: dict[str, list[Rule]]) -> dict[str, list[Row]]:
    """The rows of each section, with the definitions of their rules."""
    found: dict[str, list[Row]] = {}
    number = ""
    for block in re.split(r"\n\n+", re.sub(r"^#.*\n", "", text, flags=re.M).strip()):
        lines = block.splitlines()
        if block.isdigit():
            number = block
            continue
        words = [line.removeprefix("= ") for line in lines if line.startswith("= ")]
        named = [one for rule in rules.get(number, []) for one in rule.definitions if any_begins(rule, words)]
        row = Row(words, list(dict.fromkeys(named)), [line for line in lines if not line.startswith("= ")])
        found.setdefault(number, []).append(row)
    return found


def any_begins(rule: Rule, words: list[str]) -> bool:
    return any(begins(rule, one) for one in words)


def unmatched(rules: list[Rule], rows: list[Row]) -> list[str]:
    """Rules without a row or with several, and rows without a rule."""
    found = []
    for words in [words for row in rows for words in row.rules]:
        if sum(begins(rule, words) for rule in rules) != 1:
            found.append(f"{words}: not the beginning of one rule")
    for rule in rules:
        count = sum(any_begins(rule, row.rules) for row in rows)
        if count != 1:
            found.append(f"{rule.words}: {count} rows")
    return found


class Ties:
    """What ties the functions of one row to its definitions."""

    def __init__(self, sources: contracts.Sources, row: Row) -> None:
        self.sources, self.row = sources, row
        self.tied: set[Key] = set()
        self.shown: set[str] = set()

    def check(self) -> None:
        """Each function is tied, and each definition is one to which some function is."""
        waiting = [self.read(entry) for entry in self.row.functions]
        while waiting:
            left = [one for one in waiting if not self.ties(one)]
            if len(left) == len(waiting):
                raise Fault(f"not tied: {', '.join(one['name'] for one in left)}")
            waiting = left
        missing = set(self.row.definitions) - self.shown
        if missing:
            raise Fault(f"no function is tied to {', '.join(sorted(missing))}")

    def read(self, entry: str) -> re.Match[str]:
        one = FUNCTION.fullmatch(entry)
        if not one:
            raise Fault(f"cannot be read: {entry}")
        if (one["file"], one["name"]) not in self.sources.functions:
            raise Fault(f"{one['file']} has no function {one['name']}")
        return one

    def ties(self, one: re.Match[str]) -> bool:
        key = one["file"], one["name"]
        if one["words"]:
            self.show(self.led(key, one["words"].split()))
        elif not (self.is_called(one) if one["way"] == "in" else self.is_shared(one)):
            return False
        self.tied.add(key)
        return True

    def led(self, key: Key, words: list[str]) -> Definition:
        """Where the words lead from a contract."""
        names = set(self.sources.functions[key].names)
        for word in words:
            here = [one for one in names if one.name == word]
            if not here:
                raise Fault(f"{key[1]}: {word} is not named there")
            names = set().union(*map(self.sources.named_by, here))
        return here[0]

    def show(self, last: Definition) -> None:
        reached = {one.name for one in self.sources.reached_from(last)} & set(self.row.definitions)
        if not reached:
            raise Fault(f"{last.name} does not rest on {', '.join(self.row.definitions)}")
        self.shown |= reached

    def is_called(self, one: re.Match[str]) -> bool:
        """Does a call lead to it from the other function, which is tied?"""
        others = [key for key in self.tied if key[1] == one["other"]]
        if others and not any((one["file"], one["name"]) in self.sources.called_from(key) for key in others):
            raise Fault(f"{one['other']} does not call {one['name']}")
        return bool(others)

    def is_shared(self, one: re.Match[str]) -> bool:
        """Do its contract and the other's speak of one definition, and is the other tied?"""
        laws = [key for key in self.sources.functions if key[1] == one["other"] and key[0].endswith("/laws.rt")]
        own = self.reach(self.sources.functions[one["file"], one["name"]].names)
        others = laws or [key for key in self.tied if key[1] == one["other"]]
        for key in others:
            named = set(self.sources.functions[key].names)
            if laws:
                self.show(next(iter(named)))
                named |= set().union(*map(self.sources.named_by, named))
            if not named & own:
                raise Fault(f"{one['name']} and {one['other']} speak of nothing in common")
        return bool(others)

    def reach(self, names: Iterable[Definition]) -> set[Definition]:
        return set().union(*map(self.sources.reached_from, names))


@functools.cache
def sources() -> contracts.Sources:
    return contracts.Sources(TOP / "crates")


def rooms_of(text: str) -> dict[str, list[str]]:
    """The folders of the definitions of each section: it names them, or the last one before it does."""
    found: dict[str, list[str]] = {}
    rooms: list[str] = []
    for number, body in SECTION.findall(text):
        rooms = re.findall(r"`(crates/\w+/specs)/`", body) or rooms
        found[number] = rooms
    return found


def definitions_of(names: list[str], rooms: list[str]) -> list[Definition]:
    """The definitions of these names in some folders."""
    found = []
    for room in rooms:
        for file in sorted((TOP / room).glob("*.antt")):
            module = sources().module(pathlib.Path(room).parts[1], file.stem)
            found += [Definition(file, name) for name in names if module and name in module.definitions]
    return found


def line_of(one: Definition) -> int:
    """The line on which a definition begins, from 0."""
    begins_here = re.compile(rf"(?:abbrev |unfoldable )?(?:pub )?(?:record )?{re.escape(one.name)}\b")
    lines = one.file.read_text(encoding="utf-8").splitlines()
    return next(at for at, line in enumerate(lines) if begins_here.match(line))


def tables_of_code() -> Iterator[str]:
    """The lines of a document that has each rule with its definitions and functions, and where these are."""
    text = RULES.read_text(encoding="utf-8")
    rooms, rules = rooms_of(text), rules_of(text)
    yield "# Which functions decide by which rule of docs/AUDIT_RULES.md"
    for number, rows in table_of(TABLE.read_text(encoding="utf-8"), rules).items():
        yield f"\n## Section {number}"
        for row in rows:
            yield ""
            yield from (f"**{rule.words}**\n" for rule in rules[number] if any_begins(rule, row.rules))
            for one in definitions_of(row.definitions, rooms[number]):
                yield f"- defined by `{one.name}`: {one.file.relative_to(TOP)}:{line_of(one) + 1}"
            yield from map(said_of, row.functions)


def said_of(entry: str) -> str:
    one = FUNCTION.fullmatch(entry)
    assert one
    crate, _, path = one["file"].partition("/")
    tie = f"answers `{one['words'].replace(' ', '`, `')}`" if one["words"] else f"{one['way']} `{one['other']}`"
    return f"- `{one['name']}` {tie}: crates/{crate}/src/{path}"
