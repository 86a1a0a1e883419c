"""Which tests there are, and how each is run: found by their folders, and by what they say themselves.

A room is a folder beside this file. A test is a module or a script in it whose name ends in `_test`. Where it is not
run once, without words, for at most eight minutes, it says so at its top, a script in comments:

    RUNS = ("$H2AUDIT Tables", "Course")    the words of each run
    LIMIT = 1200                            how many seconds each may take
    QUICK = True                            "make check" makes these runs too, or those that are listed here
    TIMED = True                            these runs depend on time, or those that are listed here: with clocks,
                                            servers or browsers. One that fails is made once more at the end

$H2AUDIT and $SPLIT are the paths of h2audit and h2audit-split. A run with $PROVED or $PROVED_SPLIT is made with proved
programs alone.
"""

import ast
import dataclasses
import os
import pathlib
import re
import shlex
from collections.abc import Iterator

HERE = pathlib.Path(__file__).resolve().parent
SECONDS = 480
PYTHON = "/usr/bin/python3"
STATED = ("RUNS", "LIMIT", "QUICK", "TIMED")
# A constant of a script.
COMMENT = re.compile(rf"^# (?=(?:{'|'.join(STATED)}) = )", re.M)


class Unclear(Exception):
    """What a test says of itself that cannot be so."""


@dataclasses.dataclass(frozen=True)
class Run:
    """A test with the words of one of its runs."""

    path: pathlib.Path
    words: tuple[str, ...]
    seconds: int
    is_quick: bool
    is_timed: bool

    @property
    def room(self) -> str:
        return self.path.parent.name

    @property
    def test(self) -> str:
        return f"{self.room}/{self.path.stem.removesuffix('_test')}"

    @property
    def name(self) -> str:
        return " ".join([self.test, *(word for word in self.words if not word.startswith("$"))])

    @property
    def programs(self) -> list[str]:
        return [word for word in self.words if word.startswith("$")]

    def command(self, programs: dict[str, str]) -> list[str]:
        words = [programs.get(word, word) for word in self.words]
        if self.path.suffix == ".sh":
            return [str(self.path), *words]
        return [PYTHON, "-m", f"tools.tests.{self.room}.{self.path.stem}", *words]


def rooms() -> list[str]:
    return sorted(path.parent.name for path in HERE.glob("*/__init__.py"))


def tests() -> list[pathlib.Path]:
    """By room and name."""
    found = [path for room in rooms() for path in (HERE / room).iterdir() if path.stem.endswith("_test")]
    return sorted(path for path in found if path.suffix == ".py" or path.suffix == ".sh" and os.access(path, os.X_OK))


def said(path: pathlib.Path) -> dict[str, object]:
    """The constants that say how a test is run."""
    text = path.read_text(encoding="utf-8")
    if path.suffix == ".sh":
        text = "\n".join(line[2:] for line in text.splitlines() if COMMENT.match(line))
    assigned = {
        node.targets[0].id: node.value
        for node in ast.parse(text).body
        if isinstance(node, ast.Assign) and isinstance(node.targets[0], ast.Name)
    }
    try:
        return {name: ast.literal_eval(assigned[name]) for name in STATED if name in assigned}
    except ValueError as why:
        raise Unclear(f"{path}: {', '.join(STATED)} are values as they are: {why}") from None


def runs_of(path: pathlib.Path) -> Iterator[Run]:
    stated = said(path)
    runs, seconds = stated.get("RUNS", ("",)), stated.get("LIMIT", SECONDS)
    if not isinstance(runs, tuple) or not isinstance(seconds, int):
        raise Unclear(f"{path}: RUNS is a tuple, and LIMIT a number")
    quick, timed = (listed(path, name, stated.get(name, False), runs) for name in ("QUICK", "TIMED"))
    for words in runs:
        yield Run(path, tuple(shlex.split(words)), seconds, words in quick, words in timed)


def listed(path: pathlib.Path, name: str, stated: object, runs: tuple[str, ...]) -> tuple[str, ...]:
    """The runs that a constant is about: all, none, or those that it lists."""
    if isinstance(stated, bool):
        return runs if stated else ()
    if not isinstance(stated, tuple) or not set(stated) <= set(runs):
        raise Unclear(f"{path}: {name} is True, or a tuple of some of RUNS")
    return stated


def all_runs() -> list[Run]:
    return [run for path in tests() for run in runs_of(path)]


def chosen(names: list[str]) -> list[Run]:
    """The runs of rooms and of tests, as why or why/legs, or else all."""
    runs = all_runs()
    names = [name.removesuffix("_test") for name in names]
    unknown = [name for name in names if not any(name in (run.room, run.test) for run in runs)]
    if unknown:
        raise Unclear(f"no room and no test: {' '.join(unknown)}; rooms are {', '.join(rooms())}")
    return [run for run in runs if not names or run.room in names or run.test in names]
