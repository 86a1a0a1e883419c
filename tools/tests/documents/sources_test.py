"""Tests of all sources: the form and the types of Python, and the length of lines.

    python3 -m tools.tests.documents.sources_test [Lines | Imports | Form | Types | Packages]

Python is formatted by black, its imports by isort; flake8 and mypy check it, as pyproject.toml and .flake8 say.
"""

import os
import pathlib
import re
import subprocess
import sys
import tempfile
import unittest

from tools import answer_types
from tools.tests.packages import require

QUICK = True
TOP = pathlib.Path(__file__).resolve().parents[3]
FOLDERS = (".ci", "bench", "h2audit", "tests", "tools")
LONGEST = 120
SHELL, PYTHON = re.compile(rb"#!.*sh\b"), re.compile(rb"#!.*python3?\b")
# A list of tactics, which the toolchain lays out on one line, and rows of the table of packet decisions, which
# tools/definitions reads line by line.
WHOLE = re.compile(r"#!\[tactic\(.*|    (∷ )?\((not|nat_lt|if) .*, Refused .*\)")


def sources(ending: str, first_line: re.Pattern[bytes]) -> list[pathlib.Path]:
    """The files of a language: by their names, and those without an ending by their first lines."""
    files = [file for folder in FOLDERS for file in sorted((TOP / folder).rglob("*")) if file.is_file()]
    return [
        file
        for file in files
        if file.suffix == ending or not file.suffix and first_line.match(file.read_bytes().partition(b"\n")[0])
    ]


class Lines(unittest.TestCase):
    def are_short(self, files: list[pathlib.Path], least: int) -> None:
        """There are more files than these, and none has a line that is too long."""
        self.assertGreater(len(files), least)
        too_long = [
            f"{file.relative_to(TOP)}:{number}"
            for file in files
            for number, line in enumerate(file.read_text(encoding="utf-8").splitlines(), 1)
            if len(line) > LONGEST and not WHOLE.fullmatch(line)
        ]
        self.assertEqual(too_long, [], f"more than {LONGEST} characters")

    def test_length(self) -> None:
        self.are_short(sources(".py", PYTHON) + sources(".sh", SHELL), 200)

    def test_length_in_crates(self) -> None:
        endings = ("rt", "antt")
        self.are_short([file for end in endings for file in sorted((TOP / "crates").glob(f"*/[!o]*/**/*.{end}"))], 500)

    def test_length_in_rust(self) -> None:
        """The programs in Rust, with their help and schemas; `target` has what is built."""
        endings = ("rs", "toml", "txt", "json")
        folders = sorted(file.parent for file in (TOP / "companions").glob("*/Cargo.toml"))
        files = [file for end in endings for folder in folders for file in sorted(folder.rglob(f"*.{end}"))]
        self.are_short([TOP / "companions" / "Cargo.toml", *files], 200)

    def test_length_on_pages(self) -> None:
        """What pages and databases are made of."""
        endings = ("js", "css", "html", "sql")
        self.are_short([file for end in endings for file in sorted((TOP / "h2audit").rglob(f"*.{end}"))], 10)


class Imports(unittest.TestCase):
    """One style: whole names from the top of the repository, and no path or future of a module's own."""

    OTHER = re.compile(rb"^\s*(from \.|from __future__|sys\.path\.|sys\.path\[:0\])", re.M)

    def test_style(self) -> None:
        found = [str(file.relative_to(TOP)) for file in sources(".py", PYTHON) if self.OTHER.search(file.read_bytes())]
        self.assertEqual(found, [])

    def test_each_module(self) -> None:
        """Each can be imported, and does nothing then."""
        files = [file.relative_to(TOP).with_suffix("") for file in sources(".py", PYTHON) if file.suffix]
        names = [".".join(file.parts) for file in files]
        script = "import importlib, sys\nfor name in sys.argv[1:]: importlib.import_module(name)"
        run = subprocess.run([sys.executable, "-c", script, *names], cwd=TOP, capture_output=True, text=True)
        self.assertEqual((run.returncode, run.stdout, run.stderr), (0, "", ""))


class Checked(unittest.TestCase):
    def passes(self, program: str, *words: str) -> None:
        """A Debian package that has this name says nothing against any source in Python."""
        require(self, program)
        files = map(str, sources(".py", PYTHON))
        run = subprocess.run([program, *words, *files], cwd=TOP, capture_output=True, text=True, timeout=220)
        self.assertEqual(run.returncode, 0, f"\n{run.stdout}{run.stderr}")


class Form(Checked):
    def test_layout(self) -> None:
        self.passes("black", "--check", "--quiet", "--diff")

    def test_imports(self) -> None:
        self.passes("isort", "--check-only", "--quiet", "--diff")

    def test_faults(self) -> None:
        self.passes("flake8")


class Packages(unittest.TestCase):
    def test_missing(self) -> None:
        """Tests name the packages that are missing, and install none."""
        listed = re.findall(r"needed\+?=\((.*)\)$", (TOP / "tools" / "deps.sh").read_text(), re.M)
        with tempfile.TemporaryDirectory() as folder:
            for name in ("dpkg-query", "apt-get"):
                program = pathlib.Path(folder, name)
                program.write_text(f"#!/bin/sh\n: > {folder}/$1\nexit 1\n")
                program.chmod(0o755)
            surroundings = {**os.environ, "PATH": f"{folder}:{os.environ['PATH']}"}
            words = [sys.executable, "-m", "tools.tests.run"]
            run = subprocess.run(words, cwd=TOP, capture_output=True, text=True, env=surroundings, timeout=60)
            ran = {path.name for path in pathlib.Path(folder).iterdir()}
        self.assertEqual((run.returncode, run.stdout, ran), (1, "", {"dpkg-query", "apt-get", "-W"}))
        said = "deps: install these Debian packages first, or run make deps as root: "
        self.assertTrue(run.stderr.startswith(said + listed[0]), run.stderr)
        self.assertIn(f" {listed[-1]}\n", run.stderr)


class Types(Checked):
    def test_all(self) -> None:
        self.passes("mypy", "--scripts-are-modules")

    def test_of_answers(self) -> None:
        """Those of what h2audit-why says are made of its schema."""
        self.assertEqual(answer_types.WRITTEN.read_text(), answer_types.made(), "python3 -m tools.answer_types --write")


if __name__ == "__main__":
    unittest.main()
