"""Tests of the man pages and of the completions, each by its own program: all of them name the programs' options.

The options of h2audit and h2audit-split are those of their help texts, which tests of the gate pin; those of the
programs beside them are in their --help.
"""

import functools
import os
import pathlib
import pty
import re
import subprocess
import tempfile
import time
import unittest
from collections.abc import Callable

from h2audit.report import VERSION
from tools import version
from tools.tests.companions import companion, require_built

TIMED = True
TOP = pathlib.Path(__file__).resolve().parents[3]
MAN = TOP / "tools" / "man"
COMPLETIONS = TOP / "tools" / "completions"
HELP_TEXTS = {"h2audit": TOP / "tests" / "help.txt", "h2audit-split": TOP / "tests" / "split_help.txt"}
IN_PYTHON = ("fleet", "page", "plot")
IN_RUST = ("any", "comment", "import", "merge", "why")
OPTION = re.compile(r"(?<![\w-])(--[a-z][a-z0-9-]*)")


def output_of(*words: str | pathlib.Path, home: str | None = None) -> str:
    surroundings = {**os.environ, "HOME": home} if home else None
    return subprocess.run(words, check=True, capture_output=True, text=True, cwd=TOP, env=surroundings).stdout


def path_of(name: str) -> pathlib.Path:
    """A program beside h2audit and h2audit-split, by its name."""
    return TOP / "tools" / name if name.removeprefix("h2audit-") in IN_PYTHON else companion(name)


def options_of(name: str) -> list[str]:
    """The long options of a program's help."""
    if name in HELP_TEXTS:
        text = HELP_TEXTS[name].read_text()
    else:
        text = output_of(path_of(name), "--help").split("\noptions:\n")[1]
    return sorted(set(OPTION.findall(text)))


@functools.cache
def programs() -> dict[str, list[str]]:
    """The long options of each program."""
    return {name: options_of(name) for name in (*HELP_TEXTS, *(f"h2audit-{end}" for end in IN_PYTHON + IN_RUST))}


class Version(unittest.TestCase):
    """The version is that of VERSION, wherever it stands once more."""

    def test_places(self) -> None:
        for place in version.places():
            self.assertEqual(place.found(), [place.wanted], f"{place.file}: run make version")

    def test_printed(self) -> None:
        for name in programs().keys() - HELP_TEXTS.keys():
            for word in ("-V", "--version"):
                self.assertEqual(output_of(path_of(name), word), f"{name} {VERSION}\n")

    def test_changes(self) -> None:
        """The list of changes begins with it, and says whether it is released."""
        heading = re.findall(r"^## (.*)$", (TOP / "CHANGELOG.md").read_text(), re.M)[0]
        number = VERSION.removesuffix(version.DEVELOPED)
        if number != VERSION:
            self.assertEqual(heading, f"{number} ({version.UNRELEASED})")
        else:
            self.assertTrue(version.date_of(VERSION) and heading.startswith(f"{VERSION} ("), heading)

    def test_released(self) -> None:
        """What differs from a release has another VERSION: which no two builds share."""
        words = ["git", "-C", str(TOP), "rev-parse", "--quiet", "--verify"]
        tagged, here = (
            subprocess.run([*words, f"{name}^{{tree}}"], capture_output=True, text=True)
            for name in (f"refs/tags/v{VERSION}", "HEAD")
        )
        if tagged.returncode == 0:
            self.assertEqual(tagged.stdout, here.stdout, f"v{VERSION} is released: VERSION names the next with -dev")


class Man(unittest.TestCase):
    def test_lint(self) -> None:
        """mandoc finds nothing. Whether other manuals are on this machine says nothing of ours, and where the system
        would be named stands the version."""
        run = subprocess.run(["mandoc", "-Tlint", *MAN.glob("*.1")], capture_output=True, text=True)
        passed = re.compile("referenced manual not found|operating system explicitly specified: Os h2audit ")
        self.assertEqual([line for line in run.stdout.splitlines() if not passed.search(line)], [])

    def test_options(self) -> None:
        for name, options in programs().items():
            tags = re.findall(r"^\.It (Fl .*)", (MAN / f"{name}.1").read_text(), re.M)
            named = sorted("--" + word for tag in tags for word in re.findall(r"Fl \\-([a-z][a-z0-9-]*)", tag))
            self.assertEqual(named, options)


class Bash(unittest.TestCase):
    def offered(self, *words: str | pathlib.Path) -> list[str]:
        """What bash offers for the last word, after those before."""
        script = """
            source "$1"; shift
            COMP_WORDS=("$@"); COMP_CWORD=$(($# - 1))
            "$(complete -p "$1" | sed 's/.*-F \\([a-z0-9_]*\\) .*/\\1/')"
            printf '%s\\n' "${COMPREPLY[@]}"
        """
        return output_of("bash", "-euc", script, "bash", COMPLETIONS / "h2audit.bash", *words).split("\n")[:-1]

    def test_options(self) -> None:
        for name, options in programs().items():
            self.assertEqual(sorted(self.offered(name, "--")), options)

    def test_values(self) -> None:
        self.assertEqual(self.offered("h2audit", "--workers", "6"), ["6", "60", "61", "62", "63", "64"])
        self.assertEqual(self.offered("h2audit", "--workers", "=", "64"), ["64"])
        self.assertEqual(len(self.offered("h2audit", "--workers", "=")), 64)
        self.assertEqual(self.offered("h2audit", "--groups", "10"), ["1024"])
        self.assertEqual(self.offered("h2audit", "--block", "10"), ["1024", "1048576"])
        self.assertEqual(self.offered("h2audit-plot", "--format", ""), ["svg", "png"])
        self.assertEqual(self.offered("h2audit", "--frames", "READ"), ["README.md"])
        self.assertEqual(self.offered("h2audit-comment", "--map", "READ"), ["README.md"])
        self.assertEqual(self.offered("h2audit-page", "--title", "READ"), [""])
        self.assertEqual(self.offered("h2audit-import", "--jobs", "6"), ["6", "60", "61", "62", "63", "64"])
        self.assertEqual(self.offered("h2audit-import", "-k", "READ"), ["README.md"])
        self.assertEqual(self.offered("h2audit-any", "--groups", "10"), ["1024"])
        self.assertEqual(self.offered("h2audit-why", "--color", "a"), ["auto", "always"])
        self.assertEqual(self.offered("h2audit-fleet", "--split-above", "5"), ["512"])
        self.assertEqual(self.offered("h2audit-fleet", "--reports", "exam"), ["examples"])
        self.assertEqual(self.offered("h2audit-split", "--parts", "5"), ["500"])
        self.assertEqual(self.offered("h2audit-split", "-o", "parts", "READ"), ["README.md"])
        self.assertEqual(self.offered("h2audit-merge", "exam"), ["examples"])


class Fish(unittest.TestCase):
    def offered(self, line: str) -> list[str]:
        name = line.split()[0]
        script = f"source {COMPLETIONS}/{name}.fish; complete -C '{line}'"
        with tempfile.TemporaryDirectory() as home:
            said = output_of("fish", "--no-config", "-c", script, home=home)
        return [word.split("\t")[0] for word in said.splitlines()]

    def test_options(self) -> None:
        for name, options in programs().items():
            self.assertEqual(sorted(self.offered(f"{name} --")), options)

    def test_values(self) -> None:
        self.assertEqual(self.offered("h2audit --workers 6"), ["6", "60", "61", "62", "63", "64"])
        self.assertEqual(self.offered("h2audit --groups=10"), ["--groups=1024"])
        self.assertEqual(self.offered("h2audit --block 104"), ["1048576"])
        self.assertEqual(sorted(self.offered("h2audit-plot --format ")), ["png", "svg"])
        self.assertIn("README.md", self.offered("h2audit READ"))
        self.assertIn("README.md", self.offered("h2audit-any -k READ"))
        self.assertEqual(self.offered("h2audit-import --jobs 6"), ["6", "60", "61", "62", "63", "64"])
        self.assertEqual(sorted(self.offered("h2audit-why --color a")), ["always", "auto"])
        self.assertEqual(self.offered("h2audit-fleet --split-above 5"), ["512"])
        self.assertEqual(self.offered("h2audit-split --parts 50"), ["500"])


class Zsh(unittest.TestCase):
    """zsh completes in a terminal of its own; a key shows what the line has become."""

    SHOW, TAB = "\x18", "\t"
    folder: tempfile.TemporaryDirectory[str]
    shown: pathlib.Path
    terminal: int

    @classmethod
    def setUpClass(cls) -> None:
        cls.folder = tempfile.TemporaryDirectory()
        cls.shown = pathlib.Path(cls.folder.name, "shown")
        ready = pathlib.Path(cls.folder.name, "ready")
        child, cls.terminal = pty.fork()
        if child == 0:
            os.chdir(TOP)
            os.execvpe("zsh", ["zsh", "-f", "-i"], {**os.environ, "HOME": cls.folder.name, "TERM": "dumb"})
        cls.type(f"fpath=({COMPLETIONS} $fpath); autoload -Uz compinit; compinit -u -D; setopt menu_complete\r")
        cls.type("show() { print -r -- $BUFFER >> %s; BUFFER= }; zle -N show; bindkey '^X' show\r" % cls.shown)
        cls.type(f"bindkey '^I' menu-complete; touch {ready}\r")
        cls.until(ready.exists)

    @classmethod
    def tearDownClass(cls) -> None:
        os.close(cls.terminal)
        cls.folder.cleanup()

    @classmethod
    def type(cls, text: str) -> None:
        os.write(cls.terminal, text.encode())

    @classmethod
    def until(cls, is_done: Callable[[], bool]) -> None:
        """Waits at most 30 seconds, and reads what the terminal shows, so that zsh can go on writing."""
        os.set_blocking(cls.terminal, False)
        for _ in range(300):
            try:
                os.read(cls.terminal, 65536)
            except BlockingIOError:
                pass
            if is_done():
                return
            time.sleep(0.1)
        raise AssertionError("zsh does not answer")

    def completed(self, line: str, tabs: int = 1) -> str:
        self.shown.unlink(missing_ok=True)
        self.type(line + self.TAB * tabs + self.SHOW)
        self.until(lambda: self.shown.exists() and self.shown.read_text().endswith("\n"))
        return self.shown.read_text().rstrip("\n ")

    def test_options(self) -> None:
        """Each option is found from its beginning, and the whole list has no other."""
        for name, options in programs().items():
            for option in options:
                is_clear = sum(other.startswith(option[:-1]) for other in options) == 1
                beginning = option[:-1] if is_clear else option
                self.assertEqual(self.completed(f"{name} {beginning}").rstrip("="), f"{name} {option}")
            found = {self.completed(f"{name} --", tabs).rstrip("=") for tabs in range(1, len(options) + 2)}
            self.assertEqual(sorted(word.split()[1] for word in found), options)

    def test_values(self) -> None:
        self.assertEqual(self.completed("h2audit --workers=6", 2), "h2audit --workers=60")
        self.assertEqual(self.completed("h2audit --groups=10"), "h2audit --groups=1024")
        self.assertEqual(self.completed("h2audit --block=104"), "h2audit --block=1048576")
        self.assertEqual(self.completed("h2audit-plot --format=p"), "h2audit-plot --format=png")
        self.assertEqual(self.completed("h2audit READ"), "h2audit README.md")
        self.assertEqual(self.completed("h2audit-any --groups=10"), "h2audit-any --groups=1024")
        self.assertEqual(self.completed("h2audit-import --key-log=READ"), "h2audit-import --key-log=README.md")
        self.assertEqual(self.completed("h2audit-why --color=n"), "h2audit-why --color=never")
        self.assertEqual(self.completed("h2audit-fleet --split-above=5"), "h2audit-fleet --split-above=512")
        self.assertEqual(self.completed("h2audit-split --parts=50"), "h2audit-split --parts=500")
        self.assertEqual(self.completed("h2audit-merge exam").rstrip("/"), "h2audit-merge examples")


if __name__ == "__main__":
    require_built(*(f"h2audit-{name}" for name in IN_RUST))
    unittest.main()
