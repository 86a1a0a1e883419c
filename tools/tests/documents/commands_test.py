"""Tests of what all programs in Python share: help and version, statuses, and names on a terminal."""

import os
import pathlib
import signal
import subprocess
import sys
import tempfile
import unittest

from h2audit.report import VERSION
from tools.tests.companions import UNREAD

TOP = pathlib.Path(__file__).resolve().parents[3]
TOOLS = TOP / "tools"

PROGRAMS = ("h2audit-fleet", "h2audit-page", "h2audit-plot", "by-definition", "believed.py")
# Escapes of a terminal, a line feed, a bell, a right-to-left override, and what is no UTF-8.
HOSTILE = b"no\x1b[31m\nre\x07d\xe2\x80\xae\xff.txt"
ESCAPED = "no\\x1b[31m\\nre\\x07d\\u202e\\udcff.txt"
# A word of a command line.
Word = str | pathlib.Path | bytes


def words_of(name: str) -> tuple[Word, ...]:
    """The words by which Python runs a program."""
    if name.endswith(".py"):
        return "-m", f"tools.{name.removesuffix('.py')}"
    return (TOOLS / name,)


def ran(script: str, *words: Word, **more: str) -> subprocess.CompletedProcess[bytes]:
    """A run of bash, which has the words as its arguments."""
    surroundings = {**os.environ, **more}
    return subprocess.run(["bash", "-c", script, "bash", *words], capture_output=True, timeout=100, env=surroundings)


class HelpAndVersion(unittest.TestCase):
    def test_version(self) -> None:
        for name in PROGRAMS:
            for word in ("-V", "--version"):
                run = ran('python3 "$@"' if name.endswith(".py") else '"$@"', *words_of(name), word)
                self.assertEqual((run.returncode, run.stdout, run.stderr), (0, f"{name} {VERSION}\n".encode(), b""))

    def test_statuses(self) -> None:
        """Each help says what the statuses mean."""
        for name in PROGRAMS:
            run = ran('python3 "$@"', *words_of(name), "--help")
            self.assertEqual((run.returncode, run.stderr), (0, b""))
            text = " ".join(run.stdout.decode().lower().split())
            self.assertIn("exit status", text, name)
            behind = text.partition("exit status")[2]
            for status in "245":
                self.assertRegex(behind, rf"\b{status}\b", name)
            self.assertIn("memory", behind, name)

    def test_nobody_reads(self) -> None:
        """A disk that is full, and no output: one line, status 4, and no traceback. A closed pipe: no word."""
        reader, closed = os.pipe()
        os.close(reader)
        self.addCleanup(os.close, closed)
        for name in PROGRAMS:
            for word in ("--help", "--version"):
                for script, why in (
                    (f'python3 "$@" >&{closed}', None),
                    (f'python3 -u "$@" >&{closed}', None),
                    ('python3 "$@" > /dev/full', "No space left on device"),
                    ('python3 "$@" >&-', "Bad file descriptor"),
                ):
                    run = subprocess.run(
                        ["bash", "-c", script, "bash", *words_of(name), word],
                        stderr=subprocess.PIPE,
                        pass_fds=[closed],
                        timeout=100,
                    )
                    self.assertIn(run.returncode, (4,) if why else (-signal.SIGPIPE, UNREAD), (name, word, script))
                    said = rf"^{name}: (standard output|input or output): {why}\n$" if why else "^$"
                    self.assertRegex(run.stderr.decode(), said, (word, script))


class Statuses(unittest.TestCase):
    def test_what_ends_a_program(self) -> None:
        """What a program raises is one line and a status: want of memory is 5, and nothing else is."""
        rows = (
            ("MemoryError", 5, "out of memory"),
            ("OSError(12, 'Cannot allocate memory')", 5, "out of memory"),
            ("Failed(6, 'nothing\\nwas read')", 6, "nothing\\nwas read"),
            ("Refused('line 2 is none')", 3, "report refused: line 2 is none"),
            ("OSError(28, 'No space left', 'a')", 4, "a: No space left"),
            ("OSError(28, 'No space left')", 4, "input or output: No space left"),
            (
                "ModuleNotFoundError('none', name='hpack')",
                7,
                "hpack is not installed (Debian: apt-get install python3-hpack)",
            ),
        )
        for raised, status, why in rows:
            script = (
                "import sys; from h2audit.report.command import Failed, Refused, run\n"
                f"def main(words): raise {raised}\nsys.argv[0] = '/a/h2audit-page'; run(main)"
            )
            run = subprocess.run([sys.executable, "-c", script], cwd=TOP, capture_output=True, text=True)
            self.assertEqual((run.returncode, run.stderr), (status, f"h2audit-page: {why}\n"))

    def test_missing_library(self) -> None:
        """A library that is missing is named by its package, with status 7."""
        with tempfile.TemporaryDirectory() as folder:
            for name in ("matplotlib", "distributed"):
                pathlib.Path(folder, f"{name}.py").write_text(f"raise ModuleNotFoundError('none', name='{name}')\n")
            pathlib.Path(folder, "a.pcap").write_bytes(b"")
            for words, why in (
                (
                    [
                        "h2audit-plot",
                        str(TOP / "examples" / "stream_overrun_go.frames.report"),
                        "-o",
                        f"{folder}/a.svg",
                    ],
                    "matplotlib is not installed (Debian: apt-get install python3-matplotlib)",
                ),
                (
                    [
                        "h2audit-fleet",
                        "--db",
                        f"{folder}/a",
                        "--scheduler",
                        "tcp://127.0.0.1:1",
                        "--unencrypted",
                        folder,
                    ],
                    "distributed is not installed (Debian: apt-get install python3-distributed)",
                ),
            ):
                run = ran('"$@"', TOOLS / words[0], *words[1:], PYTHONPATH=folder)
                self.assertEqual((run.returncode, run.stderr.decode()), (7, f"{words[0]}: {why}\n"))


class Names(unittest.TestCase):
    def test_escaped(self) -> None:
        """What a terminal would act on in the name of a file is escaped in each message, on one line."""
        with tempfile.TemporaryDirectory() as folder:
            missing = os.fsencode(folder) + b"/" + HOSTILE
            (pathlib.Path(folder) / "empty").mkdir()
            report = TOP / "examples" / "stream_overrun_go.frames.report"
            runs: tuple[tuple[int, tuple[Word, ...]], ...] = (
                (4, (TOOLS / "h2audit-page", missing, "-o", "/dev/null")),
                (4, (TOOLS / "h2audit-page", report, "-o", missing + b"/none")),
                (2, (TOOLS / "h2audit-page", report, missing, "-o", "/dev/null")),
                (4, (TOOLS / "h2audit-plot", missing)),
                (2, (TOOLS / "h2audit-plot", report, "-o", missing.replace(b".txt", b".jpg"))),
                (4, (TOOLS / "h2audit-fleet", "--db", f"{folder}/a", missing)),
                (4, (TOOLS / "h2audit-fleet", "--db", missing + b"/none", report)),
                (4, (TOOLS / "h2audit-fleet", "--db", f"{folder}/a", "--list", missing)),
                (2, (TOOLS / "by-definition", missing)),
                (2, (TOOLS / "by-definition", "--script", missing)),
                (2, (*words_of("believed.py"), missing)),
            )
            for status, words in runs:
                run = ran('python3 "$@"', *words)
                said = run.stderr.decode()
                self.assertEqual((run.returncode, said.count("\n"), said[:-1].isprintable()), (status, 1, True), said)
                self.assertIn(ESCAPED.removesuffix(".txt"), said)

    def test_empty_folder(self) -> None:
        """It is escaped too in the line that says that a folder holds nothing."""
        with tempfile.TemporaryDirectory() as folder:
            empty = os.path.join(os.fsencode(folder), HOSTILE)
            os.mkdir(empty)
            run = ran('"$@"', TOOLS / "h2audit-fleet", "--db", f"{folder}/a", empty)
            self.assertEqual(run.returncode, 3)
            self.assertIn(ESCAPED, run.stderr.decode())
            self.assertTrue(run.stderr.decode()[:-1].isprintable())


if __name__ == "__main__":
    unittest.main()
