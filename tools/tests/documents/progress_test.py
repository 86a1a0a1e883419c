"""Tests of the line that says on a terminal how far the work is: python3 -m tools.tests.documents.progress_test PROGRAM

Programs are slowed down: by a pipe that gives little, or by SIGSTOP and SIGCONT in turn.
"""

import contextlib
import gzip
import os
import pathlib
import pty
import re
import select
import signal
import subprocess
import tempfile
import time
import unittest
from collections.abc import Iterator

from bench import generate, wire
from tests.programs import named
from tools.tests.companions import companion, require_built
from tools.tests.legs_written import mixed

RUNS = ("$H2AUDIT",)
TIMED = True
TOP = pathlib.Path(__file__).resolve().parents[3]
PROGRAM = str(next(iter(named()), ""))
EXAMPLE = TOP / "examples" / "paused_stream_node.pcap"
IMPORT, ANY, WHY, COMMENT = (companion(f"h2audit-{name}") for name in ("import", "any", "why", "comment"))
SPLIT = TOP / "tools" / "tests" / "fleet" / "split_stand_in"
PAGE, FLEET = (TOP / "tools" / f"h2audit-{name}" for name in ("page", "fleet"))
PATIENCE = 120
# A line is due when the work has taken two seconds, and then twice a second; between its stops a program goes on for
# so long, which a quick machine needs for some MB.
FIRST_STOP, STOPPED, GOING = 2.1, 0.55, 0.01
# What a program reads to its end before it can be stopped is made larger.
SIZES = (30_000_000, 120_000_000, 480_000_000)
ENVIRONMENT = {**os.environ, "H2AUDIT": PROGRAM, "NO_COLOR": "1", "COLUMNS": "100", "H2AUDIT_WHY": str(WHY)}


def screen(text: str) -> list[str]:
    """What stands on a terminal in the end, line by line."""
    found = []
    for line in text.replace("\r\n", "\n").split("\n"):
        shown: list[str] = []
        for part in line.split("\r"):
            shown[: len(part)] = part
        found.append("".join(shown).rstrip())
    return found


class Terminal:
    """A program on a terminal, which has its standard error, and its output where that is wanted."""

    def __init__(self, *words: object, has_output: bool = False) -> None:
        self.leader, follower = pty.openpty()
        out = follower if has_output else subprocess.DEVNULL
        self.child = subprocess.Popen(
            list(map(str, words)), stdin=subprocess.PIPE, stdout=out, stderr=follower, env=ENVIRONMENT
        )
        os.close(follower)
        self.text = ""

    def read(self, seconds: float) -> None:
        """Takes what is written within some time."""
        until = time.monotonic() + seconds
        while (left := until - time.monotonic()) > 0 and select.select([self.leader], [], [], left)[0]:
            try:
                self.text += os.read(self.leader, 1 << 16).decode()
            except OSError:  # the terminal ends with its last writer
                return

    def wait_for(self, wanted: str) -> None:
        """Takes what is written until this is."""
        until = time.monotonic() + PATIENCE
        while wanted not in self.text and self.child.poll() is None and time.monotonic() < until:
            self.read(0.1)

    def give(self, octets: bytes) -> None:
        assert self.child.stdin
        self.child.stdin.write(octets)
        self.child.stdin.flush()

    def end(self) -> int:
        """The status, once all is read."""
        assert self.child.stdin
        self.child.stdin.close()
        until = time.monotonic() + PATIENCE
        while self.child.poll() is None and time.monotonic() < until:
            self.read(0.1)
        self.read(0.2)
        os.close(self.leader)
        return self.child.wait(1)

    def slow_down(self, wanted: str) -> bool:
        """Lets the program go on in small steps until its line has said something; False where it ended before."""
        while not re.search(wanted, self.text):
            if self.child.poll() is not None:
                return False
            self.child.send_signal(signal.SIGSTOP)
            time.sleep(STOPPED if self.text else FIRST_STOP)
            self.child.send_signal(signal.SIGCONT)
            self.read(GOING)
        return True


@contextlib.contextmanager
def terminal(*words: object, has_output: bool = False) -> Iterator[Terminal]:
    one = Terminal(*words, has_output=has_output)
    try:
        yield one
    finally:
        one.child.kill()
        one.child.communicate()


@contextlib.contextmanager
def slow_h2audit(then: str = 'exec "$PROGRAM" "$@"') -> Iterator[None]:
    """An h2audit that begins late, and then does this; h2audit-split is found too."""
    with tempfile.TemporaryDirectory() as folder:
        slow = pathlib.Path(folder, "h2audit")
        slow.write_text(f"#!/bin/sh\nPROGRAM={PROGRAM}\nsleep 4\n{then}\n")
        slow.chmod(0o755)
        pathlib.Path(folder, "h2audit-split").symlink_to(SPLIT)
        before = ENVIRONMENT["PATH"]
        ENVIRONMENT.update({"H2AUDIT": str(slow), "PATH": f"{before}:{folder}"})
        try:
            yield
        finally:
            ENVIRONMENT.update({"H2AUDIT": PROGRAM, "PATH": before})


def write_large(path: pathlib.Path, size: int) -> None:
    with open(path, "wb") as file:
        generate.SHAPES["mixed"](wire.Capture(file), size)


class Lines(unittest.TestCase):
    """The line of each program, from standard input: then nobody knows how much there will be."""

    def of_pipe(self, name: str, *words: object) -> Terminal:
        octets = EXAMPLE.read_bytes()
        with terminal(*words) as one:
            one.give(octets[:1000])
            one.wait_for("MB")
            one.give(octets[1000:])
            self.assertEqual(one.end(), 0, one.text)
        self.assertRegex(one.text, rf"^\r{name}: reading: 0\.0 MB")
        self.assertEqual(screen(one.text), [""])
        return one

    def test_import(self) -> None:
        self.of_pipe("h2audit-import", IMPORT, "-o", os.devnull)

    def test_any(self) -> None:
        self.of_pipe("h2audit-any", ANY)

    def test_why(self) -> None:
        self.of_pipe("h2audit-why", WHY)

    def test_page(self) -> None:
        self.of_pipe("h2audit-page", PAGE, "-o", os.devnull, "-")

    def test_page_of_nothing_yet(self) -> None:
        with terminal(PAGE, "-o", os.devnull, "-") as one:
            one.wait_for("reading")
            one.give(EXAMPLE.read_bytes())
            self.assertEqual(one.end(), 0, one.text)
        self.assertRegex(one.text, r"^\rh2audit-page: reading\r")
        self.assertEqual(screen(one.text), [""])

    def test_not_at_once(self) -> None:
        """Within two seconds nothing is said, and on a pipe nothing ever."""
        with terminal(WHY, EXAMPLE) as one:
            self.assertEqual((one.end(), one.text), (0, ""))
        octets = EXAMPLE.read_bytes()
        to_nowhere: list[str | pathlib.Path] = ["-o", os.devnull]
        programs: list[list[str | pathlib.Path]] = [[IMPORT, *to_nowhere], [ANY], [WHY], [PAGE, *to_nowhere, "-"]]
        for words in programs:
            with subprocess.Popen(words, stdin=subprocess.PIPE, stdout=subprocess.DEVNULL, stderr=subprocess.PIPE,
                                  env=ENVIRONMENT) as child:  # fmt: skip
                assert child.stdin
                child.stdin.write(octets[:1000])
                child.stdin.flush()
                time.sleep(2.6)
                self.assertEqual(child.communicate(octets[1000:], PATIENCE), (None, b""))
                self.assertEqual(child.returncode, 0)


class Files(unittest.TestCase):
    """How much there is of files is known: in one connection too, and in both walks."""

    def are_shown(self, path: pathlib.Path, wanted: list[str], *words: object) -> bool:
        """Whether these lines were shown, in this order; False where the program ended before one was."""
        # What is stopped is the program alone: a quick h2audit would be done before its line says so.
        with slow_h2audit(), terminal(*words, path) as one:
            shown = all(one.slow_down(line) for line in wanted)
            self.assertIn(one.end(), (0, 1), one.text)
        self.assertEqual(screen(one.text), [""])
        return shown

    def test_stages(self) -> None:
        explained = [r"\rh2audit-why: auditing", r"\rh2audit-why: explaining: \d+\.\d of \d+\.\d MB, \d+ %"]
        programs: dict[str, tuple[list[object], list[str]]] = {
            "h2audit-import": ([IMPORT, "-o", os.devnull], []),
            "h2audit-any": ([ANY], []),
            "h2audit-why": ([WHY], explained),
        }
        with tempfile.TemporaryDirectory() as folder:
            path = pathlib.Path(folder, "large.pcap")
            for size in SIZES:
                write_large(path, size)
                read = rf"reading: \d+\.\d of {path.stat().st_size / 1e6:.1f} MB, \d+ %"
                programs = {
                    name: (words, more)
                    for name, (words, more) in programs.items()
                    if not self.are_shown(path, [rf"\r{name}: {read}", *more], *words)
                }
                if not programs:
                    return
        self.fail(f"ended before their lines were shown: {', '.join(programs)}")

    def test_page(self) -> None:
        """It hands on what h2audit-why says of its work."""
        with slow_h2audit(), terminal(PAGE, EXAMPLE, "-o", os.devnull) as one:
            self.assertEqual(one.end(), 0, one.text)
        self.assertRegex(one.text, r"\rh2audit-page: auditing")
        self.assertEqual(screen(one.text), [""])

    def test_both_legs(self) -> None:
        """The further pass over the frames of a proxy's two sides."""
        shown = r"\rh2audit-why: explaining both legs: \d+\.\d of \d+\.\d MB, \d+ %"
        with tempfile.TemporaryDirectory() as folder:
            path = pathlib.Path(folder, "legs.pcap")
            for requests in (10_000, 40_000, 160_000):
                path.write_bytes(mixed(requests, True))
                if self.are_shown(path, [shown], WHY):
                    return
        self.fail("ended before its line was shown")

    def test_fleet(self) -> None:
        """Captures, and bytes of captures."""
        with tempfile.TemporaryDirectory() as folder, tempfile.TemporaryDirectory() as programs:
            slow = pathlib.Path(programs, "h2audit-any")
            slow.write_text(f'#!/bin/sh\nsleep 3\nexec {ANY} "$@"\n')
            slow.chmod(0o755)
            pathlib.Path(programs, "h2audit").symlink_to(PROGRAM)
            for number in (1, 2):
                pathlib.Path(folder, f"{number}.pcap").write_bytes(EXAMPLE.read_bytes())
            before = ENVIRONMENT["PATH"]
            ENVIRONMENT["PATH"] = f"{programs}:{before}"
            self.addCleanup(ENVIRONMENT.update, {"PATH": before})
            with terminal(FLEET, "--db", f"{folder}/db", "-j", "1", "--no-joined", folder) as one:
                self.assertEqual(one.end(), 0, one.text)
        self.assertRegex(one.text, r"^\rh2audit-fleet: 0 of 2 captures, 0\.0 of 0\.2 MB, 0 %")
        self.assertEqual(screen(one.text), [""])


class Audits(unittest.TestCase):
    """While h2audit reads there is a line, which is gone before the report or a message comes."""

    def shown(self, *words: object, status: int, has_output: bool = True) -> str:
        """What was written in all, of a program that leaves on the screen what it writes where there is no terminal."""
        with terminal(*words, has_output=has_output) as one:
            self.assertEqual(one.end(), status, one.text)
        done = subprocess.run(list(map(str, words)), capture_output=True, env=ENVIRONMENT)
        written = done.stderr + done.stdout * has_output
        self.assertEqual((screen(one.text), done.returncode), (written.decode().split("\n"), status))
        return one.text

    def test_any(self) -> None:
        with slow_h2audit():
            for has_output in (True, False):
                text = self.shown(ANY, EXAMPLE, status=0, has_output=has_output)
                self.assertRegex(text, r"^\rh2audit-any: auditing")

    def test_parts(self) -> None:
        with slow_h2audit():
            text = self.shown(ANY, "--parts", "2", EXAMPLE, status=0)
        self.assertRegex(text, r"^\rh2audit-any: auditing: 0\.0 of 0\.\d MB, 0 %")

    def test_failures(self) -> None:
        with slow_h2audit("echo h2audit: out of memory >&2; exit 5"):
            programs: list[tuple[pathlib.Path, list[str]]] = [(ANY, []), (ANY, ["--parts", "1"]), (WHY, [])]
            for program, more in programs:
                text = self.shown(program, *more, EXAMPLE, status=5)
                self.assertRegex(text, rf"^\r{program.name}: auditing")

    def test_comment(self) -> None:
        with slow_h2audit():
            text = self.shown(COMMENT, "--why", EXAMPLE, "-o", os.devnull, status=0)
        self.assertRegex(text, r"^\rh2audit-comment: auditing")


class Mixed(unittest.TestCase):
    """The line is gone before anything else comes to the terminal."""

    def test_answer(self) -> None:
        octets = EXAMPLE.read_bytes()
        plain = subprocess.run([WHY, "-"], input=octets, capture_output=True, env=ENVIRONMENT, check=True).stdout
        with terminal(WHY, "--width", "1000", "-", has_output=True) as one:
            one.give(octets[:1000])
            one.wait_for("reading")
            one.give(octets[1000:])
            self.assertEqual(one.end(), 0)
        self.assertIn("\rh2audit-why: reading", one.text)
        wide = subprocess.run([WHY, "--width", "1000", "-"], input=octets, capture_output=True, env=ENVIRONMENT)
        self.assertEqual(screen(one.text), wide.stdout.decode().split("\n"))
        self.assertTrue(plain)

    def test_message(self) -> None:
        """A message on a file that is read stands on a line of its own."""
        with tempfile.TemporaryDirectory() as folder:
            packed = pathlib.Path(folder, "a.pcap.gz")
            packed.write_bytes(gzip.compress(EXAMPLE.read_bytes()) + b"more")
            with terminal(IMPORT, "-o", os.devnull, "-", packed) as one:
                octets = (TOP / "examples" / "stream_overrun_go.pcap").read_bytes()
                one.give(octets[:1000])
                one.wait_for("reading")
                one.give(octets[1000:])
                self.assertEqual(one.end(), 0, one.text)
        self.assertIn("\rh2audit-import: reading", one.text)
        said = f"h2audit-import: {packed}: bytes behind the end of what gzip packed were passed over"
        self.assertEqual(screen(one.text)[0], said)

    def test_signal(self) -> None:
        with terminal(WHY, "-") as one:
            one.give(EXAMPLE.read_bytes()[:1000])
            one.wait_for("reading")
            one.child.send_signal(signal.SIGINT)
            one.child.wait(PATIENCE)
            self.assertEqual(one.end(), -signal.SIGINT)
        self.assertIn("\rh2audit-why: reading", one.text)
        self.assertEqual(screen(one.text), [""])

    def test_refusal(self) -> None:
        """What is wrong stands on a line of its own."""
        with terminal(ANY, "-") as one:
            one.give(EXAMPLE.read_bytes()[:24] + b"\xff" * 16)
            one.wait_for("reading")
            one.end()
        self.assertIn("\rh2audit-any: reading", one.text)
        self.assertTrue(all(line.startswith("h2audit-any: ") for line in screen(one.text) if line), one.text)


if __name__ == "__main__":
    require_built(*(path.name for path in (IMPORT, ANY, WHY, COMMENT)))
    unittest.main()
