"""What tests of h2audit-fleet stand on: captures with what h2audit answers, a folder of programs, and its runs.

The answers were written by hand: those of tests/reports and of examples/. With a program more captures are generated,
and the answers are those of the program alone.
"""

import hashlib
import json
import os
import pathlib
import sqlite3
import subprocess
import tempfile
import time
from collections.abc import Callable
from dataclasses import dataclass, field

from bench import generate, wire
from tests import captures as scripts
from tests import reports_test
from tests.programs import named
from tools.tests.companions import companion
from tools.tests.fleet.rows import Row, lines_of

TOP = pathlib.Path(__file__).resolve().parents[3]

FLEET = TOP / "tools" / "h2audit-fleet"
# The first word of a test may name h2audit.
PROGRAM = next(iter(named()), None)
STAND_IN = TOP / "tools" / "tests" / "fleet" / "stand_in"
# Seconds for what takes a few on a machine that is not busy.
PATIENCE = 200
Ran = subprocess.CompletedProcess[bytes]


@dataclass(frozen=True)
class Sample:
    """A capture with the status, the words on standard error and the report that h2audit answers."""

    name: str
    capture: bytes
    status: int
    error: str
    report: str
    # When its packets end, where a stall lasts up to it.
    end: int | None = None

    @property
    def digest(self) -> str:
        return hashlib.sha256(self.capture).hexdigest()

    @property
    def has_http2(self) -> bool:
        return " http2 frames " in self.report


def beside(name: str) -> pathlib.Path:
    """A program of the repository beside h2audit, by its name: built, or in Python."""
    built = companion(name)
    return built if built.exists() else TOP / "tools" / name


def summary(samples: list[Sample]) -> str:
    """The last line on these captures, each of which was audited or refused."""
    faults = sum(sample.status == 1 for sample in samples)
    nothing = sum(not sample.has_http2 for sample in samples)
    refused = sum(sample.status == 3 for sample in samples)
    captures = "1 capture" if len(samples) == 1 else f"{len(samples)} captures"
    said = f"{captures}: {faults} with faults, {nothing} in which nothing was audited"
    return said + f" ({refused} refused)" * bool(refused)


def until(is_done: Callable[[], bool], what: Callable[[], str] = str) -> None:
    """Waits for a condition with patience; where it does not come true `what` says more."""
    latest = time.monotonic() + PATIENCE
    while not is_done():
        if time.monotonic() > latest:
            raise AssertionError(f"it does not come to pass within {PATIENCE} seconds. {what()}")
        time.sleep(0.1)


def answer_of(text: str) -> tuple[int, str, str]:
    """The parts of an answer that begins with its status, as tests/reports has them."""
    status, _, said = text.partition("\n")
    error = "".join(line for line in said.splitlines(True) if line.startswith("h2audit: "))
    return int(status.removeprefix("status ")), error, said.removeprefix(error)


def answered(sample: Sample) -> tuple[int, str, str, str]:
    """What stands in for h2audit-any answers."""
    return sample.status, sample.error, sample.report, lines_of(sample.report, sample.end)


def by_hand() -> list[Sample]:
    found = []
    for name, text in reports_test.rows():
        script, _, wanted = text.partition("-- ")
        lines = reports_test.lines_of(wanted.removeprefix("findings "), False)
        found.append(Sample(name.replace("/", "_"), scripts.capture_of(script), *answer_of(lines)))
    for capture in sorted(reports_test.EXAMPLES.glob("*.pcap")):
        status = int(capture.stem in reports_test.FAULTY)
        found.append(Sample(capture.stem, capture.read_bytes(), status, "", capture.with_suffix(".report").read_text()))
    return found


def generated(program: str, number: int) -> list[Sample]:
    """So many captures of all shapes, the answers by the program alone."""
    found = []
    shapes = [*generate.USUAL, *generate.HOSTILE, *generate.QUADRATIC]
    with tempfile.TemporaryDirectory() as folder:
        for place in range(number):
            shape, size = shapes[place % len(shapes)], 20000 + 3000 * place
            path = pathlib.Path(folder, "capture")
            with open(path, "wb") as file:
                generate.SHAPES[shape.__name__](wire.Capture(file), size)
            ran = subprocess.run([program, "--workers", "1", path], capture_output=True, text=True)
            found.append(Sample(f"{shape.__name__}_{place}", path.read_bytes(), ran.returncode, ran.stderr, ran.stdout))
    return found


@dataclass
class Machine:
    """A folder with captures, and a folder of programs: h2audit and h2audit-any, or what stands in for both.

    Connections that began before a capture are joined on demand alone, since stand-ins join none.
    """

    samples: list[Sample]
    program: str | None
    folder: pathlib.Path = field(init=False)
    acts: dict[str, list[object]] = field(default_factory=dict)
    joins: bool = False

    def __enter__(self) -> "Machine":
        self.held = tempfile.TemporaryDirectory()
        self.folder = pathlib.Path(self.held.name)
        for name in ("bin", "captures", "notes", "temporary"):
            (self.folder / name).mkdir()
        self.link("h2audit", self.program or STAND_IN)
        self.link("h2audit-any", beside("h2audit-any") if self.program else STAND_IN)
        for sample in self.samples:
            (self.captures / f"{sample.name}.pcap").write_bytes(sample.capture)
        return self

    def __exit__(self, *_: object) -> None:
        self.held.cleanup()

    def link(self, name: str, program: str | pathlib.Path) -> None:
        """Puts a program in the path, by this name."""
        (self.bin / name).unlink(missing_ok=True)
        (self.bin / name).symlink_to(program)

    def script(self, name: str, text: str) -> None:
        """Puts commands of a shell in the path, by this name."""
        (self.bin / name).unlink(missing_ok=True)
        (self.bin / name).write_text(f"#!/bin/sh\n{text}")
        (self.bin / name).chmod(0o755)

    @property
    def bin(self) -> pathlib.Path:
        return self.folder / "bin"

    @property
    def captures(self) -> pathlib.Path:
        return self.folder / "captures"

    @property
    def database(self) -> pathlib.Path:
        return self.folder / "audits.sqlite"

    @property
    def surroundings(self) -> dict[str, str]:
        return {
            **os.environ,
            "PATH": f"{self.bin}:/usr/bin:/bin",
            "FLEET_ORDERS": str(self.folder / "orders.json"),
            "TMPDIR": str(self.folder / "temporary"),
        }

    def write_orders(self) -> None:
        orders = {
            "notes": str(self.folder / "notes"),
            "acts": self.acts,
            "answers": {sample.digest: answered(sample) for sample in self.samples},
        }
        (self.folder / "orders.json").write_text(json.dumps(orders))

    def start(
        self, *words: object, before: tuple[str, ...] = (), start_new_session: bool = False
    ) -> subprocess.Popen[str]:
        self.write_orders()
        return subprocess.Popen(
            [*before, FLEET, "--db", self.database, *self.unjoined(words), *map(str, words)],
            env=self.surroundings,
            cwd=self.folder,
            stdout=subprocess.PIPE,
            stderr=subprocess.PIPE,
            stdin=subprocess.DEVNULL,
            text=True,
            start_new_session=start_new_session,
        )

    def unjoined(self, words: tuple[object, ...]) -> list[str]:
        return [] if self.joins or {"--collect", "--no-joined"} & set(map(str, words)) else ["--no-joined"]

    def run(self, *words: object, before: tuple[str, ...] = ()) -> tuple[int, str, str]:
        """Status, standard output and standard error of h2audit-fleet."""
        child = self.start(*words, before=before)
        said, error = child.communicate(timeout=PATIENCE)
        return child.returncode, said, error

    def ask(self, question: str, *values: object) -> list[Row]:
        base = sqlite3.connect(self.database)
        try:
            return base.execute(question, values).fetchall()
        finally:
            base.close()

    def workers(self) -> int:
        """How many workers have begun a capture."""
        return len({worker for workers in self.notes().values() for worker in workers})

    def notes(self) -> dict[str, list[int]]:
        """The workers' processes of the runs so far, by the digest of the capture."""
        found: dict[str, list[int]] = {}
        for note in (self.folder / "notes").iterdir():
            if not note.name.startswith("."):
                found.setdefault(note.read_text(), []).append(int(note.name.partition(".")[0]))
        return found


def count(machine: Machine) -> int:
    tables = machine.ask("SELECT COUNT(*) FROM sqlite_master WHERE name = 'captures'")
    return int(machine.ask("SELECT COUNT(*) FROM captures")[0][0]) if tables[0][0] else 0
