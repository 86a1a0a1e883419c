"""Runs a program, and counts what it asks of its system (count.c) and its instructions: of all (valgrind's cachegrind),
and of each thread (callgrind, with turns.c).

Nothing here is measured by a clock, so the counts of one program and one capture are the same on a slow machine and on
a busy one. The program has no other environment than what is named here, since the C library goes through it.
"""

import pathlib
import re
import struct
import subprocess
import tempfile
from collections.abc import Iterator
from typing import NamedTuple

HERE = pathlib.Path(__file__).parent
# The C library has several forms of some functions, and takes one that the processor is fit for. These are left out, so
# that each machine takes the same one.
PLAIN = "glibc.cpu.hwcaps=-AVX2,-AVX512F,-AVX512VL,-ERMS,-FSRM"
KEY = "1"


class Counts(NamedTuple):
    """What count.c counts, in its order. Memory is in bytes."""

    alive: int
    peak: int
    largest: int
    grown: int
    started: int
    joined: int
    drawn: int
    reads: int
    writes: int


class Ran(NamedTuple):
    status: int
    text: bytes
    said: bytes
    counts: Counts


class Work(NamedTuple):
    """The instructions of all threads of a run; its span, which of threads that run side by side has only the one that
    takes most; and in thousandths the greatest share that one thread has in what it and those beside it take. Shares
    count where as many threads as there are workers run side by side, and take a hundredth of all instructions.
    """

    instructions: int
    span: int
    share: int


class Thread(NamedTuple):
    """A thread that was started: by which one, and when; and when it was waited for. The first thread has number 0."""

    number: int
    starter: int
    started: int
    joined: int


# What turns.c writes of a thread, and how many it has room for.
ROW, MOST_THREADS = struct.Struct("3i"), 450


def threads_in(table: bytes) -> list[Thread]:
    rows = [Thread(number, *row) for number, row in enumerate(ROW.iter_unpack(table))]
    return [thread for thread in rows if thread.started]


def side_by_side(threads: list[Thread], starter: int) -> Iterator[list[Thread]]:
    """The threads that one thread starts, in groups: each is started before another of its group was waited for."""
    group: list[Thread] = []
    for thread in threads:
        if thread.starter != starter:
            continue
        if group and thread.started > max(other.joined for other in group):
            yield group
            group = []
        group.append(thread)
    if group:
        yield group


def span_of(counted: dict[int, int], threads: list[Thread], number: int = 0) -> int:
    """The span of a thread and of all that it starts, where so many instructions of each thread are counted."""
    groups = side_by_side(threads, number)
    return counted[number] + sum(max(span_of(counted, threads, one.number) for one in group) for group in groups)


def work_of(counted: dict[int, int], threads: list[Thread], workers: int) -> Work:
    whole = sum(counted.values())
    shares = [0]
    for starter in counted:
        for group in side_by_side(threads, starter):
            taken = [counted[one.number] for one in group]
            if len(taken) == workers and 100 * sum(taken) >= whole:
                shares.append(1000 * max(taken) // sum(taken))
    return Work(whole, span_of(counted, threads), max(shares))


class Counter:
    """Counts the calls and the instructions of runs. Files lie in a folder that is there for as long."""

    def __init__(self, program: str, folder: str, most_seconds: float = 100) -> None:
        self.program, self.folder, self.most_seconds = program, pathlib.Path(folder), most_seconds
        self.all_calls, self.key_alone = self.built("count.c", "all.so"), self.built("count.c", "key.so", "-DKEY_ALONE")
        self.turns = self.built("turns.c", "turns.so")

    def built(self, source: str, name: str, *flags: str) -> pathlib.Path:
        library = self.folder / name
        subprocess.run(["cc", "-O2", "-shared", "-fPIC", *flags, "-o", library, HERE / source], check=True)
        return library

    def run(self, words: list[str], **asked: str | int) -> Ran:
        """A run with its counts. What may be asked for is in count.c."""
        surroundings = {name: str(value) for name, value in asked.items()}
        with tempfile.NamedTemporaryFile(dir=self.folder) as file:
            file.write(bytes(8 * len(Counts._fields)))
            file.flush()
            ran = subprocess.run(
                [self.program, *words],
                stdin=subprocess.DEVNULL,
                capture_output=True,
                timeout=self.most_seconds,
                env={"LD_PRELOAD": str(self.all_calls), "COUNTS": file.name, **surroundings},
            )
            file.seek(0)
            counts = Counts(*struct.unpack(f"{len(Counts._fields)}q", file.read()))
        return Ran(ran.returncode, ran.stdout, ran.stderr, counts)

    def instructions(self, words: list[str], key: str = KEY) -> int:
        """How many instructions a run takes, of the program and of the C library."""
        said = self.under(["--tool=cachegrind", "--cache-sim=no", "--cachegrind-out-file=/dev/null"], words, KEY=key)
        found = re.search(r"I +refs: +([\d,]+)", said)
        if found is None:
            raise ValueError(f"valgrind counts nothing: {said}")
        return int(found[1].replace(",", ""))

    def work(self, words: list[str], workers: int) -> Work:
        """The work of a run by so many workers, whose threads take turns as turns.c says."""
        with tempfile.TemporaryDirectory(dir=self.folder) as folder:
            table, counts = pathlib.Path(folder, "turns"), pathlib.Path(folder, "counts")
            table.write_bytes(bytes(ROW.size * MOST_THREADS))
            tool = ["--tool=callgrind", "--separate-threads=yes", "--fair-sched=yes", f"--callgrind-out-file={counts}"]
            self.under(tool, words, str(self.turns), KEY=KEY, TURNS=str(table))
            counted = {}
            for file in pathlib.Path(folder).glob("counts-*"):
                found = re.search(r"^thread: (\d+)$.*^totals: (\d+)$", file.read_text(), re.M | re.S)
                if found is None:
                    raise ValueError(f"callgrind counts nothing in {file.name}")
                counted[int(found[1]) - 1] = int(found[2])
            return work_of(counted, threads_in(table.read_bytes()), workers)

    def under(self, tool: list[str], words: list[str], *libraries: str, **surroundings: str) -> str:
        """What valgrind says of a run."""
        loaded = ":".join([str(self.key_alone), *libraries])
        ran = subprocess.run(
            ["valgrind", *tool, self.program, *words],
            stdin=subprocess.DEVNULL,
            stdout=subprocess.DEVNULL,
            stderr=subprocess.PIPE,
            text=True,
            timeout=self.most_seconds,
            env={"LD_PRELOAD": loaded, "GLIBC_TUNABLES": PLAIN, **surroundings},
        )
        if ran.returncode not in (0, 1):
            raise ValueError(f"under valgrind it ends with status {ran.returncode}: {ran.stderr}")
        return ran.stderr
