"""Measures a program: measure.py PROGRAM [--peer PEER] [--beside OTHER] [--generator GENERATOR] [--shapes NAME,..]
[--runs N] [MEGABYTES ..]

For each shape of capture and each size, of N runs each in turn (3 without --runs, 7 with a peer): the least
processor time with one worker, the least wall time with one and with four, and the greatest peak of memory. `cat`
runs beside it; so does an older program where OTHER is named, with one worker and with four; and PEER, which is
another program with the same report, with one. All have the capture on standard input and their output thrown away.
Prints one line each, with ratios and the growth from the size before, since absolute times say more of the machine
than of the program. Before a peer is measured, its report has to be the program's, byte for byte.

Captures are those of generate.py, or what `GENERATOR SHAPE MEGABYTES 1` writes to its standard output. Without
MEGABYTES these are 10, 40 and 160; 12.5, 25, 50 and 100 of the shapes that a peer might make on purpose; 0.125,
0.25, 0.5 and 1 of those that are quadratic; and 40 with a generator, whose shapes are bulk, stalls, many, grpc,
streams and chatty where none are named.
"""
import argparse
import hashlib
import os
import shutil
import subprocess
import sys
import tempfile
import time
from typing import NamedTuple, NoReturn

from bench.generate import HOSTILE, QUADRATIC, SHAPES, TALKS, USUAL

TOP = os.path.dirname(os.path.dirname(os.path.abspath(__file__)))
SIZES = [((*USUAL, *TALKS), (10, 40, 160)), (HOSTILE, (12.5, 25, 50, 100)), (QUADRATIC, (0.125, 0.25, 0.5, 1))]
GENERATED = "bulk,stalls,many,grpc,streams,chatty"


class Run(NamedTuple):
    """Wall and processor seconds, and peak resident megabytes."""

    wall: float
    processor: float
    peak: float


class Programs(NamedTuple):
    """What is measured; all but the first may be missing."""

    program: str
    peer: str | None
    beside: str | None
    generator: str | None


def refuse(why: str) -> NoReturn:
    print(os.path.basename(sys.argv[0]) + ": " + why, file=sys.stderr)
    sys.exit(2)


def once(words: list[str], path: str | os.PathLike[str]) -> Run:
    """A run with the file on standard input."""
    with open(path, "rb") as source, open(os.devnull, "wb") as nowhere:
        start = time.monotonic()
        child = subprocess.Popen(words, stdin=source, stdout=nowhere, stderr=nowhere)
        _, status, usage = os.wait4(child.pid, 0)
        child.returncode = os.waitstatus_to_exitcode(status)
        return Run(time.monotonic() - start, usage.ru_utime + usage.ru_stime, usage.ru_maxrss * 1024 / 1000000)


def best(commands: list[list[str]], path: str, runs: int) -> list[Run]:
    """The least times and the greatest peak of each command, where the commands take turns."""
    found = [[once(words, path) for words in commands] for _ in range(runs)]
    return [
        Run(min(run.wall for run in each), min(run.processor for run in each), max(run.peak for run in each))
        for each in zip(*found)
    ]


def digest(program: str, path: str) -> bytes:
    """The digest of the report, which is not kept."""
    words = [program, "--workers", "1"]
    report = hashlib.sha256()
    with open(path, "rb") as source, subprocess.Popen(words, stdin=source, stdout=subprocess.PIPE) as child:
        assert child.stdout
        while part := child.stdout.read(1 << 20):
            report.update(part)
    return report.digest()


def commands_of(programs: Programs) -> list[list[str]]:
    """What runs in turn, in the order of the columns."""
    alone, shared = ["--workers", "1"], ["--workers", "4"]
    commands = [[programs.program, *alone], [programs.program, *shared], ["cat"]]
    if programs.peer:
        commands.append([programs.peer, *alone])
    if programs.beside:
        commands += [[programs.beside, *alone], [programs.beside, *shared]]
    return commands


def line_of(shape: str, path: str, programs: Programs, runs: int, before: Run | None) -> Run:
    """Prints a line, and answers the time and the peak that the next one is compared to."""
    size = os.path.getsize(path) / 1000000
    one, four, cat, *others = best(commands_of(programs), path, runs)
    peak = max(one.peak, four.peak)
    grown = (one.processor / before.processor, peak / before.peak) if before else (0, 0)
    text = "%-11s %5.3g  %8.3f %5.0f %6.1f  %8.2f  %8.1f %6.2f %6.1f" % (
        shape,
        size,
        one.processor,
        one.processor / cat.processor,
        grown[0],
        four.wall / one.wall,
        peak,
        peak / size,
        grown[1],
    )
    if programs.peer:
        peer = others.pop(0)
        text += "  %6.2f %6.2f" % (one.processor / peer.processor, peak / peer.peak)
    if programs.beside:
        alone, shared = others
        text += "  %6.2f %6.2f %6.2f" % (
            one.processor / alone.processor,
            four.wall / shared.wall,
            peak / max(alone.peak, shared.peak),
        )
    print(text, flush=True)
    return one._replace(peak=peak)


def heading(programs: Programs) -> str:
    """Two lines above the table."""
    above = "                 processor, one worker  wall, four    memory                "
    below = "shape          MB   seconds x cat growth    to one   peak MB x file growth"
    if programs.peer:
        above, below = above + "  to the peer  ", below + "    time memory"
    if programs.beside:
        above, below = above + "  beside the other", below + "    time   wall memory"
    return above.rstrip() + "\n" + below


def generate(shape: str, size: float, path: str, generator: str | None) -> None:
    """Writes a capture."""
    if not generator:
        subprocess.run([sys.executable, "-m", "bench.generate", shape, str(size), path], cwd=TOP, check=True)
        return
    with open(path, "wb") as file:
        if subprocess.run([generator, shape, "%g" % size, "1"], stdout=file).returncode:
            refuse("%s makes no capture of shape %s with %g MB" % (generator, shape, size))


def sizes_of(shape: str, generator: str | None) -> tuple[float, ...]:
    """The sizes that are measured where none is named."""
    if generator:
        return (40,)
    return next(sizes for shapes, sizes in SIZES if SHAPES[shape] in shapes)


def program_named(name: str) -> str:
    """The program of this name, by a path that holds everywhere."""
    path = shutil.which(name)
    if path is None:
        refuse("there is no program %s" % name)
    return os.path.abspath(path)


def found(name: str | None) -> str | None:
    return None if name is None else program_named(name)


def asked_for() -> argparse.Namespace:
    words = argparse.ArgumentParser(description=__doc__, formatter_class=argparse.RawDescriptionHelpFormatter)
    words.add_argument("program")
    words.add_argument("--peer")
    words.add_argument("--beside")
    words.add_argument("--generator")
    words.add_argument("--shapes")
    words.add_argument("--runs", type=int)
    words.add_argument("megabytes", nargs="*", type=float)
    asked = words.parse_intermixed_args()
    asked.runs = asked.runs or (7 if asked.peer else 3)
    asked.shapes = (asked.shapes or (GENERATED if asked.generator else ",".join(SHAPES))).split(",")
    unknown = [] if asked.generator else [shape for shape in asked.shapes if shape not in SHAPES]
    if unknown:
        refuse("there is no shape %s" % unknown[0])
    return asked


def main() -> None:
    asked = asked_for()
    program = found(asked.program)
    assert program
    programs = Programs(program, found(asked.peer), found(asked.beside), found(asked.generator))
    print(heading(programs))
    for shape in asked.shapes:
        before = None
        for size in asked.megabytes or sizes_of(shape, programs.generator):
            with tempfile.TemporaryDirectory() as folder:
                path = os.path.join(folder, "capture.pcap")
                generate(shape, size, path, programs.generator)
                if programs.peer and digest(program, path) != digest(programs.peer, path):
                    refuse("of shape %s, %s has another report than %s" % (shape, asked.peer, asked.program))
                before = line_of(shape, path, programs, asked.runs, before)


if __name__ == "__main__":
    main()
