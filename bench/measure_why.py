"""Measures h2audit-why and the page beside h2audit-any and tshark:

    python3 -m bench.measure_why --why PROGRAM --any PROGRAM --h2audit PROGRAM [--page PROGRAM] [--tshark PROGRAM]
        [--before PROGRAM] [--runs N] [--shapes NAME,..] [MEGABYTES ..]

Of each shape of generate.py and each size (42 MB without one), of N runs each in turn (3 without --runs): the least
processor seconds of a program and all that it starts, and the greatest peak of memory of the largest of its processes.
PROGRAM of --any is that of a commit to which others are held, of --before an earlier h2audit-why. `steps` is what
h2audit-why takes more than h2audit-any, to 250 ns a frame, 6 us a request and 20 us a connection; `own` the peak of its
own process, by samples, to 12 MB, 2.2 kB a connection, 225 bytes a request and 300 for each of a thousand open streams.
`growth` is by how much more the time grew than the size, from the size before. What is above its goal is named at the
end of the line.
"""

import argparse
import os
import pathlib
import re
import subprocess
import sys
import tempfile
import time
from collections.abc import Iterable
from typing import NamedTuple

from bench.generate import SHAPES
from bench.measure import Run, best, generate, program_named, refuse

TOP = pathlib.Path(__file__).resolve().parents[1]
PAGE = TOP / "tools" / "h2audit-page"
AUDITED = (0, 1)
# The columns of the table, with their widths.
COLUMNS = {
    "shape": 11, "MB": 6, "requests": 8, "frames": 9,
    "any s": 7, "why s": 7, "x any": 6, "goal": 4, "steps": 6, "json x": 6, "goal ": 5,
    "page s": 7, " goal": 6, "tshark s": 8, "any MB": 6, "why MB": 6, "own MB": 6, "page MB": 7,
}  # fmt: skip


class Goal(NamedTuple):
    """How many times the processor time of h2audit-any h2audit-why may take, `--json` that of the text, and the page
    that of h2audit-any, with 0.4 s more; 0 where there is no goal.
    """

    why: float = 0.0
    json: float = 1.3
    page: float = 0.0


GOALS = {
    "downloads": Goal(1.4, page=3),
    "stalls": Goal(1.4),
    "grpc": Goal(1.6),
    "mixed": Goal(1.6, page=3),
    "many": Goal(2.5),
    "requests": Goal(4.2, json=1.6, page=6),
    "web": Goal(1.7),
    "api": Goal(2.7, page=3),
}
PAGE_SECONDS, PAGE_MEGABYTES = 0.4, 150
FRONT = 1 << 12
GROWTH = 1.08


class Found(NamedTuple):
    """What a capture holds, and the peak of h2audit-why's own process."""

    connections: int
    frames: int
    requests: int
    own: float

    @property
    def seconds(self) -> float:
        return self.frames * 250e-9 + self.requests * 6e-6 + self.connections * 20e-6

    @property
    def megabytes(self) -> float:
        return 12 + self.connections * 0.0022 + self.requests * 0.000225 + 0.3


class Measured(NamedTuple):
    any: Run
    why: Run
    json: Run
    page: Run
    tshark: Run
    before: Run | None = None


class Programs(NamedTuple):
    """Each by a path that holds everywhere."""

    why: str
    any: str
    h2audit: str
    page: str
    tshark: str
    before: str | None

    def commands(self, capture: str, folder: str) -> list[list[str]]:
        """What runs in turn, in the order of `Measured`."""
        auditor = ["--h2audit", self.h2audit]
        commands = [
            [self.any, *auditor, capture],
            [self.why, *auditor, capture],
            [self.why, *auditor, "--json", capture],
            [self.page, capture, "-o", os.path.join(folder, "page.html")],
            [self.tshark, "-q", "-z", "http2,tree", "-r", capture],
        ]
        return commands + ([[self.before, *auditor, capture]] if self.before else [])


def said(words: list[str], most: int = -1) -> tuple[str, float]:
    """What a program prints, or so many bytes of it, and the peak of its own process. It has to end as one that has
    audited.
    """
    peak, pause = 0.0, 0.003
    with tempfile.TemporaryFile() as output:
        child = subprocess.Popen(words, stdin=subprocess.DEVNULL, stdout=output, stderr=subprocess.PIPE)
        while child.poll() is None:
            peak = max(peak, peak_of(child.pid))
            time.sleep(pause)
            pause = min(1.05 * pause, 0.1)
        assert child.stderr
        why = child.stderr.read().decode(errors="replace").strip()
        if child.returncode not in AUDITED:
            refuse("%s answers %d: %s" % (" ".join(words), child.returncode, why))
        output.seek(0)
        return output.read(most).decode(errors="replace"), peak


def peak_of(process: int) -> float:
    """In megabytes; 0 of one that has ended."""
    try:
        status = pathlib.Path(f"/proc/{process}/status").read_text()
    except OSError:
        return 0.0
    match = re.search(r"^VmHWM:\s*(\d+) kB$", status, re.M)
    return int(match[1]) * 1024 / 1000000 if match else 0.0


def found(commands: list[list[str]]) -> Found:
    """Runs each program once, and sees that it says what it should. Only the front of a long text is read: a child's
    peak counts from the memory of the process that starts it.
    """
    (report, _), (answer, own), (document, _) = said(commands[0]), said(commands[1], FRONT), said(commands[2], FRONT)
    for words in commands[3:]:
        said(words, FRONT)
    if not document.startswith("{"):
        refuse("%s prints no document" % " ".join(commands[2]))
    frames = [int(count) for count in re.findall(r"^connection .* frames (\d+)$", report, re.M)]
    requests = re.search(r"([\d,]+) requests?\b", answer.partition("\n")[0])
    return Found(len(frames), sum(frames), int(requests[1].replace(",", "")) if requests else 0, own)


class Row(NamedTuple):
    """A shape at one size, with how much more the time grew than the size from the size before."""

    shape: str
    size: float
    found: Found
    runs: Measured
    growth: float | None

    @property
    def goal(self) -> Goal:
        return GOALS.get(self.shape, Goal())

    @property
    def times(self) -> float:
        return self.runs.why.processor / self.runs.any.processor

    @property
    def steps(self) -> float:
        return (self.runs.why.processor - self.runs.any.processor) / (self.found.seconds or 1)

    @property
    def json(self) -> float:
        return self.runs.json.processor / self.runs.why.processor

    @property
    def most_of_page(self) -> float:
        return self.goal.page * self.runs.any.processor + PAGE_SECONDS

    def above(self) -> list[str]:
        """What is above its goal."""
        runs, goal, page = self.runs, self.goal, bool(self.goal.page)
        judged = {
            "why": bool(goal.why) and self.times > goal.why,
            "steps": self.steps > 1,
            "json": self.json > goal.json,
            "page": page and (runs.page.processor > self.most_of_page or runs.page.peak > PAGE_MEGABYTES),
            "tshark": runs.why.processor > runs.tshark.processor,
            "own": self.found.own > self.found.megabytes,
            "growth": self.growth is not None and self.growth > GROWTH,
        }
        return [name for name, is_above in judged.items() if is_above]

    def __str__(self) -> str:
        runs, goal, what = self.runs, self.goal, self.found
        words = [self.shape, "%.4g" % self.size, str(what.requests), str(what.frames)]
        words += ["%.3f" % runs.any.processor, "%.3f" % runs.why.processor]
        words += ["%.2f" % self.times, shown(goal.why), "%.2f" % self.steps, "%.2f" % self.json, shown(goal.json)]
        words += ["%.2f" % runs.page.processor, shown(goal.page and self.most_of_page)]
        words += ["%.2f" % runs.tshark.processor]
        words += ["%.0f" % peak for peak in (runs.any.peak, runs.why.peak, what.own, runs.page.peak)]
        text = in_columns(words)
        if self.growth is not None:
            text += "  growth %.2f" % self.growth
        if runs.before:
            text += "  %.4f x before" % (runs.why.processor / runs.before.processor)
        return text + ("  ABOVE: " + ", ".join(self.above()) if self.above() else "  within")


def in_columns(words: Iterable[str]) -> str:
    return " ".join(word.rjust(width) for word, width in zip(words, COLUMNS.values()))


def shown(goal: float) -> str:
    return "%.3g" % goal if goal else "-"


def asked_for() -> argparse.Namespace:
    words = argparse.ArgumentParser(description=__doc__, formatter_class=argparse.RawDescriptionHelpFormatter)
    for name in ("--why", "--any", "--h2audit"):
        words.add_argument(name, required=True, type=program_named, metavar="PROGRAM")
    words.add_argument("--page", default=str(PAGE), type=program_named, metavar="PROGRAM")
    words.add_argument("--tshark", default="tshark", type=program_named, metavar="PROGRAM")
    words.add_argument("--before", type=program_named, metavar="PROGRAM")
    words.add_argument("--runs", type=int, default=3)
    words.add_argument("--shapes", default=",".join(GOALS))
    words.add_argument("megabytes", nargs="*", type=float, default=[42])
    asked = words.parse_intermixed_args()
    asked.shapes = asked.shapes.split(",")
    unknown = [shape for shape in asked.shapes if shape not in SHAPES]
    if unknown:
        refuse("there is no shape %s" % unknown[0])
    return asked


def main() -> int:
    asked = asked_for()
    programs = Programs(asked.why, asked.any, asked.h2audit, asked.page, asked.tshark, asked.before)
    # The page finds by these what it runs.
    os.environ.update(H2AUDIT=programs.h2audit, H2AUDIT_ANY=programs.any, H2AUDIT_WHY=programs.why)
    print(in_columns(COLUMNS))
    above = False
    for shape in asked.shapes:
        before: Row | None = None
        for size in asked.megabytes:
            before = measured(shape, size, programs, asked.runs, before)
            print(before, flush=True)
            above = above or bool(before.above())
    return 1 if above else 0


def measured(shape: str, size: float, programs: Programs, runs: int, before: Row | None) -> Row:
    with tempfile.TemporaryDirectory() as folder:
        path = os.path.join(folder, "capture.pcap")
        generate(shape, size, path, None)
        commands = programs.commands(path, folder)
        what = found(commands)
        run = Measured(*best(commands, os.devnull, runs))
        size = os.path.getsize(path) / 1000000
    growth = run.why.processor / before.runs.why.processor / (size / before.size) if before else None
    return Row(shape, size, what, run, growth)


if __name__ == "__main__":
    sys.exit(main())
