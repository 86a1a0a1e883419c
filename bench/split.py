"""Measures splitting and merging: split.py H2AUDIT SPLIT SHAPE MEGABYTES [--times K] [--parts N] [--frames]

Generates a capture of this shape and size, names it K times as the files of one capture, splits that, audits the
parts one after the other and merges their reports. Prints wall and processor seconds, megabytes a second of each and
the peak of memory of each step, and says whether the merged report is that of the whole, where K is 1 and h2audit
takes it. Nothing is kept.
"""
import argparse
import os
import pathlib
import subprocess
import sys
import tempfile
import time

from bench.generate import SHAPES

TOP = pathlib.Path(__file__).resolve().parents[1]
MERGE = TOP / "companions" / "target" / "release" / "h2audit-merge"


def timed(step: str, size: float, words: list[object], output: str | pathlib.Path) -> int:
    """Runs a step whose input or output has this size in megabytes, and prints what it took."""
    with open(output, "wb") as file:
        start = time.monotonic()
        child = subprocess.Popen([str(word) for word in words], stdout=file)
        _, status, usage = os.wait4(child.pid, 0)
        child.returncode = os.waitstatus_to_exitcode(status)
    wall, work = time.monotonic() - start, usage.ru_utime + usage.ru_stime
    print(
        f"{step}: {size:.0f} MB, wall {wall:.2f} s, processor {work:.2f} s ({size / work:.0f} MB/s), "
        f"peak {usage.ru_maxrss * 1024 / 1e6:.1f} MB",
        flush=True,
    )
    return child.returncode


def megabytes(path: pathlib.Path) -> float:
    return path.stat().st_size / 1e6


def main() -> None:
    parser = argparse.ArgumentParser(description=__doc__.splitlines()[0])
    parser.add_argument("h2audit", type=pathlib.Path)
    parser.add_argument("split", type=pathlib.Path)
    parser.add_argument("shape", choices=sorted(SHAPES))
    parser.add_argument("megabytes")
    parser.add_argument("--times", type=int, default=1)
    parser.add_argument("--parts", type=int, default=16)
    parser.add_argument("--frames", action="store_true")
    asked = parser.parse_args()
    words = ["--frames"] if asked.frames else []
    with tempfile.TemporaryDirectory() as made:
        folder = pathlib.Path(made)
        capture, parts = folder / "capture.pcap", folder / "parts"
        subprocess.run(
            [sys.executable, "-m", "bench.generate", asked.shape, asked.megabytes, capture], cwd=TOP, check=True
        )
        size = megabytes(capture) * asked.times
        timed("split", size, [asked.split, "--parts", asked.parts, "-o", parts] + [capture] * asked.times, os.devnull)
        start = time.monotonic()
        for part in sorted(parts.glob("*.pcap")):
            with open(part.with_suffix(".report"), "wb") as report:
                subprocess.run([asked.h2audit, *words, part], stdout=report)
        print(f"audit of {asked.parts} parts: wall {time.monotonic() - start:.2f} s", flush=True)
        lines = sum(megabytes(report) for report in parts.glob("*.report"))
        timed("merge", lines, [MERGE, parts], folder / "merged")
        if asked.times == 1 and size < 2147:
            timed("h2audit over the whole", size, [asked.h2audit, *words, capture], folder / "whole")
            same = (folder / "merged").read_bytes() == (folder / "whole").read_bytes()
            print("the merged report is that of the whole" if same else "THE MERGED REPORT DIFFERS")


if __name__ == "__main__":
    main()
