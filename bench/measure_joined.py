"""Measures what joining costs h2audit-import:

    python3 -m bench.measure_joined [--import PROGRAM] [--generator GENERATOR] [--runs N] [--megabytes N] [SHAPE ..]

The capture of each shape is cut at a third of its packets, so that all its connections began before. Three imports are
run N times each in turn (5 without --runs), and the least processor seconds count: the plain one of the whole capture,
that of the cut one, and that of the cut one with `--joined`, which writes nearly as much as that of the whole. Captures
and what is made of them are files. `x whole`, whose goal is 1.5, and `x cut` are the third to the first and to the
second. Behind it stands what the option costs where it joins nothing: the whole capture with `--joined`, to the first.

GENERATOR SHAPE MEGABYTES 1 writes a capture; without one shapes are those of generate.py.
"""

import argparse
import pathlib
import struct
import tempfile

from bench.measure import generate
from bench.measure_import import IMPORT, Words, once

SHAPES = {True: "bulk stalls many grpc streams chatty", False: "downloads stalls many grpc requests mixed"}
HEADER, RECORD = 24, 16
GOAL = 1.5


def cut_at_a_third(whole: pathlib.Path, cut: pathlib.Path) -> None:
    """Leaves out a third of the packets of a classic capture."""
    octets = whole.read_bytes()
    order = "<" if octets[:4] in (b"\xd4\xc3\xb2\xa1", b"\x4d\x3c\xb2\xa1") else ">"
    places, at = [], HEADER
    while at + RECORD <= len(octets):
        places.append(at)
        at += RECORD + struct.unpack_from(order + "I", octets, at + 8)[0]
    cut.write_bytes(octets[:HEADER] + octets[places[len(places) // 3] :])


def measure(program: pathlib.Path, folder: pathlib.Path, shape: str, asked: argparse.Namespace) -> None:
    whole, cut = folder / "whole.pcap", folder / "cut.pcap"
    generate(shape, asked.megabytes, str(whole), asked.generator)
    cut_at_a_third(whole, cut)
    made: Words = ["-o", folder / "made.pcap", "-m", folder / "map"]
    runs: list[Words] = [
        [program, *made, whole],
        [program, *made, cut],
        [program, "--joined", *made, cut],
        [program, "--joined", *made, whole],
    ]
    found: list[list[float]] = [[] for _ in runs]
    for _ in range(asked.runs):
        for times, words in zip(found, runs):
            times.append(once(words)[0])
    of_whole, of_cut, joined, nothing = (min(times) for times in found)
    above = "  above its goal" if joined > GOAL * of_whole else ""
    print(
        f"{shape:10} {of_whole:8.3f} {of_cut:8.3f} {joined:9.3f} {joined / of_whole:8.2f} {joined / of_cut:6.2f}"
        f" {nothing / of_whole:8.2f}{above}",
        flush=True,
    )


def main() -> None:
    words = argparse.ArgumentParser(description=__doc__, formatter_class=argparse.RawDescriptionHelpFormatter)
    words.add_argument("--import", type=pathlib.Path, default=IMPORT, dest="program")
    words.add_argument("--generator")
    words.add_argument("--runs", type=int, default=5)
    words.add_argument("--megabytes", type=float, default=42.0)
    words.add_argument("shapes", nargs="*")
    asked = words.parse_args()
    print(f"{'shape':10} {'whole s':>8} {'cut s':>8} {'joined s':>9} {'x whole':>8} {'x cut':>6} {'nothing':>8}")
    with tempfile.TemporaryDirectory() as folder:
        for shape in asked.shapes or SHAPES[asked.generator is not None].split():
            measure(asked.program, pathlib.Path(folder), shape, asked)


if __name__ == "__main__":
    main()
