"""Measures h2audit-any, h2audit-comment and h2audit-merge: measure_companions.py H2AUDIT [--old FOLDER] [--runs N] [MB]

For captures of MB megabytes (160 without it) of some shapes, the least times and the greatest peak of N runs (3 without
--runs), each program in turn: h2audit-any beside H2AUDIT on the capture, both with one worker; h2audit-comment beside
`editcap -a` with one comment; and h2audit-merge on the reports with --frames of four parts. FOLDER is a checkout whose
tools/ have the programs of an earlier commit: they take their turns too.
"""
import argparse
import pathlib
import subprocess
import tempfile

from bench.generate import SHAPES
from bench.measure import Run, best
from bench.wire import Capture
from tests.parts import parts_of

TOP = pathlib.Path(__file__).resolve().parents[1]

BUILT = TOP / "companions" / "target" / "release"
SHOWN = ("bulk", "chatty", "small")
MERGED = ("chatty", "connections")
PARTS = 4
# A report with --frames is about so many times as large as its capture, and captures are dealt to parts slowly here.
OF_MERGED = 8


def capture_of(folder: pathlib.Path, shape: str, megabytes: float) -> pathlib.Path:
    path = folder / f"{shape}.pcap"
    with open(path, "wb", buffering=1 << 20) as file:
        SHAPES[shape](Capture(file), int(megabytes * 1000000))
    return path


def report_of(program: str, capture: pathlib.Path, *more: str) -> pathlib.Path:
    path = capture.with_suffix(".report")
    with open(path, "wb") as file:
        subprocess.run([program, *more, capture], stdout=file, check=False)
    return path


def parts_in(folder: pathlib.Path, program: str, capture: pathlib.Path) -> tuple[pathlib.Path, float]:
    """A folder of parts with their reports, and how many megabytes these have."""
    parts, size = folder / f"{capture.stem}.parts", 0
    parts.mkdir()
    for number, (packets, places) in enumerate(parts_of(capture.read_bytes(), PARTS), 1):
        part = parts / f"part-{number:03}.pcap"
        part.write_bytes(packets)
        part.with_suffix(".records").write_bytes(places)
        size += report_of(program, part, "--frames").stat().st_size
    (parts / "split.txt").write_text(f"h2audit-split 1\nparts {PARTS}\n")
    return parts, size / 1000000


def show(what: str, megabytes: float, names: list[str], found: list[Run]) -> None:
    for name, run in zip(names, found):
        rate = megabytes / run.processor if run.processor else 0.0
        print(
            f"{what:28} {megabytes:6.0f} MB  {name:24} {run.wall:6.2f} s {run.processor:6.2f} s of processor "
            f"{rate:6.0f} MB/s {run.peak:6.0f} MB",
            flush=True,
        )


class Measuring:
    def __init__(self, program: str, old: pathlib.Path | None, runs: int) -> None:
        self.program, self.old, self.runs = program, old, runs

    def programs(self, name: str) -> dict[str, str]:
        older = {f"{name}, earlier": str(self.old / "tools" / name)} if self.old else {}
        return {name: str(BUILT / name)} | older

    def measure(self, what: str, megabytes: float, commands: dict[str, list[str]]) -> None:
        show(what, megabytes, list(commands), best(list(commands.values()), "/dev/null", self.runs))

    def any(self, capture: pathlib.Path) -> None:
        commands = {"h2audit": [self.program, "--workers", "1", str(capture)]}
        for name, path in self.programs("h2audit-any").items():
            commands[name] = [path, "--h2audit", self.program, "--workers", "1", str(capture)]
        self.measure(f"audit of {capture.stem}", capture.stat().st_size / 1000000, commands)

    def comment(self, capture: pathlib.Path) -> None:
        report, out = report_of(self.program, capture), str(capture.with_suffix(".pcapng"))
        commands = {"editcap -a": ["editcap", "-a", "1:one", str(capture), out]}
        for name, path in self.programs("h2audit-comment").items():
            commands[name] = [path, str(capture), str(report), "-o", out]
        self.measure(f"comments of {capture.stem}", capture.stat().st_size / 1000000, commands)

    def merge(self, parts: pathlib.Path, megabytes: float) -> None:
        commands = {name: [path, str(parts)] for name, path in self.programs("h2audit-merge").items()}
        self.measure(f"merge of {parts.stem}", megabytes, commands)


def main() -> None:
    parser = argparse.ArgumentParser(description=__doc__.splitlines()[0])
    parser.add_argument("h2audit")
    parser.add_argument("megabytes", nargs="?", type=float, default=160)
    parser.add_argument("--old", type=pathlib.Path)
    parser.add_argument("--runs", type=int, default=3)
    asked = parser.parse_args()
    measuring = Measuring(str(pathlib.Path(asked.h2audit).resolve()), asked.old, asked.runs)
    with tempfile.TemporaryDirectory() as name:
        folder = pathlib.Path(name)
        for shape in SHOWN:
            capture = capture_of(folder, shape, asked.megabytes)
            measuring.any(capture)
            measuring.comment(capture)
            capture.unlink()
        for shape in MERGED:
            capture = capture_of(folder, shape, asked.megabytes / OF_MERGED)
            measuring.merge(*parts_in(folder, measuring.program, capture))


if __name__ == "__main__":
    main()
