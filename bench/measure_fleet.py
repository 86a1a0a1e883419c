"""Measures h2audit-fleet beside the shell: measure_fleet.py H2AUDIT [CAPTURES MEGABYTES]..

For each set, of so many captures of so many megabytes each, in turn all usual shapes of generate.py: the whole of a run
of `xargs -P 4` that has H2AUDIT audit each with one worker and keeps its report, and the whole of h2audit-fleet with 1,
2 and 4 workers, with its database. Each is the least of three, in turn. "Processor" is user and system time of all
processes. The last line says whether four workers took at most 1.5 times as long as xargs, and three seconds to begin.
Without sets these are 1000 of 0.05 megabytes, and 20 of 20.
"""
import os
import pathlib
import resource
import subprocess
import sys
import tempfile
import time

from bench.generate import SHAPES, USUAL
from bench.wire import Capture

Seconds = tuple[float, float]  # of a clock on the wall, of the processors
FLEET = pathlib.Path(__file__).resolve().parents[1] / "tools" / "h2audit-fleet"
XARGS = "ls captures | xargs -P 4 -I {} sh -c 'h2audit --workers 1 captures/{} > reports/{}.report || [ $? = 1 ]'"
JOBS = (1, 2, 4)
RUNS = 3
TIMES, BEGIN_SECONDS = 1.5, 3.0


def seconds_of(words: list[str | pathlib.Path], folder: pathlib.Path, program: pathlib.Path) -> Seconds:
    surroundings = {**os.environ, "PATH": f"{program.parent}:{os.environ['PATH']}"}
    start, before = time.monotonic(), processor_seconds()
    run = subprocess.run(words, cwd=folder, env=surroundings, stdout=subprocess.DEVNULL)
    assert run.returncode in (0, 1), words
    return time.monotonic() - start, processor_seconds() - before


def processor_seconds() -> float:
    usage = resource.getrusage(resource.RUSAGE_CHILDREN)
    return usage.ru_utime + usage.ru_stime


def fleet_seconds(folder: pathlib.Path, program: pathlib.Path, jobs: int) -> Seconds:
    (folder / "a.sqlite").unlink(missing_ok=True)
    words: list[str | pathlib.Path] = [FLEET, "--db", "a.sqlite", "--jobs", str(jobs), "captures"]
    return seconds_of(words, folder, program)


def line(name: str, number: int, size: float, run: Seconds) -> None:
    seconds, processor = run
    print(
        f"{name:24} {seconds:8.2f} {number / seconds:11.1f} {size / seconds:7.1f} {1000 * processor / number:14.2f}",
        flush=True,
    )


def measure(program: pathlib.Path, number: int, megabytes: float) -> None:
    with tempfile.TemporaryDirectory() as name:
        folder = pathlib.Path(name)
        for below in ("captures", "reports", "bin"):
            (folder / below).mkdir()
        (folder / "bin" / "h2audit").symlink_to(program)
        for place in range(number):
            with open(folder / "captures" / f"{place:05d}.pcap", "wb") as file:
                SHAPES[USUAL[place % len(USUAL)].__name__](Capture(file), int(megabytes * 1000000) + place)
        size = sum(path.stat().st_size for path in (folder / "captures").iterdir()) / 1000000
        print(
            f"\n{number} captures of {megabytes} MB\n"
            "                          seconds  captures/s    MB/s  processor, ms a capture"
        )
        report(folder, folder / "bin" / "h2audit", number, size)


def report(folder: pathlib.Path, program: pathlib.Path, number: int, size: float) -> None:
    """Runs each in turn, and prints the least of its times."""
    shell: list[Seconds] = []
    fleets: dict[int, list[Seconds]] = {jobs: [] for jobs in JOBS}
    for _ in range(RUNS):
        shell.append(seconds_of(["sh", "-c", XARGS], folder, program))
        for jobs, runs in fleets.items():
            runs.append(fleet_seconds(folder, program, jobs))
    line("xargs -P 4", number, size, min(shell))
    for jobs, runs in fleets.items():
        line(f"h2audit-fleet --jobs {jobs}", number, size, min(runs))
    most, took = TIMES * min(shell)[0] + BEGIN_SECONDS, min(fleets[JOBS[-1]])[0]
    print(
        f"{took:.2f} s of {most:.2f}, which is {TIMES} times xargs and {BEGIN_SECONDS:.0f} seconds to begin: "
        f"{'within' if took <= most else 'ABOVE'}",
        flush=True,
    )


def main() -> None:
    words = sys.argv[2:] or ["1000", "0.05", "20", "20"]
    for number, megabytes in zip(words[::2], words[1::2]):
        measure(pathlib.Path(sys.argv[1]).resolve(), int(number), float(megabytes))


if __name__ == "__main__":
    main()
