"""Damages captures and key logs, and has h2audit-why say what it can: no damage ends it otherwise, and shares sum to
each life.

    python3 -m tools.tests.why.mutations_test [H2AUDIT] [NUMBER [FIRST]]
"""

import json
import pathlib
import random
import sys
import tempfile

from tools.tests.damage import damaged
from tools.tests.why_tools import TOP, Json, Refused, check_shares, has_programs, programs_of, ran, said_of

RUNS = ("$H2AUDIT",)
USUAL = 300
LONGEST = 60_000
ANSWERED = (0, 1, 6)
SAMPLES = [path for folder in ("examples", "tests/tls") for path in sorted((TOP / folder).iterdir())
           if path.suffix in (".pcap", ".pcapng") and path.stat().st_size < LONGEST]  # fmt: skip


def written(source: random.Random, sample: pathlib.Path, folder: pathlib.Path) -> list[str]:
    """The words that name a sample and its key log, if it has one, of which one is damaged, or both."""
    capture, log = sample.read_bytes(), sample.with_suffix(".keys")
    path, keys = folder / "damaged", folder / "damaged.keys"
    way = source.choice(("capture", "capture", "both", "keys")) if log.exists() else "capture"
    path.write_bytes(capture if way == "keys" else damaged(source, capture))
    if not log.exists():
        return [str(path)]
    keys.write_bytes(log.read_bytes() if way == "capture" else damaged(source, log.read_bytes()))
    return [str(path), "-k", str(keys)]


def answered(words: list[str]) -> Json | None:
    """The answer, which has a text too; or None where the capture is refused."""
    try:
        found = said_of(*words)
    except Refused as why:
        if "refused" not in str(why):
            raise
        return None
    for line in shown("--all", *words).splitlines():
        if not line.isprintable():
            raise AssertionError(repr(line))
    check_charts(json.loads(shown("--charts", *words)), found)
    return found


def shown(*words: str) -> str:
    run = ran(*words)
    if run.returncode not in ANSWERED:
        raise AssertionError(f"status {run.returncode}: {run.stderr.decode()}")
    return run.stdout.decode()


def check_charts(shown: Json, found: Json) -> None:
    """What a page shows is of the same answer, and no window goes back."""
    if shown["summary"] != found["summary"]:
        raise AssertionError(f"{shown['summary']} and {found['summary']}")
    for window in (window for one in shown["connections"] for window in one["charts"]["windows"]):
        if window["frames"] != sorted(set(window["frames"])) or not window["least"] <= window["greatest"]:
            raise AssertionError(f"{window['side']} {window['stream']}: {window['frames']}")


def main(words: list[str]) -> int:
    number, first = int(words[1]) if len(words) > 1 else USUAL, int(words[2]) if len(words) > 2 else 0
    refused = audited = 0
    with tempfile.TemporaryDirectory() as folder:
        for seed in range(first, first + number):
            source = random.Random(seed)
            sample = source.choice(SAMPLES)
            named = written(source, sample, pathlib.Path(folder)) + ["--reorder"] * source.randrange(2)
            try:
                found = answered(named)
                if found is not None:
                    check_shares(found)
            except BaseException:
                print(f"seed {seed}, {sample.name}: {' '.join(named)}")
                raise
            refused += found is None
            audited += found is not None and bool(found["summary"]["audited"])
    print(f"{number} damaged captures: {audited} audited, {refused} refused")
    return 0 if audited * 2 > number else 1


if __name__ == "__main__":
    sys.argv = programs_of(sys.argv)
    if not has_programs():
        sys.exit("h2audit or h2audit-import is not built")
    sys.exit(main(sys.argv))
