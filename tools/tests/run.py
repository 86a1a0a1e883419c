"""Runs tests, by their rooms or names: python3 -m tools.tests.run [--quick] [--list] [ROOM | ROOM/NAME ..]

One after another, for costs and clocks are among them, in the order of their names; all where none is named. What a
test says is shown where it fails. The others are still run, and then those that failed and depend on time once more, as
on a busy machine a clock, a server or a browser may be late. The list of all that failed comes last, with the end of
what each said.

The programs are built first, without proof where they are not proved or older than their sources: then a run that
needs proved ones is left out, and the whole fails. With --quick only the runs of "make check" are made, with what is
built. --list only names the runs.
"""

import argparse
import os
import signal
import subprocess
import sys
import tempfile
import time
from collections.abc import Callable
from typing import IO

from tools.tests.rooms import HERE, Run, Unclear, chosen

TOP = HERE.parents[1]
BUILT = {"$H2AUDIT": "crates/h2audit_cli/out/h2audit_cli", "$SPLIT": "crates/h2audit_split/out/h2audit_split"}
UNPROVED = {"$H2AUDIT": "out/unproved/h2audit", "$SPLIT": "out/unproved/h2audit-split"}
# How long a test has that is told to end.
PATIENCE_SECONDS = 10
# So many lines of a test that fails are shown once more at the end.
LAST_LINES = 4


def fail(why: str) -> None:
    sys.exit(f"tests: {why}")


def make(*words: str, is_shown: bool = True, **others: str) -> bool:
    """With other surroundings, as they are named, and without those of a make that this runs below."""
    surroundings = {name: value for name, value in os.environ.items() if name not in ("MAKEFLAGS", "MFLAGS")}
    shown = None if is_shown else subprocess.DEVNULL
    run = ["make", "--no-print-directory", *words]
    return subprocess.run(run, cwd=TOP, env=surroundings | others, stdout=shown, stderr=shown).returncode == 0


def programs(is_quick: bool) -> dict[str, str]:
    """The paths of the programs: the proved ones under two names, where they are built from these sources."""
    # Debian's compiler, the oldest that builds them.
    if not is_quick and not make("companions", PATH="/usr/bin:/bin"):
        fail("the programs in Rust could not be built")
    wanted = [BUILT["$H2AUDIT"]] if is_quick else list(BUILT.values())
    if make("--question", *wanted, is_shown=False):
        return BUILT | {"$PROVED": BUILT["$H2AUDIT"], "$PROVED_SPLIT": BUILT["$SPLIT"]}
    if not is_quick:
        print("with programs that are built without proof: 'make build' or 'make test' proves them", flush=True)
        if not make(*UNPROVED.values()):
            fail("the programs could not be built")
    return UNPROVED


def ended(process: subprocess.Popen[bytes]) -> None:
    """Ends a test with all that it started."""
    for number in (signal.SIGTERM, signal.SIGKILL):
        try:
            os.killpg(process.pid, number)
            process.wait(PATIENCE_SECONDS)
        except (ProcessLookupError, subprocess.TimeoutExpired):
            pass


def outcome(run: Run, programs: dict[str, str], said: IO[bytes]) -> tuple[bool, str]:
    """Whether a run passed, and what is said of it behind its name."""
    begun = time.monotonic()
    process = subprocess.Popen(
        run.command(programs), cwd=TOP, stdin=subprocess.DEVNULL, stdout=said, stderr=subprocess.STDOUT, process_group=0
    )
    try:
        status = process.wait(run.seconds)
    except subprocess.TimeoutExpired:
        ended(process)
        return False, f"failed: it took more than {run.seconds} s"
    except BaseException:
        ended(process)
        raise
    took = round(time.monotonic() - begun)
    return status == 0, f"failed in {took} s, status {status}" if status else f"passed in {took} s"


def failure(run: Run, programs: dict[str, str], say: Callable[[str], None]) -> str:
    """Makes a run. Where it fails, its name with the last lines that it said, and else nothing."""
    with tempfile.TemporaryFile() as said:
        has_passed, told = outcome(run, programs, said)
        said.seek(0)
        text = "" if has_passed else said.read().decode(errors="replace").rstrip()
    if text:
        say(text)
    say(f"{run.name}: {told}")
    return "" if has_passed else "\n    ".join([f"{run.name}: failed", *text.splitlines()[-LAST_LINES:]])


def run_all(runs: list[Run], programs: dict[str, str], say: Callable[[str], None]) -> list[str]:
    """Those that failed, as `failure` tells of them."""
    failed = {run.name: told for run in runs if (told := failure(run, programs, say))}
    for run in [run for run in runs if run.is_timed and run.name in failed]:
        say(f"{run.name}: once more, since it depends on time")
        failed[run.name] = failure(run, programs, say)
    return [told for told in failed.values() if told]


def main(words: list[str]) -> int:
    parser = argparse.ArgumentParser(prog="tools.tests.run", usage=(__doc__ or "").partition(": ")[2].splitlines()[0])
    parser.add_argument("--quick", action="store_true")
    parser.add_argument("--list", action="store_true")
    parser.add_argument("names", nargs="*")
    asked = parser.parse_args(words)
    try:
        runs = [run for run in chosen(asked.names) if run.is_quick or not asked.quick]
    except Unclear as why:
        fail(str(why))
    if asked.list:
        print(*(run.name for run in runs), sep="\n")
        return 0
    if not asked.names and not asked.quick and subprocess.run([TOP / "tools" / "deps.sh", "--check"]).returncode:
        return 1
    paths = programs(asked.quick)
    left_out = [run for run in runs if not set(run.programs) <= set(paths)]
    runs = [run for run in runs if run not in left_out]
    failed = run_all(runs, paths, lambda text: print(text, flush=True))
    if left_out:
        print(f"did not run, for want of proved programs: {'; '.join(run.name for run in left_out)}")
    print("\n".join([f"{len(runs) - len(failed)} of {len(runs)} passed", *failed]))
    return 1 if failed or left_out else 0


if __name__ == "__main__":
    sys.exit(main(sys.argv[1:]))
