"""Runs the programs in Rust as children, which end with this one, and whose output has no name."""

import contextlib
import os
import shutil
import signal
import subprocess
import sys
import tempfile
from collections.abc import Iterator, Sequence
from functools import partial
from pathlib import Path
from typing import IO

from h2audit.report.command import IO_FAILED, Failed
from h2audit.report.interrupts import SIGNALS
from h2audit.report.progress import Line, Relay

HERE = Path(os.path.realpath(sys.argv[0])).parent
TOP = Path(__file__).resolve().parents[2]
# Where programs stand: as built in the repository, beside this one, or in the path.
BUILT = {
    "h2audit": TOP / "crates" / "h2audit_cli" / "out" / "h2audit_cli",
    "h2audit-why": TOP / "companions" / "target" / "release" / "h2audit-why",
}
MOST_SAID = 1 << 16
# How long a program may take to remove its files.
MOST_SECONDS = 10
VARIABLES = {name: name.upper().replace("-", "_") for name in BUILT}


def program_named(name: str) -> str:
    """The program that the environment names, else that of the repository, beside this, or the path's."""
    if named := os.environ.get(VARIABLES[name]):
        return named
    for place in (BUILT[name], HERE / name):
        if os.access(place, os.X_OK) and place.is_file():
            return str(place)
    if found := shutil.which(name):
        return found
    raise Failed(IO_FAILED, f"{name}: not found; name it by the variable {VARIABLES[name]}")


@contextlib.contextmanager
def running(words: Sequence[str], source: IO[bytes], out: IO[bytes], line: Line) -> "Iterator[Running]":
    """A program that runs meanwhile. Where this one is interrupted, that one ends too."""
    with contextlib.ExitStack() as stack:
        said: Kept | Relay = Relay(line) if line.is_shown else Kept()
        stack.callback(said.close)
        before = signal.pthread_sigmask(signal.SIG_BLOCK, SIGNALS)
        stack.callback(signal.pthread_sigmask, signal.SIG_SETMASK, before)
        unblock = partial(signal.pthread_sigmask, signal.SIG_SETMASK, before)
        child = subprocess.Popen(words, stdin=source, stdout=out, stderr=said.of_program, preexec_fn=unblock)
        try:
            unblock()
            said.begun()
            yield Running(child, said)
        finally:
            end(child)


class Kept:
    """What a program says on standard error."""

    def __init__(self) -> None:
        self.file = tempfile.TemporaryFile()
        self.of_program = self.file.fileno()

    def begun(self) -> None:
        """The program has its end, which is this one's too."""

    def close(self) -> None:
        self.file.close()

    def read(self, child: subprocess.Popen[bytes]) -> bytes:
        """What it said, once it has ended."""
        child.wait()
        self.file.seek(0)
        return self.file.read(MOST_SAID)


def end(child: subprocess.Popen[bytes]) -> None:
    """Ends a program that may hold plaintext in files of its own: only a signal that it knows lets it remove them."""
    try:
        child.terminate()
        child.wait(MOST_SECONDS)
    except subprocess.TimeoutExpired:
        child.kill()
        child.wait()


class Running:
    def __init__(self, child: subprocess.Popen[bytes], said: Kept | Relay) -> None:
        self.child, self.said = child, said

    def end(self) -> tuple[int, str]:
        """Waits for it: its status, and what it said."""
        said = self.said.read(self.child)
        return self.child.wait(), said.decode(errors="backslashreplace").strip()


def without_name(said: str) -> str:
    """What a program said last, without its name in front."""
    last = said.splitlines()[-1] if said else "it said nothing"
    return last.partition(": ")[2] if last.startswith("h2audit") and ": " in last else last
