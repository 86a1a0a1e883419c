"""One run of a program over captures, which are handed to it as open files, while a digest of their bytes is taken.

So no name of a file reaches the program.

A worker needs this module, which is sent to it: it imports the standard library alone.
"""

import hashlib
import os
import shutil
import signal
import subprocess
import tempfile
import threading
import time
import zlib
from collections.abc import Iterator, Sequence
from contextlib import contextmanager, suppress
from dataclasses import dataclass
from typing import IO

PIECE = 1 << 20
# A piece of so many bytes is still in the processor's cache when it goes on.
IN_CACHE = 1 << 18
MOST_SAID = 4096


class NoProgram(Exception):
    """A program that is not on this machine."""


@dataclass(frozen=True)
class Run:
    """How a run ended: its status, the last line on standard error, its seconds, and whether its time was up."""

    status: int
    said: str
    seconds: float
    is_late: bool
    size: int = 0
    digest: str = ""


@dataclass(frozen=True)
class Text:
    """What a program wrote, compressed, with the digest and the number of its bytes."""

    packed: bytes
    digest: str
    size: int


def is_there(program: str) -> bool:
    return shutil.which(program) is not None


def run(
    words: Sequence[str],
    output: IO[bytes],
    seconds: float,
    captures: Sequence[int] = (),
    source: IO[bytes] | None = None,
) -> Run:
    """Runs a program for so many seconds at most.

    It may have a file as its standard input, and is handed open captures, of whose bytes, one capture behind the other,
    a digest is taken meanwhile.
    """
    if not is_there(words[0]):
        raise NoProgram(words[0])
    begin = time.monotonic()
    with tempfile.TemporaryFile() as said, child_of(words, source, captures, output, said) as child:
        with time_limit(child, seconds) as is_late:
            size, digest = digest_of(captures, is_late) if captures else (0, "")
            status = child.wait()
        return Run(status, last_line(said), time.monotonic() - begin, is_late.is_set(), size, digest)


def tied() -> list[str]:
    """The words before a command whose process ends with the thread that begins it, however that ends."""
    return ["setpriv", "--pdeathsig", "KILL", "--"] if shutil.which("setpriv") else []


@contextmanager
def child_of(
    words: Sequence[str], source: IO[bytes] | None, captures: Sequence[int], output: IO[bytes], said: IO[bytes]
) -> Iterator[subprocess.Popen[bytes]]:
    """A child in a session of its own, which keys of the terminal do not reach. It is tied to its worker."""
    child = subprocess.Popen(
        [*tied(), *words],
        stdin=source or subprocess.DEVNULL,
        stdout=output,
        stderr=said,
        pass_fds=captures,
        start_new_session=True,
    )
    try:
        yield child
    finally:
        end_group(child)
        child.wait()


@contextmanager
def time_limit(child: subprocess.Popen[bytes], seconds: float) -> Iterator[threading.Event]:
    is_late = threading.Event()

    def end() -> None:
        is_late.set()
        end_group(child)

    timer = threading.Timer(seconds, end)
    timer.daemon = True
    timer.start()
    try:
        yield is_late
    finally:
        timer.cancel()


def end_group(child: subprocess.Popen[bytes]) -> None:
    """Ends the child's own session, unless the child was waited for: then its number may be another's."""
    if child.returncode is None:
        with suppress(ProcessLookupError, PermissionError):
            os.killpg(child.pid, signal.SIGKILL)


def digest_of(sources: Sequence[int], is_late: threading.Event) -> tuple[int, str]:
    """The number and the digest of files' bytes, which a program reads at its own places; none when time is up."""
    digest, size, room = hashlib.sha256(), 0, bytearray(IN_CACHE)
    for source in sources:
        at = 0
        while not is_late.is_set() and (length := os.preadv(source, [room], at)):
            digest.update(memoryview(room)[:length])
            at += length
        size += at
    return (0, "") if is_late.is_set() else (size, digest.hexdigest())


def last_line(said: IO[bytes]) -> str:
    """The last line of a file that is not empty, in printable characters."""
    said.seek(max(said.seek(0, os.SEEK_END) - MOST_SAID, 0))
    lines = [line for line in said.read().decode(errors="replace").splitlines() if line.strip()]
    return "".join(sign if sign.isprintable() else "?" for sign in lines[-1]) if lines else ""


def text_of(output: IO[bytes]) -> Text:
    digest, packer, size, packed = hashlib.sha256(), zlib.compressobj(1), 0, []
    output.seek(0)
    while piece := output.read(PIECE):
        digest.update(piece)
        size += len(piece)
        packed.append(packer.compress(piece))
    packed.append(packer.flush())
    return Text(b"".join(packed), digest.hexdigest(), size)
