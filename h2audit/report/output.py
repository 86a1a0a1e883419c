"""Writes what a program makes to a file, which is there only once it is whole; no error and no signal leaves a part."""

import contextlib
import os
import signal
import stat
import sys
import tempfile
from collections.abc import Iterator
from typing import BinaryIO

from h2audit.report.interrupts import SIGNALS, Interrupted, end_by, signals_raise

BUFFER = 1 << 20
# How the name of a file begins before it is whole.
HIDDEN = ".h2audit-"


@contextlib.contextmanager
def written(path: str) -> Iterator[BinaryIO]:
    """The file of this name, which is there only once it is whole; or standard output for -.

    While the file is made, a signal takes it away and then ends the program. Before and after, it does so at once.
    """
    if path == "-":
        yield sys.stdout.buffer
        sys.stdout.buffer.flush()
    elif is_special(path):
        with open(path, "wb") as file:
            yield file
    else:
        try:
            with signals_raise(), replaced(path) as file:
                yield file
                os.fchmod(file.fileno(), mode_of(path))
        except Interrupted as why:
            end_by(why.args[0])


def is_special(path: str) -> bool:
    """Whether a path names something that is there and is no file, as a pipe or a device."""
    try:
        return not stat.S_ISREG(os.stat(path).st_mode)
    except FileNotFoundError:
        return False


@contextlib.contextmanager
def replaced(path: str) -> Iterator[BinaryIO]:
    """A file beside the one of this name, in whose place it comes at the end; its owner alone may read it. It goes with
    any error, and with a signal that raises.
    """
    target = os.path.realpath(path)
    before = signal.pthread_sigmask(signal.SIG_BLOCK, SIGNALS)
    try:
        number, temporary = file_beside(target, path)
        try:
            signal.pthread_sigmask(signal.SIG_SETMASK, before)  # from here on a signal finds the file to remove
            with open(number, "wb", buffering=BUFFER) as file:
                yield file
            os.replace(temporary, target)
        except BaseException:
            with contextlib.suppress(FileNotFoundError):
                os.unlink(temporary)
            raise
    finally:
        signal.pthread_sigmask(signal.SIG_SETMASK, before)


def file_beside(target: str, path: str) -> tuple[int, str]:
    """A new file in the folder of the target, and its name. Where there can be none, the error names the path."""
    try:
        return tempfile.mkstemp(prefix=HIDDEN, dir=os.path.dirname(target))
    except OSError as why:
        raise OSError(why.errno, why.strerror, path) from None


def mode_of(path: str) -> int:
    """The rights that a file has which is written anew."""
    if os.path.exists(path):
        return os.stat(path).st_mode & 0o777
    mask = os.umask(0)
    os.umask(mask)
    return 0o666 & ~mask
