"""Command lines of the programs beside h2audit, and how they end: one line on standard error says what went wrong."""

import argparse
import contextlib
import errno
import io
import os
import re
import select
import signal
import sys
from collections.abc import Callable, Iterator
from typing import IO, BinaryIO, NoReturn

from h2audit.report import VERSION
from h2audit.report.interrupts import Waiting, end_by

# 5 is want of memory alone, 6 that nothing could be read, and 7 that a library, a program or a worker is missing.
OK, WRONG_WORDS, REFUSED, IO_FAILED, NO_MEMORY, MISSING = 0, 2, 3, 4, 5, 7
# No number of a command line has more digits.
DIGITS = r"\d{1,20}"
# So many bytes are read at a time.
BUFFER = 2**18


class Failed(Exception):
    """What ends a program: the status for it, and why."""

    def __init__(self, status: int, why: str) -> None:
        super().__init__(why)
        self.status = status

    def said(self) -> str:
        """The line that says it."""
        return str(self)


class Refused(Failed):
    """Why a report is not taken."""

    def __init__(self, why: str) -> None:
        super().__init__(REFUSED, why)

    def said(self) -> str:
        return f"report refused: {self}"


class Words(argparse.ArgumentParser):
    """A command line of which one line says what is wrong with it."""

    def add_version(self) -> None:
        """The option that all programs have beside --help."""
        self.add_argument(
            "-V",
            "--version",
            action="version",
            version=f"{self.prog} {VERSION}",
            help="print the name and the version, and nothing else",
        )

    def _print_message(self, message: str, file: IO[str] | None = None) -> None:
        """Where help or version cannot be written, that is an error: later versions of argparse pass over it."""
        if message:
            try:
                (file or sys.stderr).write(message)
            except OSError as why:
                raise type(why)(why.errno, why.strerror, "standard output") from None

    def error(self, message: str) -> NoReturn:
        self.exit(WRONG_WORDS, f"{self.prog}: {printable(message)}\n")


def number(least: int, most: int) -> Callable[[str], int]:
    """What takes a word for a whole number in this range."""

    def number_of(word: str) -> int:
        if not re.fullmatch(DIGITS, word, re.ASCII) or not least <= int(word) <= most:
            raise argparse.ArgumentTypeError(f"'{word}' is no number from {least} to {most}")
        return int(word)

    return number_of


def printable(text: str) -> str:
    """On one line, whatever a file's name holds."""
    return "".join(letter if letter.isprintable() else ascii(letter)[1:-1] for letter in text)


def failed(program: str, status: int, why: str) -> int:
    with contextlib.suppress(OSError):
        print(f"{program}: {printable(why)}", file=sys.stderr)
    return status


def io_reason(why: OSError) -> str:
    return f"{why.filename or 'input or output'}: {why.strerror or why}"


def told(why: Failed | MemoryError | ModuleNotFoundError | OSError) -> tuple[int, str]:
    """The status for what ended a program, and the line that says why."""
    match why:
        case Failed():
            return why.status, why.said()
        case MemoryError() | OSError(errno=errno.ENOMEM):  # as where no program can be started for want of it
            return NO_MEMORY, "out of memory"
        case ModuleNotFoundError():
            return MISSING, f"{why.name} is not installed (Debian: apt-get install python3-{why.name})"
        case OSError():
            return IO_FAILED, io_reason(why)


@contextlib.contextmanager
def opened(path: str) -> Iterator[BinaryIO]:
    """The file of this name, or standard input for -."""
    with io.BufferedReader(Waiting(0, closefd=False) if path == "-" else Waiting(path), BUFFER) as file:
        yield file


def hold_standard_files() -> None:
    """Puts something in the place of standard files that are closed, so that no other file gets their number. It does
    not let them be used: reading or writing fails, but for messages, which are lost.

    Letters that an output's encoding lacks are written as escapes, since captures and names of files bring any.
    """
    for number, flags in enumerate((os.O_WRONLY, os.O_RDONLY, os.O_WRONLY)):
        try:
            os.fstat(number)
        except OSError:
            os.open(os.devnull, flags)
    sys.stdout = sys.stdout or open(1, "w", closefd=False)
    sys.stderr = sys.stderr or open(2, "w", closefd=False)
    for file in (sys.stdout, sys.stderr):
        if isinstance(file, io.TextIOWrapper):
            file.reconfigure(errors="backslashreplace")


def run(main: Callable[[list[str]], int]) -> NoReturn:
    """Runs a program by its words, and ends with its status; help and version have one too. What it raises and does not
    catch ends it by one line; but where nobody reads standard output any more it ends by SIGPIPE, without a word.
    """
    hold_standard_files()
    program = os.path.basename(sys.argv[0])
    try:
        status = main(sys.argv[1:])
    except SystemExit as ended:
        status = ended.code if isinstance(ended.code, int) else OK
    except (Failed, MemoryError, ModuleNotFoundError, OSError) as why:
        if isinstance(why, BrokenPipeError) and is_unread():
            end_by(signal.SIGPIPE)
        status = failed(program, *told(why))
    leave(status, program)


def is_unread() -> bool:
    """Whether standard output is a pipe that nobody reads any more, as behind `| head`."""
    poll = select.poll()
    poll.register(1, 0)
    return any(what & select.POLLERR for _, what in poll.poll(0))


def leave(status: int, program: str = "") -> NoReturn:
    """Ends once all is written. Where it cannot be, one line says so, but none where the program has said it."""
    try:
        sys.stdout.flush()
    except OSError as why:
        if isinstance(why, BrokenPipeError):
            end_by(signal.SIGPIPE)
        os.dup2(os.open(os.devnull, os.O_WRONLY), 1)
        if program and status != IO_FAILED:
            failed(program, IO_FAILED, f"standard output: {why.strerror}")
        status = IO_FAILED
    sys.exit(status)
