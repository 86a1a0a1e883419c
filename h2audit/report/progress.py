"""A line on a terminal that says how far the work is, after some seconds; on a pipe there is none."""

import contextlib
import errno
import io
import os
import sys
import time
import tty
from collections.abc import Iterator

from h2audit.report.interrupts import Waiting

BEFORE_FIRST, BETWEEN = 2, 0.5
MOST_READ = 1 << 12


class Line:
    """The line on which a terminal's cursor stands: what is told there stands in the place of what was told before."""

    def __init__(self) -> None:
        self.is_shown = os.isatty(2)
        self.next = time.monotonic() + BEFORE_FIRST
        self.wide = 0

    def tell(self, text: str) -> None:
        """Says how far the work is, if it is time for that."""
        if time.monotonic() >= self.next:
            self.next = time.monotonic() + BETWEEN
            self.show(text)

    def show(self, text: str) -> None:
        if self.is_shown:
            said = f"{os.path.basename(sys.argv[0])}: {text}"
            before, self.wide = self.wide, len(said)
            self.write("\r" + said.ljust(before))

    def clear(self) -> None:
        if self.wide:
            self.write("\r" + " " * self.wide + "\r")
            self.wide = 0

    def write(self, text: str) -> None:
        with contextlib.suppress(OSError):
            os.write(2, text.encode(errors="replace"))


@contextlib.contextmanager
def progress() -> Iterator[Line]:
    """A line that is gone in the end."""
    line = Line()
    try:
        yield line
    finally:
        line.clear()


class Relay:
    """A terminal of a program that runs for this one. What that writes over its own line stands on this one's; whole
    lines are kept, since only this one says what went wrong.
    """

    def __init__(self, line: Line) -> None:
        self.line = line
        master, self.of_program = os.openpty()
        tty.setraw(self.of_program)
        self.master = io.BufferedReader(Waiting(master), MOST_READ)
        self.kept: list[bytes] = []
        self.last = b""

    def begun(self) -> None:
        """The program has its end of the terminal, which is closed where no program has it any more."""
        os.close(self.of_program)

    def close(self) -> None:
        self.master.close()

    def read(self, _child: object) -> bytes:
        """What it said in whole lines, once it has ended."""
        try:
            while octets := self.master.read1(MOST_READ):
                self.take(octets)
        except OSError as why:
            if why.errno != errno.EIO:  # so a terminal ends whose other end is closed
                raise
        return b"\n".join([*self.kept, self.last])

    def take(self, octets: bytes) -> None:
        """What is written over ends in a carriage return, with which the next begins; all else in a line feed."""
        *lines, self.last = (self.last + octets).split(b"\n")
        self.kept += [self.shown(line) for line in lines]
        self.last = self.shown(self.last)

    def shown(self, line: bytes) -> bytes:
        """Shows what was written over, and answers what was not."""
        *over, last = line.split(b"\r")
        for one in over:
            if text := one.decode(errors="replace").partition(": ")[2].rstrip():
                self.line.show(text)
        return last
