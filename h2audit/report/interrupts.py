"""Signals that end the program become an exception, so that what is half-written goes.

Python looks for signals between its steps. One that comes just before a read that waits would be seen after it, which
may be never; so what may wait for bytes waits for signals too, by the pipe that Python writes a byte to.
"""

import io
import os
import select
import signal
from collections.abc import Callable, Iterator
from contextlib import contextmanager
from typing import Any

SIGNALS = (signal.SIGINT, signal.SIGTERM, signal.SIGHUP)
wakes: list[int] = []  # the end to read of that pipe, while signals raise
BETWEEN_TELLS = 500  # milliseconds
tells: list[Callable[[], None]] = []  # what is done so often while a read waits


class Interrupted(BaseException):
    """A signal that ends the program. It passes every handler of errors, so that temporary files go."""


@contextmanager
def signals_raise() -> Iterator[None]:
    """The first signal raises; another one that comes while things are cleaned up changes nothing."""
    is_ending = False

    def interrupt(number: int, _frame: object) -> None:
        nonlocal is_ending
        if not is_ending:
            is_ending = True
            raise Interrupted(number)

    reading, writing = os.pipe()
    os.set_blocking(reading, False)
    os.set_blocking(writing, False)
    before = {one: signal.signal(one, interrupt) for one in SIGNALS if signal.getsignal(one) is not signal.SIG_IGN}
    descriptor = signal.set_wakeup_fd(writing, warn_on_full_buffer=False)
    wakes.append(reading)
    try:
        yield
    finally:
        wakes.remove(reading)
        signal.set_wakeup_fd(descriptor)
        for one, handler in before.items():
            signal.signal(one, handler)
        os.close(reading)
        os.close(writing)


def end_by(number: int) -> None:
    """Ends the program by a signal, so that a shell sees the status that it expects."""
    signal.signal(number, signal.SIG_DFL)
    os.kill(os.getpid(), number)


@contextmanager
def while_waiting(tell: Callable[[], None]) -> Iterator[None]:
    """Does something again and again while a read waits."""
    tells.append(tell)
    try:
        yield
    finally:
        tells.remove(tell)


class Waiting(io.FileIO):
    """A file whose reads may wait, as standard input or a pipe: a signal ends them."""

    def readinto(self, buffer: Any) -> int | None:
        poll = select.poll()
        for one in (self.fileno(), *wakes):
            poll.register(one, select.POLLIN)
        between = None if self.isatty() else BETWEEN_TELLS  # nothing is told amid what is typed
        ready = poll.poll(between)
        while all(number in wakes for number, _ in ready):
            for one, _ in ready:
                os.read(one, 512)
            for tell in tells:
                tell()
            ready = poll.poll(between)
        return super().readinto(buffer)
