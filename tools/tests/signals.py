"""What the tests of several programs share: signals that come in the middle of a program's work."""

import os
import pathlib
import signal
import subprocess
import time
from collections.abc import Callable, Iterable, Sequence

SIGNALS = (signal.SIGINT, signal.SIGTERM, signal.SIGHUP)
PATIENCE = 60


def hidden_in(folder: pathlib.Path) -> list[str]:
    """A file that is not yet whole."""
    return [name for name in os.listdir(folder) if name.startswith(".")]


def signalled(
    words: Iterable[object], begin: bytes, numbers: Sequence[int], is_amid: Callable[[], object] = lambda: True
) -> tuple[int, bytes]:
    """The status and the standard error of a program that gets signals once it is amid its work. Its standard input
    begins so, and has no end: it reads where that is longer than a pipe holds.
    """
    for one in SIGNALS:
        if signal.getsignal(one) is signal.SIG_IGN:  # as of what a shell runs in the background; a child has it too
            signal.signal(one, signal.SIG_DFL)
    child = subprocess.Popen([*map(str, words)], stdin=subprocess.PIPE, stderr=subprocess.PIPE)
    assert child.stdin and child.stderr
    try:
        child.stdin.write(begin)
        child.stdin.flush()
        until(lambda: is_amid() or child.poll() is not None)
        for number in numbers:
            child.send_signal(number)
        return child.wait(PATIENCE), child.stderr.read()
    finally:
        child.kill()
        child.wait()
        child.stdin.close()
        child.stderr.close()


def until(is_so: Callable[[], object]) -> None:
    deadline = time.monotonic() + PATIENCE
    while not is_so() and time.monotonic() < deadline:
        time.sleep(0.002)
