"""Rings of captures: the files of a folder that a capturing program writes one after the other, and which of them it
has closed.

A ring is known by its name, in which numbers and times differ from file to file. A file is closed if nobody has it open
to be written, which Linux says of files that are this user's, or of all to root; else if a newer one of its ring has
begun. One that is being compressed is taken as it was before, or once that is done.
"""

import fcntl
import os
import re
import signal
from collections.abc import Callable, Iterator
from contextlib import suppress
from dataclasses import dataclass, field
from enum import Enum, auto

from h2audit.fleet import tasks
from h2audit.fleet.walk import is_capture

PACKED = re.compile(rb"\.(?:gz|zst|xz|lz4|bz2)$")
# What tcpdump -C counts by, at the end of a name; and numbers and times within it, but not as in eth0.
COUNT = re.compile(rb"[0-9]+$")
NUMBER = re.compile(rb"(?<![A-Za-z0-9])[0-9]+|[0-9]{4,}|(?<=[0-9]T)[0-9]+")
# So often a file has to look the same where nothing newer has begun.
QUIET_LOOKS = 3
NANOS = 10**9


@dataclass(frozen=True)
class Seen:
    """A file as it was looked at."""

    path: bytes
    size: int
    modified: int

    @property
    def plain(self) -> bytes:
        """Its name before it was compressed."""
        return PACKED.sub(b"", self.path)

    @property
    def is_packed(self) -> bool:
        return self.plain != self.path

    def is_of(self, other: "Seen") -> bool:
        """Whether this is that file, as it stood or compressed since: that leaves the time of its last change."""
        if self.path == other.path:
            return self == other
        return (self.plain, self.modified // NANOS) == (other.plain, other.modified // NANOS)


class Writer(Enum):
    """Whether somebody has a file open to write it."""

    NOBODY, SOMEBODY, UNKNOWN = auto(), auto(), auto()


def ring_of(name: bytes) -> bytes:
    """What the names of a ring's files have in common."""
    return NUMBER.sub(b"#", COUNT.sub(b"", PACKED.sub(b"", name)))


def order_of(seen: Seen) -> tuple[int, list[tuple[int, bytes]]]:
    """The order in which files were closed; where their times are equal that of the numbers in their names."""
    words = re.findall(rb"[0-9]+|[^0-9]+", seen.path)
    return seen.modified, [(int(word), b"") if word.isdigit() else (-1, word) for word in words]


def writer_of(path: bytes) -> Writer:
    """Asks for a lease on a file, which nobody gets while somebody may write it, and gives it back at once."""
    try:
        file = os.open(path, os.O_RDONLY | os.O_NONBLOCK | os.O_CLOEXEC)
    except OSError:
        return Writer.UNKNOWN
    try:
        fcntl.fcntl(file, fcntl.F_SETLEASE, fcntl.F_RDLCK)
        fcntl.fcntl(file, fcntl.F_SETLEASE, fcntl.F_UNLCK)
        return Writer.NOBODY
    except BlockingIOError:
        return Writer.SOMEBODY
    except OSError:
        return Writer.UNKNOWN
    finally:
        os.close(file)


@dataclass
class Folder:
    """A folder that is looked at again and again."""

    path: bytes
    # Each file as it was seen last, and in how many looks it was the same.
    looks: dict[bytes, tuple[Seen, int]] = field(default_factory=dict)

    def __post_init__(self) -> None:
        # A writer that comes while a lease is held would end this program by this signal.
        signal.signal(signal.SIGIO, signal.SIG_IGN)

    def look(self, is_known: Callable[[Seen], bool]) -> dict[bytes, list[Seen]]:
        """The closed files of each ring, in the order in which they were written, up to one that is not closed. What
        is known was closed before.
        """
        rings: dict[bytes, list[Seen]] = {}
        looks: dict[bytes, tuple[Seen, int]] = {}
        for seen in self.captures():
            last, times = self.looks.get(seen.path, (None, 0))
            looks[seen.path] = seen, times + 1 if seen == last else 1
            rings.setdefault(ring_of(os.path.basename(seen.path)), []).append(seen)
        self.looks = looks
        return {ring: list(self.closed(sorted(files, key=order_of), is_known)) for ring, files in rings.items()}

    def captures(self) -> Iterator[Seen]:
        """The captures right in the folder; hidden files are what other programs have not finished."""
        with os.scandir(self.path) as entries:
            names = [entry.path for entry in entries if not entry.name.startswith(b".")]
        for path in names:
            if path in self.looks or is_capture(path):
                with suppress(FileNotFoundError):
                    found = os.stat(path)
                    yield Seen(path, found.st_size, tasks.nearest_time(found.st_mtime_ns))

    def closed(self, files: list[Seen], is_known: Callable[[Seen], bool]) -> Iterator[Seen]:
        plain = {seen.path for seen in files}
        files = [seen for seen in files if not (seen.is_packed and seen.plain in plain)]
        for place, seen in enumerate(files):
            if not is_known(seen) and not self.is_closed(seen, place == len(files) - 1):
                return
            yield seen

    def is_closed(self, seen: Seen, is_newest: bool) -> bool:
        times = self.looks[seen.path][1]
        writer = writer_of(seen.path)
        if writer is Writer.NOBODY:
            return not is_newest or times > QUIET_LOOKS
        return writer is Writer.UNKNOWN and times > 1 and not is_newest
