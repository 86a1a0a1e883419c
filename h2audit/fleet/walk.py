"""Which captures PATHs, folders and lists name.

Nothing that is named is lost: a file that cannot be read is tried all the same.
"""

import os
import re
import stat
from collections import deque
from collections.abc import Iterable, Iterator
from dataclasses import dataclass, field

from h2audit.fleet import sniff, tasks

# Names that captures have, with the numbers that rotation adds: a.pcap, a.pcap3, a.pcapng.gz, a.cap.
USUAL_NAME = re.compile(rb"\.(?:pcap|pcapng|cap|ntar|dmp)[0-9]*(?:\.(?:gz|zst|xz|lz4|bz2))?$")


class NotThere(Exception):
    """A PATH, or a list, that cannot be read."""


@dataclass(frozen=True)
class CaptureFile:
    """A capture by its absolute name, its size and the time of its last change, where it has them."""

    path: bytes
    size: int | None
    modified: int | None


@dataclass
class Walk:
    """The captures that were found, how many files of folders are none, and what was named and holds no capture.

    `met` counts captures and folders each time that they are met.
    """

    captures: dict[bytes, CaptureFile] = field(default_factory=dict)
    others: int = 0
    met: int = 0
    empty: list[str] = field(default_factory=list)
    # The folders that were read, each by its device and number there.
    folders: dict[tuple[int, int], bytes] = field(default_factory=dict)

    def named(self, path: bytes) -> None:
        """A PATH of the command line or of a list: a folder with all that is in it, or one capture, whatever it is."""
        if not os.path.isdir(path):
            self.add(os.path.abspath(path))
            return
        before = self.met
        self.folder(os.path.abspath(path))
        if self.met == before:
            self.empty.append(f"{os.fsdecode(path)}: no capture is in this folder")

    def listed(self, name: str) -> None:
        """The PATHs of a list."""
        paths = list(names_in(name))
        for path in paths:
            self.named(path)
        if not paths:
            self.empty.append(f"{'standard input' if name == '-' else name}: this list names nothing")

    def folder(self, top: bytes) -> None:
        """All captures below a folder. One that cannot be read is entered as it is, and the others go on.

        Links to folders are followed when all else was walked, so a folder is read once, and by its own name.
        """
        left = deque([top])
        while left:
            for folder, folders, files in os.walk(left.popleft(), onerror=self.unread):
                if self.is_read(folder):
                    self.met += 1
                    folders.clear()
                    continue
                folders.sort()
                left.extend(path for name in folders if os.path.islink(path := os.path.join(folder, name)))
                for name in sorted(files):
                    self.file(os.path.join(folder, name))

    def is_read(self, folder: bytes) -> bool:
        """Whether a folder was read by another name; from now on it was."""
        try:
            state = os.stat(folder)
        except OSError:
            return False
        return self.folders.setdefault((state.st_dev, state.st_ino), folder) != folder

    def unread(self, error: OSError) -> None:
        self.add(error.filename)

    def file(self, path: bytes) -> None:
        if is_capture(path):
            self.add(path)
        else:
            self.others += 1

    def add(self, path: bytes) -> None:
        self.met += 1
        try:
            found = os.stat(path)
        except (OSError, ValueError):  # a name with a zero byte, which a job may have, is that of no file
            self.captures[path] = CaptureFile(path, None, None)
        else:
            self.captures[path] = CaptureFile(path, found.st_size, tasks.nearest_time(found.st_mtime_ns))

    def in_order(self) -> list[CaptureFile]:
        """The largest first, so that none is begun when the others are done."""
        return sorted(self.captures.values(), key=lambda found: (-(found.size or 0), found.path))


def is_capture(path: bytes) -> bool:
    """Whether a file of a folder is a capture, by its name or by its first bytes. Pipes and devices are not opened."""
    try:
        if not stat.S_ISREG(os.stat(path).st_mode):
            return False
        if USUAL_NAME.search(path):
            return True
        with open(path, "rb") as file:
            return sniff.is_capture(file.read(sniff.FRONT))
    except OSError:
        return bool(USUAL_NAME.search(path))


def found_in(paths: Iterable[bytes], lists: Iterable[str]) -> Walk:
    walk = Walk()
    for path in paths:
        if not os.path.lexists(path):
            raise NotThere(f"{os.fsdecode(path)}: No such file or directory")
        walk.named(path)
    for name in lists:
        walk.listed(name)
    return walk


def names_in(name: str) -> Iterator[bytes]:
    """The names in a list, one a line, or each ended by a zero byte as find -print0 writes them."""
    try:
        with open(0 if name == "-" else name, "rb") as file:
            text = file.read()
    except OSError as error:
        raise NotThere(f"{name}: {error.strerror}") from None
    yield from (path for path in text.split(b"\0" if b"\0" in text else b"\n") if path)
