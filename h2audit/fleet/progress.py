"""How far a run is, as a line on a terminal says it."""

import time
from dataclasses import dataclass, field

from h2audit.fleet.database import Entered
from h2audit.fleet.verdicts import Verdicts
from h2audit.report.progress import Line
from h2audit.report.words import count

MEGABYTE = 1e6


@dataclass
class Progress:
    line: Line
    captures: int
    size: int
    done: Verdicts = field(default_factory=Verdicts)
    done_size: int = 0
    begin: float = field(default_factory=time.monotonic)

    def count(self, entered: Entered, size: int) -> None:
        self.done.add(*entered)
        self.done_size += size

    def show(self) -> None:
        seconds = max(time.monotonic() - self.begin, 0.001)
        sizes = f"{self.done_size / MEGABYTE:,.1f} of {self.size / MEGABYTE:,.1f} MB"
        percent = f", {100 * self.done_size // self.size} %" if self.size else ""
        self.line.tell(
            f"{self.done.captures:,} of {count(self.captures, 'capture')}, {sizes}{percent}, "
            f"{self.done.captures / seconds:.1f} captures a second, {self.done.words()}"
        )
