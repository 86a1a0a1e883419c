"""What carries tasks to workers, and says what became of them: the pool of this machine, or dask's scheduler."""

from collections.abc import Callable, Sequence
from contextlib import AbstractContextManager
from typing import Any, Protocol


class Future(Protocol):
    """A task on its way."""

    status: str

    def result(self, timeout: float) -> Any:
        """What the task answers; its exception where it raised one, TimeoutError where it takes longer."""

    def add_done_callback(self, follow: Callable[["Future"], object]) -> None:
        """Calls this once it is done."""


class Client(AbstractContextManager["Client"], Protocol):
    """Workers, to which tasks are given."""

    # Where a page shows them, if any does; and what a task raises whose worker is lost.
    dashboard_link: str
    lost: type[Exception]

    def submit(self, work: Callable[..., object], *words: object, priority: int) -> Future:
        """Has a worker call this."""

    def cancel(self, futures: Sequence[Future]) -> None:
        """Gives up tasks."""

    def threads(self) -> int:
        """How many tasks run at once."""

    def run(self, work: Callable[[], str]) -> dict[str, str]:
        """What each worker answers to a call, by its name."""
