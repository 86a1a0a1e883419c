"""How many captures have which verdict, and the words that say it."""

from dataclasses import dataclass

from h2audit.report.words import count

FAULTS = 1


@dataclass
class Verdicts:
    """The captures that stand: those with faults, those in which no connection was audited, and why none was.

    Nothing was audited in a capture that was refused or failed, too.
    """

    captures: int = 0
    faults: int = 0
    nothing: int = 0
    refused: int = 0
    failed: int = 0
    partial: int = 0

    def add(self, outcome: str, status: int | None, has_http2: bool, number: int = 1) -> None:
        self.captures += number
        self.faults += number * (status == FAULTS and outcome in ("audited", "partial"))
        self.nothing += number * (not has_http2)
        self.refused += number * (outcome == "refused")
        self.failed += number * (outcome == "failed")
        self.partial += number * (outcome == "partial")

    @property
    def is_whole(self) -> bool:
        """Whether each capture was audited as far as it can be."""
        return not (self.refused or self.failed or self.partial)

    def words(self) -> str:
        why = [f"{number:,} {name}" for number, name in ((self.refused, "refused"), (self.failed, "failed")) if number]
        nothing = f"{self.nothing:,} in which nothing was audited" + f" ({', '.join(why)})" * bool(why)
        return ", ".join([f"{self.faults:,} with faults", nothing] + [f"{self.partial:,} in part"] * bool(self.partial))

    def summary(self) -> str:
        return f"{count(self.captures, 'capture')}: {self.words()}"
