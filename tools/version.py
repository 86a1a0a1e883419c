"""Writes what the file VERSION says where it stands once more: python3 -m tools.version, by `make version`.

Programs in Python read VERSION; those in Rattle and in Rust cannot, or their toolchains want it elsewhere too.
tools/tests/documents/words_test.py fails where one of these places says something else. Between releases VERSION says
the next one with -dev.
"""

import datetime
import pathlib
import re
import sys
from typing import NamedTuple

from h2audit.report import VERSION

TOP = pathlib.Path(__file__).resolve().parents[1]
DEVELOPED = "-dev"
# The heading of a version in CHANGELOG.md that is released, and of one that is not.
RELEASED = re.compile(r"^## (\S+) \((\d{1,2} [A-Z][a-z]+ \d{4})\)$", re.M)
UNRELEASED = "unreleased"


class Place(NamedTuple):
    """A file, what stands around the word there, and the word that it should have."""

    file: str
    before: str
    after: str
    wanted: str
    begins: str = "^"  # \A for the first line of the file alone

    @property
    def pattern(self) -> re.Pattern[str]:
        return re.compile(rf"(?m)(?<={self.begins}{re.escape(self.before)})[^\n]*?(?={re.escape(self.after)}$)")

    def read(self) -> str:
        return (TOP / self.file).read_text(encoding="utf-8")

    def found(self) -> list[str]:
        """What stands there now."""
        return self.pattern.findall(self.read())

    def write(self) -> None:
        text, times = self.pattern.subn(lambda _: self.wanted, self.read())
        if times != 1:
            sys.exit(f"{self.file}: {self.before!r} stands there {times} times, and not once")
        (TOP / self.file).write_text(text, encoding="utf-8")


def date_of(version: str) -> datetime.date | None:
    """The date of a version in CHANGELOG.md; none of a version that is not released."""
    dates = dict(RELEASED.findall((TOP / "CHANGELOG.md").read_text(encoding="utf-8")))
    return datetime.datetime.strptime(dates[version], "%d %B %Y").date() if version in dates else None


def members() -> list[str]:
    """The crates of the programs in Rust, by name."""
    files = sorted((TOP / "companions").glob("*/Cargo.toml"))
    return [re.findall(r'^name = "(.*)"$', file.read_text(), re.M)[0] for file in files]


def of_package(version: str) -> str:
    """As Debian says it: before the version that comes, and for no distribution."""
    number = version.removesuffix(DEVELOPED)
    return f"{number}) stable" if number == version else f"{number}~dev) UNRELEASED"


def places() -> list[Place]:
    constant = 'const VERSION: &str = "', '";'
    manuals = sorted(f"tools/man/{file.name}" for file in (TOP / "tools" / "man").glob("*.1"))
    day = date_of(VERSION)
    return [
        Place("crates/h2audit/src/command_line/command.rt", *constant, VERSION),
        Place("crates/split_program/src/command.rt", *constant, VERSION),
        Place("crates/h2audit_split/stdout", "h2audit-split ", "", VERSION),
        Place("companions/Cargo.toml", 'version = "', '"', VERSION),
        *(Place("companions/Cargo.lock", f'name = "{name}"\nversion = "', '"', VERSION) for name in members()),
        Place("tools/package/changelog", "h2audit (", "; urgency=medium", of_package(VERSION), r"\A"),
        *(Place(manual, ".Os h2audit ", "", VERSION) for manual in manuals),
        *(Place(manual, ".Dd ", "", f"{day:%B} {day.day}, {day.year}") for manual in manuals if day),
    ]


def main() -> None:
    for place in places():
        place.write()


if __name__ == "__main__":
    main()
