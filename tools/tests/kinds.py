"""The table of kinds, as the tests read it: kinds.txt says what its columns mean."""

import pathlib
from typing import NamedTuple

NOBODY = "nobody"
FRAME_TYPES = (
    "DATA",
    "HEADERS",
    "PRIORITY",
    "RST_STREAM",
    "SETTINGS",
    "PUSH_PROMISE",
    "PING",
    "GOAWAY",
    "WINDOW_UPDATE",
    "CONTINUATION",
)


class Kind(NamedTuple):
    """A row."""

    blame: str
    sections: str
    sentence: str


def read_kinds(text: str) -> dict[str, Kind]:
    """The rows by their names; the last has none, which is for kinds of a later version."""
    rows = [[cell.strip() for cell in row.split("|")] for row in text.splitlines() if not row.startswith("#")]
    return {name: Kind(blame, sections, sentence) for name, blame, sections, sentence in rows if name}


KINDS = read_kinds((pathlib.Path(__file__).resolve().parents[2] / "h2audit" / "report" / "kinds.txt").read_text())
