"""Where the programs in Rust are: `make companions` builds them."""

import pathlib
import re
import sys

# What a shell says of a program that ended since nobody reads what it writes.
UNREAD = 141
BUILT = pathlib.Path(__file__).resolve().parents[2] / "companions" / "target" / "release"


def companion(name: str) -> pathlib.Path:
    """The program of this name, as h2audit-merge."""
    return BUILT / name


def require_built(*names: str) -> None:
    """Ends a test that is run by hand before these programs are built."""
    missing = [name for name in names if not companion(name).exists()]
    if missing:
        sys.exit(f"not built: {', '.join(missing)}; run make companions first")


def without_help(said: str) -> str:
    """A message on a capture that is refused, without the sentence behind the file's name."""
    return re.sub(r"(: capture refused: [^:\n]+: [^:\n]+): [^\n]+", r"\1", said)
