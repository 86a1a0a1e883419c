"""What the programs beside h2audit share: what h2audit-why shows of a capture or a report, their command lines, what a
signal does, and how a file is written.
"""

import pathlib

# The file stands beside the package, in the repository and where it is installed.
VERSION = (pathlib.Path(__file__).resolve().parents[2] / "VERSION").read_text(encoding="ascii").strip()
