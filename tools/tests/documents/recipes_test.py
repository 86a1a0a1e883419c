"""Runs the commands of the documents, and compares what they print with what stands there. Follows links to files too.

    python3 -m tools.tests.documents.recipes_test [PROGRAM]

A command is a block ```sh that a block ```text follows. It is run by bash at the top of the repository, where it has
an awk once with each that is installed. The name h2audit is that of PROGRAM, and those of the programs beside it are
of tools/ and companions/. Without PROGRAM, h2audit is a stand-in that prints the stored reports of examples/, and
commands that import or capture are left out.
"""

import os
import pathlib
import re
import shutil
import subprocess
import tempfile
import unittest
from collections.abc import Iterator

from tests.programs import named
from tools.tests.companions import companion

RUNS = ("$H2AUDIT",)
TOP = pathlib.Path(__file__).resolve().parents[3]
PAIR = re.compile(r"^```sh\n(.*?)^```\n+```text\n(.*?)^```$", re.M | re.S)
LINK = re.compile(r"\]\(([^)#:]+)(?:#[^)]*)?\)")
# What the stand-in has no report for.
NEEDS_PROGRAM = re.compile(r"h2audit-(any|import|why) |h2audit-page \S+\.pcap |tcpdump -i |h2audit-fleet .*-requests ")
STAND_IN = TOP / "tools" / "tests" / "documents" / "h2audit_stand_in"
AWKS = {awk: path for awk in ("mawk", "gawk", "original-awk") if (path := shutil.which(awk))}


def documents() -> list[pathlib.Path]:
    folders = [TOP, TOP / "docs", TOP / "bench", TOP / "examples"]
    return [document for folder in folders for document in sorted(folder.glob("*.md"))]


def broken_links() -> list[str]:
    """The links of the documents that lead to no file."""
    return [
        f"{document.relative_to(TOP)}: no file {link[1]}"
        for document in documents()
        for link in LINK.finditer(document.read_text())
        if not (document.parent / link[1]).exists()
    ]


def recipes() -> Iterator[tuple[str, str, str]]:
    """Each command with its place and what it should print."""
    for document in documents():
        text = document.read_text()
        for pair in PAIR.finditer(text):
            line = text.count("\n", 0, pair.start()) + 1
            yield f"{document.relative_to(TOP)}:{line}", pair[1], pair[2]


def tools_folder(folder: str, program: pathlib.Path, awk: str) -> pathlib.Path:
    """A folder that has the programs by their names."""
    bin_of = pathlib.Path(folder, awk)
    bin_of.mkdir()
    (bin_of / "h2audit").symlink_to(program)
    for name in ("any", "comment", "fleet", "import", "merge", "page", "plot", "why"):
        script = TOP / "tools" / f"h2audit-{name}"
        (bin_of / script.name).symlink_to(script if script.exists() else companion(script.name))
    (bin_of / "awk").symlink_to(AWKS[awk])
    return bin_of


def printed(command: str, bin_of: pathlib.Path) -> str:
    path = f"{bin_of}:{os.environ['PATH']}"
    with tempfile.TemporaryDirectory() as folder:
        surroundings = {**os.environ, "PATH": path, "LC_ALL": "C.UTF-8", "TMPDIR": folder}
        run = subprocess.run(
            ["bash", "-c", command], cwd=TOP, env=surroundings, capture_output=True, text=True, timeout=150
        )
    return run.stdout + run.stderr


class Documents(unittest.TestCase):
    def test_links(self) -> None:
        self.assertEqual(broken_links(), [])

    def test_commands(self) -> None:
        found = 0
        with tempfile.TemporaryDirectory() as folder:
            for awk in AWKS:
                bin_of = tools_folder(folder, pathlib.Path(PROGRAM or STAND_IN), awk)
                for place, command, wanted in recipes():
                    if (
                        awk != next(iter(AWKS))
                        and "awk" not in command
                        or not PROGRAM
                        and NEEDS_PROGRAM.search(command)
                    ):
                        continue
                    found += 1
                    with self.subTest(place, awk=awk):
                        self.assertEqual(printed(command, bin_of), wanted)
        self.assertGreater(found, 10)


if __name__ == "__main__":
    PROGRAM = next(iter(named()), None)
    unittest.main()
