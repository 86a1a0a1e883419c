"""Tests of sources of the programs' crates: which ported crates they call, and where they tell want of memory.

    python3 -m tools.tests.core.crates_test [Libraries | Memory]
"""

import pathlib
import re
import unittest
from collections.abc import Iterator

from tools.tests.core.storeys_test import CRATES, files, uses

QUICK = True
COMMENT = re.compile(r"//.*")
IMPORT = re.compile(r"^\s*(?:pub(?:\(crate\))? )?(?:ghost )?use [^;]*;", re.M)
# Want of memory as a value: neither a type, nor a pattern, nor what a kind of error is compared with.
TOLD = re.compile(r"\bAllocError\b(?!>|\) ->)|(?<!== )\b\w+::OutOfMemory\b(?!\)* =>)")


def built_of(program: str) -> set[str]:
    """The crates that a program is built of, with itself."""
    found, left = set(), [program]
    while left:
        crate = left.pop()
        if crate in uses() and crate not in found:
            found.add(crate)
            left += uses()[crate]
    return found


def sources(crates: set[str]) -> list[pathlib.Path]:
    return [file for file in files("src", "rt") if file.relative_to(CRATES).parts[0] in crates]


def code(file: pathlib.Path) -> str:
    """A source without comments and imports, whose lines stay."""
    text = COMMENT.sub("", file.read_text(encoding="utf-8"))
    return IMPORT.sub(lambda found: "\n" * found[0].count("\n"), text)


class Libraries(unittest.TestCase):
    """h2audit writes nothing anew that these do: each is called by a crate that it is built of."""

    # What calls each, beside its import.
    CALLS = {
        "atomic_table": r"\bTable::",
        "byteorder": r"\bBigEndian::read_u",
        "clap": r"\.try_get_matches_from\(",
        "indexmap": r"\bIndex(?:Map|Set)::",
        "itertools": r"\.merge_by\(",
        "rayon": r"\.into_par_iter\(",
        "thiserror": r"#\[derive\([^)]*\bError\b",
    }

    def test_each_is_called(self) -> None:
        crates = built_of("h2audit_cli")
        for library, call in self.CALLS.items():
            with self.subTest(library):
                self.assertTrue([file for file in sources(crates) if calls(file, library, call)], "nothing calls it")


def calls(file: pathlib.Path, library: str, call: str) -> bool:
    """Does the file import from the library, which its crate names, and has it such a call?"""
    named = library in uses()[file.relative_to(CRATES).parts[0]]
    imports = re.search(rf"^use {library}\b", file.read_text(encoding="utf-8"), re.M)
    return named and bool(imports) and bool(re.search(call, code(file)))


class Memory(unittest.TestCase):
    """No contract refuses a body that tells want of memory where there was none: so each place that tells it is read.

    They are few, since `?` passes on what a refused growth answered.
    """

    # By their files: what opens the block of the place, and the line that tells it.
    PLACES = {
        "h2audit/src/auditing.rt": [
            "Ok(mut walk) => match feed_rest(..) { Err(_) => Err(AuditFault::OutOfMemory),",
            "Ok((met, cut)) => match report_of_found(..) { Err(_) => Err(AuditFault::OutOfMemory),",
            "match ended { Err(PcapFault::OutOfMemory) => Err(AuditFault::OutOfMemory),",
            "Ok((met, cut)) => match report_of_listed(..) { Err(_) => Err(AuditFault::OutOfMemory),",
            "match ended { Err(PcapFault::OutOfMemory) => Err(AuditFault::OutOfMemory),",
            "match report.into_bytes(..) { Err(_) => Err(AuditFault::OutOfMemory),",
        ],
        "h2audit/src/command_line/words.rt": ["if kind == ErrorKind::OutOfMemory { return Err(AllocError);"],
        "h2audit/src/each_connection.rt": ["if !are_few(findings.lists.as_slice()) { return Err(AllocError);"],
        "h2audit/src/program.rt": [
            "match behind_name(..) { Err(_) => Err(io::Error::from(ErrorKind::OutOfMemory)),",
            "match asked(..) { Err(_) => end(&Err(AuditFault::OutOfMemory), &mut outside.say),",
            "match words { Err(error) if error.kind() == ErrorKind::OutOfMemory => Err(AllocError),",
            "match opened { Err(error) if error.kind() == ErrorKind::OutOfMemory => Err(AuditFault::OutOfMemory),",
        ],
        "h2audit/src/reading.rt": ["match meet(..) { Err(ReadFault::OutOfMemory) => Err(AuditFault::OutOfMemory),"],
        "input_output/src/capture_reader.rt": ["if had.is_err() { return Err(ReadFault::OutOfMemory);"],
        "pcap_records/src/reading.rt": ["match feed_rest(..) { Err(_) => Err(PcapFault::OutOfMemory),"],
        "report_pages/src/report.rt": ["match self.write_all(..) { Err(_) => Err(AllocError),"],
        "split_program/src/command.rt": ["if kind == ErrorKind::OutOfMemory { return Err(Failure::OutOfMemory);"],
        "split_program/src/failure.rt": [
            "match format!(..) { Err(_) => Failure::OutOfMemory,",
            "match told_at(..) { Err(_) => Failure::OutOfMemory,",
            "match format!(..) { Err(_) => Failure::OutOfMemory,",
            "match told_of_file(..) { Err(_) => Failure::OutOfMemory,",
            "match fault { PcapFault::OutOfMemory => Failure::OutOfMemory,",
            "fn from(_error: AllocError) -> Failure { Failure::OutOfMemory",
            "fn from(_error: AllocFailed<T>) -> Failure { Failure::OutOfMemory",
        ],
        "split_program/src/inputs.rt": [
            "match wrong.fault { SplitFault::Refused(PcapFault::OutOfMemory) => Failure::OutOfMemory,"
        ],
        "split_program/src/outputs.rt": ["match BufWriter::with_capacity(..) { Err(_) => Err(Failure::OutOfMemory),"],
        "split_program/src/program.rt": ["match String::from_str(..) { Err(_) => Failure::OutOfMemory,"],
    }

    def test_places(self) -> None:
        found: dict[str, list[str]] = {}
        for file in sources(built_of("h2audit_cli") | built_of("h2audit_split")):
            for place in places(code(file)):
                found.setdefault(str(file.relative_to(CRATES)), []).append(place)
        self.assertEqual(found, self.PLACES, "does memory lack there, and there alone?")


def places(text: str) -> Iterator[str]:
    """Where a source tells want of memory itself, with what opens the block: of a match what is called there."""
    lines = text.splitlines()
    for number, line in enumerate(lines):
        if TOLD.search(line):
            opening = next(other for other in reversed(lines[:number]) if 0 <= indent(other) < indent(line))
            yield re.sub(r"(\bmatch [^(]*)\(.*\)", r"\1(..)", opening.strip()) + f" {line.strip()}"


def indent(line: str) -> int:
    return len(line) - len(line.lstrip()) if line.strip() else -1


if __name__ == "__main__":
    unittest.main()
