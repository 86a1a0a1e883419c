"""Tests of what the programs beside h2audit share: who is to blame, as the documents say, and files that are there only
once they are whole.
"""

import io
import pathlib
import re
import sys
import tempfile
import unittest

from h2audit.report import words
from h2audit.report.answer_types import Finding
from h2audit.report.charts import document_of_report
from tools.tests.kinds import FRAME_TYPES, KINDS, NOBODY
from tools.tests.signals import SIGNALS, hidden_in, signalled

QUICK = True
TIMED = True
TOP = pathlib.Path(__file__).resolve().parents[3]

DOCS = TOP / "docs"
RANKED = re.compile(r"^\| \d+ \| `([a-z-]+)` \| [^|]* \| [^|]* \| ([^|]*) \|$", re.M)


def rows(document: str) -> list[list[str]]:
    """The rows of all tables of a document, each as its cells."""
    return [
        [cell.strip() for cell in line.strip("|").split(" | ")]
        for line in (DOCS / document).read_text().splitlines()
        if line.startswith("| ")
    ]


def sections_in(text: str) -> set[str]:
    """Each section of a text as "6.1 to 6.9, 4.2"."""
    found = set()
    for begin, end in re.findall(r"\b(\d(?:\.\d+)+)(?: to (\d(?:\.\d+)+))?", text):
        first, last = (int(one.split(".")[1]) for one in (begin, end or begin))
        found |= {f"{begin.split('.')[0]}.{number}" for number in range(first, last + 1)} if end else {begin}
    return found


Asked = tuple[str, str, int, int]


def findings(asked: list[Asked]) -> list[Finding]:
    """What h2audit-why says of findings by side, kind, stream and value. Credits are none."""
    report = "capture records 9 segments 9 snapped 0 not-ipv4 0 fragments 0 not-tcp 0 refused 0\n"
    report += "connection 1 client 10.0.0.1:1 server 10.0.0.2:2 record 1 http2 frames 9\n"
    for side, kind, stream, value in asked:
        report += f"frame 7 record 12 time 1 {side} {kind} stream {stream} value {value}\n"
    (one,) = document_of_report(io.BytesIO(report.encode()))["connections"]
    return one["charts"]["findings"]


def faults_and_stalls() -> list[str]:
    return [kind for kind in KINDS if not kind.endswith("-credit")]


class Blame(unittest.TestCase):
    """The table of kinds says what the documents say."""

    def test_who_broke_the_rule(self) -> None:
        ranked = {kind: who.strip("* ") for kind, who in RANKED.findall((DOCS / "REPORT_FORMAT.md").read_text())}
        self.assertEqual(len(ranked), 27)
        self.assertEqual({kind: said.blame for kind, said in KINDS.items()}, ranked)

    def test_who_is_to_blame(self) -> None:
        """So says the table of the README."""
        for cells in rows("../README.md"):
            for who in set(re.findall(r"the named side|the other side|nobody", cells[-1].lower())):
                for kind in re.findall(r"`([a-z-]+)`", cells[0]):
                    if kind in KINDS:
                        self.assertEqual(KINDS[kind].blame, who, kind)

    def test_sections(self) -> None:
        named: dict[str, set[str]] = {}
        for cells in rows("AUDIT_RULES.md"):
            kinds, colon, _ = cells[0].partition(":")
            for kind in re.findall(r"[a-z-]+", kinds) if colon else []:
                if kind in KINDS and len(cells) > 1:
                    named.setdefault(kind, set()).update(sections_in(cells[1]))
        faults = {kind: sections_in(said.sections) for kind, said in KINDS.items() if said.blame != NOBODY}
        self.assertEqual(faults, {kind: named.get(kind) for kind in faults})
        self.assertFalse([kind for kind, said in KINDS.items() if said.blame == NOBODY and said.sections])

    def test_sections_of_findings(self) -> None:
        """Where side or value decide, the section is one of the kind's."""
        asked = [
            (side, kind, value)
            for kind in faults_and_stalls()
            for side in ("client", "server")
            for value in range(-2, 12)
        ]
        for (_, kind, _), found in zip(asked, findings([(side, kind, 1, value) for side, kind, value in asked])):
            self.assertLessEqual(sections_in(found["section"] or ""), sections_in(KINDS[kind].sections), kind)

    def test_types(self) -> None:
        """Frame types have the sections 6.1 to 6.10 in their order, as the table of section 4 of the rules has them."""
        types = {
            int(cells[0].split()[0]): cells[0].split()[1]
            for cells in rows("AUDIT_RULES.md")
            if re.match(r"\d [A-Z_]+$", cells[0])
        }
        self.assertEqual(types, dict(enumerate(FRAME_TYPES)))

    def said(self, side: str, kind: str, stream: int, value: int) -> str:
        (found,) = findings([(side, kind, stream, value)])
        return f"{found['text']} ({found['kind']}); {found['blame']}"

    def test_sentences(self) -> None:
        """Written by hand, from the tables of the documents."""
        self.assertEqual(
            self.said("client", "stream-overrun", 1, -5000),
            "client sent 5,000 bytes past its credit on stream 1 (stream-overrun); the client broke RFC 9113, 6.9.1",
        )
        self.assertEqual(
            self.said("server", "connection-overflow", 0, 2147547182),
            "client granted too much: server's credit of the connection rose to 2,147,547,182, above 2^31 - 1 "
            "(connection-overflow); the client broke RFC 9113, 6.9.1",
        )
        self.assertEqual(
            self.said("client", "setting-overflow", 3, 2147483648),
            "server sent settings that take client's credit on stream 3 to 2,147,483,648, above 2^31 - 1 "
            "(setting-overflow); the server broke RFC 9113, 6.9.2",
        )
        self.assertEqual(
            self.said("server", "wrong-stream", 3, 6),
            "server sent PING on stream 3, where it may not stand (wrong-stream); the server broke RFC 9113, 6.7",
        )
        self.assertEqual(
            self.said("client", "unmatched-ack", 0, 0),
            "client acknowledged settings that server had not sent (unmatched-ack); the client is at fault, "
            "though RFC 9113, 6.5.3, names no error for it",
        )
        self.assertEqual(
            self.said("server", "stream-stall-begin", 1, 0),
            "server used up its credit on stream 1 (stream-stall-begin); nobody broke a rule: "
            "ask the client why it granted nothing",
        )
        self.assertEqual(
            self.said("server", "not-opened", 8, 5),
            "server sent PUSH_PROMISE on stream 8, which was not opened "
            "for it (not-opened); the server broke RFC 9113, 6.6",
        )

    def test_every_kind_has_a_sentence(self) -> None:
        for kind in [*faults_and_stalls(), "new-kind"]:
            said = self.said("client", kind, 0, 9)
            self.assertIn(f"({kind})", said)
            self.assertNotRegex(said, r"[{}]|  ")

    def test_durations(self) -> None:
        for nanos, said in (
            (0, "0 ns"),
            (999, "999 ns"),
            (764000, "764 µs"),
            (804434000, "804.434 ms"),
            (-1500, "-1.5 µs"),
            (10**9, "1 s"),
            (1234000000007, "1,234.000000007 s"),
        ):
            self.assertEqual(words.duration(nanos), said)


# Writes a part of a file, and reads on.
HALF = """
import sys
from h2audit.report.command import opened
from h2audit.report.output import written
with opened("-") as file, written(sys.argv[1]) as out:
    out.write(file.read(3))
    out.flush()
    file.read(3)
"""


class Output(unittest.TestCase):
    def test_signals(self) -> None:
        """A file that a signal ends in the middle goes, and the one whose place it would take stays as it was."""
        with tempfile.TemporaryDirectory() as name:
            folder, file = pathlib.Path(name), pathlib.Path(name, "file")

            def is_half() -> bool:
                return [(folder / half).read_bytes() for half in hidden_in(folder)] == [b"abc"]

            for before in (None, b"before"):
                if before:
                    file.write_bytes(before)
                for one in SIGNALS:
                    done = signalled([sys.executable, "-c", HALF, file], b"abc", [one], is_half)
                    left = [(path.name, path.read_bytes()) for path in folder.iterdir()]
                    self.assertEqual((done, left), ((-one, b""), [("file", before)] if before else []))


if __name__ == "__main__":
    unittest.main()
