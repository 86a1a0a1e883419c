"""Tests of h2audit-any and h2audit-why where h2audit reads the original in place of what is made: they say of a file
what they say of the same bytes from a pipe, which is always written anew. Files that change meanwhile, or go.

    python3 -m tools.tests.imports.original_test PROGRAM [CLASS..]

PROGRAM is h2audit.
"""

import os
import pathlib
import stat
import subprocess
import tempfile
import unittest

from tests.programs import named
from tools.tests import import_tools as tools
from tools.tests.companions import companion

RUNS = ("$H2AUDIT",)
PROGRAM = next(iter(named()), None)
WHY = companion("h2audit-why")
MODES: tuple[tuple[tools.Word, ...], ...] = (
    (tools.ANY,),
    (tools.ANY, "--frames", "--rows", "rows"),
    (tools.ANY, "--joined"),
    (WHY, "--all"),
    (WHY, "--json", "--no-joined"),
    (WHY, "--rows", "rows", "--report", "report"),
)
# Writes what it is to audit, does something once, and audits.
WRAPPER = """#!/bin/sh
for last; do :; done
readlink "$last" >> "$READ"
if [ -e "$ONCE" ]; then rm "$ONCE"; %s; fi
exec %s "$@"
"""
# A capture of TLS, whose file is read twice, as a pipe cannot be: the reasons have other names.
TWICE = "hostile-version"
EXAMPLE = tools.EXAMPLES / "paused_stream_node.pcap"
Said = tuple[int, bytes, bytes, list[bytes]]


@unittest.skipUnless(PROGRAM, "h2audit is not built")
class OfOriginals(unittest.TestCase):
    def setUp(self) -> None:
        held = tempfile.TemporaryDirectory(prefix="h2audit-test-")
        self.addCleanup(held.cleanup)
        self.folder = pathlib.Path(held.name)
        self.read, self.once = self.folder / "read", self.folder / "once"
        self.wrapper = self.folder / "wrapper"
        self.wrap("true")

    def wrap(self, act: str) -> None:
        self.wrapper.write_text(WRAPPER % (act, PROGRAM))
        self.wrapper.chmod(self.wrapper.stat().st_mode | stat.S_IXUSR)
        self.once.touch()

    def said(self, words: tuple[tools.Word, ...], capture: tools.Word, input: bytes | None = None) -> Said:
        """Status, both outputs, and files that were written."""
        self.read.write_text("")
        surroundings = {**os.environ, "READ": str(self.read), "ONCE": str(self.once), "H2AUDIT": str(self.wrapper)}
        run = subprocess.run([*words, capture], input=input, cwd=self.folder, env=surroundings, capture_output=True)
        files = [self.folder / name for name in ("rows", "report")]
        written = [path.read_bytes() for path in files if path.exists()]
        for path in files:
            path.unlink(missing_ok=True)
        return run.returncode, run.stdout, run.stderr, written

    def audited(self) -> list[str]:
        """What h2audit read, by its paths."""
        return self.read.read_text().splitlines()

    def test_same(self) -> None:
        """All captures, as they stand, and cut within a packet."""
        folders = (tools.EXAMPLES, tools.TOP / "tests" / "answer", tools.TOP / "tests" / "corpus")
        captures = [path for folder in folders for path in sorted(folder.glob("*.pcap")) if path.stem != TWICE]
        stood = 0
        for capture in captures:
            octets = capture.read_bytes()
            for name, some in (("whole", octets), ("cut", octets[:-7])):
                path = self.folder / f"{name}.pcap"
                path.write_bytes(some)
                for words in MODES:
                    with self.subTest(capture=capture.name, name=name, words=words):
                        found = self.said(words, path)
                        stood += self.audited() == [str(path)]
                        in_pipe = self.said(words, "-", some)
                        self.assertEqual(self.named(found, path), self.named(in_pipe, path))
        self.assertGreater(stood, len(captures))

    @staticmethod
    def named(said: Said, path: pathlib.Path) -> tuple[object, ...]:
        """Without the name of the file, by which they differ."""
        status, output, errors, written = said
        texts = [output, errors, *written]
        return status, [text.replace(os.fsencode(path), b"-").replace(b"standard input", b"-") for text in texts]

    def test_audited(self) -> None:
        """The original of plain pcap, and of nothing else."""
        plain = self.folder / "plain.pcap"
        plain.write_bytes(EXAMPLE.read_bytes())
        packed = self.folder / "packed.pcap.gz"
        packed.write_bytes(subprocess.run(["gzip", "-c", plain], capture_output=True, check=True).stdout)
        encrypted = tools.capture_named("nghttp-nghttpd-13")
        for words in ((tools.ANY,), (WHY,)):
            for capture, is_read in ((plain, True), (packed, False), (encrypted, False)):
                with self.subTest(words=words, capture=capture.name):
                    self.said(words, capture)
                    self.assertEqual(self.audited() == [str(capture)], is_read)
            self.said((*words, "--reorder"), plain)
            self.assertNotEqual(self.audited(), [str(plain)])

    def test_changed(self) -> None:
        """A file that grows before it is audited, one that is written anew, and one that is cut are read once more."""
        whole = EXAMPLE.read_bytes()
        acts = (
            (whole[: len(whole) // 2], f"tail -c +{len(whole) // 2 + 1} {EXAMPLE} >> $C", whole),
            (whole, f"cp {tools.EXAMPLES / 'use_after_reset.pcap'} $C", None),
            (whole, "truncate -s 3000 $C", whole[:3000]),
        )
        path = self.folder / "capture.pcap"
        for begun, act, ended in acts:
            for words in MODES:
                with self.subTest(act=act, words=words):
                    path.write_bytes(begun)
                    self.wrap(act.replace("$C", str(path)))
                    found = self.said(words, path)
                    self.assertEqual(len(self.audited()), 2)
                    ended = path.read_bytes() if ended is None else ended
                    self.assertEqual(path.read_bytes(), ended)
                    self.assertEqual(found, self.said(words, path))

    def test_gone(self) -> None:
        """A file that is renamed or removed before it is audited is read all the same."""
        path, other = self.folder / "capture.pcap", self.folder / "other.pcap"
        for act in (f"mv {path} {other}", f"rm {path}"):
            for words in MODES:
                with self.subTest(act=act, words=words):
                    path.write_bytes(EXAMPLE.read_bytes())
                    wanted = self.said(words, path)
                    self.wrap(act)
                    self.assertEqual(self.said(words, path), wanted)


if __name__ == "__main__":
    unittest.main()
