"""Tests of what h2audit-fleet does not audit, and says so: fleet_unread_test.py [PROGRAM]

What is not audited has a row by its reason, which needs PROGRAM. Folders and lists that bring nothing are said.
"""

import errno
import gzip
import os
import pathlib
import ssl
import struct
import subprocess
import tempfile
import unittest
from unittest import mock

from h2audit.fleet import tasks
from tools.tests import tls_talk
from tools.tests.fleet import parts_test as parts
from tools.tests.fleet.captures import TOP, Machine, by_hand, summary

RUNS = ("Said", "$H2AUDIT Unread")
QUICK = ("$H2AUDIT Unread",)
EXAMPLE = "stream_overrun_go"
# What root gives up, to be kept out as others are.
RIGHTS = ("--bounding-set", "-dac_override,-dac_read_search")


def rewritten(capture: bytes, front: bytes, tail: bytes = b"") -> bytes:
    """A capture with bytes between the addresses and the type of each Ethernet frame."""
    found, at = bytearray(capture[:24]), 24
    while at + 16 <= len(capture):
        seconds, moment, length, original = struct.unpack_from("<IIII", capture, at)
        packet = capture[at + 16 : at + 16 + length]
        packet = packet[:12] + front + (tail or packet[12:14]) + packet[14:]
        more = len(packet) - length
        found += struct.pack("<IIII", seconds, moment, length + more, original + more) + packet
        at += 16 + length
    return bytes(found)


def with_packet(capture: bytes, ether_type: str) -> bytes:
    """A capture with one frame more, of another protocol."""
    frame = bytes(12) + bytes.fromhex(ether_type) + bytes(46)
    return capture + struct.pack("<IIII", 4000000000, 0, len(frame), len(frame)) + frame


class Unread(parts.Beside):
    """Forms that h2audit passes over, each beside what h2audit-any reads of it."""

    def setUp(self) -> None:
        super().setUp()
        self.example = (TOP / "examples" / f"{EXAMPLE}.pcap").read_bytes()

    def capture(self, name: str, content: bytes) -> None:
        (self.machine.captures / name).write_bytes(content)

    def rows(self, columns: str, table: str = "captures") -> dict[str, tuple[object, ...]]:
        found = self.machine.ask(f"SELECT replace(path, '{self.machine.captures}/', ''), {columns} FROM {table}")
        return {name: tuple(row) for name, *row in found}

    def test_imported(self) -> None:
        """Two tags, a tag of another kind, IPv6, each alone or beside a plain connection; and ARP."""
        for name, tags in (("two", "8100000588a80006"), ("service", "88a80005"), ("three", "810000058100000591000006")):
            self.capture(f"{name}.pcap", rewritten(self.example, bytes.fromhex(tags)))
        self.capture("six.pcap", parts.over_ipv6(self.example))
        self.capture("both.pcap", self.example + rewritten(self.example, bytes.fromhex("8100000588a80006"))[24:])
        self.capture("arp.pcap", with_packet(self.example, "0806"))
        self.capture("tagged.pcap", rewritten(self.example, bytes.fromhex("81000005")))
        status, said, error = self.machine.run("--jobs", "2", "captures")
        self.assertEqual((status, said, error), (1, "7 captures: 7 with faults, 0 in which nothing was audited\n", ""))
        self.assertEqual(set(self.rows("outcome, sha256 IS NOT NULL").values()), {("audited", 1)})

    def test_not_audited(self) -> None:
        """Whatever is not audited has a row by its reason."""
        self.capture("empty.pcap", self.example[:24])
        self.capture("nothing.pcap", b"")
        self.capture("mpls.pcap", rewritten(self.example, b"", bytes.fromhex("8847")))
        udp = bytearray(self.example)
        udp[24 + 16 + 14 + 9] = 17
        self.capture("udp.pcap", bytes(udp[: 24 + 16 + struct.unpack_from("<I", udp, 32)[0]]))
        self.capture("cut.pcap.gz", gzip.compress(self.example)[:200])
        self.capture("clean.pcap", (TOP / "examples" / "stream_stalls_nghttpd.pcap").read_bytes())
        self.capture("text.pcap", b"of no interest, and longer than a header\n")
        self.capture("packed.pcap.xz", b"\xfd7zXZ\x00" + bytes(80))
        self.capture("unnamed", b"BZh9" + bytes(80))
        status, said, _ = self.machine.run("--jobs", "2", "captures")
        self.assertEqual(status, 3)
        self.assertRegex(said, r"^9 captures: 0 with faults, 8 in which nothing was audited \(\d refused\)\n$")
        found = self.rows("what, reason", "not_audited")
        self.assertEqual(found["empty.pcap"], ("capture", "empty"))
        self.assertEqual(found["nothing.pcap"], ("capture", "refused: short-header"))
        self.assertEqual(found["text.pcap"], ("capture", "refused: bad-magic"))
        for name in ("mpls", "udp"):
            self.assertRegex(str(found[f"{name}.pcap"]), rf"^\('capture', 'passed over: \d+ packets? {name}'\)$")
        cut = self.machine.ask("SELECT what FROM not_audited WHERE reason = 'cut' AND path LIKE '%/cut.pcap.gz'")
        self.assertRegex(str(cut), r"^\[\('record \d+',\)\]$")
        for name in ("packed.pcap.xz", "unnamed"):
            self.assertRegex(str(found.pop(name)[1]), "^refused: bad-")
        wanted = {"empty.pcap", "nothing.pcap", "mpls.pcap", "udp.pcap", "cut.pcap.gz", "text.pcap"}
        self.assertEqual(set(found), wanted)
        self.assertNotIn(None, {reason for _, reason in found.values()})
        self.assertEqual(self.rows("verdict", "verdicts")["udp.pcap"], ("nothing audited",))

    def test_no_key(self) -> None:
        """TLS without its keys is `no-key` in pcap and in pcapng, beside connections that are audited too."""
        key_log = self.machine.folder / "keys"
        pair = tls_talk.contexts([tls_talk.certificate(self.machine.folder, "ec")], key_log, ssl.TLSVersion.TLSv1_3)
        talk = tls_talk.Talk(tls_talk.Capture(), pair, 40000).shake_hands()
        talk.say(tls_talk.CLIENT, b"PRI * HTTP/2.0\r\n\r\nSM\r\n\r\n")
        talk.end()
        talk.capture.write(self.machine.captures / "tls.pcap")
        subprocess.run(["editcap", "-F", "pcapng", "tls.pcap", "tls.pcapng"], cwd=self.machine.captures, check=True)
        status, said, error = self.machine.run("--jobs", "2", "captures")
        self.assertEqual((status, said, error), (0, "2 captures: 0 with faults, 2 in which nothing was audited\n", ""))
        found = self.rows("what, reason", "not_audited")
        self.assertEqual(found, {name: ("connection 1", "no-key") for name in ("tls.pcap", "tls.pcapng")})
        self.assertEqual(self.machine.run("--jobs", "2", "--resume", "--require-http2", "captures")[0], 3)
        self.machine.database.unlink()
        self.assertEqual(self.machine.run("--jobs", "2", "-k", "keys", "--require-http2", "captures")[::2], (0, ""))

    def test_open_stall(self) -> None:
        """An open stall lasts up to the same last packet in each form of a capture."""
        content = (TOP / "examples" / "zero_increment_nginx.pcap").read_bytes()
        self.capture("plain.pcap", content)
        self.capture("six.pcap", parts.over_ipv6(content))
        self.capture("two.pcap", rewritten(content, bytes.fromhex("8100000588a80006")))
        subprocess.run(["editcap", "-F", "pcapng", "plain.pcap", "a.pcapng"], cwd=self.machine.captures, check=True)
        self.capture("packed.pcap.gz", gzip.compress(content))
        self.assertEqual(self.machine.run("--jobs", "2", "captures")[::2], (1, ""))
        found = self.rows("nanos", "open_stalls")
        names = ("plain.pcap", "six.pcap", "two.pcap", "a.pcapng", "packed.pcap.gz")
        self.assertEqual(found, {name: (201057000,) for name in names})


class Said(unittest.TestCase):
    """Folders and lists that bring nothing, and folders that cannot be read."""

    def setUp(self) -> None:
        self.machine = Machine([sample for sample in by_hand() if sample.name == EXAMPLE], None)
        self.machine.__enter__()
        self.addCleanup(self.machine.__exit__)
        self.summary = f"{summary(self.machine.samples)}\n"

    def folder(self, name: str) -> pathlib.Path:
        folder = self.machine.folder / name
        folder.mkdir()
        return folder

    def test_nothing_there(self) -> None:
        """An empty folder and an empty list are said, by status 3; what else is named is audited."""
        self.folder("empty")
        (self.machine.folder / "list").write_bytes(b"\n")
        empty = "h2audit-fleet: empty: no capture is in this folder\n"
        nothing = "0 captures: 0 with faults, 0 in which nothing was audited\n"
        self.assertEqual(self.machine.run("empty"), (3, nothing, empty))
        self.assertEqual(
            self.machine.run("--list", "list"), (3, nothing, "h2audit-fleet: list: this list names nothing\n")
        )
        self.assertEqual(
            self.machine.run("--list", "-"), (3, nothing, "h2audit-fleet: standard input: this list names nothing\n")
        )
        self.assertEqual(self.machine.run("empty", "captures"), (3, self.summary, empty))
        self.assertEqual(
            self.machine.run("--resume", "captures/stream_overrun_go.pcap", "captures"),
            (1, f"{self.summary[:-1]}; 1 was there\n", ""),
        )
        self.assertEqual(
            self.machine.run("--collect", "empty", "--resume"),
            (3, nothing, "h2audit-fleet: empty: no job is in this folder\n"),
        )

    def test_require_http2(self) -> None:
        """Status 3 where nothing was audited in one; a run that goes on says so by the same words."""
        sample = next(sample for sample in by_hand() if sample.status == 0 and not sample.has_http2)
        self.machine.samples.append(sample)
        (self.machine.captures / "none.pcap").write_bytes(sample.capture)
        said = "2 captures: 1 with faults, 1 in which nothing was audited"
        self.assertEqual(self.machine.run("captures"), (1, f"{said}\n", ""))
        again = (3, f"{said}; 2 were there\n", "")
        self.assertEqual(self.machine.run("--resume", "--require-http2", "captures"), again)
        self.assertEqual(self.machine.run("--resume", "--require-http2", f"captures/{EXAMPLE}.pcap")[0], 1)

    def test_unreadable(self) -> None:
        """A folder that may not be read is entered as such, others go on, and later it is read."""
        secret = self.folder("captures/secret")
        (secret / "a.pcap").write_bytes(self.machine.samples[0].capture)
        secret.chmod(0)
        self.addCleanup(secret.chmod, 0o755)
        before = ("setpriv", *RIGHTS, "--") if os.geteuid() == 0 else ()
        if subprocess.run([*before, "ls", str(secret)], capture_output=True).returncode == 0:
            self.skipTest("a folder that cannot be read: root cannot give up its rights here")
        said = "2 captures: 1 with faults, 1 in which nothing was audited (1 failed)\n"
        self.assertEqual(self.machine.run("captures", before=before), (3, said, ""))
        self.assertEqual(
            self.machine.ask("SELECT path, reason FROM not_audited"), [(str(secret), "failed: not-allowed")]
        )
        secret.chmod(0o755)
        found = self.machine.run("--resume", "captures")
        self.assertEqual(found, (1, "2 captures: 2 with faults, 0 in which nothing was audited; 1 was there\n", ""))
        self.assertEqual(self.machine.ask("SELECT * FROM not_audited"), [])

    def test_links(self) -> None:
        """A link to a folder is followed, once, and a folder is known by its own name where it has one."""
        aside = self.folder("aside")
        (aside / "b.pcap").write_bytes(self.machine.samples[0].capture)
        below = self.folder("captures/z")
        (below / "c.pcap").write_bytes(self.machine.samples[0].capture)
        for name, target in (("a", below), ("aside", aside), ("again", aside), ("top", self.machine.captures)):
            (self.machine.captures / name).symlink_to(target)
        (aside / "back").symlink_to(self.machine.captures)
        self.assertEqual(self.machine.run("captures")[::2], (1, ""))
        asked = "SELECT replace(path, ?, '') FROM captures ORDER BY 1"
        paths = [path for path, in self.machine.ask(asked, f"{self.machine.captures}/")]
        self.assertEqual(paths, ["again/b.pcap", f"{EXAMPLE}.pcap", "z/c.pcap"])

    def test_full_folder(self) -> None:
        """Where the folder for temporary files is full, that is what the reason says."""
        full = self.folder("full")
        surroundings = {"PATH": f"{full}:/usr/bin:/bin", "TMPDIR": str(full)}
        any = full / "h2audit-any"
        any.write_text("#!/bin/sh\necho report || { echo 'h2audit-any: write failed' >&2; exit 4; }\n")
        any.chmod(0o755)
        order: tasks.Order = {"keys": [], "timeout": 60.0, "split_above": 0}
        with mock.patch.dict(os.environ, surroundings), mock.patch("tempfile.tempdir", None):
            with mock.patch("tempfile.TemporaryFile", side_effect=self.no_room):
                answer = tasks.audit(os.fsencode(self.machine.captures / f"{EXAMPLE}.pcap"), order)
            self.assertEqual((answer["outcome"], answer["reason"]), ("failed", f"no-room {full}"))
            files = [open("/dev/full", "r+b", buffering=0), tempfile.TemporaryFile(dir="/tmp")]
            with mock.patch("tempfile.TemporaryFile", side_effect=files):
                answer = tasks.audit(os.fsencode(self.machine.captures / f"{EXAMPLE}.pcap"), order)
            self.assertEqual((answer["outcome"], answer["reason"]), ("failed", f"no-room {full}"))

    def no_room(self) -> None:
        raise OSError(errno.ENOSPC, os.strerror(errno.ENOSPC))


if __name__ == "__main__":
    unittest.main()
