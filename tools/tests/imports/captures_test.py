"""Tests of h2audit-import and h2audit-any on real captures of TLS, with what their peers and tshark say of them.

    python3 -m tools.tests.imports.captures_test [PROGRAM]

PROGRAM is h2audit; without it the tests of reports are skipped. REPORTS=write in the environment writes the stored
reports of tests/tls anew, to be read and compared with their truth.
"""

import base64
import functools
import json
import os
import re
import subprocess
import tempfile
import unittest
from collections.abc import Iterator
from typing import Any

from tests.programs import named
from tools.tests import import_tools as tools
from tools.tests.imports import derived_report
from tools.tests.kinds import FRAME_TYPES
from tools.tests.packages import needs

RUNS = ("$H2AUDIT",)
QUICK = True
PROGRAM = next(iter(named()), None)
# Frames of each connection, as the peers' logs and tshark count them.
FRAMES = {
    "nghttp-nghttpd-13": [20], "small-window-v6": [35], "curl-nginx-12-any-cooked": [131],
    "curl-nginx-13-v6-any-sll2": [62], "curl-apache-upload": [15], "h2load-node-many": [64] * 12,
    "loss-and-reordering": [92], "key-updates": [114],
    "stream-overrun-go": [201], "two-interfaces": [21], "secrets-inside": [35], "zstd": [35],
}  # fmt: skip
# Words of h2audit, and how the reports are named that it gives with them.
FORMS: tuple[tuple[list[str], str], ...] = (([], ".report"), (["--frames"], ".frames.report"))
# What is said of packets whose times go back, as those of two interfaces do.
BACK = {"two-interfaces": "h2audit-any: times go back at packet 32: are the files in order? --reorder\n"}
NGHTTP_LOGS = ("nghttp-nghttpd-13", "small-window-v6", "loss-and-reordering")
needs_program = unittest.skipUnless(PROGRAM, "h2audit is not built")


@functools.cache
def made_of(name: str, *words: str) -> tools.Made:
    return tools.imported(*tools.key_log_of(name), *words, tools.capture_named(name))


def frames_of(data: bytes) -> Iterator[tuple[str, int, int]]:
    """Type, length and stream of each frame in a side's bytes."""
    data = data[24:] if data.startswith(b"PRI * HTTP/2.0") else data
    while len(data) >= 9:
        length = int.from_bytes(data[:3], "big")
        yield FRAME_TYPES[data[3]], length, int.from_bytes(data[5:9], "big") & 0x7FFFFFFF
        data = data[9 + length :]


class Records(unittest.TestCase):
    def test_each_record(self) -> None:
        """Packet, side, SHA-1 and length of each record's plaintext, as own decryption of a trial and tshark
        agreed on them.
        """
        for path in sorted(tools.CAPTURES.glob("*.records")):
            name = path.name.split(".")[0]
            with self.subTest(name):
                self.assertEqual(tools.rows_of(made_of(name)), path.read_text().splitlines())

    def test_other_forms(self) -> None:
        """A connection whose secrets are inside the capture, and one that is compressed, is read as it was."""
        wanted = (tools.CAPTURES / "small-window-v6.records").read_text().splitlines()
        for name in ("secrets-inside", "zstd"):
            self.assertEqual(tools.rows_of(made_of(name)), wanted)

    def test_jobs(self) -> None:
        """Processes change no byte of capture and map."""
        for name in ("h2load-node-many", "mixed", "loss-and-reordering"):
            self.assertEqual(made_of(name), made_of(name, "--jobs", "3"))

    def test_frames_of_logs(self) -> None:
        """The frames of each side are those that nghttp says it sent and received."""
        for name in NGHTTP_LOGS:
            log = (tools.CAPTURES / f"{name}.client.log").read_text()
            client, server = tools.flows(made_of(name))
            for word, data in (("send", client), ("recv", server)):
                said = re.findall(rf"{word} (\w+) frame <length=(\d+), flags=\w+, stream_id=(\d+)>", log)
                said = [(kind, int(length), int(stream)) for kind, length, stream in said]
                self.assertEqual(list(frames_of(data)), said, (name, word))

    @needs("tshark")
    def test_tshark(self) -> None:
        """The bytes of both sides are those that tshark shows."""
        for name in ("nghttp-nghttpd-13", "curl-apache-upload", "key-updates", "loss-and-reordering"):
            client, server = tools.flows(made_of(name))
            keys = tools.CAPTURES / f"{name}.keys"
            options = ["-o", f"tls.keylog_file:{keys}", "-o", "tcp.reassemble_out_of_order:TRUE",
                       "-o", "tcp.try_heuristic_first:TRUE", "-q", "-z", "follow,tls,yaml,0"]  # fmt: skip
            run = subprocess.run(
                ["tshark", "-n", "-r", tools.capture_named(name), *options], capture_output=True, text=True
            )
            self.assertEqual(followed(run.stdout, made_of(name)), [client, server], name)


def followed(yaml: str, made: tools.Made) -> list[bytes]:
    """The bytes of client and server in what tshark follows; its first peer is the side that spoke first."""
    server = tools.lines_of(made, "connection")[0].split()[4].rsplit(":", 1)[1]
    is_server_first = re.findall(r"peer: 0\n +host: .*\n +port: (\d+)", yaml)[0] == server
    shown = [b"", b""]
    for peer, text in re.findall(r"- packet: \d+\n +peer: (\d)\n.*\n +data: !!binary \|\n((?:      .*\n)+)", yaml):
        shown[int(peer) ^ is_server_first] += base64.b64decode("".join(text.split()))
    return shown


class Outcomes(unittest.TestCase):
    """Each connection of a capture is in the map."""

    def test_mixed(self) -> None:
        """What tshark shows of each connection, by its packets; -d tcp.port==21118,http2 shows the one in the clear.

        1, 2: a SYN, and an RST for an answer: no-handshake.
        3 to 8: the client says nothing and ends; the server sent SETTINGS, 15 bytes: no-preface, 0 and 15 bytes.
        9 to 31: 11 frames; mixed.records has 118 and 20,195 bytes; by these no line of a window.
        32 to 49: ALPN http/1.1, no HTTP/2; records of 83 and 20,242 bytes: not-http2.
        50 to 70: a ClientHello whose random is not in mixed.keys: refused no-key.
        71 to 88: 23 frames in the clear, 246 and 100,181 bytes; by these no line of a window.
        89 to 107: 9 frames; records of 117 and 5,176 bytes; by these no line of a window.
        """
        lines = [line.split(" packet ")[1] for line in tools.lines_of(made_of("mixed"), "connection")]
        suite = "TLS_AES_256_GCM_SHA384"
        self.assertEqual(lines, [
            "1 clear", "3 clear", f"9 tls 1.3 {suite} alpn h2 records 7", f"32 tls 1.3 {suite} alpn http/1.1 records 3",
            "50 refused no-key", "71 clear", f"89 tls 1.3 {suite} alpn h2 records 6",
        ])  # fmt: skip

    def test_wrong_keys(self) -> None:
        """Keys whose digits differ open nothing, and nothing is made of them."""
        name = "nghttp-nghttpd-13"
        text = (tools.CAPTURES / f"{name}.keys").read_text()
        wrong = re.sub(r"(\w{63})(\w)$", lambda found: found[1] + "%x" % (int(found[2], 16) ^ 1), text, flags=re.M)
        with tempfile.NamedTemporaryFile("w") as keys:
            keys.write(wrong)
            keys.flush()
            made = tools.imported("-k", keys.name, tools.capture_named(name))
        self.assertEqual(
            (made.status, tools.lines_of(made, "connection")[0].split(" packet ")[1]), (6, "1 refused wrong-key")
        )
        self.assertEqual(list(tools.payloads(made)), [])

    def test_no_key(self) -> None:
        made = tools.imported(tools.capture_named("curl-nginx-12-any-cooked"))
        self.assertEqual((made.status, made.said), (6, "h2audit-import: no connection could be read\n"))
        self.assertTrue(tools.lines_of(made, "connection")[0].endswith("refused no-key"))

    def test_snapped(self) -> None:
        made = made_of("snapped-96")
        self.assertEqual(made.status, 6)
        self.assertTrue(tools.lines_of(made, "connection")[0].endswith("refused snapped"))


@functools.cache
def report_of(name: str) -> tuple[str, int, str]:
    assert PROGRAM
    return tools.report_of(PROGRAM, *tools.key_log_of(name), tools.capture_named(name))


class Reports(unittest.TestCase):
    @needs_program
    def test_stored(self) -> None:
        """Reports as they were read and compared with the truth of each capture."""
        for name in tools.names():
            with self.subTest(name):
                text, status, said = report_of(name)
                path = tools.CAPTURES / f"{name}.report"
                if os.environ.get("REPORTS") == "write":
                    path.write_text(text)
                self.assertEqual(text, path.read_text())
                wanted = {"stream-overrun-go": 1, "snapped-96": 6}.get(name, 0)
                end = "" if wanted < 6 else "h2audit-any: no connection could be read\n"
                self.assertEqual((status, said), (wanted, BACK.get(name, "") + end))

    @needs_program
    def test_frames(self) -> None:
        for name, wanted in FRAMES.items():
            found = re.findall(r"^connection .* http2 frames (\d+)$", report_of(name)[0], re.M)
            self.assertEqual([int(count) for count in found], wanted, name)

    @needs_program
    def test_stalls(self) -> None:
        """Stream, first and last packet of each stall, as the ledger says that is made of what tshark sees."""
        for path in sorted(tools.CAPTURES.glob("*.truth.json")):
            name = path.name.split(".")[0]
            for stream, side, wanted in ledgers(json.loads(path.read_text())):
                found = stalls_of(report_of(name)[0], stream, side)
                self.assertEqual(found, wanted, (name, side))

    @needs("tshark")
    def test_derived(self) -> None:
        """Each line of a stored report, derived from tshark's frames and times, files of records, and the RFC."""
        for name in FRAMES:
            stored = (tools.CAPTURES / f"{name}.report").read_text()
            told = name if (tools.CAPTURES / f"{name}.records").exists() else "small-window-v6"
            self.assertEqual("\n".join(derived_report.derived(told)) + "\n", stored, name)

    @needs_program
    def test_examples(self) -> None:
        """A capture that h2audit reads has the report that it has alone."""
        for path in sorted(tools.EXAMPLES.glob("*.pcap")):
            for words, ending in FORMS:
                wanted = path.with_suffix(ending).read_text()
                assert PROGRAM
                alone = subprocess.run([PROGRAM, *words, path], capture_output=True)
                self.assertEqual(tools.report_of(PROGRAM, *words, path), (wanted, alone.returncode, ""), path.name)


def ledgers(truth: dict[str, Any]) -> Iterator[tuple[str, str, list[tuple[int, int, int | None]]]]:
    """Client's endpoint, side, and the stalls of its streams, of each connection that tshark sees frames of."""
    for one in truth["tcp_streams"]:
        for side, ledger in one.get("ledger", {}).get("at_ack", {}).items():
            at_zero = ledger.get("at_zero", [])
            yield one["client"], side, sorted((row[0], row[1], row[2]) for row in at_zero if row[0])


def stalls_of(report: str, client: str, side: str) -> list[tuple[int, int, int | None]]:
    """Stream, first and last packet of each stall of streams that lasts longer than a packet, of the
    connection of a client.
    """
    found: list[tuple[int, int, int | None]] = []
    packets: dict[str, int] = {}
    is_it = False
    for line in report.splitlines():
        words = line.split()
        if words[0] == "connection":
            is_it, packets = words[3].replace("[", "").replace("]", "") == client, {}
        elif words[0] == "frame":
            packets[words[1]] = int(words[3])
        elif is_it and words[0] == "stall" and words[1] == side and words[3] != "0":
            begin, end = packets[words[5]], packets[words[7]] if words[6] == "to" else None
            if begin != end:
                found.append((int(words[3]), begin, end))
    return sorted(found)


if __name__ == "__main__":
    unittest.main()
