"""Tests of h2audit-import on captures that once were read wrongly (tests/corpus), and on forms that proxies, tunnels,
packers and PowerShell make.

What is right of a capture stands in tests/corpus/README.md, by tshark or by the packets themselves.
"""

import bz2
import lzma
import pathlib
import struct
import subprocess
import tempfile
import unittest
from collections.abc import Iterable

from tools.tests import import_tools as tools
from tools.tests.companions import UNREAD, without_help

QUICK = True
CORPUS = tools.TOP / "tests" / "corpus"
RAW = 101
EXAMPLE = tools.EXAMPLES / "stream_overrun_go.pcap"
LATE = tools.TOP / "tests" / "answer" / "packets_late_in_file.pcap"
SYN, ACK, PUSH = 2, 16, 24
PREFACE = b"PRI * HTTP/2.0\r\n\r\nSM\r\n\r\n" + bytes.fromhex("000000040000000000")
V2_LINE = b"\r\n\r\n\0\r\nQUIT\n" + b"\x21\x11\x00\x0c" + bytes(12)


def made_of(name: str, keys: str = "") -> tools.Made:
    capture = next(CORPUS.glob(f"{name}.pcap*"))
    return tools.imported("-k", CORPUS / f"{keys or name}.keys", capture)


def ends_of(made: tools.Made, word: str) -> list[str]:
    """What stands behind the packet, in lines of a connection, or behind the first word."""
    return [line.split(" packet ")[-1].split(" ", 1)[1] for line in tools.lines_of(made, word)]


def segment(side: int, sequence: int, payload: bytes = b"", flags: int = PUSH, answer: int = 0) -> bytes:
    """A packet of raw IP between two hosts."""
    ends = [(b"\x0a\0\0\1", 40000), (b"\x0a\0\0\2", 443)][:: -1 if side else 1]
    tcp = struct.pack(">HHIIBBHHH", ends[0][1], ends[1][1], sequence, answer, 0x50, flags, 65535, 0, 0) + payload
    ip = struct.pack(">BBHHHBBH4s4s", 0x45, 0, 20 + len(tcp), 0, 0, 64, 6, 0, ends[0][0], ends[1][0])
    return ip + tcp


def captured(datagrams: Iterable[bytes], nanos: int = 10**9) -> bytes:
    packets = [tools.Packet(nanos + at, data, len(data)) for at, data in enumerate(datagrams)]
    return tools.pcap_of(packets, RAW)


def opening() -> list[bytes]:
    return [segment(0, 100, flags=SYN), segment(1, 900, flags=SYN | ACK, answer=101)]


class Corpus(unittest.TestCase):
    def test_certificate_refused(self) -> None:
        self.assertEqual(ends_of(made_of("certificate-refused"), "connection"), ["refused alert 48"] * 10)

    def test_preambles(self) -> None:
        for name, said in (
            ("proxy-line", "proxy-v1 client 44 server 0"),
            ("connect-proxy", "connect client 114 server 39"),
        ):
            made = made_of(name)
            self.assertEqual(made.status, 0)
            self.assertEqual(tools.lines_of(made, "behind"), [f"behind {said}"])
            self.assertEqual(sorted(set(tools.lines_of(made, "flow"))), [
                "flow client bytes 118 gap none tail 0 end whole", "flow server bytes 20195 gap none tail 0 end whole",
            ])  # fmt: skip

    def test_fragments(self) -> None:
        made = made_of("v6-fragments")
        self.assertEqual(tools.lines_of(made, "fragments"), ["fragments 33", "fragments 7"])
        self.assertIn(" fragments 40 ", tools.lines_of(made, "capture")[0])

    def test_cut(self) -> None:
        made = made_of("gzip-cut", "h2o-nghttp")
        self.assertEqual(tools.lines_of(made, "passed"), ["passed file 1 packet 15 cut"])
        self.assertIn("capture records 14 ", tools.lines_of(made, "capture")[0])
        self.assertEqual(
            tools.lines_of(made_of("trailing-garbage", "h2o-nghttp"), "passed")[0], "passed file 1 packet 27 cut"
        )

    def test_other_blocks(self) -> None:
        """The SYN is packet 3, behind two Custom Blocks."""
        made = made_of("other-blocks", "h2o-nghttp")
        self.assertEqual(tools.lines_of(made, "record")[0], "record 1 file 1 packet 3")

    def test_key_logs(self) -> None:
        """A byte order mark and UTF-16 change nothing, and the client's secrets alone give its bytes."""
        whole = made_of("h2o-nghttp")
        self.assertEqual(ends_of(whole, "flow")[0].split(" gap")[0], "client bytes 280")
        for keys in ("bom", "utf16"):
            made = made_of("h2o-nghttp", keys)
            self.assertEqual((made.status, made.said, made.bytes, made.map), (0, "", whole.bytes, whole.map))
        made = made_of("h2o-nghttp", "client-only")
        self.assertEqual(tools.lines_of(made, "flow"), [
            "flow client bytes 280 gap none tail 0 end whole", "flow server bytes 0 gap 0 tail 0 end no-key",
        ])  # fmt: skip
        self.assertEqual(tools.flows(made)[0], tools.flows(whole)[0])

    def test_forged_hellos(self) -> None:
        """What was opened stays what it was: 24 and 33 bytes, as the records that prove their tags have."""
        for name, version, size in (("hostile-version", "1.2", 24), ("second-server-hello", "1.3", 33)):
            made = made_of(name)
            self.assertIn(f" tls {version} ", tools.lines_of(made, "connection")[0])
            self.assertEqual(tools.lines_of(made, "flow"), [
                f"flow client bytes {size} gap none tail 0 end whole", "flow server bytes 0 gap 0 tail 0 end not-tls",
            ])  # fmt: skip
            self.assertEqual(len(tools.flows(made)[0]), size)


class Preambles(unittest.TestCase):
    """Lines of proxies before a connection in the clear."""

    def given(self, client: list[bytes], server: list[bytes]) -> tools.Made:
        """A connection in which these segments are sent, those of the client first."""
        datagrams, at = opening(), [101, 901]
        for side, payloads in enumerate((client, server)):
            for payload in payloads:
                datagrams.append(segment(side, at[side], payload, answer=at[1 - side]))
                at[side] += len(payload)
        return tools.imported(input=captured(datagrams))

    def test_clear(self) -> None:
        """The bytes behind them are the connection's, with numbers from the beginning on, however they are cut."""
        answer = b"HTTP/1.1 200 OK\r\n\r\n"
        asked = b"CONNECT a:443 HTTP/1.1\r\nHost: a:443\r\n\r\n"
        for name, before, after in (
            ("proxy-v1", b"PROXY TCP4 10.0.0.1 10.0.0.2 40000 443\r\n", b""),
            ("proxy-v1", b"PROXY UNKNOWN\r\n", b""),
            ("proxy-v2", V2_LINE, b""),
            ("connect", asked, answer),
        ):
            said = before + PREFACE
            for size in (1, 7, len(before), 1000):
                made = self.given([said[at : at + size] for at in range(0, len(said), size)], [after + b"answer"])
                self.assertEqual(
                    tools.lines_of(made, "behind"), [f"behind {name} client {len(before)} server {len(after)}"]
                )
                self.assertEqual(reassembled(made), [PREFACE, b"answer"], (name, size))

    def test_not_those(self) -> None:
        """What only begins like them goes through as it stands."""
        for said, answer in (
            (b"PROXY of something else\r\n" + PREFACE, b""),
            (b"PROXY TCP4 " + b"1" * 200, b""),
            (V2_LINE[:12] + b"\x11" + V2_LINE[13:] + PREFACE, b""),
            (b"CONNECT a:443 HTTP/1.1\r\n\r\n" + PREFACE, b"HTTP/1.1 403 no\r\n\r\n"),
            (b"P", b""),
        ):
            made = self.given([said], [answer] if answer else [])
            self.assertEqual((ends_of(made, "connection"), tools.lines_of(made, "behind")), (["clear"], []), said)
            self.assertEqual(reassembled(made), [said, answer])


def reassembled(made: tools.Made) -> list[bytes]:
    """The bytes of both sides by the numbers of their segments, which begin behind those of the SYNs."""
    found = [b"", b""]
    for _, side, data in tools.payloads(made, "clear"):
        found[side] += data
    for packet in made.packets:
        side = int(packet.data[20:22] == b"\x01\xbb")
        sequence = int.from_bytes(packet.data[24:28], "big")
        payload = packet.data[40:]
        offset = sequence - (101, 901)[side]
        assert not payload or found[side][offset : offset + len(payload)] == payload, (side, offset)
        assert int.from_bytes(packet.data[2:4], "big") == len(packet.data)
    return found


class Others(unittest.TestCase):
    def test_named(self) -> None:
        """What packets carry that have no TCP, the most frequent first."""

        def of(kind: int, rest: bytes = b"") -> bytes:
            return bytes(12) + struct.pack(">H", kind) + rest

        ip = segment(0, 1)
        gre = ip[:9] + b"\x2f" + ip[10:]
        vxlan = ip[:9] + b"\x11" + ip[10:20] + struct.pack(">HHHH", 5, 4789, 20, 0) + bytes(12)
        frames = [*[of(0x8847)] * 5, *[of(0x8864)] * 4, *[of(0x0800, gre)] * 3, *[of(0x0800, vxlan)] * 2, of(0x88B5)]
        data = tools.pcap_of([tools.Packet(0, one, len(one)) for one in frames], 1)
        made = tools.imported(input=data)
        self.assertEqual(tools.lines_of(made, "other"), [
            "other ethertype 0x8847 mpls packets 5", "other ethertype 0x8864 pppoe-session packets 4",
            "other protocol 47 gre packets 3", "other udp-port 4789 vxlan packets 2",
            "other ethertype 0x88b5 - packets 1",
        ])  # fmt: skip


class Files(unittest.TestCase):
    def setUp(self) -> None:
        held = tempfile.TemporaryDirectory(prefix="h2audit-test-")
        self.addCleanup(held.cleanup)
        self.folder = pathlib.Path(held.name)

    def test_packed(self) -> None:
        """xz and bzip2 give what the file gives; lz4 is refused by name."""
        data = EXAMPLE.read_bytes()
        wanted = tools.imported(input=data)
        for packed in (lzma.compress(data), bz2.compress(data), bz2.compress(data[:99]) + bz2.compress(data[99:])):
            self.assertEqual(tools.imported(input=packed), wanted)
        lz4 = tools.imported(input=b"\x04\x22\x4d\x18" + data)
        self.assertEqual((lz4.status, without_help(lz4.said)), (3, "h2audit-import: capture refused: lz4: -\n"))

    def test_order(self) -> None:
        """Files in the wrong order: it is said, and --sort reads them in that of their first packets."""
        packets, link = tools.read_pcap(EXAMPLE.read_bytes())
        paths = [self.folder / f"g.pcap{number}" for number in (2, 10)]
        paths[0].write_bytes(tools.pcap_of(packets[:9], link))
        paths[1].write_bytes(tools.pcap_of(packets[9:], link))
        right = tools.imported(*paths)
        self.assertEqual((right.said, tools.lines_of(right, "back")), ("", []))
        wrong = tools.imported(*reversed(paths))
        at = len(packets) - 9 + 1
        self.assertEqual(
            wrong.said, f"h2audit-import: times go back at packet {at}: are the files in order? --reorder\n"
        )
        nanos = packets[-1].nanos - packets[0].nanos
        self.assertEqual(tools.lines_of(wrong, "back"), [f"back file 2 packet 1 packets 1 nanos {nanos}"])
        self.assertEqual(tools.imported("--sort", *reversed(paths)), right)
        piped = tools.imported("--sort", "-", paths[0], input=b"")
        self.assertEqual((piped.status, piped.said), (2, "h2audit-import: --sort takes files alone, and - is none\n"))

    def test_reorder(self) -> None:
        """Packets that are late in the file are put in order of time, under their own numbers; the warning says how."""
        packets, link = tools.read_pcap(LATE.read_bytes())
        late = tools.imported(LATE)
        said = "h2audit-import: times go back at packet 13: are the files in order? --reorder\n"
        self.assertEqual((late.said, tools.lines_of(late, "reordered")), (said, []))
        order = sorted(range(len(packets)), key=lambda at: packets[at].nanos)
        path = self.folder / "sorted.pcap"
        path.write_bytes(tools.pcap_of([packets[at] for at in order], link))
        wanted, found = tools.imported(path), tools.imported("--reorder", LATE)
        self.assertEqual((found.bytes, found.said), (wanted.bytes, ""))
        numbers = {record: order[packet - 1] + 1 for record, (_, packet) in tools.packet_of_each_record(wanted).items()}
        of_records = {record: packet for record, (_, packet) in tools.packet_of_each_record(found).items()}
        self.assertEqual(of_records, numbers)
        newest = [max(one.nanos for one in packets[: at + 1]) for at in range(len(packets))]
        ways = [newest[at] - packets[at].nanos for at in range(len(packets)) if packets[at].nanos < newest[at]]
        self.assertEqual(
            tools.lines_of(found, "reordered"), [f"reordered packets {len(ways)} nanos {max(ways)} left 0"]
        )

    def test_too_late(self) -> None:
        """What is more than a second late is left where it is, and that is said with how many."""
        packets, link = tools.read_pcap(EXAMPLE.read_bytes())
        packets = [one._replace(nanos=10**9 + at * 500_000_000) for at, one in enumerate(packets)]
        packets.insert(6, packets.pop(3))
        packets[8:10] = reversed(packets[8:10])
        path = self.folder / "late.pcap"
        path.write_bytes(tools.pcap_of(packets, link))
        made = tools.imported("--reorder", path)
        self.assertEqual(
            made.said, "h2audit-import: times go back at packet 7: 1 packet too late for --reorder: reordercap\n"
        )
        told = tools.lines_of(made, "reordered") + tools.lines_of(made, "back")
        self.assertEqual(
            told, ["reordered packets 1 nanos 500000000 left 1", "back file 1 packet 7 packets 1 nanos 1500000000"]
        )
        numbers = [packet for _, packet in tools.packet_of_each_record(made).values()]
        self.assertEqual(numbers, [1, 2, 3, 4, 5, 6, 7, 8, 10, 9, *range(11, len(packets) + 1)])

    def test_names(self) -> None:
        """What a terminal would act on is escaped in messages, and in the map as ever."""
        run = subprocess.run([tools.IMPORT, "-o", self.folder / "o", "\x1b[31mno\nfile"], capture_output=True)
        said = b"h2audit-import: \\x1b[31mno\\nfile: No such file or directory\n"
        self.assertEqual((run.returncode, run.stderr), (4, said))

    def test_closed_pipe(self) -> None:
        """Help and version onto a full disk: a line, and status 4. Where nobody reads nothing is said."""
        for word in ("--help", "--version", "-h", "-V"):
            full = "h2audit-import: standard output: No space left on device\n4\n"
            for words, wanted in (
                (f"(sleep 0.2; $IMPORT {word}; echo $? >&2) | true", f"{UNREAD}\n"),
                (f"$IMPORT {word} > /dev/full; echo $? >&2", full),
            ):
                run = subprocess.run(
                    ["sh", "-c", words], capture_output=True, text=True, env={"IMPORT": str(tools.IMPORT)}
                )
                self.assertEqual(run.stderr, wanted, words)


if __name__ == "__main__":
    unittest.main()
