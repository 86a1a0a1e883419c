"""Tests of h2audit-import on the forms that a capture may have: files, link types, IPv6, order of packets, holes,
refusals.

The same packets in another form give the same plaintext; what is wanted is taken from the form that other tests hold
against tshark. Nothing of an expected value is made by h2audit-import, but for that.
"""

import gzip
import os
import pathlib
import pty
import random
import signal
import stat
import struct
import subprocess
import tempfile
import time
import unittest
from collections.abc import Iterable, Iterator

from tools.tests import import_tools as tools
from tools.tests.companions import without_help
from tools.tests.packages import needs
from tools.tests.pcapng_blocks import block, interface, packet, section

QUICK = True
TIMED = True
NAME = "nghttp-nghttpd-13"
PCAP = tools.capture_named(NAME).read_bytes()
KEYS = tools.key_log_of(NAME)
WANTED = (tools.CAPTURES / f"{NAME}.records").read_text().splitlines()
PACKETS, ETHERNET = tools.read_pcap(PCAP)
RAW = 101
JOBS: tuple[list[str], ...] = ([], ["-j", "2"])  # in one process, and in several


def given(data: bytes, *words: tools.Word) -> tools.Made:
    """What is made of these bytes on standard input."""
    return tools.imported(*words, input=data)


def datagrams() -> list[tools.Packet]:
    return [tools.Packet(one.nanos, one.data[14:], one.original - 14) for one in PACKETS]


def in_ipv6(extensions: bytes = b"", first: int = 6) -> list[tools.Packet]:
    """The packets between 2001:db8::1 and ::2, with these extension headers, of which the first has this number."""
    made = []
    for one in datagrams():
        header = (one.data[0] & 15) * 4
        tcp = one.data[header : int.from_bytes(one.data[2:4], "big")]
        is_client = tcp[:2] == datagrams()[0].data[20:22]
        ends = [bytes.fromhex("20010db8") + bytes(11) + bytes([last]) for last in ((1, 2) if is_client else (2, 1))]
        length = len(extensions) + len(tcp)
        made.append(struct.pack(">IHBB", 6 << 28, length, first, 64) + ends[0] + ends[1] + extensions + tcp)
    return [tools.Packet(one.nanos, data, len(data)) for one, data in zip(PACKETS, made)]


def enhanced(number: int, ticks: int, one: tools.Packet, order: str = "<") -> bytes:
    return packet(order, number, ticks, (0, 0, one.original, one.data))


def secrets() -> bytes:
    text = (tools.CAPTURES / f"{NAME}.keys").read_bytes()
    return block("<", 0xA, struct.pack("<II", 0x544C534B, len(text)) + text)


class Files(unittest.TestCase):
    def test_byte_orders_and_units(self) -> None:
        for order in "<>":
            for unit in (1, 1000):
                made = given(tools.pcap_of(PACKETS, ETHERNET, order, unit), *KEYS)
                self.assertEqual(tools.rows_of(made), WANTED)
                self.assertEqual(made.packets[0].nanos, PACKETS[0].nanos // unit * unit)

    def test_compressed(self) -> None:
        zstd = subprocess.run([*"zstd -q -c".split()], input=PCAP, capture_output=True, check=True).stdout
        for data in (gzip.compress(PCAP), gzip.compress(PCAP[:5000]) + gzip.compress(PCAP[5000:]), zstd):
            self.assertEqual(tools.rows_of(given(data, *KEYS)), WANTED)

    def test_rotated(self) -> None:
        """Files in the order given are one capture; packets are those of each file."""
        with tempfile.TemporaryDirectory() as folder:
            paths = [pathlib.Path(folder, name) for name in ("a b%.pcap", "b.pcapng", "c.pcap.gz")]
            paths[0].write_bytes(tools.pcap_of(PACKETS[:6], ETHERNET))
            paths[1].write_bytes(section() + interface("<", ETHERNET, 9) +
                                 b"".join(enhanced(0, one.nanos, one) for one in PACKETS[6:15]))  # fmt: skip
            paths[2].write_bytes(gzip.compress(tools.pcap_of(PACKETS[15:], ETHERNET)))
            made = tools.imported(*KEYS, *paths)
        starts = {1: 0, 2: 6, 3: 15}
        packets = {
            number: (starts[file] + packet,) * 2 for number, (file, packet) in tools.packet_of_each_record(made).items()
        }
        self.assertEqual([row.split()[1:] for row in tools.rows_of(made)], [row.split()[1:] for row in WANTED])
        self.assertEqual(
            [packets[number][0] for number, _, _ in tools.payloads(made)], [int(row.split()[0]) for row in WANTED]
        )
        self.assertTrue(tools.lines_of(made, "file")[0].endswith("/a%20b%25.pcap"))

    def test_sections_and_clocks(self) -> None:
        """Two sections, of either byte order; clocks of 2^-10 s and of 10^-9 s with an offset."""
        first = section() + interface("<", 105) + interface("<", ETHERNET, 0x8A, 100)
        data = first + b"".join(enhanced(1, 5 * 1024 + 512, one) for one in PACKETS[:10])
        data += section(">") + interface(">", ETHERNET)
        data += b"".join(enhanced(0, one.nanos // 1000, one, ">") for one in PACKETS[10:])
        made = given(data, *KEYS)
        self.assertEqual(tools.rows_of(made), WANTED)
        self.assertEqual(made.packets[0].nanos, 105_500_000_000)

    def test_secrets_after_packets(self) -> None:
        """Keys that come last, on standard input too, where a capture cannot be read twice; processes change
        nothing.
        """
        packets = b"".join(enhanced(0, one.nanos // 1000, one) for one in PACKETS)
        for data in (
            section() + interface("<", ETHERNET) + packets + secrets(),
            section() + interface("<", ETHERNET) + secrets() + packets,
        ):
            for words in JOBS:
                self.assertEqual(tools.rows_of(given(data, *words)), WANTED)

    def test_cut(self) -> None:
        made = given(PCAP[:-1], *KEYS)
        self.assertEqual(tools.lines_of(made, "passed"), [f"passed file 1 packet {len(PACKETS)} cut"])
        self.assertEqual(tools.rows_of(made), WANTED)

    def test_refused(self) -> None:
        """What cannot be read is refused by name, with status 3, and no file is left."""
        header = PCAP[:20]
        simple = section() + interface("<", 1) + block("<", 3, struct.pack("<I", 4) + b"abcd")
        e, v6 = tools.pcap_of(PACKETS[:1], ETHERNET), in_ipv6()
        clash = tools.Packet(0, datagrams()[0].data[:12] + bytes([240, 0, 0, 9]) + datagrams()[0].data[16:], 100)
        cases = {
            b"": "short-header", b"abc": "short-header", b"abcdefgh": "bad-magic", PCAP[:23]: "short-header",
            header + struct.pack("<I", 105) + e[24:]: "link-type 105", PCAP[:4] + b"\x03" + PCAP[5:]: "bad-version",
            simple: "simple-packet-block", section()[:-1] + b"\x01": "bad-block",
            section() + interface("<", 1) + enhanced(1, 0, PACKETS[0]): "no-interface",
            gzip.compress(PCAP)[:2] + b"x" * 9: "bad-gzip", b"\x28\xb5\x2f\xfd" + b"x" * 9: "bad-zstd",
            tools.pcap_of([*v6[:1], clash], RAW): "address-clash",
        }  # fmt: skip
        for data, name in cases.items():
            made = given(data, *KEYS)
            self.assertEqual(
                (made.status, without_help(made.said)), (3, f"h2audit-import: capture refused: {name}: -\n")
            )
            self.assertEqual((made.bytes, made.map), (b"", []))


V4, V6, MACS = b"\x08\x00", b"\x86\xdd", bytes(12)
# Link types, each with the front that it puts before a datagram of IPv4.
FRONTS = [
    (1, MACS + b"\x81\x00\x00\x05" + V4), (1, MACS + b"\x88\xa8\x00\x01\x81\x00\x00\x02" + V4),
    (1, MACS + b"\x91\x00\x00\x07\x81\x00\x00\x02" + V4), (12, b""), (14, b""), (101, b""), (228, b""),
    (113, bytes(14) + V4), (113, bytes(14) + b"\x81\x00\x00\x02" + V4), (276, V4 + bytes(18)),
    (0, b"\x02\x00\x00\x00"), (0, b"\x00\x00\x00\x02"), (108, b"\x00\x00\x00\x02"),
]  # fmt: skip
FRONTS_OF_IPV6 = [
    (1, MACS + V6), (101, b""), (0, b"\x1e\x00\x00\x00"), (113, bytes(14) + V6), (276, V6 + bytes(18)), (229, b""),
]  # fmt: skip
PADDING = b"\x01\x04" + bytes(4)
# Extension headers, with the number of the first: none, hop-by-hop, two of options, a whole fragment, authentication,
# routing, and three of them.
EXTENSIONS = [
    (b"", 6), (b"\x06\x00" + PADDING, 0), (b"\x3c\x00" + PADDING + b"\x06\x00" + PADDING, 0),
    (b"\x06\x00" + bytes(6), 44), (b"\x06\x04" + bytes(22), 51), (b"\x06\x02\x00\x00" + bytes(20), 43),
    (b"\x2b\x00" + PADDING + b"\x2c\x00" + bytes(6) + b"\x06\x00" + bytes(6), 60),
]  # fmt: skip


def fronted(packets: list[tools.Packet], front: bytes) -> list[tools.Packet]:
    return [tools.Packet(one.nanos, front + one.data, one.original + len(front)) for one in packets]


def of_ipv6() -> Iterator[tuple[int, list[tools.Packet]]]:
    """Captures of IPv6: each link type, and each row of extension headers, as link type and packets."""
    for link, front in FRONTS_OF_IPV6:
        yield link, fronted(in_ipv6(), front)
    for extensions, first in EXTENSIONS[1:]:
        yield 229, in_ipv6(extensions, first)


class Links(unittest.TestCase):
    def test_links(self) -> None:
        for link, front in FRONTS:
            with self.subTest(link=link, front=front):
                made = given(tools.pcap_of(fronted(datagrams(), front), link), *KEYS)
                self.assertEqual(tools.rows_of(made), WANTED)

    def test_ipv6(self) -> None:
        for link, packets in of_ipv6():
            made = given(tools.pcap_of(packets, link), *KEYS)
            self.assertEqual(tools.rows_of(made), WANTED)
            self.assertEqual(
                tools.lines_of(made, "address"), ["address 240.0.0.1 2001:db8::1", "address 240.0.0.2 2001:db8::2"]
            )
            line = tools.lines_of(made, "connection")[0]
            self.assertIn("client [2001:db8::1]:38292 server [2001:db8::2]:21001", line)

    @needs("tshark")
    def test_tshark(self) -> None:
        """tshark sees the same segments in each of these forms."""
        forms = [(ETHERNET, PACKETS), *((link, fronted(datagrams(), front)) for link, front in FRONTS), *of_ipv6()]
        data = section() + b"".join(interface("<", link) for link, _ in forms)
        data += b"".join(enhanced(at, 0, one) for at, (_, packets) in enumerate(forms) for one in packets)
        with tempfile.NamedTemporaryFile(suffix=".pcapng") as file:
            file.write(data)
            file.flush()
            words = "-T fields -e tcp.seq_raw -e tcp.len -e tcp.flags -e tcp.srcport".split()
            run = subprocess.run(["tshark", "-n", "-r", file.name, *words], capture_output=True, text=True, check=True)
        lines = run.stdout.splitlines()
        self.assertEqual(lines, lines[: len(PACKETS)] * len(forms))
        self.assertNotIn("\t\t", lines[0])

    def test_passed_over(self) -> None:
        """What is no segment is counted, and named where it might have been one."""
        one = datagrams()[5]
        fragment = one.data[:6] + b"\x20\x00" + one.data[8:]
        packets = [
            fragment,
            one.data[:19],
            one.data[:9] + b"\x11" + one.data[10:],
            b"\x75" + one.data[1:],
            in_ipv6(b"\x06\x00\x00\x09" + bytes(4), 44)[5].data,
        ]
        made = given(tools.pcap_of([*datagrams(), *(tools.Packet(0, data, len(data)) for data in packets)], RAW), *KEYS)
        self.assertEqual(
            tools.lines_of(made, "capture"),
            ["capture records 28 segments 23 snapped 0 not-ipv4 0 fragments 2 not-tcp 1 refused 2"],
        )
        self.assertEqual(tools.lines_of(made, "passed"), [
            "passed file 1 packet 24 fragment", "passed file 1 packet 25 refused short-ipv4",
            "passed file 1 packet 27 refused bad-version", "passed file 1 packet 28 fragment",
        ])  # fmt: skip


def pieces_of(packet: tools.Packet, dice: random.Random) -> list[tools.Packet]:
    """A segment cut in two, or as it stands."""
    data = packet.data
    start = 20 + (data[32] >> 4) * 4
    if len(data) - start < 2 or dice.random() < 0.5:
        return [packet]
    at = dice.randrange(start + 1, len(data))
    sequence = int.from_bytes(data[24:28], "big") + at - start
    front = data[:2] + struct.pack(">H", at) + data[4:at]
    back = (
        data[:2]
        + struct.pack(">H", start + len(data) - at)
        + data[4:24]
        + struct.pack(">I", sequence & 0xFFFFFFFF)
        + data[28:start]
        + data[at:]
    )
    return [packet._replace(data=part, original=len(part)) for part in (front, back)]


def joined(packets: list[tools.Packet], dice: random.Random) -> list[tools.Packet]:
    """Some segments with the one that follows them in their place, as one segment; the later packet goes."""
    made: list[tools.Packet] = []
    for one in packets:
        before = made[-1].data if made else b""
        if before and dice.random() < 0.5 and follows(before, one.data) and len(before) + len(one.data) < 60000:
            data = before + payload_of(one.data)
            data = data[:2] + struct.pack(">H", len(data)) + data[4:]
            made[-1] = made[-1]._replace(data=data, original=len(data))
        else:
            made.append(one)
    return made


def payload_of(data: bytes) -> bytes:
    return data[20 + (data[32] >> 4) * 4 :]


def follows(before: bytes, data: bytes) -> bool:
    """Whether a segment begins where another of its side ends, and both have payload alone."""
    end = int.from_bytes(before[24:28], "big") + len(payload_of(before))
    is_next = before[12:24] == data[12:24] and end & 0xFFFFFFFF == int.from_bytes(data[24:28], "big")
    return is_next and not (before[33] | data[33]) & 7 and bool(payload_of(before) and payload_of(data))


def disturbed(packets: list[tools.Packet], dice: random.Random, window: int) -> list[tools.Packet]:
    """Packets joined, cut in two, doubled, and in random order within a window; the openings stay first."""
    pieces = [piece for one in joined(packets[2:], dice) for piece in pieces_of(one, dice) * dice.choice((1, 1, 2))]
    order = sorted(range(len(pieces)), key=lambda at: at + dice.uniform(0, window))
    return [*packets[:2], *(pieces[at] for at in order)]


class Order(unittest.TestCase):
    def test_disturbed(self) -> None:
        """The plaintext of both sides is one, whatever the order of their packets."""
        seed = random.randrange(1 << 32)
        dice = random.Random(seed)
        for name in (NAME, "curl-apache-upload", "key-updates"):
            base = tools.imported(*tools.key_log_of(name), tools.capture_named(name))
            packets = list(in_raw(name))
            for window in (0, 3, 20):
                made = given(tools.pcap_of(disturbed(packets, dice, window), RAW), *tools.key_log_of(name))
                self.assertEqual(tools.flows(made), tools.flows(base), (name, window, "seed", seed))

    def test_lost_packets(self) -> None:
        """Packets 30 and 31 are missing: the server's plaintext ends there, and h2audit sees a later byte."""
        name = "curl-nginx-12-any-cooked"
        packets = list(in_raw(name))
        made = given(tools.pcap_of(packets[:29] + packets[31:], RAW), *tools.key_log_of(name))
        self.assertEqual(tools.lines_of(made, "flow"), [
            "flow client bytes 117 gap none tail 0 end whole", "flow server bytes 164192 gap 164192 tail 4903 end lost",
        ])  # fmt: skip
        last = made.packets[-1].data
        first = next(one.data for one in made.packets[2:] if one.data[20:22] == last[20:22])
        self.assertEqual(int.from_bytes(last[24:28], "big") - int.from_bytes(first[24:28], "big"), 164193)

    def test_cut_record(self) -> None:
        """A capture that ends within a record says how many bytes of it there are."""
        name, count = "loss-and-reordering", 22
        packets = list(in_raw(name))[:count]
        sent: dict[int, bytes] = {}
        for one in packets:
            payload = one.data[20 + (one.data[32] >> 4) * 4 :]
            if payload and one.data[20:22] != packets[0].data[20:22]:
                sent.setdefault(int.from_bytes(one.data[24:28], "big"), payload)
        stream = b"".join(sent[at] for at in sorted(sent))
        self.assertEqual(max(sent) + len(sent[max(sent)]) - min(sent), len(stream), "the server's bytes have no hole")
        while len(stream) >= 5 and len(stream) >= 5 + int.from_bytes(stream[3:5], "big"):
            stream = stream[5 + int.from_bytes(stream[3:5], "big") :]
        made = given(tools.pcap_of(packets, RAW), *tools.key_log_of(name))
        self.assertTrue(stream)
        self.assertTrue(tools.lines_of(made, "flow")[1].endswith(f" gap none tail {len(stream)} end cut"), made.map)

    def test_reset(self) -> None:
        """What comes up to 240 seconds after an RST still counts; later, and once another connection opened,
        no more.
        """
        packets = [one for one in in_raw(NAME) if not one.data[33] & 1]
        rows = len(WANTED)
        for seconds, is_kept in ((239, True), (241, False)):
            last = packets[-1]
            reset = last._replace(data=last.data[:33] + b"\x04" + last.data[34:])
            opening = packets[0].data
            other = reset._replace(
                data=opening[:20] + b"\x00\x07" + opening[22:], nanos=reset.nanos + seconds * 10**9
            )
            late = [one._replace(nanos=other.nanos) for one in packets[14:]]
            made = given(tools.pcap_of([*packets[:14], reset, other, *late], RAW), *KEYS)
            self.assertEqual(len(tools.rows_of(made)) == rows, is_kept, seconds)
            self.assertEqual(len(tools.lines_of(made, "connection")), 2)

    def test_begins_late(self) -> None:
        made = given(tools.pcap_of(list(in_raw("key-updates"))[12:], RAW), *tools.key_log_of("key-updates"))
        self.assertEqual((made.status, tools.lines_of(made, "connection")), (6, []))
        self.assertEqual(
            tools.lines_of(made, "unopened"), ["unopened 127.0.0.1:21014 127.0.0.1:33106 file 1 packet 1 segments 99"]
        )


def in_raw(name: str) -> Iterator[tools.Packet]:
    """The packets of a capture of IPv4 as raw IP; those of a pcapng file by way of h2audit-import without
    keys are not had.
    """
    data = tools.capture_named(name).read_bytes()
    if data[:4] != b"\x0a\x0d\x0d\x0a":
        packets, _ = tools.read_pcap(data)
        front = 14
    else:
        packets, front = list(enhanced_in(data)), 16 if "cooked" in name else 14
    for one in packets:
        total = int.from_bytes(one.data[front + 2 : front + 4], "big")
        yield tools.Packet(one.nanos, one.data[front : front + total], total)


def enhanced_in(data: bytes) -> Iterator[tools.Packet]:
    at = 0
    while at < len(data):
        kind, length = struct.unpack_from("<II", data, at)
        if kind == 6:
            high, low, captured, original = struct.unpack_from("<IIII", data, at + 12)
            yield tools.Packet(high << 32 | low, data[at + 28 : at + 28 + captured], original)
        at += length


class Secrets(unittest.TestCase):
    def test_modes(self) -> None:
        """Capture and map are for their owner alone, also where a file of that name was not."""
        with tempfile.TemporaryDirectory() as folder:
            out, made_map = pathlib.Path(folder, "out"), pathlib.Path(folder, "map")
            out.touch(0o644)
            subprocess.run([tools.IMPORT, *KEYS, "-o", out, "-m", made_map, tools.capture_named(NAME)], check=True)
            self.assertEqual([stat.S_IMODE(path.stat().st_mode) for path in (out, made_map)], [0o600, 0o600])
            self.assertEqual(sorted(os.listdir(folder)), ["map", "out"])

    def test_signals(self) -> None:
        """A signal leaves no file behind."""
        for one in (signal.SIGTERM, signal.SIGINT, signal.SIGHUP):
            for words in JOBS:
                with tempfile.TemporaryDirectory() as folder:
                    child = subprocess.Popen(
                        [tools.IMPORT, *words, "-o", f"{folder}/out", "-m", f"{folder}/map"],
                        stdin=subprocess.PIPE,
                        stderr=subprocess.PIPE,
                    )
                    assert child.stdin and child.stderr
                    child.stdin.write(PCAP[:20000])
                    child.stdin.flush()
                    deadline = time.monotonic() + 30
                    while len(os.listdir(folder)) < 2 and time.monotonic() < deadline:
                        time.sleep(0.02)
                    self.assertEqual(len(os.listdir(folder)), 2)
                    child.send_signal(one)
                    self.assertEqual((child.wait(30), child.stderr.read()), (-one, b""))
                    child.stdin.close()
                    child.stderr.close()
                    self.assertEqual(os.listdir(folder), [])


def ended(words: str, **more: str) -> tuple[int, str]:
    """Status and standard error of a command line of the shell, where $IMPORT is the program."""
    run = subprocess.run(["sh", "-c", words], capture_output=True, text=True, timeout=120,
                         env={**os.environ, "IMPORT": str(tools.IMPORT), "ANY": str(tools.ANY), **more})  # fmt: skip
    return run.returncode, run.stderr.replace(more.get("D", "/nowhere"), "D")


class Hostile(unittest.TestCase):
    """What is no capture, no key log, or cannot be read or written: a line that says so, and a status."""

    def setUp(self) -> None:
        self.folder = tempfile.TemporaryDirectory()
        self.addCleanup(self.folder.cleanup)
        self.made = {"D": self.folder.name, "P": str(tools.capture_named(NAME)), "K": str(KEYS[1])}

    def file(self, name: str, data: bytes) -> None:
        pathlib.Path(self.folder.name, name).write_bytes(data)

    def check(self, rows: Iterable[tuple[str, int, str]]) -> None:
        for words, status, said in rows:
            with self.subTest(words):
                found, why = ended(words, **self.made)
                self.assertEqual((found, without_help(why)), (status, said and f"{said}\n"))
        self.assertEqual([name for name in os.listdir(self.folder.name) if name.startswith(".")], [])

    def test_files(self) -> None:
        os.mkfifo(f"{self.folder.name}/pipe")
        self.file("zeros", bytes(5000))
        name = "h2audit-import:"
        self.check([
            ("$IMPORT -o $D/o $D", 4, f"{name} D: Is a directory"),
            ("$IMPORT -k $D -o $D/o $P", 4, f"{name} D: Is a directory"),
            ("$IMPORT -k $K -o $D $P", 4, f"{name} D: Is a directory"),
            ("$IMPORT -o $D/o $D/none", 4, f"{name} D/none: No such file or directory"),
            ("$IMPORT -k $D/none -o $D/o $P", 4, f"{name} D/none: No such file or directory"),
            ("$IMPORT -k $K -o $D/none/o $P", 4, f"{name} D/none/o: No such file or directory"),
            ("$IMPORT -k $K -o /dev/full $P", 4, f"{name} /dev/full: No space left on device"),
            ("$IMPORT -k $K -o $D/o -m /dev/full $P", 4, f"{name} /dev/full: No space left on device"),
            ("$IMPORT -k $K -o - $P >/dev/full", 4, f"{name} standard output: No space left on device"),
            ("$IMPORT -k $K -o $D/o -m $D/o $P", 2, f"{name} OUT.pcap and MAP are the same file"),
            ("$IMPORT -o $D/o $D/zeros", 3, f"{name} capture refused: bad-magic: D/zeros"),
            ("$IMPORT -j 3 -k $K -o $D/o $P $D/zeros", 3, f"{name} capture refused: bad-magic: D/zeros"),
            ("cat $P > $D/pipe & $IMPORT -k $K -o $D/o $D/pipe", 0, ""),
            ("cat $K > $D/pipe & $IMPORT -k $D/pipe -o $D/o $P", 0, ""),
        ])  # fmt: skip

    def test_closed(self) -> None:
        """Where a standard file is closed, no other file takes its place, and /dev/null stands in for it."""
        self.check([
            ("$IMPORT -k $K -o $D/o <&-", 3, "h2audit-import: capture refused: short-header: -"),
            ("$IMPORT -k $K -o - $P >&-", 0, ""),
            ("$IMPORT -k $K -o $D/o $P >&- 2>&- <&-", 0, ""), ("$IMPORT -o $D/o $D/none 2>&-", 4, ""),
        ])  # fmt: skip

    def test_programs(self) -> None:
        """A program that is no h2audit, or is ended."""
        self.file("killed", b"#!/bin/sh\nkill -9 $$\n")
        os.chmod(f"{self.folder.name}/killed", 0o755)
        self.check([
            ("$ANY --h2audit /bin/echo -k $K $P", 4, "h2audit-any: h2audit: what it said is no report"),
            ("$ANY --h2audit /bin/false -k $K $P", 4, "h2audit-any: h2audit: what it said is no report"),
            ("$ANY --h2audit $D/killed -k $K $P", 4, "h2audit-any: D/killed: ended by signal 9"),
            ("$ANY --h2audit $D/none -k $K $P", 4, "h2audit-any: D/none: No such file or directory"),
        ])  # fmt: skip

    def test_blocks(self) -> None:
        """Lengths of pcapng and pcap that nothing stands behind."""
        front, head = section() + interface("<", ETHERNET), PCAP[:24]
        rows = {
            front + struct.pack("<II", 6, 0xFFFFFFFC) + b"x" * 100: "too-long-block",
            front + struct.pack("<II", 6, 0) + b"x" * 100: "bad-block",
            front + block("<", 6, struct.pack("<IIIII", 0, 0, 0, 0xFFFFFFFF, 9) + bytes(40)): "bad-block",
            front + block("<", 0xA, struct.pack("<II", 0x544C534B, 0xFFFFFFFF) + b"CLIENT_RANDOM"): "bad-block",
            front + block("<", 1, b""): "bad-block",
            section() + interface("<", ETHERNET) * 65537: "too-many-interfaces",
            front + struct.pack("<II", 6, 17 << 20) + b"x" * 100: "cut",
            head + struct.pack("<IIII", 1, 0, 1 << 31, 9) + b"x" * 50: "cut",
            head + struct.pack("<IIII", 1, 0, 0, 1500): "refused short-ethernet",
            head + struct.pack("<IIII", 1, 0, 17 << 20, 9) + bytes(17 << 20): "refused no-packet",
        }  # fmt: skip
        for data, wanted in rows.items():
            made = given(data)
            found = [line.split(" ", 5)[5] for line in tools.lines_of(made, "passed")]
            named: tuple[int, str, list[str]] = (3, f"h2audit-import: capture refused: {wanted}: -\n", [])
            passed = (6, "h2audit-import: no connection could be read\n", [wanted])
            self.assertIn((made.status, without_help(made.said), found), (named, passed))

    def test_bombs(self) -> None:
        """What is small and becomes large takes no more memory than any capture: a packet of 600 MB, and a million of
        none.
        """
        for name, record, size in (("one", struct.pack("<IIII", 1, 0, 600 << 20, 9), 600), ("many", b"", 16)):
            with gzip.open(f"{self.folder.name}/{name}", "wb", 1) as file:
                file.write(PCAP[:24] + record)
                for _ in range(size):
                    file.write(bytes(1 << 20))
        said = "h2audit-any: h2audit: what it said is no report"
        self.check((f"ulimit -v 400000; $ANY --h2audit /bin/false $D/{name}", 4, said) for name in ("one", "many"))
        self.check([("ulimit -v 400000; head -c 500000000 /dev/zero | $IMPORT -k $K -o $D/o $P -", 3,
                     "h2audit-import: capture refused: bad-magic: -")])  # fmt: skip

    def test_key_logs(self) -> None:
        """A key log that is damaged is counted; not a digit of it is in what is said and in the map."""
        secret, random_part = b"5ec7e7" * 16, b"ab" * 32
        lines = [b"CLIENT_RANDOM " + random_part + b" " + secret + b"zz", b"CLIENT_RANDOM " + secret, secret * 100,
                 b"CLIENT_RANDOM " + random_part[:-2] + b" " + secret, bytes(99),
                 b"CLIENT_RANDOM " + random_part + b" " + secret[:-2], b"\xff\xfeC\0L\0I\0",
                 b"CLIENT_TRAFFIC_SECRET_0 " + random_part + b" " + secret + b" more"]  # fmt: skip
        good = [b"", b"# a comment", b"ANOTHER_LABEL " + random_part + b" 12",
                b"CLIENT_RANDOM " + random_part + b" " + secret]  # fmt: skip
        self.file("keys", b"\n".join(lines + good))
        made = tools.imported("-k", f"{self.folder.name}/keys", tools.capture_named(NAME))
        self.assertEqual((made.status, made.said.splitlines()), (6, [
            f"h2audit-import: {len(lines)} lines of the key logs are no secrets, and were passed over",
            "h2audit-import: no connection could be read",
        ]))  # fmt: skip
        self.assertFalse([line for line in made.map if "5ec7" in line or "abab" in line])


class Terminal(unittest.TestCase):
    def test_typed(self) -> None:
        """A program that waits for a capture from a terminal says so, and no other does."""
        leader, follower = pty.openpty()
        why = str(tools.ANY.with_name("h2audit-why"))
        for words in ([str(tools.IMPORT), "-o", os.devnull], [str(tools.ANY), "--h2audit", "/bin/false"], [why]):
            name = pathlib.Path(words[0]).name
            with subprocess.Popen(words, stdin=follower, stdout=subprocess.PIPE, stderr=subprocess.PIPE) as child:
                os.write(leader, b"\4" * 8)  # one for each read that meets the end
                said = child.communicate(timeout=60)[1].decode().splitlines()
            self.assertEqual(child.returncode, 3)
            self.assertEqual(said[0], f"{name}: a capture is read from standard input: tcpdump -w - | .., or --help")
            self.assertEqual(without_help(said[1]), f"{name}: capture refused: short-header: -")
            self.assertEqual(len(said), 2)
        os.close(leader)
        os.close(follower)


if __name__ == "__main__":
    unittest.main()
