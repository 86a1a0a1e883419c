"""Tests of h2audit-import on connections that OpenSSL makes: each cipher suite, resumption, PSK, early data, and what
may go wrong.

What was said is known, and each record's plaintext has to be it. The connections of ``openssl s_server`` and
``s_client`` are captured by tcpdump on the loopback interface, which needs root; else these tests are skipped.

    python3 -m tools.tests.imports.tls_test [PROGRAM]

With PROGRAM, which is h2audit, the captures of examples/ are said over TLS, and have to give the frames that they
have in the clear.
"""

import contextlib
import itertools
import os
import pathlib
import re
import shutil
import socket
import ssl
import subprocess
import sys
import tempfile
import time
import unittest
from collections.abc import Iterable, Sequence

from tests.programs import named
from tools.tests import import_tools as tools
from tools.tests import tls_talk
from tools.tests.peers import dumping

RUNS = ("$H2AUDIT",)
TIMED = True
PROGRAM = next(iter(named()), None)
EXAMPLE = tools.EXAMPLES / "stream_overrun_go.pcap"
# What python3-cryptography has no cipher for, and what needs another kind of key exchange than a certificate.
NOT_READ = ("ARIA",)
WITHOUT_CERTIFICATE = ("PSK", "SRP", "ADH", "AECDH", "DSS", "GOST", "IDEA", "SEED", "RC4", "MD5", "DES-CBC3")
Said = bytes | tuple[bytes, ...]  # one thing, or several that go out by themselves
can_capture = os.geteuid() == 0 and shutil.which("tcpdump") and shutil.which("openssl")


class Folder(unittest.TestCase):
    kept: tempfile.TemporaryDirectory[str]
    folder: str
    certificates: list[pathlib.Path]

    @classmethod
    def setUpClass(cls) -> None:
        cls.kept = tls_talk.temporary()
        cls.folder = cls.kept.name
        cls.certificates = [tls_talk.certificate(cls.folder, kind) for kind in ("rsa", "ec")]

    @classmethod
    def tearDownClass(cls) -> None:
        cls.kept.cleanup()

    def path(self, name: str) -> pathlib.Path:
        return pathlib.Path(self.folder, name)


def tls12_suites() -> list[str]:
    """The TLS 1.2 suites of this OpenSSL that go with a certificate."""
    context = ssl.SSLContext(ssl.PROTOCOL_TLS_SERVER)
    context.set_ciphers("ALL:eNULL:@SECLEVEL=0")
    names = [one["name"] for one in context.get_ciphers() if one["protocol"] != "TLSv1.3"]
    return [name for name in names if not any(word in name for word in WITHOUT_CERTIFICATE)]


class Suites(Folder):
    def talk(
        self, version: ssl.TLSVersion, ciphers: str | None, said: Iterable[tuple[int, bytes]], name: str = "one"
    ) -> tuple[tools.Made, tls_talk.Talk]:
        """A connection in which this is said, and what is made of its capture."""
        capture, keys = tls_talk.Capture(), self.path(f"{name}.keys")
        keys.write_bytes(b"")
        pair = tls_talk.contexts(self.certificates, keys, version, ciphers)
        talk = tls_talk.Talk(capture, pair).shake_hands()
        for side, data in said:
            talk.say(side, data)
        talk.end()
        capture.write(self.path(f"{name}.pcap"))
        return tools.imported("-k", keys, self.path(f"{name}.pcap")), talk

    def test_tls12(self) -> None:
        """Each suite by name; what is not read is refused by the number that OpenSSL gives it."""
        said, suites = list(tls_talk.payloads_of(EXAMPLE)), tls12_suites()
        self.assertGreater(len(suites), 30)
        for name in suites:
            with self.subTest(name):
                made, talk = self.talk(ssl.TLSVersion.TLSv1_2, name, said)
                line = tools.lines_of(made, "connection")[0]
                if any(word in name for word in NOT_READ):
                    self.assertRegex(line, "refused cipher-suite 0xc0[0-9a-f]{2}$")
                    continue
                self.assertIn(" tls 1.2 TLS_", line)
                self.assertEqual(joined(tools.payloads(made)), joined((0, *one) for one in talk.said), name)

    def test_tls13(self) -> None:
        """Each suite, by OpenSSL's configuration, since the ssl module cannot choose among them."""
        for suite in (
            "AES_128_GCM_SHA256",
            "AES_256_GCM_SHA384",
            "CHACHA20_POLY1305_SHA256",
            "AES_128_CCM_SHA256",
            "AES_128_CCM_8_SHA256",
        ):
            with self.subTest(suite):
                configuration = self.path("openssl.cnf")
                configuration.write_text(
                    f"openssl_conf = a\n[a]\nssl_conf = b\n[b]\nsystem_default = c\n[c]\nCiphersuites = TLS_{suite}\n"
                )
                run = subprocess.run(
                    [sys.executable, "-m", "tools.tests.imports.tls_test", "--talk", self.folder],
                    capture_output=True,
                    text=True,
                    env={**os.environ, "OPENSSL_CONF": str(configuration)},
                )
                self.assertEqual((run.returncode, run.stderr), (0, ""))
                made = tools.imported("-k", self.path("13.keys"), self.path("13.pcap"))
                self.assertIn(f" tls 1.3 TLS_{suite} ", tools.lines_of(made, "connection")[0])
                self.assertEqual(
                    joined(tools.payloads(made)), joined((0, *one) for one in tls_talk.payloads_of(EXAMPLE))
                )

    def test_resumed(self) -> None:
        """Resumption in TLS 1.2 by a ticket: the second connection has no certificate, and a line of its own
        in the key log.
        """
        capture, keys = tls_talk.Capture(), self.path("resumed.keys")
        keys.write_bytes(b"")
        pair = tls_talk.contexts(self.certificates, keys, ssl.TLSVersion.TLSv1_2, "ECDHE-RSA-AES128-SHA")
        first = tls_talk.Talk(capture, pair).shake_hands()
        first.say(0, b"first")
        second = tls_talk.Talk(capture, pair, port=40001, session=first.ends[0].session).shake_hands()
        second.say(1, b"second")
        self.assertTrue(second.ends[0].session_reused)
        capture.write(self.path("resumed.pcap"))
        made = tools.imported("-k", keys, self.path("resumed.pcap"))
        self.assertEqual([data for _, _, data in tools.payloads(made)], [b"first", b"second"])

    def test_session_of_another(self) -> None:
        """A key log with the session's first handshake alone, by identifier and by ticket, gives what the whole one
        gives, and the same plaintext on standard input; processes change nothing. Nothing is read where that line is
        missing too.
        """
        for name, option in (("identifier", ssl.OP_NO_TICKET), ("ticket", 0)):
            said, lines = self.resume(name, option)
            keys, path = self.path(f"{name}.keys"), self.path(f"{name}.pcap")
            whole = tools.imported("-k", keys, path)
            self.assertEqual([data for _, _, data in tools.payloads(whole)], said, name)
            keys.write_text(lines[0])
            for jobs in ("1", "4"):
                self.assertEqual(tools.imported("-j", jobs, "-k", keys, path), whole)
            streamed = [tools.imported("-j", jobs, "-k", keys, input=path.read_bytes()) for jobs in ("1", "4")]
            self.assertEqual(streamed[0], streamed[1])
            self.assertEqual([data for _, _, data in tools.payloads(streamed[0])], said, name)
            keys.write_text("CLIENT_RANDOM " + "11" * 32 + " " + "22" * 48 + "\n")
            made = tools.imported("-k", keys, path)
            self.assertEqual([line.split()[-1] for line in tools.lines_of(made, "connection")], ["no-key"] * 4)

    def resume(self, name: str, option: int) -> tuple[list[bytes], list[str]]:
        """Four connections of one session; what was said, and the lines of their key log."""
        capture, keys = tls_talk.Capture(), self.path(f"{name}.keys")
        keys.write_bytes(b"")
        pair = tls_talk.contexts(self.certificates, keys, ssl.TLSVersion.TLSv1_2, "ECDHE-RSA-AES128-GCM-SHA256")
        pair[1].options |= option
        said = [b"first", b"second", b"third", b"fourth"]
        talks: list[tls_talk.Talk] = []  # of all, since a server forgets the session of an end that goes
        for at, data in enumerate(said):
            session = talks[-1].ends[0].session if talks else None
            talks.append(tls_talk.Talk(capture, pair, port=40000 + at, session=session).shake_hands())
            talks[-1].say(at % 2, data)
            self.assertEqual(talks[-1].ends[0].session_reused, at > 0)
        capture.write(self.path(f"{name}.pcap"))
        lines = [line for line in keys.read_text().splitlines(keepends=True) if not line.startswith("#")]
        self.assertEqual([line.split()[0] for line in lines], ["CLIENT_RANDOM"] * 4)
        self.assertEqual(len({line.split()[2] for line in lines}), 1)
        return said, lines

    def test_refused(self) -> None:
        """A handshake that is not whole, by what is missing of it."""
        capture, keys = tls_talk.Capture(), self.path("refused.keys")
        keys.write_bytes(b"")
        pair = tls_talk.contexts(self.certificates, keys, ssl.TLSVersion.TLSv1_2, "ECDHE-RSA-AES128-GCM-SHA256")
        tls_talk.Talk(capture, pair, segment=400).shake_hands()
        capture.write(self.path("refused.pcap"))
        packets, _ = tools.read_pcap(self.path("refused.pcap").read_bytes())
        first, flight = packets[2].data, packets[3].data
        record = 5 + int.from_bytes(flight[43:45], "big")
        begun = flight[40 + record :]  # of the record behind the ServerHello
        self.assertTrue(begun and len(flight) == 440 and packets[4].data[20:22] == flight[20:22])
        cases = {
            "no-handshake": packets[:1] + packets[2:], "handshake-unfinished": packets[:3],
            "gap 0": packets[:3] + packets[4:], f"tail {len(begun)}": packets[:4],
            "not-tls": [*packets[:2], packets[2]._replace(data=first[:46] + b"\xff" + first[47:]), *packets[3:]],
        }  # fmt: skip
        for reason, kept in cases.items():
            made = tools.imported("-k", keys, input=tools.pcap_of(kept, 101))
            said = tools.lines_of(made, "connection")[0].split(" packet 1 ")[1]
            self.assertEqual((made.status, said), (6, f"refused {reason}"))

    def test_alert(self) -> None:
        """A client that does not trust the certificate says alert 48 (RFC 8446, 6.2), in TLS 1.2 in the clear."""
        capture, keys = tls_talk.Capture(), self.path("alert.keys")
        keys.write_bytes(b"")
        pair = tls_talk.contexts(self.certificates, keys, ssl.TLSVersion.TLSv1_2, "ECDHE-RSA-AES128-GCM-SHA256")
        pair[0].verify_mode = ssl.CERT_REQUIRED
        talk = tls_talk.Talk(capture, pair)
        with self.assertRaises(ssl.SSLCertVerificationError):
            talk.shake_hands()
        talk.move(0)
        capture.write(self.path("alert.pcap"))
        made = tools.imported("-k", keys, self.path("alert.pcap"))
        self.assertTrue(tools.lines_of(made, "connection")[0].endswith(" refused alert 48"), made.map)

    def test_old_versions(self) -> None:
        made, _ = self.talk(ssl.TLSVersion.TLSv1_1, None, [])
        self.assertTrue(tools.lines_of(made, "connection")[0].endswith("refused tls-version 0x0302"))

    def test_broken_record(self) -> None:
        """A byte that differs in the last record but one ends its side before it, and h2audit sees a later byte."""
        for version in (ssl.TLSVersion.TLSv1_2, ssl.TLSVersion.TLSv1_3):
            said = [(1, b"a" * 100), (1, b"b" * 100), (1, b"c" * 100)]
            _, _ = self.talk(version, None, said)
            data = bytearray(self.path("one.pcap").read_bytes())
            packets, _ = tools.read_pcap(bytes(data))
            large = [
                at
                for at, one in enumerate(packets)
                if 40 + 100 < len(one.data) < 40 + 140 and one.data[20:22] == b"\x01\xbb"
            ]
            wanted = packets[large[-2]].data
            at = data.rindex(wanted) + len(wanted) - 1
            data[at] ^= 1
            made = tools.imported("-k", self.path("one.keys"), input=bytes(data))
            self.assertEqual(tools.lines_of(made, "flow")[1], "flow server bytes 100 gap 100 tail 0 end bad-record")


def joined(rows: Iterable[tuple[int, int, bytes]]) -> list[tuple[int, bytes]]:
    """The bytes of each side one after the other, in turns: a write may be cut into records."""
    turns = itertools.groupby(rows, key=lambda row: row[1])
    return [(side, b"".join(data for _, _, data in turn)) for side, turn in turns]


class Frames(Folder):
    @unittest.skipUnless(PROGRAM, "h2audit is not built")
    def test_examples(self) -> None:
        """What examples/ say in the clear has the same findings when it is said over TLS, but for packets and times."""
        for path in sorted(tools.EXAMPLES.glob("*.pcap")):
            wanted = path.with_suffix(".report").read_text()
            if (
                "gap none" not in wanted
                or wanted.count("connection ") != wanted.count("connection-") + 1
                or "unopened" in wanted
            ):
                continue
            capture, keys = tls_talk.Capture(), self.path("e.keys")
            keys.write_bytes(b"")
            pair = tls_talk.contexts(self.certificates, keys, ssl.TLSVersion.TLSv1_3)
            talk = tls_talk.Talk(capture, pair).shake_hands()
            for side, data in tls_talk.payloads_of(path):
                talk.say(side, data)
            capture.write(self.path("e.pcap"))
            assert PROGRAM
            found, _, _ = tools.report_of(PROGRAM, "-k", keys, self.path("e.pcap"))
            self.assertEqual(findings(found), findings(wanted), path.name)


def findings(report: str) -> list[str]:
    """A report without what another capture changes: records, times, endpoints."""
    lines = report.splitlines()[1:]
    lines = [re.sub(r"record \d+ time \d+", "", line) for line in lines]
    return [re.sub(r"(client|server) [\d.:]+ |record \d+|nanos -?\d+", "", line) for line in lines]


def settled(capture: pathlib.Path, size: int) -> int:
    """Waits until a capture has grown past a size, and then for half a second no more; returns the size that it has."""
    last, since = size, time.monotonic()
    deadline = since + 20
    while (now := time.monotonic()) < deadline:
        if (has := capture.stat().st_size) != last:
            last, since = has, now
        elif size < last and 0.5 <= now - since:
            break
        time.sleep(0.05)
    return last


class Servers(Folder):
    """openssl s_server and s_client over the loopback interface, captured by tcpdump."""

    def run_openssl(
        self,
        name: str,
        server_words: Sequence[tools.Word],
        client_words: Sequence[Sequence[tools.Word]],
        said: Said = b"hello\n",
    ) -> tools.Made:
        port = free_port()
        keys = self.path(f"{name}.keys")
        certificate = self.certificates[0]
        with self.captured(name, port):
            own: list[tools.Word] = ["-accept", f"127.0.0.1:{port}", "-cert", certificate, "-key", certificate]
            server = started("s_server", [*own, "-quiet", *server_words])
            try:
                wait_for(port)
                for client in client_words:
                    self.client(port, keys, client, said)
            finally:
                server.kill()
                server.wait()
                assert server.stdin
                server.stdin.close()
        return tools.imported("-k", keys, self.path(f"{name}.pcap"))

    def client(self, port: int, keys: pathlib.Path, words: Sequence[tools.Word], said: Said) -> None:
        """Says one thing after the other; each goes out by itself."""
        end = f"127.0.0.1:{port}"
        capture = keys.with_suffix(".pcap")
        size = capture.stat().st_size
        client = started("s_client", ["-connect", end, "-keylogfile", keys, "-alpn", "h2", *words])
        assert client.stdin
        size = settled(capture, size)
        for one in said if isinstance(said, tuple) else (said,):
            client.stdin.write(one)
            client.stdin.flush()
            size = settled(capture, size)
        client.stdin.close()
        client.wait(20)

    def captured(self, name: str, port: int) -> contextlib.AbstractContextManager[None]:
        return dumping(self.path(f"{name}.pcap"), "-i", "lo", f"tcp port {port}", wait=0.5)

    def said(self, made: tools.Made) -> list[bytes]:
        return [data for _, _, data in tools.payloads(made)]

    @unittest.skipUnless(can_capture, "needs root, tcpdump and openssl")
    def test_encrypt_then_mac(self) -> None:
        """A CBC suite of TLS 1.2, with encrypt-then-MAC and without, and resumption by session."""
        session = self.path("session")
        words = ["-tls1_2", "-cipher", "ECDHE-RSA-AES128-SHA256"]
        made = self.run_openssl("etm", ["-no_ticket"], [[*words, "-sess_out", session], [*words, "-sess_in", session]])
        self.assertEqual(self.said(made), [b"hello\n"] * 2)
        made = self.run_openssl("mte", [], [[*words, "-no_etm"]])
        self.assertEqual(self.said(made), [b"hello\n"])

    @unittest.skipUnless(can_capture, "needs root, tcpdump and openssl")
    def test_record_padding(self) -> None:
        """Records of TLS 1.3 filled up to 512 bytes with zeros (RFC 8446, 5.4)."""
        made = self.run_openssl("padding", [], [["-tls1_3", "-record_padding", "512"]])
        self.assertEqual(self.said(made), [b"hello\n"])
        packets, _ = tools.read_pcap(self.path("padding.pcap").read_bytes())
        bodies = [one.data[at + 3 : at + 5] for one in packets if (at := one.data.find(b"\x17\x03\x03")) >= 0]
        self.assertIn((512 + 16).to_bytes(2, "big"), bodies)

    @unittest.skipUnless(can_capture, "needs root, tcpdump and openssl")
    def test_renegotiation(self) -> None:
        """In TLS 1.2 a line that begins with R makes s_client take new keys; what is said before that is read."""
        words = ["-tls1_2", "-cipher", "ECDHE-RSA-AES128-GCM-SHA256"]
        made = self.run_openssl("again", ["-client_renegotiation"], [words], (b"hello\n", b"R\n", b"later\n"))
        self.assertEqual(self.said(made), [b"hello\n", b"\0", b"\0"])  # and a byte past each hole
        self.assertEqual(tools.lines_of(made, "flow"), [
            "flow client bytes 6 gap 6 tail 0 end renegotiation", "flow server bytes 0 gap 0 tail 0 end renegotiation",
        ])  # fmt: skip

    @unittest.skipUnless(can_capture, "needs root, tcpdump and openssl")
    def test_psk(self) -> None:
        """A PSK of both ends, in TLS 1.2 and in TLS 1.3, without a certificate in the second."""
        psk = ["-psk", "1a2b3c4d"]
        cipher = ["-cipher", "PSK-AES128-GCM-SHA256"]
        clients = [[*psk, "-tls1_2", *cipher], [*psk, "-tls1_3"]]
        made = self.run_openssl("psk", [*psk, *cipher], clients)
        self.assertEqual(self.said(made), [b"hello\n"] * 2)
        self.assertIn("TLS_PSK_WITH_AES_128_GCM_SHA256", tools.lines_of(made, "connection")[0])

    @unittest.skipUnless(can_capture, "needs root, tcpdump and openssl")
    def test_early_data(self) -> None:
        """Early data that the server accepts is read; what it rejects is counted, and not given out."""
        session, early = self.path("session13"), self.path("early")
        early.write_bytes(b"early\n")
        first: list[tools.Word] = ["-tls1_3", "-sess_out", session]
        second: list[tools.Word] = ["-tls1_3", "-sess_in", session, "-early_data", early]
        made = self.run_openssl("early", ["-early_data"], [first, second])
        self.assertEqual(self.said(made), [b"hello\n", b"early\n", b"hello\n"])
        self.assertEqual(tools.lines_of(made, "early-data"), ["early-data accepted 1 rejected 0"])
        for name, words in (
            ("late", ["-early_data", "-max_early_data", "0"]),
            ("retry", ["-early_data", "-groups", "P-384"]),
        ):
            with self.subTest(name):
                made = self.run_openssl(name, words, [["-tls1_3", "-sess_in", session, "-early_data", early]])
                self.assertEqual(self.said(made), [b"hello\n"])


def started(program: str, words: Sequence[tools.Word]) -> subprocess.Popen[bytes]:
    """A program of openssl, which nobody listens to."""
    nowhere = subprocess.DEVNULL
    return subprocess.Popen(["openssl", program, *words], stdin=subprocess.PIPE, stdout=nowhere, stderr=nowhere)


def free_port() -> int:
    with socket.socket() as one:
        one.bind(("127.0.0.1", 0))
        return int(one.getsockname()[1])


def wait_for(port: int) -> None:
    """Waits until the server listens, without a connection to it, which the capture would have."""
    wanted = f":{port:04X} "
    for _ in range(100):
        if any(wanted in line and " 0A " in line for line in pathlib.Path("/proc/net/tcp").read_text().splitlines()):
            return
        time.sleep(0.1)
    raise AssertionError("the server does not listen")


def talk_of_13(folder: str) -> None:
    keys = pathlib.Path(folder, "13.keys")
    keys.write_bytes(b"")
    client, server = tls_talk.contexts([pathlib.Path(folder, "ec.pem")], keys, ssl.TLSVersion.TLSv1_3)
    capture = tls_talk.Capture()
    talk = tls_talk.Talk(capture, (client, server)).shake_hands()
    for side, data in tls_talk.payloads_of(EXAMPLE):
        talk.say(side, data)
    capture.write(pathlib.Path(folder, "13.pcap"))


if __name__ == "__main__":
    if sys.argv[1:2] == ["--talk"]:
        talk_of_13(sys.argv[2])
    else:
        unittest.main()
