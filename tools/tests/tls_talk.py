"""Captures of TLS connections that OpenSSL makes in memory, both ends of each in this process; what was said is known.

The bytes of TLS are OpenSSL's own, as the ssl module of Python gives them, and so is the key log. The packets around
them are made here.
"""

import datetime
import pathlib
import ssl
import struct
import subprocess
import tempfile
from collections.abc import Iterator

from cryptography import x509
from cryptography.hazmat.primitives import hashes, serialization
from cryptography.hazmat.primitives.asymmetric import ec, rsa
from cryptography.x509.oid import NameOID

CLIENT, SERVER = 0, 1
SYN, SYN_ACK, ACK, PUSH = 2, 18, 16, 24
Ends = tuple[tuple[bytes, int], tuple[bytes, int]]  # address and port of who sends and of who receives
Contexts = tuple[ssl.SSLContext, ssl.SSLContext]  # of client and server


def certificate(folder: str | pathlib.Path, kind: str) -> pathlib.Path:
    """A self-signed certificate with its key, in one file."""
    key: rsa.RSAPrivateKey | ec.EllipticCurvePrivateKey
    key = rsa.generate_private_key(65537, 2048) if kind == "rsa" else ec.generate_private_key(ec.SECP256R1())
    name = x509.Name([x509.NameAttribute(NameOID.COMMON_NAME, "localhost")])
    start = datetime.datetime(2026, 1, 1)
    made = x509.CertificateBuilder().subject_name(name).issuer_name(name).public_key(key.public_key())
    made = made.serial_number(1).not_valid_before(start).not_valid_after(start + datetime.timedelta(days=3650))
    path = pathlib.Path(folder, f"{kind}.pem")
    pem = serialization.Encoding.PEM
    text = key.private_bytes(pem, serialization.PrivateFormat.PKCS8, serialization.NoEncryption())
    path.write_bytes(text + made.sign(key, hashes.SHA256()).public_bytes(pem))
    return path


def dh_parameters(folder: str | pathlib.Path) -> pathlib.Path:
    """Those of RFC 7919, for suites with DHE."""
    path = pathlib.Path(folder, "dh.pem")
    if not path.exists():
        words = "openssl genpkey -genparam -algorithm DH -pkeyopt group:ffdhe2048 -out".split()
        subprocess.run([*words, path], check=True, capture_output=True)
    return path


def contexts(
    certificates: list[pathlib.Path], key_log: pathlib.Path | str, version: ssl.TLSVersion, ciphers: str | None = None
) -> Contexts:
    """Contexts of a client and of a server, which writes no key log: the client's is enough."""
    client, server = ssl.SSLContext(ssl.PROTOCOL_TLS_CLIENT), ssl.SSLContext(ssl.PROTOCOL_TLS_SERVER)
    client.check_hostname, client.verify_mode = False, ssl.CERT_NONE
    for path in certificates:
        server.load_cert_chain(path)
    server.load_dh_params(str(dh_parameters(certificates[0].parent)))
    for one in (client, server):
        one.minimum_version = one.maximum_version = version
        one.set_ciphers((ciphers or "ALL") + ":@SECLEVEL=0")
        one.set_alpn_protocols(["h2"])
    client.keylog_filename = str(key_log)
    return client, server


class Capture:
    """The packets of a capture, in raw IP."""

    def __init__(self) -> None:
        self.packets: list[tuple[int, bytes]] = []  # time in nanoseconds, datagram
        self.now = 10**18

    def add(self, ends: Ends, sequence: int, flags: int, payload: bytes = b"", answer: int = 0) -> None:
        source, target = ends
        total = 40 + len(payload)
        header = struct.pack(">BBHHHBBH4s4s", 0x45, 0, total, 0, 0x4000, 64, 6, 0, source[0], target[0])
        tcp = struct.pack(">HHIIBBHHH", source[1], target[1], sequence & 0xFFFFFFFF, answer, 0x50, flags, 0xFFFF, 0, 0)
        self.now += 1000
        self.packets.append((self.now, header + tcp + payload))

    def write(self, path: pathlib.Path | str) -> None:
        with open(path, "wb") as file:
            file.write(struct.pack("<IHHiIII", 0xA1B23C4D, 2, 4, 0, 0, 1 << 18, 101))
            for nanos, data in self.packets:
                file.write(struct.pack("<IIII", *divmod(nanos, 10**9), len(data), len(data)) + data)


class Talk:
    """A connection: what either end says goes through OpenSSL into packets of at most ``segment`` bytes."""

    def __init__(
        self,
        capture: Capture,
        pair: Contexts,
        port: int = 40000,
        segment: int = 1448,
        session: ssl.SSLSession | None = None,
    ) -> None:
        self.capture, self.segment = capture, segment
        self.incoming = ssl.MemoryBIO(), ssl.MemoryBIO()
        self.outgoing = ssl.MemoryBIO(), ssl.MemoryBIO()
        client, server = pair
        self.ends = (
            client.wrap_bio(self.incoming[CLIENT], self.outgoing[CLIENT], session=session),
            server.wrap_bio(self.incoming[SERVER], self.outgoing[SERVER], server_side=True),
        )
        places = (bytes([10, 0, 0, 1]), port), (bytes([10, 0, 0, 2]), 443)
        self.places = places, places[::-1]
        self.sequences = [1000, 5000]
        self.said: list[tuple[int, bytes]] = []  # side and bytes
        capture.add(self.places[CLIENT], 1000, SYN)
        capture.add(self.places[SERVER], 5000, SYN_ACK)
        self.sequences = [1001, 5001]

    def move(self, side: int) -> bool:
        """Takes what an end has to send, in packets, to the other end."""
        data = self.outgoing[side].read()
        for at in range(0, len(data), self.segment):
            part = data[at : at + self.segment]
            self.capture.add(self.places[side], self.sequences[side], PUSH, part)
            self.sequences[side] += len(part)
        self.incoming[1 - side].write(data)
        return bool(data)

    def shake_hands(self) -> "Talk":
        done = [False, False]
        while not all(done) or self.move(CLIENT) or self.move(SERVER):
            for side in (CLIENT, SERVER):
                try:
                    self.ends[side].do_handshake()
                    done[side] = True
                except ssl.SSLWantReadError:
                    pass
                self.move(side)
        return self

    def say(self, side: int, data: bytes) -> None:
        self.ends[side].write(data)
        self.said.append((side, data))
        self.move(side)
        self.hear(1 - side)

    def hear(self, side: int) -> None:
        try:
            while self.ends[side].read(1 << 16):
                pass
        except ssl.SSLWantReadError:
            pass

    def end(self) -> None:
        for side in (CLIENT, SERVER):
            try:
                self.ends[side].unwrap()
            except ssl.SSLWantReadError:
                pass
            self.move(side)


def payloads_of(path: pathlib.Path) -> Iterator[tuple[int, bytes]]:
    """The payloads of an example's one connection, in order, each with its side."""
    data = path.read_bytes()
    order = "<" if data[0] in (0xD4, 0x4D) else ">"
    link = struct.unpack_from(order + "I", data, 20)[0]
    at, client = 24, None
    while at < len(data):
        _, _, captured, _ = struct.unpack_from(order + "IIII", data, at)
        packet = data[at + 16 : at + 16 + captured]
        at += 16 + captured
        packet = packet[14:] if link == 1 else packet
        header = (packet[0] & 15) * 4
        total = struct.unpack_from(">H", packet, 2)[0] or len(packet)
        source = packet[12:16] + packet[header : header + 2]
        client = client or source
        payload = packet[header + (packet[header + 12] >> 4) * 4 : total]
        if payload:
            yield (CLIENT if source == client else SERVER), payload


def temporary() -> tempfile.TemporaryDirectory[str]:
    return tempfile.TemporaryDirectory(prefix="h2audit-test-")
