"""Generates a capture of TLS with its key log: generate_tls.py SHAPE MEGABYTES OUT.pcap OUT.keys

Both ends are OpenSSL's, TLS 1.3 with AES-128-GCM or what OpenSSL takes first.
"""

import pathlib
import ssl
import struct
import sys

from tools.tests import tls_talk

PREFACE = b"PRI * HTTP/2.0\r\n\r\nSM\r\n\r\n"


def frame(kind: int, flags: int, stream: int, payload: bytes = b"") -> bytes:
    return struct.pack(">I", len(payload))[1:] + struct.pack(">BBI", kind, flags, stream) + payload


def begin(talk: tls_talk.Talk) -> tls_talk.Talk:
    talk.shake_hands()
    talk.say(
        0,
        PREFACE
        + frame(4, 0, 0, struct.pack(">HI", 4, 1 << 30))
        + frame(8, 0, 0, struct.pack(">I", (1 << 31) - 1 - 65535)),
    )
    talk.say(1, frame(4, 0, 0) + frame(4, 1, 0))
    talk.say(0, frame(4, 1, 0) + frame(1, 4, 1, b"\x82"))
    talk.say(1, frame(1, 4, 1, b"\x88"))
    return talk


def bulk(capture: tls_talk.Capture, pair: tls_talk.Contexts, size: int) -> None:
    """A download in DATA frames of 16,384 bytes over full segments, records as large as they may be."""
    talk, part = begin(tls_talk.Talk(capture, pair)), frame(0, 0, 1, bytes(16384 - 9))
    for _ in range(size // len(part)):
        talk.say(1, part)


def small(capture: tls_talk.Capture, pair: tls_talk.Contexts, size: int) -> None:
    """Messages of 100 bytes, each in a record of its own, from both sides in turn."""
    talk, part = begin(tls_talk.Talk(capture, pair)), frame(0, 0, 1, bytes(91))
    for at in range(size // 200):
        talk.say(at % 2, part)


def many(capture: tls_talk.Capture, pair: tls_talk.Contexts, size: int) -> None:
    """Connections one after the other, each with a full handshake, a request and a response of 1,000 bytes."""
    for at in range(size // 5000):
        talk = begin(tls_talk.Talk(capture, pair, port=1024 + at % 64000))
        talk.say(1, frame(0, 1, 1, bytes(1000)))


def main() -> None:
    shape, megabytes, path, keys = sys.argv[1:]
    pathlib.Path(keys).write_bytes(b"")
    with tls_talk.temporary() as folder:
        pair = tls_talk.contexts([tls_talk.certificate(folder, "ec")], keys, ssl.TLSVersion.TLSv1_3)
        capture = tls_talk.Capture()
        {"bulk": bulk, "small": small, "many": many}[shape](capture, pair, int(float(megabytes) * 1000000))
        capture.write(path)


if __name__ == "__main__":
    main()
