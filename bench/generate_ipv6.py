"""Generates a capture of HTTP/2 in the clear over IPv6, in pcapng: a download in DATA frames of 160 bytes, each in a
packet, and an acknowledgement for every second one.
"""

import pathlib
import struct

SOURCE, TARGET = (bytes.fromhex("20010db8") + bytes(11) + bytes([last]) for last in (1, 2))
SYN, SYN_ACK, ACK, PUSH = 2, 18, 16, 24
BEGIN, TICKS = 1_700_000_000_000_000, 10  # microseconds
PAYLOAD = 160


def block(kind: int, body: bytes) -> bytes:
    body += bytes(-len(body) % 4)
    return struct.pack("<II", kind, len(body) + 12) + body + struct.pack("<I", len(body) + 12)


def frame(kind: int, flags: int, stream: int, payload: bytes = b"") -> bytes:
    return struct.pack(">I", len(payload))[1:] + struct.pack(">BBI", kind, flags, stream) + payload


class Talk:
    """The packets of one connection."""

    def __init__(self) -> None:
        self.next = [0, 0]
        self.count = 0

    def packet(self, side: int, flags: int, payload: bytes = b"") -> bytes:
        ends = [(SOURCE, 40000), (TARGET, 8080)][:: -1 if side else 1]
        numbers = self.next[side] & 0xFFFFFFFF, self.next[1 - side] & 0xFFFFFFFF
        tcp = struct.pack(">HHIIBBHHH", ends[0][1], ends[1][1], *numbers, 0x50, flags, 65535, 0, 0) + payload
        data = bytes(12) + b"\x86\xdd" + struct.pack(">IHBB", 6 << 28, len(tcp), 6, 64) + ends[0][0] + ends[1][0] + tcp
        self.next[side] += len(payload) + (flags & SYN == SYN)
        time = BEGIN + self.count * TICKS
        self.count += 1
        return block(6, struct.pack("<IIIII", 0, time >> 32, time & 0xFFFFFFFF, len(data), len(data)) + data)


def write(path: pathlib.Path, size: int) -> None:
    talk = Talk()
    preface = b"PRI * HTTP/2.0\r\n\r\nSM\r\n\r\n" + frame(4, 0, 0, struct.pack(">HI", 4, 1 << 30))
    preface += frame(8, 0, 0, struct.pack(">I", (1 << 31) - 1 - 65535)) + frame(1, 4, 1, b"\x82")
    part = frame(0, 0, 1, bytes(PAYLOAD - 9))
    with open(path, "wb", buffering=1 << 20) as file:
        file.write(
            block(0x0A0D0D0A, struct.pack("<IHHq", 0x1A2B3C4D, 1, 0, -1)) + block(1, struct.pack("<HHI", 1, 0, 0))
        )
        for side, flags, payload in ((0, SYN, b""), (1, SYN_ACK, b""), (0, ACK, b""), (0, PUSH, preface)):
            file.write(talk.packet(side, flags, payload))
        file.write(talk.packet(1, PUSH, frame(4, 0, 0) + frame(4, 1, 0) + frame(1, 4, 1, b"\x88")))
        while file.tell() < size:
            file.write(talk.packet(1, PUSH, part) + talk.packet(1, PUSH, part) + talk.packet(0, ACK))
