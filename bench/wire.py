"""Captures that are written record by record, and connections in them."""

import struct
from typing import BinaryIO

Ends = tuple[int, int]  # of the client and of the server

CLIENT, SERVER = 0, 1
PREFACE = b"PRI * HTTP/2.0\r\n\r\nSM\r\n\r\n"
FIN, SYN, PUSH, ACK = 0x01, 0x02, 0x08, 0x10
SYN_ACK = SYN | ACK
ETHERNET = bytes(12) + b"\x08\x00"
IP, TCP = struct.Struct(">BBHIBBHII"), struct.Struct(">HHIIBBHHH")


def frame(kind: int, flags: int, stream: int, payload: bytes = b"") -> bytes:
    return struct.pack(">I", len(payload))[1:] + struct.pack(">BBI", kind, flags, stream) + payload


def window_update(stream: int, increment: int) -> bytes:
    return frame(8, 0, stream, struct.pack(">I", increment))


class Capture:
    """A capture that is written record by record, a microsecond apart where nothing moves its time."""

    def __init__(self, file: BinaryIO) -> None:
        self.file = file
        self.size = 24
        self.records = 0
        self.time = 0
        self.addresses: Ends = (0x0A000001, 0x0A000002)
        file.write(struct.pack("<IHHIIII", 0xA1B2C3D4, 2, 4, 0, 0, 262144, 1))

    def segment(self, ports: Ends, side: int, seq: int, flags: int, payload: bytes = b"") -> None:
        self.record(self.packet(ports, side, seq, flags, payload))

    def packet(
        self, ports: Ends, side: int, seq: int, flags: int, payload: bytes, ack: int = 0, options: bytes = b""
    ) -> bytes:
        """A segment. One that acknowledges has a window, and only such ones have options."""
        length, ends = 40 + len(options) + len(payload), (self.addresses[side], self.addresses[1 - side])
        ip = IP.pack(0x45, 0, length, 0, 64, 6, 0, *ends)
        offset, window = 0x50 + 4 * len(options), 0xFFFF if options else 0
        tcp = TCP.pack(ports[side], ports[1 - side], seq % 2**32, ack % 2**32, offset, flags, window, 0, 0)
        return ETHERNET + ip + tcp + options + payload

    def record(self, packet: bytes) -> None:
        self.records += 1
        self.time += 1
        head = struct.pack("<IIII", self.time // 1000000, self.time % 1000000, len(packet), len(packet))
        self.file.write(head + packet)
        self.size += 16 + len(packet)

    def next_client(self) -> None:
        """The next client address, where the ports of one are used up."""
        self.addresses = (self.addresses[0] + 256, self.addresses[1])


class Connection:
    """Two sides that send whole frames in order."""

    def __init__(self, capture: Capture, port: int) -> None:
        self.capture, self.ports, self.next = capture, (port, 80), [1001, 5001]
        capture.segment(self.ports, CLIENT, 1000, SYN)
        capture.segment(self.ports, SERVER, 5000, SYN_ACK)
        self.send(CLIENT, PREFACE + frame(4, 0, 0))
        self.send(SERVER, frame(4, 0, 0))
        self.send(CLIENT, frame(4, 1, 0))
        self.send(SERVER, frame(4, 1, 0))

    def send(self, side: int, data: bytes, most: int = 1460) -> None:
        for start in range(0, len(data), most):
            piece = data[start : start + most]
            self.capture.segment(self.ports, side, self.next[side], ACK, piece)
            self.next[side] += len(piece)
