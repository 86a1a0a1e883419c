"""Captures as scripts.

The first line of a script says what the capture begins with: `empty` (a file header), `handshake` (records 1 and 2, a
SYN and a SYN ACK), `opened` (records 1 to 6, both sides' SETTINGS and their acknowledgements too) or `bytes`. Each
line after it is one record, and record n has the time n microseconds:

- `C PAYLOAD` and `S PAYLOAD`: the next bytes of the client and of the server;
- `C AT SEQ PAYLOAD` and `S AT SEQ PAYLOAD`: bytes at any sequence number;
- `C SNAPPED N PAYLOAD`: the next bytes of the client, N of them captured;
- `SYN SEQ` and `SYN_ACK SEQ`: of the client, of the server;
- `SEGMENT ADDRESS PORT ADDRESS PORT SEQ FLAGS PAYLOAD`: of any endpoints, in plain numbers;
- `RECORD ORIGINAL HEX`: a packet of any bytes that had this length;
- `SET OFFSET BYTE`: no record, but a byte of the packet before.

A payload is a frame, as `DATA 1 16384`, or `PREFACE` and a frame, or `HEX` and bytes. After `bytes` each line is hex.
Bytes of a frame that its words do not give are zero.
"""

import struct

PREFACE = b"PRI * HTTP/2.0\r\n\r\nSM\r\n\r\n"
FILE_HEADER = struct.pack("<IHHIIII", 0xA1B2C3D4, 2, 4, 0, 0, 262144, 1)
ETHERNET = bytes(12) + b"\x08\x00"
CLIENT, SERVER = (0x0A000001, 40000), (0x0A000002, 80)
SYN, SYN_ACK, ACK = 0x02, 0x12, 0x10
END_STREAM, END_HEADERS, PADDED = 1, 4, 8
Endpoint = tuple[int, int]  # address and port


def frame(kind: int, flags: int, stream: int, payload: bytes = b"") -> bytes:
    """The bytes of a frame (RFC 9113, 4.1)."""
    return len(payload).to_bytes(3, "big") + struct.pack(">BBI", kind, flags, stream) + payload


def number(value: int) -> bytes:
    return struct.pack(">I", value)


def frame_of(words: list[str]) -> bytes:
    """The bytes of the frame that these words name."""
    name, *values = words
    last = END_STREAM if values[-1:] == ["END_STREAM"] else 0
    match name, [int(value) for value in values if value != "END_STREAM"]:
        case "DATA", [stream, length]:
            return frame(0, last, stream, bytes(length))
        case "PADDED", [stream, length, pad]:
            return frame(0, PADDED, stream, bytes([pad]) + bytes(length - 1))
        case "HEADERS", [stream]:
            return frame(1, END_HEADERS | last, stream)
        case "HEADERS_OF", [stream, length]:
            return frame(1, END_HEADERS, stream, bytes(length))
        case "PRIORITY", [stream, length]:
            return frame(2, 0, stream, bytes(length))
        case "RST_STREAM", [stream]:
            return frame(3, 0, stream, number(0))
        case "SETTINGS", []:
            return frame(4, 0, 0)
        case "SETTINGS", [identifier, value]:
            return frame(4, 0, 0, struct.pack(">HI", identifier, value))
        case "ACK", []:
            return frame(4, 1, 0)
        case "PUSH_PROMISE", [stream, promised]:
            return frame(5, END_HEADERS, stream, number(promised))
        case "PING", []:
            return frame(6, 0, 0, bytes(8))
        case "WINDOW_UPDATE", [stream, increment]:
            return frame(8, 0, stream, number(increment))
    raise ValueError(f"no frame: {' '.join(words)}")


def payload_of(words: list[str]) -> bytes:
    match words:
        case []:
            return b""
        case ["HEX", *digits]:
            return bytes.fromhex("".join(digits))
        case ["PREFACE", *words]:
            return PREFACE + frame_of(words)
    return frame_of(words)


def packet(source: Endpoint, target: Endpoint, seq: int, flags: int, payload: bytes = b"") -> bytes:
    """A segment without options. Its total length is 0 where 16 bits do not hold it, as offload leaves it."""
    total = 40 + len(payload)
    addresses, ports = (source[0], target[0]), (source[1], target[1])
    ip = struct.pack(">BBHIBBHII", 0x45, 0, total if total < 65536 else 0, 0, 64, 6, 0, *addresses)
    return ETHERNET + ip + struct.pack(">HHIIBBHHH", *ports, seq % 2**32, 0, 0x50, flags, 0, 0, 0) + payload


HEADERS = len(packet(CLIENT, SERVER, 0, ACK))


class Capture:
    """A capture that grows record by record. Its two sides, C and S, are those of one connection."""

    def __init__(self) -> None:
        self.bytes = bytearray(FILE_HEADER)
        self.records = self.last = 0
        self.ends = {"C": (CLIENT, SERVER), "S": (SERVER, CLIENT)}
        self.next = {"C": 1001, "S": 5001}

    def record(self, original: int, captured: bytes) -> None:
        self.records += 1
        self.bytes += struct.pack("<IIII", 0, self.records, len(captured), original)
        self.last = len(self.bytes)
        self.bytes += captured

    def segment(
        self, source: Endpoint, target: Endpoint, seq: int, flags: int, payload: bytes = b"", kept: int | None = None
    ) -> None:
        whole = packet(source, target, seq, flags, payload)
        self.record(len(whole), whole if kept is None else whole[: HEADERS + kept])

    def syn(self, side: str, seq: int, flags: int) -> None:
        self.next[side] = seq + 1
        self.segment(*self.ends[side], seq, flags)

    def send(self, side: str, payload: bytes, kept: int | None = None) -> None:
        self.segment(*self.ends[side], self.next[side], ACK, payload, kept)
        self.next[side] += len(payload)

    def step(self, line: str) -> None:
        """Takes one line of a script."""
        match line.split():
            case []:
                pass
            case ["C" | "S" as side, "AT", seq, *words]:
                self.segment(*self.ends[side], int(seq), ACK, payload_of(words))
            case ["C", "SNAPPED", kept, *words]:
                self.send("C", payload_of(words), int(kept))
            case ["C" | "S" as side, *words]:
                self.send(side, payload_of(words))
            case ["SYN", seq]:
                self.syn("C", int(seq), SYN)
            case ["SYN_ACK", seq]:
                self.syn("S", int(seq), SYN_ACK)
            case ["SEGMENT", address, port, peer, peer_port, seq, flags, *words]:
                source, target = (int(address), int(port)), (int(peer), int(peer_port))
                self.segment(source, target, int(seq), int(flags), payload_of(words))
            case ["RECORD", original, digits]:
                self.record(int(original), bytes.fromhex(digits))
            case ["SET", offset, byte]:
                self.bytes[self.last + int(offset)] = int(byte)
            case _:
                raise ValueError(f"no step: {line}")


# What a capture begins with, by its name.
BEGINNINGS = {
    "empty": "",
    "handshake": "SYN 1000\nSYN_ACK 5000\n",
    "opened": "SYN 1000\nSYN_ACK 5000\nC PREFACE SETTINGS\nS SETTINGS\nC ACK\nS ACK\n",
}


def capture_of(script: str) -> bytes:
    """The bytes of the capture that a script spells."""
    first, _, steps = script.partition("\n")
    if first == "bytes":
        return bytes.fromhex(steps)
    capture = Capture()
    for line in (BEGINNINGS[first] + steps).splitlines():
        capture.step(line)
    return bytes(capture.bytes)
