"""Captures for tests, written from the file formats: pcapng by blocks, and classic pcap of either order of bytes."""

import pathlib
import struct

EXAMPLE_HEAD = 24
Record = tuple[int, int, int, bytes]  # seconds, fraction, original length, bytes


def records_of(path: pathlib.Path) -> tuple[list[Record], int]:
    """The packets of a classic capture as (seconds, fraction, original length, bytes), with its link type."""
    data = path.read_bytes()
    order = {b"\xd4\xc3\xb2\xa1": "<", b"\xa1\xb2\xc3\xd4": ">"}[data[:4]]
    (link,) = struct.unpack_from(order + "I", data, 20)
    found, at = [], EXAMPLE_HEAD
    while at < len(data):
        seconds, fraction, captured, length = struct.unpack_from(order + "IIII", data, at)
        found.append((seconds, fraction, length, data[at + 16 : at + 16 + captured]))
        at += 16 + captured
    return found, link


def classic(records: list[Record], link: int, order: str = "<", is_nano: bool = False) -> bytes:
    magic = 0xA1B23C4D if is_nano else 0xA1B2C3D4
    parts = [struct.pack(order + "IHHiIII", magic, 2, 4, 0, 0, 262144, link)]
    for seconds, fraction, length, data in records:
        parts.append(
            struct.pack(order + "IIII", seconds, fraction * (1000 if is_nano else 1), len(data), length) + data
        )
    return b"".join(parts)


def padded(data: bytes) -> bytes:
    return data + bytes(-len(data) % 4)


def block(order: str, kind: int, body: bytes) -> bytes:
    size = len(padded(body)) + 12
    return struct.pack(order + "II", kind, size) + padded(body) + struct.pack(order + "I", size)


def option(order: str, code: int, value: bytes) -> bytes:
    return struct.pack(order + "HH", code, len(value)) + padded(value)


def section(order: str = "<", length: int = -1, options: bytes = b"") -> bytes:
    return block(order, 0x0A0D0D0A, struct.pack(order + "IHHq", 0x1A2B3C4D, 1, 0, length) + options)


def interface(
    order: str, link: int, resolution: int | None = None, offset: int | None = None, name: bytes = b""
) -> bytes:
    options = option(order, 2, name) if name else b""
    if resolution is not None:
        options += option(order, 9, bytes([resolution]))
    if offset is not None:
        options += option(order, 14, struct.pack(order + "q", offset))
    return block(
        order, 1, struct.pack(order + "HHI", link, 0, 262144) + options + (option(order, 0, b"") if options else b"")
    )


def packet(order: str, number: int, time: int, record: Record, options: bytes = b"") -> bytes:
    """An Enhanced Packet Block at a time in the interface's unit."""
    _, _, length, data = record
    head = struct.pack(order + "IIIII", number, time >> 32, time & 0xFFFFFFFF, len(data), length)
    return block(order, 6, head + padded(data) + options)


def old_packet(order: str, number: int, time: int, record: Record) -> bytes:
    _, _, length, data = record
    return block(
        order, 2, struct.pack(order + "HHIIII", number, 0, time >> 32, time & 0xFFFFFFFF, len(data), length) + data
    )


def simple_packet(order: str, record: Record) -> bytes:
    return block(order, 3, struct.pack(order + "I", record[2]) + record[3])


def micros(record: Record) -> int:
    return record[0] * 10**6 + record[1]
