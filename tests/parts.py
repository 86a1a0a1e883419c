"""What h2audit-split has to make of a capture, written down from its description alone and slowly: the oracle
of split_test.py.
"""

import struct

LITTLE = (b"\xd4\xc3\xb2\xa1", b"\x4d\x3c\xb2\xa1")
RAW_IP = 101
MULTIPLIER = 0x9E3779B97F4A7C15


def numbers(capture: bytes) -> tuple[str, int]:
    """How a capture writes its numbers, and its link type."""
    order = "<" if capture[:4] in LITTLE else ">"
    return order, struct.unpack(order + "I", capture[20:24])[0] % 65536


def records_of(capture: bytes) -> tuple[list[bytes], bytes]:
    """The records of a capture, and the rest that holds no whole one."""
    order, _ = numbers(capture)
    at, records = 24, []
    while len(capture) - at >= 16:
        end = at + 16 + struct.unpack_from(order + "I", capture, at + 8)[0]
        if end > len(capture):
            break
        records.append(capture[at:end])
        at = end
    return records, capture[at:]


def endpoints_of(link: int, packet: bytes) -> tuple[bytes, bytes] | None:
    """The two endpoints that the first 82 bytes of a packet name, or nothing."""
    front = packet[:82]
    start = 0
    if link != RAW_IP:
        start = 18 if front[12:14] == b"\x81\x00" else 14
    datagram = front[start:]
    if len(datagram) < 20 or datagram[0] >> 4 != 4 or datagram[9] != 6:
        return None
    segment = datagram[4 * (datagram[0] & 15) :]
    if len(segment) < 4:
        return None
    return datagram[12:16] + segment[:2], datagram[16:20] + segment[2:4]


def part_of(link: int, count: int, number: int, record: bytes) -> int:
    """The part of a record with this number, counted from 0."""
    pair = endpoints_of(link, record[16:])
    if pair is None:
        return number % count
    key = sum(int.from_bytes(endpoint, "big") for endpoint in pair)
    return key * MULTIPLIER % 2**64 // 2**32 % count


def parts_of(capture: bytes, count: int) -> list[tuple[bytes, bytes]]:
    """For each part its capture and the numbers of its records, as h2audit-split writes both."""
    _, link = numbers(capture)
    records, rest = records_of(capture)
    parts: list[tuple[list[bytes], list[bytes]]] = [([capture[:24]], []) for _ in range(count)]
    for number, record in enumerate(records + ([rest] if rest else []), 1):
        packets, places = parts[part_of(link, count, number, record)]
        packets.append(record)
        places.append(struct.pack(">Q", number))
    return [(b"".join(packets), b"".join(places)) for packets, places in parts]
