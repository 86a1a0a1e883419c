"""Which request was handed on as which, by a capture's content: a reader of its own, which no matching looks into.

Each answer of the upstream (why_upstream.py), and each upload of its clients, begins with a token that occurs once.
"""

import re
import struct
from collections import defaultdict
from collections.abc import Iterator
from dataclasses import dataclass

from tools.tests.peers import PREFACE

# The lengths of link layers: Ethernet, IP alone, and both of tcpdump's "any".
LINKS = {1: 14, 101: 0, 113: 16, 276: 20}
TOKEN = re.compile(rb"<[tc]:[0-9a-f]{8}>")
IPV4, TCP, PADDED, DATA = 4, 6, 8, 0
# A token stands at the begin of content.
LONGEST = 64
Flow = tuple[str, str]


@dataclass(frozen=True, order=True)
class Request:
    """A stream of a connection: the client's endpoint, the server's, the stream."""

    client: str
    server: str
    stream: int


def packets(capture: bytes) -> Iterator[bytes]:
    """The packets of IPv4 of a capture in pcap."""
    order = "<" if capture[:4] in (b"\xd4\xc3\xb2\xa1", b"\x4d\x3c\xb2\xa1") else ">"
    (link,) = struct.unpack_from(order + "I", capture, 20)
    front = LINKS[link & 0xFFFF]
    at = 24
    while at + 16 <= len(capture):
        (length,) = struct.unpack_from(order + "I", capture, at + 8)
        octets = capture[at + 16 + front : at + 16 + length]
        if octets and octets[0] >> 4 == IPV4:
            yield octets
        at += 16 + length


def flows(capture: bytes) -> dict[Flow, bytes]:
    """What each endpoint said to each other one, up to the first gap."""
    pieces: dict[Flow, dict[int, bytes]] = defaultdict(dict)
    first: dict[Flow, int] = {}
    for octets in packets(capture):
        if octets[9] != TCP:
            continue
        total, head = int.from_bytes(octets[2:4], "big"), 4 * (octets[0] & 15)
        source, target, sequence = struct.unpack_from(">HHI", octets, head)
        names = [".".join(map(str, octets[at : at + 4])) for at in (12, 16)]
        flow = (f"{names[0]}:{source}", f"{names[1]}:{target}")
        payload = octets[head + 4 * (octets[head + 12] >> 4) : total or None]
        if octets[head + 13] & 2:
            # A port that is used again begins a new flow; the first is what is judged.
            first.setdefault(flow, sequence + 1)
        elif payload and flow in first:
            number = (sequence - first[flow]) & 0xFFFFFFFF
            if len(payload) > len(pieces[flow].get(number, b"")):
                pieces[flow][number] = payload
    return {flow: joined(some) for flow, some in pieces.items()}


def joined(pieces: dict[int, bytes]) -> bytes:
    made = bytearray()
    for number, payload in sorted(pieces.items()):
        if number > len(made):
            break
        made += payload[len(made) - number :]
    return bytes(made)


def content(octets: bytes) -> dict[int, bytes]:
    """The begin of each stream's content."""
    found: dict[int, bytes] = defaultdict(bytes)
    at = 0
    while at + 9 <= len(octets):
        length, kind, flags = int.from_bytes(octets[at : at + 3], "big"), octets[at + 3], octets[at + 4]
        stream = int.from_bytes(octets[at + 5 : at + 9], "big")
        if kind == DATA and len(found[stream]) < LONGEST:
            found[stream] += octets[at + 9 + bool(flags & PADDED) : at + 9 + length][:LONGEST]
        at += 9 + length
    return found


def carried(capture: bytes) -> dict[bytes, list[Request]]:
    """The requests with each token."""
    found: dict[bytes, list[Request]] = defaultdict(list)
    said = flows(capture)
    for (client, server), octets in said.items():
        if not octets.startswith(PREFACE):
            continue
        for of_client in (True, False):
            spoken = octets[len(PREFACE) :] if of_client else said.get((server, client), b"")
            for stream, begin in content(spoken).items():
                for token in TOKEN.findall(begin)[:1]:
                    found[token].append(Request(client, server, stream))
    return found


def pairs(capture: bytes, hops: list[tuple[str, str]]) -> list[tuple[Request, Request]]:
    """The pairs of requests of each hop, by the servers of its legs."""
    made: set[tuple[Request, Request]] = set()
    for requests in carried(capture).values():
        for front, back in hops:
            fronts, backs = ([one for one in requests if one.server == server] for server in (front, back))
            if len(fronts) == 1:
                # Several tries with one upload are carried for one request.
                made.update((fronts[0], one) for one in backs)
    return sorted(made)
