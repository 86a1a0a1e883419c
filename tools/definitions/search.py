"""Proposes witnesses for what the definitions relate: how many records a capture has, which segments make a connection,
the bytes of a flow in order, where frames end. It need not be right: `claims` checks what it says.

A witness is found by the name of what it is for. Where none is proposed, and for each `Hole`, an equation of the
definitions gives the value.
"""

from collections.abc import Callable, Iterable, Sequence
from typing import Any, Literal

from tools.definitions.values import Hole, Made, Value, known

Values = dict[str, Value]  # what the claim speaks of, by its names
Fields = dict[str, Any]  # of a record of the definitions

PREFACE = b"PRI * HTTP/2.0\r\n\r\nSM\r\n\r\n"
HALF, WHOLE = 2**31, 2**32
NONE = Made("None")


def hole() -> Hole:
    return Hole(0)


def listed(items: Iterable[Value]) -> Fields:
    """A `Vec`."""
    return {"items": tuple(items)}


def some(value: Value) -> Made:
    return Made("Some", value)


def records(values: Values) -> Fields:
    """The records, by walking over their captured lengths."""
    capture = values["bytes"]
    order: Literal["little", "big"] = "little" if capture[0] in (0xD4, 0x4D) else "big"
    at, rows = 24, []
    while at + 16 <= len(capture):
        at += 16 + int.from_bytes(bytes(capture[at + 8 : at + 12]), order)
        if at <= len(capture):
            rows.append(hole())
    return {"link": hole(), "rows": listed(rows), "cut": hole()}


def dealt(capture: bytes, order: Literal["little", "big"]) -> tuple[tuple[Value, ...], Value]:
    """The records of a capture as bytes, and the rest that holds no whole one."""
    at, found = 24, []
    while at + 16 <= len(capture):
        end = at + 16 + int.from_bytes(capture[at + 8 : at + 12], order)
        if end > len(capture):
            break
        found.append(tuple(capture[at:end]))
        at = end
    return tuple(found), tuple(capture[at:])


class Known(Values):
    """Values by their names; one that is not known yet is asked for later."""

    def __getitem__(self, name: str) -> Value:
        return known(super().__getitem__(name))


class Search:
    """The witnesses of one capture. It asks the definitions for the packets, and reads the bytes itself."""

    def __init__(self, packets_of: Callable[[Value, Value], Iterable[Made]]) -> None:
        self.packets_of = packets_of
        self.packets: list[Fields] = []  # those that are segments, once they are asked for
        self.table: dict[str, Callable[[Values], Value]] = {
            "found": records,
            "opened": self.opened,
            "audited": self.audited,
            "flows": self.flows,
            "client_frames": lambda values: frames(joined(values["client"])[len(PREFACE) :]),
            "server_frames": lambda values: frames(joined(values["server"])),
            "header": lambda values: values["bytes"][:9],
            "payload": lambda values: values["bytes"][9 : 9 + length(values["bytes"])],
        }

    def propose(self, label: str, values: Values) -> Value | None:
        found = self.table.get(label.rpartition(".")[2])
        return found and found(Known(values))

    def segments(self, values: Values) -> list[Fields]:
        if not self.packets:
            packets = self.packets_of(values["bytes"], values["found"])
            self.packets = [packet.parts[0] for packet in packets if packet.name == "Segment"]
        return self.packets

    def opened(self, values: Values) -> tuple[Fields, ...]:
        """The connections: a SYN opens one, unless it says again what the last one of its endpoints said."""
        last: dict[frozenset[Value], Fields] = {}
        opened = []
        for segment in self.segments(values):
            pair = frozenset((end["address"], end["port"]) for end in (segment["from"], segment["to"]))
            of, said = last.get(pair), (segment["from"], segment["seq"])
            if segment["syn"] and not segment["ack"] and not (of and said == (of["client"], of["client_isn"])):
                of = last[pair] = connection(segment)
                opened.append(of)
            if of:
                of["members"] = listed((*of["members"]["items"], segment["rec"]))
                answers = segment["syn"] and segment["ack"] and segment["from"] != of["client"]
                if answers and of["server_isn"] == NONE:
                    of["server_isn"] = some(segment["seq"])
        return tuple(opened)

    def audited(self, values: Values) -> tuple[Fields, ...]:
        return tuple(
            {"extents": hole(), "cut": cut(self.flows_of(of, values["bytes"])), "findings": {"items": hole()}}
            for of in values["opened"]
        )

    def flows(self, values: Values) -> Fields:
        return self.flows_of(values["connection"], values["capture"])

    def flows_of(self, connection: Fields, capture: Value) -> Fields:
        members = set(connection["members"]["items"])
        sides: dict[str, list[Fields]] = {"client": [], "server": []}
        for segment in self.packets:
            if segment["rec"] in members:
                sides["client" if segment["from"] == connection["client"] else "server"].append(segment)
        server = connection["server_isn"]
        return {
            "client": flow(capture, sides["client"], connection["client_isn"]),
            "server": flow(capture, sides["server"], server.parts[0] if server.parts else None),
        }


def connection(opening: Fields) -> Fields:
    return {
        "client": opening["from"],
        "server": opening["to"],
        "rec": opening["rec"],
        "client_isn": opening["seq"],
        "server_isn": NONE,
        "members": listed(()),
    }


def flow(capture: Sequence[int], segments: list[Fields], isn: int | None) -> Fields:
    """A side's bytes in order of their offsets, of each offset the first; and by which record they were there."""
    sources: dict[int, tuple[int, int, int]] = {}  # of an offset the record, its time, and the place in the capture
    for segment in segments if isn is not None else []:
        start = segment["seq"] + segment["syn"] - 1 - isn
        for index in range(segment["lo"], segment["hi"]):
            sources.setdefault((start + index - segment["lo"]) % WHOLE, (segment["rec"], segment["nanos"], index))
    arrivals: list[Fields] = []
    size, last = 0, (0, 0)
    while size in sources and size < HALF:
        record, nanos, _ = sources[size]
        if record > last[0]:
            last = record, nanos
            arrivals.append({})
        size += 1
        arrivals[-1] = {"upto": size, "rec": last[0], "nanos": last[1]}
    past = any(size < offset < HALF for offset in sources)
    piece = tuple(capture[sources[offset][2]] for offset in range(size))
    return {
        "started": isn is not None,
        "pieces": listed([{"now": piece}] if piece else []),
        "arrivals": listed(arrivals),
        "gap": some(size) if past else NONE,
    }


def joined(flow: Value) -> tuple[int, ...]:
    return tuple(octet for piece in known(flow)["pieces"]["items"] for octet in piece["now"])


def cut(flows: Fields) -> Made:
    """Which of the four kinds of contents two flows have."""
    bytes_of_client = bytes(joined(flows["client"]))
    if not flows["server"]["started"]:
        return Made("NoHandshake")
    if bytes_of_client.startswith(PREFACE):
        return Made("Http2", {"items": hole()}, hole())
    return Made("NoPreface" if PREFACE.startswith(bytes_of_client) else "NotHttp2")


def length(octets: tuple[int, ...]) -> int:
    return int.from_bytes(bytes(octets[:3]), "big")


def frames(octets: tuple[int, ...]) -> tuple[Fields, ...]:
    """As many frames as stand whole in these bytes."""
    found = []
    while len(octets) >= 9 and len(octets) >= 9 + length(octets):
        octets = octets[9 + length(octets) :]
        found.append({"header": hole(), "body": hole()})
    return tuple(found)
