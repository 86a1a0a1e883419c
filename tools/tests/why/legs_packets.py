"""Captures of both legs, some of whose packets are left out, and what is said of their legs then."""

import pathlib
from collections.abc import Callable

from tools.tests.import_tools import Packet, pcap_of, read_pcap
from tools.tests.why.legs import ROWS
from tools.tests.why.legs_judge import Judgement, LegsAnswer, judged
from tools.tests.why.legs_made import Made, kept
from tools.tests.why.legs_truth import LINKS, Request, pairs
from tools.tests.why_tools import Json, OnCaptures, said_of

ANY = 276
Chosen = Callable[[int, Packet], bool]


def capture_named(name: str) -> Made:
    (row,) = [row for row in ROWS if row.name == name]
    return kept(row)


def ports_of(packet: Packet) -> set[int]:
    octets = packet.data[LINKS[ANY] :]
    head = 4 * (octets[0] & 15)
    return {int.from_bytes(octets[head + at : head + at + 2], "big") for at in (0, 2)}


def payload_of(packet: Packet) -> int:
    octets = packet.data[LINKS[ANY] :]
    head = 4 * (octets[0] & 15)
    return int.from_bytes(octets[2:4], "big") - head - 4 * (octets[head + 12] >> 4)


def port(server: str) -> int:
    return int(server.rpartition(":")[2])


def told(found: Json) -> dict[Request, object]:
    """What is said of the legs of each request, by endpoints."""
    answer = LegsAnswer(found)
    return {one: (answer.carried_by(one), legs_of(asked)) for one, asked in answer.requests.items()}


def legs_of(asked: Json) -> object:
    legs = asked["legs"] or {}
    return legs.get("sums"), legs.get("none_why"), [brake["nanos"] for brake in legs.get("brakes") or []]


class OnLegs(OnCaptures):
    def chosen(self, made: Made, is_chosen: Chosen, name: str = "chosen.pcap") -> pathlib.Path:
        """Some of a capture's packets, in a file of their own."""
        packets, link = read_pcap(made.capture)
        path = self.folder / name
        path.write_bytes(pcap_of((one for at, one in enumerate(packets) if is_chosen(at, one)), link))
        return path

    def whole(self, made: Made) -> pathlib.Path:
        return self.chosen(made, lambda _, __: True, "whole.pcap")

    def judged(self, made: Made, *words: str | pathlib.Path) -> Judgement:
        """Whether pairs are right, where the capture was whole when they were."""
        return judged(said_of(*words), "", [], set(pairs(made.capture, made.hops)))

    def no_false_pairs(self, found: Judgement) -> None:
        self.assertEqual((found.wrong["sure"], found.without["answered-itself"]), (0, 0), found.pairs)
        self.assertEqual(found.sums, [])
