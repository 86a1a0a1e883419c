"""Tests of h2audit-why on both legs of a proxy where a capture lacks something: less is sure, and nothing is wrong.

    python3 -m tools.tests.why.legs_lost_test [H2AUDIT] [Lost]
    python3 -m tools.tests.why.legs_lost_test [H2AUDIT] --variants SEED NUMBER
"""

import sys
import tempfile
import unittest
from collections.abc import Callable
from pathlib import Path
from random import Random

from tools.tests.import_tools import Packet, pcap_of, read_pcap
from tools.tests.why.legs import ROWS
from tools.tests.why.legs_judge import Judgement, judged
from tools.tests.why.legs_made import kept
from tools.tests.why.legs_packets import ANY, OnLegs, capture_named, payload_of, port, ports_of
from tools.tests.why.legs_truth import pairs
from tools.tests.why_tools import Refused, has_programs, programs_of, said_of

RUNS = ("$H2AUDIT",)
VARIANTS = 80
CAUSES = ("e", "eu", "k", "n", "down")
VARIED = [row for row in ROWS if not row.is_on_loopback and (row.kind == "traffic" or row.group in CAUSES)]
Packets = list[Packet]


def begins(random: Random, packets: Packets, _: set[int]) -> Packets:
    return packets[random.randrange(len(packets)) :]


def ends(random: Random, packets: Packets, _: set[int]) -> Packets:
    return packets[: random.randrange(1, len(packets))]


def begins_and_ends(random: Random, packets: Packets, _: set[int]) -> Packets:
    first, last = sorted(random.sample(range(len(packets)), 2))
    return packets[first:last]


def has_gap(random: Random, packets: Packets, fronts: set[int]) -> Packets:
    """Some packets in a row are lost, of one leg or the other."""
    first, of_front = random.randrange(len(packets)), random.random() < 0.5
    lost = range(first, first + random.choice((1, 3, 20, 200)))
    return [one for at, one in enumerate(packets) if at not in lost or bool(fronts & ports_of(one)) != of_front]


def loses(random: Random, packets: Packets, _: set[int]) -> Packets:
    share = random.choice((0.005, 0.02, 0.1))
    return [one for one in packets if random.random() > share]


def lacks_connection(random: Random, packets: Packets, _: set[int]) -> Packets:
    ends = ports_of(random.choice(packets))
    return [one for one in packets if ports_of(one) != ends]


def shakes(random: Random, packets: Packets, _: set[int]) -> Packets:
    """Clocks of processors differ by some microseconds."""
    most = random.choice((200, 1000, 5000))
    return [one._replace(nanos=one.nanos + random.randrange(most)) for one in packets]


Kind = Callable[[Random, Packets, set[int]], Packets]
# Where what is missing shows, a proxy did not answer itself what may have been carried there. The last packets of a
# connection, and connections of which there is nothing, do not show.
SHOWN: tuple[Kind, ...] = (begins, ends, begins_and_ends, shakes)
KINDS: tuple[Kind, ...] = (*SHOWN, has_gap, loses, lacks_connection)


def variant(random: Random) -> tuple[str, bytes, Judgement]:
    """A capture that lacks something, and what is found of it."""
    row, kind = random.choice(VARIED), random.choice(KINDS)
    made = kept(row)
    packets = kind(random, read_pcap(made.capture)[0], {port(front) for front, _ in made.hops})
    capture = pcap_of(packets, ANY)
    with tempfile.TemporaryDirectory() as folder:
        path = Path(folder, "variant.pcap")
        path.write_bytes(capture)
        try:
            found = judged(said_of(path), "", [], set(pairs(made.capture, made.hops)))
        except Refused:
            found = Judgement()
    if kind not in SHOWN:
        del found.without["answered-itself"]
    return f"{row.name} {kind.__name__}", capture, found


class Lost(OnLegs):
    def lacks(self, name: str, is_chosen: Callable[[int, Packet], bool]) -> None:
        made = capture_named(name)
        self.no_false_pairs(self.judged(made, self.chosen(made, is_chosen)))

    def test_gaps_behind(self) -> None:
        for name in ("mixed_haproxy", "mixed_apache", "mixed_caddy_paths", "w_nghttpx"):
            made = capture_named(name)
            back, count = port(made.hops[0][1]), len(read_pcap(made.capture)[0])
            with self.subTest(name):
                self.lacks(
                    name,
                    lambda at, one: back not in ports_of(one)
                    or payload_of(one) == 0
                    or not count // 3 < at < count // 2,
                )

    def test_gaps_in_front(self) -> None:
        for name in ("mixed_haproxy", "mixed_nginx_paths"):
            front = port(capture_named(name).hops[0][0])
            with self.subTest(name):
                self.lacks(name, lambda at, one: front not in ports_of(one) or payload_of(one) == 0 or at % 40 != 0)

    def test_begins_late(self) -> None:
        for name in ("mixed_haproxy", "mixed_nghttpx_paths", "mixed_caddy", "two_haproxy"):
            count = len(read_pcap(capture_named(name).capture)[0])
            with self.subTest(name):
                self.lacks(name, lambda at, _: at > count // 3)

    def test_ends_early(self) -> None:
        for name in ("mixed_haproxy", "mixed_apache_paths", "e_apache"):
            count = len(read_pcap(capture_named(name).capture)[0])
            with self.subTest(name):
                self.lacks(name, lambda at, _: at < count // 2)

    def test_variants(self) -> None:
        random = Random(20)
        for number in range(VARIANTS):
            name, _, found = variant(random)
            with self.subTest(number, name=name):
                self.no_false_pairs(found)


def tries(seed: int, number: int) -> int:
    """Tries so many variants, and keeps those of which something wrong is said."""
    random, total, wrong = Random(seed), Judgement(), 0
    for at in range(number):
        name, capture, found = variant(random)
        total += found
        if found.wrong["sure"] or found.without["answered-itself"] or found.sums:
            wrong += 1
            path = Path(tempfile.gettempdir(), f"legs_{seed}_{at}_{name.replace(' ', '_')}.pcap")
            path.write_bytes(capture)
            print(path, found.pairs, found.sums, flush=True)
    print(f"right {dict(total.right)}, wrong {dict(total.wrong)}, without {dict(total.without)}")
    return 1 if wrong else 0


if __name__ == "__main__":
    sys.argv = programs_of(sys.argv)
    if not has_programs():
        sys.exit("h2audit or h2audit-import is not built")
    if sys.argv[1:2] == ["--variants"]:
        sys.exit(tries(*map(int, sys.argv[2:4])))
    unittest.main()
