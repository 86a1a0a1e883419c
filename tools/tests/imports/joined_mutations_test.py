"""Damages captures that begin in the middle of connections, or that lack packets, and has h2audit-import --joined and
h2audit-why say what they can: no damage ends one otherwise.

    python3 -m tools.tests.imports.joined_mutations_test [H2AUDIT] [NUMBER [FIRST [cuts | gaps]]]

Each capture is cut at a packet by chance, or pieces of packets are cut out of it; then most are damaged. The numbers
from FIRST on make the same captures again. Without a word NUMBER are made of each kind.
"""

import collections
import pathlib
import random
import subprocess
import sys
import tempfile

from tools.tests import import_tools as tools
from tools.tests.imports.mutations_test import changed
from tools.tests.why_tools import Refused, check_shares, has_programs, programs_of, said_of

RUNS = ("$H2AUDIT",)
USUAL = 150
SECONDS = 100  # for one run
LONGEST = 60_000
REFUSED, NOTHING_READ = 3, 6
CLEAR = [path for folder in ("examples", "tests/answer") for path in sorted((tools.TOP / folder).glob("*.pcap"))
         if path.stat().st_size < LONGEST]  # fmt: skip
OPENED = ("h2load-node-many", "key-updates", "nghttp-nghttpd-13", "small-window-v6", "stream-overrun-go")
TLS = [tools.capture_named(name) for name in OPENED]
# One in so many is of TLS, whose plaintext is searched for.
OF_TLS = 20
WARNINGS = ("of the key logs", "times go back", "bytes behind the end", "of TLS from before the capture")


def cut(source: random.Random, packets: list[tools.Packet]) -> list[tools.Packet]:
    """What is left from a packet on."""
    return packets[source.randrange(1, max(2, len(packets) - 2)) :]


def with_gaps(source: random.Random, packets: list[tools.Packet]) -> list[tools.Packet]:
    """Without up to four pieces of up to eight packets; a beginning is mostly left."""
    kept = list(packets)
    for _ in range(source.randrange(1, 5)):
        begin = source.randrange(min(4, len(kept) - 1), max(5, len(kept)))
        del kept[begin : begin + source.randrange(1, 9)]
    return kept


KINDS = {"cuts": cut, "gaps": with_gaps}


def damaged(source: random.Random, sample: pathlib.Path, kind: str) -> bytes:
    """What is left of a capture, mostly with damage."""
    packets, link = tools.packets_in(sample)
    octets = tools.pcap_of(KINDS[kind](source, packets), link)
    if source.randrange(8) == 0:
        return octets
    return octets[:24] + changed(octets[24:], source)


def import_of(folder: pathlib.Path, capture: pathlib.Path, words: list[tools.Word]) -> int:
    """How many connections are joined; none where the capture is refused."""
    out, map_path = folder / "out", folder / "map"
    for path in (out, map_path):
        path.unlink(missing_ok=True)
    run = subprocess.run(
        [tools.IMPORT, "--joined", *words, "-o", out, "-m", map_path, capture],
        capture_output=True,
        text=True,
        timeout=SECONDS,
    )
    status, said = run.returncode, run.stderr
    assert status in (0, REFUSED, NOTHING_READ), (status, said)
    assert all(line.startswith("h2audit-import: ") for line in said.splitlines()), said
    assert status != 0 or all(any(word in line for word in WARNINGS) for line in said.splitlines()), said
    assert out.exists() == (status != REFUSED), status
    if status == REFUSED:
        return 0
    lines = map_path.read_text().splitlines()
    assert lines[0] == "h2audit-map 2", lines[0]
    records = [int(line.split()[1]) for line in lines if line.startswith(("record ", "made "))]
    assert records == list(range(1, len(tools.read_pcap(out.read_bytes())[0]) + 1))
    return sum(line.startswith("joined ") for line in lines)


def answer_of(folder: pathlib.Path, capture: pathlib.Path, words: list[tools.Word]) -> str:
    """What h2audit-why says of it, in which the shares of each life sum to it."""
    try:
        found = said_of(capture, *words)
    except Refused:
        return "refused"
    check_shares(found)
    return "audited" if found["summary"]["audited"] else "nothing audited"


def tried(folder: pathlib.Path, number: int, kind: str) -> tuple[int, str]:
    """How many connections are joined of one damaged capture, and what became of it."""
    source = random.Random(number)
    sample = source.choice(CLEAR if number % OF_TLS else TLS)
    capture = folder / "capture.pcap"
    capture.write_bytes(damaged(source, sample, kind))
    keys: list[tools.Word] = tools.key_log_of(sample.name.split(".")[0])
    words: list[tools.Word] = [*["--reorder"] * (source.randrange(8) == 0), *keys]
    return import_of(folder, capture, words), answer_of(folder, capture, words)


def all_of(kind: str, first: int, number: int) -> bool:
    """Whether so many of a kind, from a number on, became what they may; and whether enough of them were joined."""
    became: collections.Counter[str] = collections.Counter()
    joined = 0
    with tempfile.TemporaryDirectory(prefix="h2audit-test-") as folder:
        for each in range(first, first + number):
            try:
                connections, word = tried(pathlib.Path(folder), each, kind)
            except BaseException:
                print(f"number {each} of {kind}")
                raise
            joined += connections > 0
            became[word] += 1
    told = ", ".join(f"{count} {word}" for word, count in sorted(became.items()))
    print(f"{number} damaged captures with {kind}: {joined} with joined connections; {told}")
    return joined * 4 > number


def main(words: list[str]) -> int:
    number, first = int(words[1]) if len(words) > 1 else USUAL, int(words[2]) if len(words) > 2 else 0
    found = [all_of(kind, first, number) for kind in (words[3:] or KINDS)]
    return 0 if all(found) else 1


if __name__ == "__main__":
    sys.argv = programs_of(sys.argv)
    if not has_programs():
        sys.exit("h2audit or h2audit-import is not built")
    sys.exit(main(sys.argv))
