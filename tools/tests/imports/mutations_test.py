"""Mutated captures and key logs: no panic, no hang, every fault named, and no plaintext but the original's.

    python3 -m tools.tests.imports.mutations_test [COUNT [SEED [PROCESSES]]]

A few hundred by default, by one process. The seed is printed: a count and that seed make the same mutations again, by
however many processes, and number N of them alone with COUNT as N:N+1. The last line says how many ended how. Many
more, without a look at their plaintext, are tried by companions/import/tests/mutations.rs.
"""

import collections
import multiprocessing
import os
import pathlib
import random
import subprocess
import sys
import tempfile

from tools.tests import import_tools as tools

SECONDS = 100  # for one mutation
CAPTURE_REFUSED, NOTHING_READ = 3, 6
NAMES = (
    "nghttp-nghttpd-13", "small-window-v6", "curl-nginx-12-any-cooked", "curl-apache-upload", "mixed", "secrets-inside",
    "snapped-96", "zstd",
)  # fmt: skip
STATUSES = (0, CAPTURE_REFUSED, NOTHING_READ)
PART = 50
WARNINGS = ("of the key logs", "times go back", "bytes behind the end")
KNOWN: set[bytes] = set()  # each 16 bytes of the originals' plaintext
INTERESTING = (b"\x00", b"\xff", b"\x7f\xff", b"\x80\x00", b"\x16\x03\x03", b"\xff\xff\xff\xff", b"\x00\x00\x00\x00")


def changed(data: bytes, dice: random.Random) -> bytes:
    """Bytes with a few changes: flipped, set, cut out, doubled, or the end cut off."""
    data = bytearray(data)
    for _ in range(dice.choice((1, 1, 2, 5, 20))):
        if not data:
            break
        at, size = dice.randrange(len(data)), dice.choice((1, 2, 4, 16, 100, 1500))
        way = dice.randrange(6)
        if way == 0:
            data[at] ^= 1 << dice.randrange(8)
        elif way == 1:
            value = dice.choice(INTERESTING)
            data[at : at + len(value)] = value
        elif way == 2:
            del data[at : at + size]
        elif way == 3:
            data[at:at] = data[at : at + size]
        elif way == 4:
            data[at : at + size] = dice.randbytes(len(data[at : at + size]))
        else:
            del data[max(at, len(data) // 8) :]
    return bytes(data)


def run(words: list[tools.Word]) -> tuple[int, str]:
    """Status and standard error of h2audit-import."""
    run = subprocess.run([tools.IMPORT, *words], capture_output=True, text=True, timeout=SECONDS)
    return run.returncode, run.stderr


def known_plaintext(folder: pathlib.Path) -> set[bytes]:
    """Every 16 bytes of plaintext that some original holds, of any side."""
    found: set[bytes] = set()
    for name in NAMES:
        path = folder / "known"
        run([*tools.key_log_of(name), "-o", path, "-m", folder / "map", tools.capture_named(name)])
        for packet in tools.read_pcap(path.read_bytes())[0]:
            payload = payload_of(packet.data)
            found.update(payload[at : at + 16] for at in range(0, len(payload) - 15))
    return found


def payload_of(data: bytes) -> bytes:
    header = (data[0] & 15) * 4
    return data[header + (data[header + 12] >> 4) * 4 :]


def check(made: pathlib.Path, map_path: pathlib.Path, known: set[bytes], words: object) -> None:
    """What TLS records gave is plaintext of the original; its records are those of the map."""
    packets = tools.read_pcap(made.read_bytes())[0]
    lines = map_path.read_text().splitlines()
    assert lines[0] == "h2audit-map 1", words
    count = sum(line.startswith("record ") for line in lines)
    assert count == len(packets), (words, count, len(packets))
    if has_pair_of_both_kinds(lines):
        return
    made_of = tools.Made(0, "", packets, lines, b"")
    for number, _, data in tools.payloads(made_of):
        pieces = [data[at : at + 16] for at in range(0, len(data) - 15, 16)]
        assert all(piece in known for piece in pieces), (words, number)


def has_pair_of_both_kinds(lines: list[str]) -> bool:
    """Whether two endpoints have a connection of TLS and one without, as a packet that became a SYN makes it."""
    kinds: dict[str, set[frozenset[str]]] = {"tls": set(), "clear": set()}
    for line in lines:
        words = line.split()
        if words[0] == "connection" and words[9] in kinds:
            kinds[words[9]].add(frozenset((words[2], words[4])))
    return bool(kinds["tls"] & kinds["clear"])


def mutated(name: str, dice: random.Random) -> tuple[bytes, bytes]:
    """Bytes of a capture and of its key log, of which at least one is changed."""
    data = tools.capture_named(name).read_bytes()
    path = tools.CAPTURES / f"{name}.keys"
    text = path.read_bytes() if path.exists() else b""
    if text and dice.randrange(4) == 0:
        return data, changed(text, dice)
    return changed(data, dice), text


def one(folder: pathlib.Path, seed: int, known: set[bytes], number: int) -> str:
    """Tries a mutation, and answers how it ended."""
    dice = random.Random(f"{seed} {number}")
    name = dice.choice(NAMES)
    data, text = mutated(name, dice)
    capture, keys = folder / f"capture{tools.capture_named(name).suffix}", folder / "keys"
    capture.write_bytes(data)
    keys.write_bytes(text)
    out, map_path = folder / "out", folder / "map"
    for path in (out, map_path):
        path.unlink(missing_ok=True)
    status, said = run([*["--reorder"] * dice.randrange(2), "-k", keys, "-o", out, "-m", map_path, capture])
    assert status in STATUSES, (status, said)
    assert (status == 0) <= all(any(word in line for word in WARNINGS) for line in said.splitlines()), said
    assert status == 0 or said.startswith("h2audit-import: "), said
    assert out.exists() == (status != CAPTURE_REFUSED), status
    written = said.encode() + (map_path.read_bytes() if map_path.exists() else b"")
    assert not any(secret in written for secret in text.split() if len(secret) > 40)
    if out.exists():
        check(out, map_path, known, (number, name))
    return "capture refused" if status == CAPTURE_REFUSED else "nothing read" if status else "read"


def tried(words: tuple[int, range]) -> list[tuple[int, str]]:
    """How each mutation of a range ended, or what was wrong with it."""
    seed, numbers = words
    ended = []
    with tempfile.TemporaryDirectory(prefix="h2audit-test-") as name:
        for number in numbers:
            try:
                ended.append((number, one(pathlib.Path(name), seed, KNOWN, number)))
            except Exception as why:
                ended.append((number, f"FAILED {type(why).__name__} {why}"))
    return ended


def main() -> int:
    begin, _, end = (sys.argv[1] if len(sys.argv) > 1 else "400").rpartition(":")
    first, last = int(begin or 0), int(end)
    seed = int(sys.argv[2]) if len(sys.argv) > 2 else int.from_bytes(os.urandom(4), "big")
    processes = int(sys.argv[3]) if len(sys.argv) > 3 else 1
    print(f"mutations {first} to {last - 1}, seed {seed}", flush=True)
    with tempfile.TemporaryDirectory(prefix="h2audit-test-") as name:
        KNOWN.update(known_plaintext(pathlib.Path(name)))
    parts = [(seed, range(at, min(at + PART, last))) for at in range(first, last, PART)]
    ways: collections.Counter[str] = collections.Counter()
    with multiprocessing.get_context("fork").Pool(processes) as pool:
        for number, way in (row for part in pool.imap_unordered(tried, parts) for row in part):
            ways[way.split()[0] if way.startswith("FAILED") else way] += 1
            if way.startswith("FAILED"):
                print(f"mutation {number}: {way}", flush=True)
    failed = ways.pop("FAILED", 0)
    told = ", ".join(f"{count} {way}" for way, count in sorted(ways.items()))
    print(f"{last - first} mutations, {failed} failed: {told}")
    return 1 if failed else 0


if __name__ == "__main__":
    sys.exit(main())
