"""Measures h2audit-import beside the program in Python that it was, tshark and OpenSSL:

    python3 -m bench.measure_import [--runs N] [--before COMMIT] [SHAPE=MEGABYTES ..]

For each shape the least processor and wall seconds of N runs each in turn (3 without --runs), and the greatest peak of
memory: of h2audit-import as `make companions` built it; of the program in Python, from a folder of its own that is made
of a COMMIT of this repository; and of tshark's two ways to the same bytes, `-z follow,tls` of one connection and a tap
in Lua over all. Each has the capture in memory. Behind them stands how many megabytes of records of the shape's size
`openssl speed` seals in a second. Shapes are those of generate_tls.py, and `ipv6`, HTTP/2 in the clear over IPv6 in
pcapng.
"""

import argparse
import os
import pathlib
import re
import subprocess
import sys
import tempfile
import time

from bench import generate_ipv6

TOP = pathlib.Path(__file__).resolve().parents[1]
IMPORT = TOP / "companions" / "target" / "release" / "h2audit-import"
# The last commit whose h2audit-import is in Python.
IN_PYTHON = "0d07e1842788a62f01245224be1694f74f0d62f9"
Taken = tuple[float, float, float]  # seconds of the processor, of the wall, and megabytes at the peak
Words = list[str | pathlib.Path]
SIZES = {"bulk": 40.0, "small": 4.0, "many": 16.0, "ipv6": 50.0}
RECORDS = {"bulk": 16384, "small": 100, "many": 1000}
TAP = """
local data, number = Field.new("tls.app_data_proto"), 0
local plain = Dissector.get("data")
local tap = Proto("tap", "tap")
function tap.dissector(buffer, pinfo, tree) number = number + buffer(0):bytes():len() end
DissectorTable.get("tls.alpn"):set("h2", tap)
"""
TSHARK = ["tshark", "-n", "-o", "tcp.reassemble_out_of_order:TRUE", "-o", "tcp.try_heuristic_first:TRUE", "-q"]


def once(words: Words) -> Taken:
    start = time.monotonic()
    with open(os.devnull, "wb") as nowhere:
        child = subprocess.Popen(words, stdout=nowhere, stderr=nowhere)
        _, status, usage = os.wait4(child.pid, 0)
    child.returncode = os.waitstatus_to_exitcode(status)
    assert child.returncode in (0, 6), words
    return usage.ru_utime + usage.ru_stime, time.monotonic() - start, usage.ru_maxrss / 1000


def program_of(commit: str, folder: pathlib.Path) -> pathlib.Path:
    """h2audit-import as it was at a commit, in a folder of its own."""
    packed = subprocess.run(["git", "-C", TOP, "archive", commit, "tools"], check=True, capture_output=True).stdout
    subprocess.run(["tar", "-x", "-C", folder], input=packed, check=True)
    return folder / "tools" / "h2audit-import"


def commands_of(
    before: pathlib.Path, folder: pathlib.Path, capture: pathlib.Path, keys: pathlib.Path
) -> dict[str, Words]:
    tap = folder / "tap.lua"
    tap.write_text(TAP)
    words: Words = ["-k", keys, "-o", folder / "out.pcap", "-m", folder / "map", capture]
    theirs: Words = [*TSHARK, "-o", f"tls.keylog_file:{keys}", "-r", capture]
    ours: dict[str, Words] = {"h2audit-import": [IMPORT, *words], "in Python": [before, *words]}
    if capture.suffix == ".pcapng":
        return ours
    return ours | {
        "tshark follow": [*theirs, "-z", "follow,tls,raw,0"],
        "tshark Lua": [*theirs, "-X", f"lua_script:{tap}"],
    }


def generate(shape: str, megabytes: float, folder: pathlib.Path) -> tuple[pathlib.Path, pathlib.Path]:
    """A capture and its key log."""
    keys = folder / "a.keys"
    if shape == "ipv6":
        keys.touch()
        capture = folder / "a.pcapng"
        generate_ipv6.write(capture, int(megabytes * 1000000))
    else:
        capture = folder / "a.pcap"
        subprocess.run(
            [sys.executable, "-m", "bench.generate_tls", shape, str(megabytes), capture, keys], cwd=TOP, check=True
        )
    return capture, keys


def measure(before: pathlib.Path, shape: str, megabytes: float, runs: int) -> None:
    with tempfile.TemporaryDirectory() as name:
        folder = pathlib.Path(name)
        capture, keys = generate(shape, megabytes, folder)
        commands = commands_of(before, folder, capture, keys)
        found: dict[str, list[Taken]] = {way: [] for way in commands}
        for _ in range(runs):
            for way, words in commands.items():
                found[way].append(once(words))
        size = capture.stat().st_size / 1000000
    least = min(row[0] for row in found["h2audit-import"])
    for way, times in found.items():
        processor, wall, peak = min(row[0] for row in times), min(row[1] for row in times), max(row[2] for row in times)
        print("%-6s %6.1f MB  %-14s %8.3f s processor %8.3f s wall %7.1f MB/s %7.0f MB %6.1f times" % (
            shape, size, way, processor, wall, size / processor, peak, processor / least), flush=True)  # fmt: skip
    if shape in RECORDS:
        print(f"{shape:6} {openssl_speed(RECORDS[shape]):.0f} MB/s by openssl speed, of {RECORDS[shape]:,} bytes each")


def openssl_speed(size: int) -> float:
    """Megabytes a second of AES-256-GCM, of pieces of this size."""
    words = ["openssl", "speed", "-seconds", "1", "-bytes", str(size), "-evp", "aes-256-gcm"]
    said = subprocess.run(words, check=True, capture_output=True, text=True).stdout
    (rate,) = re.findall(r"^AES-256-GCM +([\d.]+)k$", said, re.M | re.I)
    return float(rate) / 1000


def main() -> None:
    words = argparse.ArgumentParser(description=__doc__, formatter_class=argparse.RawDescriptionHelpFormatter)
    words.add_argument("--runs", type=int, default=3)
    words.add_argument("--before", metavar="COMMIT", default=IN_PYTHON)
    words.add_argument("shapes", nargs="*", default=[f"{shape}={size}" for shape, size in SIZES.items()])
    asked = words.parse_args()
    with tempfile.TemporaryDirectory() as folder:
        before = program_of(asked.before, pathlib.Path(folder))
        for one in asked.shapes:
            shape, size = one.split("=")
            measure(before, shape, float(size), asked.runs)


if __name__ == "__main__":
    main()
