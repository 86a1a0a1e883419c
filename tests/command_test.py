"""Calls the program with words, and compares its exit status, standard output and standard error:
python3 -m tests.command_test PROGRAM..
"""

import os
import pathlib
import subprocess
import tempfile
import unittest
from collections.abc import Iterator

from tests.programs import needed

TOP = pathlib.Path(__file__).resolve().parents[1]
HELP = (TOP / "tests" / "help.txt").read_text()
VERSION = f"h2audit {(TOP / 'VERSION').read_text()}"

# A big-endian header: magic, version 2.4, time zone, accuracy, snapshot length, Ethernet.
HEADER = bytes.fromhex("a1b2c3d4 0002 0004 00000000 00000000 00040000 00000001")
NO_RECORD = "capture records 0 segments 0 snapped 0 not-ipv4 0 fragments 0 not-tcp 0 refused 0\n"
EXAMPLE = TOP / "examples" / "negative_window_tomcat.pcap"
REPORT = EXAMPLE.with_suffix(".report").read_text()
FILES = {
    "no_record.pcap": HEADER,
    "example.pcap": EXAMPLE.read_bytes(),
    "notes.txt": b"What was captured, where, and by whom.\n",
}

USAGE = "Usage: h2audit [OPTIONS] [FILE]\n\n"
MORE = "For more information, try '--help'.\n"

Left = tuple[int, str, str]  # what a call leaves: status, standard output, standard error
Call = tuple[str, bytes, Left]  # words, standard input, and what is left

CALLS: list[Call] = [
    ("--help", b"", (0, HELP, "")),
    ("-h", b"", (0, HELP, "")),
    ("--version", b"", (0, VERSION, "")),
    ("-V", b"", (0, VERSION, "")),
    ("no_record.pcap", b"", (0, NO_RECORD, "")),
    ("--workers 64 --groups=1 no_record.pcap --frames --block 1048576", b"", (0, NO_RECORD, "")),
    ("--workers 64 --groups 1024 --block 1048576 --frames no_record.pcap", b"", (0, NO_RECORD, "")),
    ("--frames", HEADER, (0, NO_RECORD, "")),
    ("-- no_record.pcap", b"", (0, NO_RECORD, "")),
    ("notes.txt", b"", (3, "", "h2audit: capture refused: bad-magic\n")),
    ("missing.pcap", HEADER, (4, "", "h2audit: read failed\n")),
    ("--frames --block 1048576 --groups 1024 --workers 64 missing.pcap", HEADER, (4, "", "h2audit: read failed\n")),
]

# The greatest number of each option. Each number of workers is tried, and those of the others about each power of 2.
MOST = {"workers": 64, "groups": 1024, "block": 1_048_576}


def invalid(option: str, value: str, why: str) -> str:
    return f"invalid value '{value}' for '--{option} <N>': {why}\n\n"


def missing(option: str) -> str:
    return f"a value is required for '--{option} <N>' but none was supplied\n\n"


def unexpected(word: str, tip: str = "", usage: str = USAGE) -> str:
    return f"unexpected argument '{word}' found\n\n{tip}{usage}"


def as_value(word: str) -> str:
    return f"  tip: to pass '{word}' as a value, use '-- {word}'\n\n"


def twice(option: str) -> str:
    return f"the argument '{option}' cannot be used multiple times\n\n{USAGE}"


# Words that are refused, and what is said of them, as clap says it.
REFUSED = {
    "--unknown": unexpected("--unknown", as_value("--unknown")),
    "--FRAMES": unexpected("--FRAMES", as_value("--FRAMES")),
    "-x": unexpected("-x", as_value("-x")),
    "--workers -1": unexpected("-1", as_value("-1")),
    "--worker 2": unexpected(
        "--worker", "  tip: a similar argument exists: '--workers'\n\n", "Usage: h2audit --workers <N> [FILE]\n\n"
    ),
    "one.pcap two.pcap": unexpected("two.pcap"),
    "--workers 2 --groups 3 --block 4 --frames one.pcap two.pcap": unexpected("two.pcap"),
    "-- one.pcap --frames": unexpected("--frames"),
    "--frames=1": "unexpected value '1' for '--frames' found; no more were expected\n\n"
    "Usage: h2audit --frames [FILE]\n\n",
    "--frames --frames": twice("--frames"),
    "--workers 1 --workers 2": twice("--workers <N>"),
    "--groups=7 --groups=7": twice("--groups <N>"),
    "--block 1 one.pcap --block 1": twice("--block <N>"),
}


def refused() -> Iterator[tuple[str, str]]:
    """Words that are refused, and the whole text that says why."""
    said = dict(REFUSED)
    for option, most in MOST.items():
        for value in ("0", str(most + 1), "4294967297"):
            said[f"--{option} {value}"] = invalid(option, value, f"{value} is not in 1..={most}")
        said[f"--{option}={2**64}"] = invalid(option, str(2**64), "number too large to fit in target type")
        said[f"--{option}="] = invalid(option, "", "cannot parse integer from empty string")
        for value in ("many", "1.5", "0x10"):
            said[f"--{option} {value}"] = invalid(option, value, "invalid digit found in string")
        said[f"--{option}"] = said[f"--{option} --frames"] = missing(option)
    for words, text in said.items():
        yield words, f"error: {text}{MORE}"
    for words in ("\udcff.pcap", "--frames one\udc80", "--help \udcff"):
        yield words, "error: a word is not text\n"


def calls() -> Iterator[Call]:
    """All calls."""
    yield from CALLS
    for words, text in refused():
        yield words, HEADER, (2, "", text)
    about = {2**power + more for power in range(21) for more in (-1, 0, 1)}
    for option, most in MOST.items():
        for number in sorted(about | set(range(1, 65))):
            if 1 <= number <= most:
                yield f"--{option} {number} example.pcap", b"", (0, REPORT, "")


def call(program: str, folder: str, words: str, given: bytes) -> Left:
    """What a call leaves. Its words may have bytes that are no text, as os.fsdecode reads them."""
    split = [os.fsencode(word) for word in words.split(" ")]
    ran = subprocess.run([program, *split], cwd=folder, input=given, capture_output=True, timeout=60)
    return ran.returncode, ran.stdout.decode(), ran.stderr.decode()


class Calls(unittest.TestCase):
    def test_each(self) -> None:
        with tempfile.TemporaryDirectory() as folder:
            for name, content in FILES.items():
                (pathlib.Path(folder) / name).write_bytes(content)
            for program in PROGRAMS:
                for words, given, wanted in calls():
                    with self.subTest(words, program=program):
                        self.assertEqual(call(program, folder, words, given), wanted)

    def test_full_device(self) -> None:
        for program in PROGRAMS:
            with open("/dev/full", "wb") as full:
                ran = subprocess.run([program], input=HEADER, stdout=full, stderr=subprocess.PIPE, timeout=60)
            self.assertEqual((ran.returncode, ran.stderr), (4, b"h2audit: write failed\n"), program)


if __name__ == "__main__":
    PROGRAMS = needed()
    unittest.main()
