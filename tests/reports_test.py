"""Audits whole captures by the program, in each mix of workers, groups and block lengths:
python3 -m tests.reports_test PROGRAM..

A file of reports/ has rows. A row begins with a line `== NAME`. Its script follows (captures.py says how it is
written), then `-- status N` with the exit status, what standard error says, and the report with its credit lines: the
report without them is the rest. Where the status line begins `-- findings`, the row has the report without credit
lines alone. Empty lines and those that begin with `#` say nothing. The reports were written by hand, from the
description of the report and from the rules of the audit; none was taken from the program.

The report of examples/NAME.pcap is NAME.report, and with credit lines NAME.frames.report. Where there is NAME.script,
the capture has the bytes that it spells. Captures that are too long to be written out have reports that a rule gives.
"""

import functools
import itertools
import os
import pathlib
import subprocess
import unittest
from collections.abc import Callable, Iterator
from concurrent.futures import ThreadPoolExecutor

from tests.captures import BEGINNINGS, CLIENT, SERVER, SYN, Capture, capture_of, frame_of
from tests.programs import needed

TOP = pathlib.Path(__file__).resolve().parents[1]
EXAMPLES = TOP / "examples"
Test = Callable[[str], bool]  # whether a program passes it
Mix = tuple[int, int, int]  # numbers of workers, of groups, and of frames in a block

# Numbers of workers, of groups, and of frames in a block: the least of each, some between, the most that matter here.
# Three workers and five are halved unevenly.
MIXES = list(itertools.product((1, 2, 3, 5, 64), (1, 3, 1024), (1, 2, 4096)))
# Those of a report whose lines matter more than how they are found.
FEW_MIXES = list(itertools.product((1, 2, 4, 64), (3,), (2, 4096)))

# The captures of examples/ whose exit status is 1: one side or the other broke the connection.
FAULTY = {"connection_overflow_nginx", "stream_overrun_go", "use_after_reset", "zero_increment_nginx"}


def answer_of(program: str, words: list[str], capture: bytes) -> str:
    """What a run leaves, line by line: its exit status, what standard error says, and the report."""
    ran = subprocess.run([program, *words], input=capture, capture_output=True, timeout=60)
    return f"status {ran.returncode}\n{ran.stderr.decode()}{ran.stdout.decode()}"


def always_answers(program: str, capture: bytes, wanted: str, *words: str, mixes: list[Mix] = MIXES) -> bool:
    """Whether a run leaves this answer in each mix."""
    return all(
        answer_of(program, [*words, f"--workers={workers}", f"--groups={groups}", f"--block={block}"], capture)
        == wanted
        for workers, groups, block in mixes
    )


def lines_of(text: str, frames_shown: bool) -> str:
    """The lines of a text that say something; those of credit only where they are shown."""
    lines = [line for line in text.splitlines() if line and not line.startswith("#")]
    return "".join(f"{line}\n" for line in lines if frames_shown or "-credit stream " not in line)


def row(program: str, text: str) -> bool:
    """Whether the capture of a row has the answer that the row asks for."""
    script, _, wanted = text.partition("-- ")
    capture, findings = capture_of(script), wanted.removeprefix("findings ")
    return always_answers(program, capture, lines_of(findings, False)) and (
        findings != wanted or always_answers(program, capture, lines_of(wanted, True), "--frames")
    )


def rows() -> Iterator[tuple[str, str]]:
    """Each row of the files, by its name."""
    for file in sorted(TOP.glob("tests/reports/*.rows")):
        for text in file.read_text().split("== ")[1:]:
            name, _, rest = text.partition("\n")
            yield name, rest


def example(program: str, capture: pathlib.Path) -> bool:
    """Whether the reports of a capture of examples/ are those that stand beside it."""
    status = f"status {int(capture.stem in FAULTY)}\n"
    script = capture.with_suffix(".script")
    return (
        (not script.exists() or capture_of(script.read_text()) == capture.read_bytes())
        and always_answers(program, capture.read_bytes(), status + capture.with_suffix(".report").read_text())
        and always_answers(
            program, capture.read_bytes(), status + capture.with_suffix(".frames.report").read_text(), "--frames"
        )
    )


def many_frames(program: str) -> bool:
    """13,606 frames in more than 33 MiB: the capture is read in more than 130 pieces, and the text grows often.

    A stream sends 6,800 DATA frames of 5,000 bytes, each granted back to the connection at once.
    """
    rounds = range(6800)
    opening, turn = "opened\nC HEADERS 1\nS WINDOW_UPDATE 1 36000000\n", "C DATA 1 5000\nS WINDOW_UPDATE 0 5000\n"
    capture = capture_of(opening + 6800 * turn)
    wanted = """status 0
capture records 13608 segments 13608 snapped 0 not-ipv4 0 fragments 0 not-tcp 0 refused 0
connection 1 client 10.0.0.1:40000 server 10.0.0.2:80 record 1 http2 frames 13606
flow client bytes 34061251 gap none tail 0
flow server bytes 88431 gap none tail 0
frame 5 record 7 time 7000 client stream-credit stream 1 value 65535
frame 5 record 7 time 7000 server stream-credit stream 1 value 65535
frame 6 record 8 time 8000 client stream-credit stream 1 value 36065535
"""
    for frame, left in ((7 + 2 * i, 36060535 - 5000 * i) for i in rounds):
        wanted += f"""\
frame {frame} record {frame + 2} time {frame + 2}000 client connection-credit stream 0 value 60535
frame {frame} record {frame + 2} time {frame + 2}000 client stream-credit stream 1 value {left}
frame {frame + 1} record {frame + 3} time {frame + 3}000 client connection-credit stream 0 value 65535
"""
    wanted += "audit of all frames\n"
    return len(capture) > 33 * 1048576 and always_answers(program, capture, wanted, "--frames")


def long_with_error(program: str, frame: int) -> bool:
    """A connection of 5,000 frames with an error at this one: a front of 156 frames is met by one worker first."""
    data = "C DATA 1 1\n"
    script = f"opened\nC HEADERS 1\n{data * (frame - 6)}S WINDOW_UPDATE 9 1\n{data * (5000 - frame)}"
    wanted = f"""status 1
capture records 5002 segments 5002 snapped 0 not-ipv4 0 fragments 0 not-tcp 0 refused 0
connection 1 client 10.0.0.1:40000 server 10.0.0.2:80 record 1 http2 frames 5000
flow client bytes 49991 gap none tail 0
flow server bytes 31 gap none tail 0
frame {frame} record {frame + 2} time {frame + 2}000 server not-opened stream 9 value 8
audit stopped at frame {frame}
"""
    return always_answers(program, capture_of(script), wanted)


def error_in_front(program: str) -> bool:
    return long_with_error(program, 101)


def error_past_front(program: str) -> bool:
    return long_with_error(program, 4001)


def many_openings(program: str) -> bool:
    """1,000 SYNs with numbers of their own are a connection each."""
    numbers = range(1, 1001)
    wanted = "status 0\ncapture records 1000 segments 1000 snapped 0 not-ipv4 0 fragments 0 not-tcp 0 refused 0\n"
    for number in numbers:
        wanted += f"""\
connection {number} client 10.0.0.1:40000 server 10.0.0.2:80 record {number} no-handshake
flow client bytes 0 gap none tail 0
flow server bytes 0 gap none tail 0
"""
    return always_answers(program, capture_of("empty\n" + "".join(f"SYN {number}\n" for number in numbers)), wanted)


def stalled(capture: Capture, number: int, turns: int) -> str:
    """Adds a connection whose client uses up a window of one byte and is granted one, so many times, and answers its
    section with credit lines."""
    capture.ends = {"C": ((CLIENT[0], number), SERVER), "S": (SERVER, (CLIENT[0], number))}
    first = capture.records + 1
    script = BEGINNINGS["opened"].replace("S SETTINGS", "S SETTINGS 4 1") + "C HEADERS 1\n"
    for step in (script + turns * "C DATA 1 1\nS WINDOW_UPDATE 1 1\n").splitlines():
        capture.step(step)

    def line(frame: int, rest: str) -> str:
        return f"frame {frame} record {first + frame + 1} time {first + frame + 1}000 {rest}\n"

    text = f"""\
connection {number} client 10.0.0.1:{number} server 10.0.0.2:80 record {first} http2 frames {5 + 2 * turns}
flow client bytes {51 + 10 * turns} gap none tail 0
flow server bytes {24 + 13 * turns} gap none tail 0
"""
    text += line(5, "client stream-credit stream 1 value 1") + line(5, "server stream-credit stream 1 value 65535")
    for turn in range(turns):
        text += line(6 + 2 * turn, "client stream-stall-begin stream 1 value 0")
        text += line(6 + 2 * turn, f"client connection-credit stream 0 value {65534 - turn}")
        text += line(6 + 2 * turn, "client stream-credit stream 1 value 0")
        text += line(7 + 2 * turn, "client stream-stall-end stream 1 value 1")
        text += line(7 + 2 * turn, "client stream-credit stream 1 value 1")
    for turn in range(turns):
        text += f"stall client stream 1 from {6 + 2 * turn} to {7 + 2 * turn} nanos 1000\n"
    return f"{text}audit of all frames\n"


def many_sections(program: str) -> bool:
    """1,500 connections of none to seven stalls, after each eighth of which one is merely opened. The report is longer
    than the pages of four workers together, and these begin at openings, findings, stalls and ends."""
    capture, sections, number = Capture(), "", 0
    for turns in itertools.islice(itertools.cycle(range(8)), 1500):
        number += 1
        sections += stalled(capture, number, turns)
        if turns == 7:
            number += 1
            capture.ends["C"] = ((CLIENT[0], number), SERVER)
            capture.syn("C", 1000, SYN)
            sections += f"""\
connection {number} client 10.0.0.1:{number} server 10.0.0.2:80 record {capture.records} no-handshake
flow client bytes 0 gap none tail 0
flow server bytes 0 gap none tail 0
"""
    counts = f"records {capture.records} segments {capture.records}"
    wanted = f"status 0\ncapture {counts} snapped 0 not-ipv4 0 fragments 0 not-tcp 0 refused 0\n{sections}"
    given, entries = bytes(capture.bytes), len(wanted.splitlines()) - 2 * (number + 1)
    return (
        entries > 4 * 8192
        and always_answers(program, given, lines_of(wanted, False), mixes=FEW_MIXES)
        and always_answers(program, given, wanted, "--frames", mixes=FEW_MIXES)
    )


def never_opened(program: str) -> bool:
    """1,024 streams that were never opened, the greatest first: the first frame's finding stands alone."""
    script = "opened\n" + "".join(f"S WINDOW_UPDATE {stream} 1\n" for stream in range(2047, 0, -2))
    wanted = """status 1
capture records 1030 segments 1030 snapped 0 not-ipv4 0 fragments 0 not-tcp 0 refused 0
connection 1 client 10.0.0.1:40000 server 10.0.0.2:80 record 1 http2 frames 1028
flow client bytes 42 gap none tail 0
flow server bytes 13330 gap none tail 0
frame 5 record 7 time 7000 server not-opened stream 2047 value 8
audit stopped at frame 5
"""
    return always_answers(program, capture_of(script), wanted)


def each_prefix(program: str) -> bool:
    """A prefix below a file header is refused. Every other one has a report: was a record cut, is a stall open?"""
    script = "opened\nC HEADERS 1\nC DATA 1 100\nS SETTINGS 4 0\nC ACK\nS WINDOW_UPDATE 1 100\nS WINDOW_UPDATE 1 1\n"
    capture = capture_of(script)
    # The lengths at which the capture ends with a whole record.
    whole = [24, 94, 164, 267, 346, 425, 504, 583, 762, 847, 926, 1009, 1092]
    stalled = """\
frame 8 record 10 time 10000 client stream-stall-begin stream 1 value -100
stall client stream 1 from 8 open
audit of all frames
"""

    def is_told(length: int) -> bool:
        text = answer_of(program, ["--workers=1", "--groups=1", "--block=1"], capture[:length])
        if length < 24:
            return text == "status 3\nh2audit: capture refused: short-header\n"
        told = (text.startswith("status 0\ncapture records "), " cut\n" in text, text.endswith(stalled))
        return told == (True, length not in whole, 926 <= length < 1092)

    return len(capture) == 1092 and all(is_told(length) for length in range(1093))


def spelling(_program: str) -> bool:
    """Scripts spell the bytes that were written out by hand."""
    handshake = """
        d4c3b2a1 0200 0400 00000000 00000000 00000400 01000000
        00000000 01000000 36000000 36000000  000000000000 000000000000 0800
        4500 0028 0000 0000 40 06 0000 0a000001 0a000002  9c40 0050 000003e8 00000000 5002 0000 0000 0000
        00000000 02000000 36000000 36000000  010000000000 000000000000 0800
        4500 0028 0000 0000 40 06 0000 0a000002 0a000001  0050 9c40 00001388 00000000 5012 0000 0000 0000
    """
    frames = {
        "DATA 1 2": "000002 00 00 00000001 0000",
        "DATA 1 1 END_STREAM": "000001 00 01 00000001 00",
        "PADDED 1 3 2": "000003 00 08 00000001 02 0000",
        "HEADERS 3": "000000 01 04 00000003",
        "HEADERS 3 END_STREAM": "000000 01 05 00000003",
        "HEADERS_OF 3 1": "000001 01 04 00000003 00",
        "PRIORITY 1 1": "000001 02 00 00000001 00",
        "RST_STREAM 9": "000004 03 00 00000009 00000000",
        "SETTINGS": "000000 04 00 00000000",
        "SETTINGS 4 65536": "000006 04 00 00000000 0004 00010000",
        "ACK": "000000 04 01 00000000",
        "PUSH_PROMISE 1 2": "000004 05 04 00000001 00000002",
        "PING": "000008 06 00 00000000 0000000000000000",
        "WINDOW_UPDATE 0 2147418112": "000004 08 00 00000000 7fff0000",
    }
    return capture_of("handshake\nSET 0 1\n") == bytes.fromhex(handshake) and all(
        frame_of(words.split()) == bytes.fromhex(spelled) for words, spelled in frames.items()
    )


def tests() -> Iterator[tuple[str, Test]]:
    """Each test's name, and what answers whether it is passed."""
    for test in (
        spelling,
        many_frames,
        error_in_front,
        error_past_front,
        many_openings,
        many_sections,
        never_opened,
        each_prefix,
    ):
        yield test.__name__, test
    for name, text in rows():
        yield name, functools.partial(row, text=text)
    for capture in sorted(EXAMPLES.glob("*.pcap")):
        yield capture.stem, functools.partial(example, capture=capture)


class Reports(unittest.TestCase):
    def test_each(self) -> None:
        """As many at a time as there are processors."""
        with ThreadPoolExecutor(os.cpu_count()) as pool:
            asked = [(name, program, pool.submit(test, program)) for program in PROGRAMS for name, test in tests()]
        self.assertGreater(len(asked), 100)
        for name, program, answer in asked:
            with self.subTest(name, program=program):
                self.assertTrue(answer.result())


if __name__ == "__main__":
    PROGRAMS = needed()
    unittest.main()
