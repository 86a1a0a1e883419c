"""Tests of h2audit-why on stored and random captures: shares, the report's numbers, names, JSON.

    python3 -m tools.tests.why.captures_test [H2AUDIT] [TEST..]
"""

import json
import pathlib
import random
import subprocess
import sys
import unittest
from collections import Counter
from collections.abc import Iterator

from tools.tests import random_captures
from tools.tests.packages import needs
from tools.tests.why_tools import TOP, OnCaptures, Refused, has_programs, programs_of, ran, said_of, words_for

RUNS = ("$H2AUDIT",)
QUICK = True
EXAMPLES = sorted((TOP / "examples").glob("*.pcap"))
TLS = sorted(path for path in (TOP / "tests" / "tls").iterdir() if path.suffix in (".pcap", ".pcapng"))
SCHEMA = json.loads((TOP / "companions" / "why" / "schema.json").read_text())
RANDOM_CAPTURES = 300


class Stored(OnCaptures):
    """The captures of examples/ and tests/tls."""

    def test_all(self) -> None:
        self.assertGreater(len(EXAMPLES) + len(TLS), 20)
        import jsonschema  # type: ignore[import]

        validator = jsonschema.Draft202012Validator(SCHEMA)
        for capture in EXAMPLES + TLS:
            with self.subTest(capture.name):
                words = words_for(capture)
                found = said_of("--no-joined", *words)
                validator.validate(found)
                self.sums(found)
                self.same_numbers(found, self.report_of(*words))

    def test_lines(self) -> None:
        """Each line of --json-lines is as the schema says, and there is one for each request."""
        import jsonschema

        validator = jsonschema.Draft202012Validator({**SCHEMA["$defs"]["line"], "$defs": SCHEMA["$defs"]})
        for capture in EXAMPLES:
            words = words_for(capture)
            lines = [json.loads(line) for line in ran("--json-lines", *words).stdout.splitlines()]
            self.assertEqual(len(lines), said_of(*words)["summary"]["requests"])
            for line in lines:
                validator.validate(line)

    def test_both_ends(self) -> None:
        """The stall that shows at the sender is found at the receiver too, where none shows."""
        found = []
        for end in ("client", "server"):
            (connection,) = said_of(str(TOP / "examples" / f"round_trip_{end}_side.pcap"))["connections"]
            (request,) = connection["requests"]
            self.assertEqual((connection["captured_at"], request["cause"]["ask"]), (end, "client"))
            found.append(request["cause"]["nanos"])
        self.assertAlmostEqual(found[0] / found[1], 1, delta=0.05)

    def test_same_bytes(self) -> None:
        for form in ((), ("--json",), ("--json-lines",), ("--all",)):
            one, other = (ran(*form, EXAMPLES[1]) for _ in range(2))
            self.assertEqual((one.stdout, one.returncode), (other.stdout, other.returncode))
            self.assertTrue(one.stdout)

    @needs("tshark")
    def test_by_tshark(self) -> None:
        """Names of requests, GOAWAY and RST_STREAM with their codes are those that tshark sees."""
        names = 0
        for capture in EXAMPLES + TLS:
            with self.subTest(capture.name):
                words = words_for(capture)
                found = said_of("--query", *words)
                made = self.made_of(*words)
                http2 = [one for one in found["connections"] if one["outcome"] == "http2"]
                ports = {one["server"].rpartition(":")[2] for one in http2}
                requests = [request for one in http2 for request in one["requests"]]
                paths = sorted(request["path"] for request in requests if request["path"])
                self.assertEqual(paths, sorted(tshark(made, ports, "http2.headers.path", "http2.headers.path")))
                names += len(paths)
                signals = [signal for one in http2 for signal in one["signals"]]
                goaways = sorted(str(signal["code"]) for signal in signals if signal["word"] == "GOAWAY")
                self.assertEqual(goaways, sorted(tshark(made, ports, "http2.type == 7", "http2.goaway.error")))
                seen = Counter(tshark(made, ports, "http2.type == 3", "http2.rst_stream.error"))
                # A stream that both sides had ended before is not ended by a reset.
                ended = Counter(str(one["ended"]["code"]) for one in requests if one["ended"]["how"] == "RST_STREAM")
                self.assertLessEqual(ended, seen)
                errors = Counter(str(signal["code"]) for signal in signals if signal["word"] == "RST_STREAM")
                self.assertEqual(errors, Counter({code: n for code, n in seen.items() if code not in ("0", "7", "8")}))
        self.assertGreater(names, 100)


def tshark(capture: pathlib.Path, ports: set[str], only: str, field: str) -> Iterator[str]:
    """The values of a field as tshark reads these ports as HTTP/2."""
    ways = [word for port in sorted(ports) for word in ("-d", f"tcp.port=={port},http2")]
    words = ["tshark", "-n", "-r", str(capture), *ways, "-o", "tcp.reassemble_out_of_order:TRUE", "-Y", only]
    run = subprocess.run([*words, "-T", "fields", "-E", "aggregator=|", "-e", field], capture_output=True, text=True)
    for line in run.stdout.splitlines():
        yield from (word for word in line.split("|") if word)


class Random(OnCaptures):
    """Random captures: shares sum to the life, and the numbers are the report's."""

    def test_all(self) -> None:
        kinds: dict[str, int] = {}
        path = self.folder / "random.pcap"
        for seed in range(RANDOM_CAPTURES):
            with self.subTest(seed):
                source = random.Random(seed)
                made = random_captures.script(source) if seed % 2 else random_captures.capture(source)
                path.write_bytes(made)
                try:
                    found = said_of("--no-joined", str(path))
                except Refused:
                    continue
                self.sums(found)
                self.same_numbers(found, self.report_of(str(path)))
                verdict = found["summary"]["verdict"]
                kinds[verdict] = kinds.get(verdict, 0) + 1
        self.assertGreater(kinds["faults"], 20)
        self.assertGreater(kinds["nothing-audited"], 5)


if __name__ == "__main__":
    sys.argv = programs_of(sys.argv)
    if not has_programs():
        sys.exit("h2audit or h2audit-import is not built")
    unittest.main()
