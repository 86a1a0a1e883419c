"""Tests of h2audit-why on both ends of one connection over a wire that delays and loses packets.

    python3 -m tools.tests.why.place_test [H2AUDIT] [TEST..]
"""

import contextlib
import os
import subprocess
import sys
import time
import unittest

from tools.tests.peers import Peers, can_capture, process
from tools.tests.why.wire import SERVER, Loses, captured_at, lost_for, wire
from tools.tests.why_tools import Json, has_programs, programs_of, request_of, said_of

RUNS = ("$H2AUDIT",)
TIMED = True
ROUND_TRIP = 0.16
PORT = 8080


@unittest.skipUnless(can_capture, "network namespaces and tcpdump need root")
class Ends(Peers):
    def both(self, *words: str, loses: Loses = lambda _, __: False) -> list[Json]:
        """The connection of a download as each end of the wire has it: the client's, then the server's."""
        captures = [self.folder / "client.pcap", self.folder / "server.pcap"]
        try:
            made = self.enterContext(wire(ROUND_TRIP, loses))
        except (subprocess.CalledProcessError, FileNotFoundError, PermissionError):
            self.skipTest("no network namespaces can be made here")
        serves = [*made.within(1), "nghttpd", "--no-tls", "-a", SERVER, "-d", str(self.folder), str(PORT)]
        with contextlib.ExitStack() as stack:
            stack.enter_context(process(*serves))
            asks = [*made.within(0), "nghttp", "-n", *words, f"http://{SERVER}:{PORT}/large"]
            while subprocess.run([*asks[:-1], f"http://{SERVER}:{PORT}/small"], capture_output=True).returncode:
                time.sleep(0.1)
            for end, capture in enumerate(captures):
                stack.enter_context(captured_at(made, end, capture))
            subprocess.run(asks, capture_output=True, timeout=60)
        found = [said_of(capture)["connections"] for capture in captures]
        self.assertEqual([len(one) for one in found], [1, 1])
        return [one[0] for one in found]

    def test_place(self) -> None:
        """TCP tells the round trip and the end; the small window shows at the server alone."""
        here, there = self.both("-w16", "-W16")
        self.assertEqual((here["captured_at"], there["captured_at"]), ("client", "server"))
        for one in (here, there):
            self.assertEqual(one["round_trip"]["source"], "tcp")
            self.assertGreater(one["round_trip"]["nanos"], 0.95 * ROUND_TRIP * 1e9)
        cause = request_of(there, "/large")["cause"]
        self.assertEqual((cause["why"], cause["ask"], cause["proved"]), ("round-trip", "client", True))
        self.assertEqual(request_of(here, "/large")["cause"]["why"], "unshown", request_of(here, "/large"))
        self.assertIn("captured at the client: a stall of the server may not show", here["limits"][0])

    def test_loss(self) -> None:
        """Content that is lost for a second: TCP held it, and nobody is asked."""
        here, there = self.both("-w24", "-W24", loses=lost_for(1, end=1, number=40))
        for one in (here, there):
            cause = request_of(one, "/large")["cause"]
            self.assertEqual((cause["kind"], cause["ask"]), ("tcp", None), cause)
            self.assertIn(cause["why"], ("resent", "hole", "within-frame"))
        self.assertEqual((here["faults"], there["faults"]), ([], []))


if __name__ == "__main__":
    sys.argv = programs_of(sys.argv)
    os.environ["PATH"] += ":/usr/sbin:/sbin"
    if not has_programs():
        sys.exit("h2audit or h2audit-import is not built")
    unittest.main()
