"""Tests of the page of a capture without a browser: what it takes from the answer of h2audit-why, which is made by
hand here, and what it says of a report alone.
"""

import base64
import html
import json
import pathlib
import random
import string
import unittest
import zlib
from typing import Any
from unittest import mock

from h2audit.page import waterfall
from h2audit.page.series import series_of
from h2audit.page.spans import joined
from h2audit.page.summary import top
from h2audit.page.top import asked, headline
from tools.tests.page.answers import (
    FLOWS,
    HEAD,
    MS,
    START,
    at,
    audit_of,
    connection,
    document_of,
    doubtful,
    finding,
    many,
    opening,
    page_of,
    stalled,
)
from tools.tests.page.page_test import Tags

QUICK = True
TOP = pathlib.Path(__file__).resolve().parents[3]


def rows(text: str) -> list[str]:
    return ["|".join(cells) for _, cells in Tags(text).rows]


class OpenStalls(unittest.TestCase):
    """A stall that has no end lasts up to the connection's last packet, everywhere."""

    def test_with_the_capture(self) -> None:
        report, document = stalled()
        text = page_of(report, document)
        self.assertIn(
            "2 s up to the connection's end, and no end was seen|server, 10.0.0.2:443|stream 1|"
            "connection 1, frame 10, packet 10",
            rows(text),
        )
        self.assertIn("server, stream 1|0|1|2 s|2 s|0|2,147,483,647|0", rows(text))
        (window,) = [one for one in audit_of(report, document).windows if one.stream == 1]
        self.assertEqual((window.connection.start, series_of(window).times[-1]), (START, START + 2100 * MS))

    def test_of_a_report_alone(self) -> None:
        """What is not known is not said to be 0."""
        report, _ = stalled()
        text = page_of(report)
        self.assertIn("no end was seen|server, 10.0.0.2:443|stream 1|connection 1, frame 10, packet 10", rows(text))
        self.assertNotIn("waited 0 ns", text)

    def test_no_time_is_no_stall(self) -> None:
        report, document = stalled()
        for text in (page_of(report), page_of(report, document)):
            self.assertIn("1 fault, 1 stall.", text)
            self.assertIn("and had more in the same instant, in packet 9 (stream-stall-begin); nobody broke a", text)
            self.assertNotIn("|server, 10.0.0.2:443|stream 5|", "".join(rows(text)))


class Sentences(unittest.TestCase):
    def test_the_answers_own_sentence(self) -> None:
        report, document = stalled()
        self.assertIn('<p class="headline">Flow control held back 1 request.</p>', page_of(report, document))

    def test_of_a_report(self) -> None:
        report, _ = stalled()
        self.assertEqual(
            headline(audit_of(report)),
            "The client broke RFC 9113, 6.9 (zero-stream-grant). The client, 10.0.0.1, gave no credit up to the end of "
            "what was found, in 1 connection.",
        )
        end = "audit of all frames\n"
        clean = HEAD + opening(1) + FLOWS + end
        self.assertEqual(headline(audit_of(clean)), "No rule was broken. No side used up its credit.")
        line = finding(1, 5, "client", "stream-stall-begin", 1, 0) + finding(
            2, 8 * MS, "client", "stream-stall-end", 1, 9
        )
        said = "No rule was broken. The server, 10.0.0.2:443, held back the client for 8 ms, in 1 connection."
        self.assertEqual(headline(audit_of(HEAD + opening(1) + FLOWS + line + end)), said)

    def test_what_was_not_audited_limits_it(self) -> None:
        """No rule is said to be kept where something was not audited, which stands below by its name."""
        other = opening(2).replace("http2 frames 40", "refused no-key") + FLOWS
        text = top(audit_of(HEAD + opening(1) + FLOWS + "audit of all frames\n" + other))
        self.assertIn("No rule was broken in what was audited.", text)
        self.assertIn("1 connection of TLS without a key in the key logs (-k): connection 2 (10.0.0.1:2 to 10", text)
        self.assertNotIn("no-key", text)

    def test_a_grant_of_nothing(self) -> None:
        """A side that granted 0 is not asked why it granted nothing."""
        text = page_of(stalled()[0])
        self.assertNotIn("granted nothing", text)
        self.assertIn("ask the client, whose window it is", text)

    def test_limits_of_the_answer(self) -> None:
        report, document = stalled()
        document["warnings"] = [{"text": "times go back", "connection": None}, {"text": "bytes", "connection": 1}]
        document["connections"][0]["limits"] = ["captured at the client, where stalls do not show"]
        document["not_audited"] = [{"reason": "unopened", "text": "3 connections that began before the capture"}]
        text = page_of(report, document)
        for said in (
            "<li>Times go back.</li>",
            "<li>Connection 1: bytes.</li>",
            "<li>Connection 1: captured at the client, where stalls do not show.</li>",
            "<li>Not audited: 3 connections that began before the capture.</li>",
        ):
            self.assertIn(said, text)

    def test_a_connection_that_was_joined(self) -> None:
        report, document = stalled()
        document["connections"][0]["joined"] = {"text": ["began before the capture: windows are inferred"]}
        self.assertIn("<li>Began before the capture: windows are inferred.</li>", page_of(report, document))


class Doubts(unittest.TestCase):
    """Who may have broken a rule is not said to have broken it."""

    def test_none_is_certain(self) -> None:
        text = page_of(*doubtful())
        said = rows(text)
        doubt = "It is gone if the SETTINGS in packet 4 count from there on: the server had not acknowledged them."
        self.assertIn("the server, 10.0.0.2:443|stream-overrun|RFC 9113, 6.9.1|18|1|connection 1, frame 10, packet 10|"
                      + doubt, said)  # fmt: skip
        self.assertNotIn("Who broke which rule", text)
        self.assertIn("18 doubtful faults, 0 stalls.", text)
        self.assertIn("Verdict: 18 doubtful faults.", text)
        (first, *more) = [row.split("|") for row in said if "its window: 65,535 at first. " + doubt in row]
        self.assertEqual((first[:3], len(more)), (["10", "10", "100 ms"], 17))
        self.assertTrue(first[3].startswith("Doubtful: server sent 5 bytes past its credit on stream 1"), first)

    def test_some_are(self) -> None:
        """Each has its own table, and the sums tell them apart, also in the charts."""
        report, document = doubtful()
        document["connections"][0]["faults"][0].update(certainty="certain", doubt=None)
        text = page_of(report, document)
        said = [row.split("|")[:4] for row in rows(text) if "|stream-overrun|" in row]
        self.assertEqual([row[-1] for row in said], ["1", "17"])
        self.assertIn("Verdict: 18 faults (17 of them doubtful).", text)
        window = audit_of(report, document).windows[0]
        self.assertEqual([kind for _, kind, _, _ in series_of(window).faults],
                         [("stream-overrun", number > 0) for number in range(18)])  # fmt: skip

    def test_of_a_report(self) -> None:
        """What a report does not tell is not said."""
        report, _ = doubtful()
        text = page_of(report)
        self.assertIn("Who broke which rule", text)
        self.assertNotIn("oubtful", "".join(rows(text)))


class Known(unittest.TestCase):
    """What h2audit-why tells of a connection beside its findings."""

    def page(self, **members: Any) -> str:
        report, document = stalled()
        document["connections"][0].update(members)
        return page_of(report, document)

    def test_facts(self) -> None:
        text = self.page(
            notes=["the server answered by HTTP/1.1 400 in packet 7: it speaks no HTTP/2 here"],
            round_trip={"nanos": 160 * MS, "source": "http2"},
            captured_at="between",
            uncaptured={"client": 0, "server": 1460},
            tls="TLS 1.3",
        )
        for said in (
            "The server answered by HTTP/1.1 400 in packet 7: it speaks no HTTP/2 here.",
            "Round trip 160 ms, by HTTP/2's reactions.",
            "Captured between the peers.",
            "1,460 bytes that the server sent were acknowledged, and no packet has them.",
            "TLS: TLS 1.3.",
        ):
            self.assertIn(f"<li>{html.escape(said)}</li>", text)

    def test_settings(self) -> None:
        settings = [
            {"side": "client", "initial_window": 100000, "at": at(4, START, 1), "acknowledged": at(7, START, 3)},
            {"side": "server", "initial_window": 0, "at": at(5, START, 2), "acknowledged": None},
        ]
        said = rows(self.page(settings=settings))
        self.assertIn("the client|100,000|packet 4|packet 7", said)
        self.assertIn("the server|0|packet 5|not acknowledged", said)
        self.assertIn("51 more", [row.split("|")[0] for row in rows(self.page(settings=settings * 50 + settings[:1]))])

    def test_signals(self) -> None:
        signal = {"side": "server", "code": 3, "code_name": "FLOW_CONTROL_ERROR", "at": at(90, START, 30)}
        goaway = {**signal, "word": "GOAWAY", "stream": 0, "last_stream": 7, "debug": "<too much>"}
        reset = {**signal, "word": "RST_STREAM", "stream": 5, "last_stream": None, "debug": None}
        fin = {"how": "FIN", "side": "server", "code_name": None, "at": at(91, START)}
        said = rows(self.page(signals=[goaway, reset], ended=fin))
        self.assertIn("the server|GOAWAY|FLOW_CONTROL_ERROR|packet 90|last stream 7|<too much>", said)
        self.assertIn("the server|RST_STREAM|FLOW_CONTROL_ERROR|packet 90|stream 5", said)
        self.assertIn("the server|FIN|packet 91|the connection", said)
        said = rows(self.page(signals=[reset], ended={**fin, "side": "client", "how": "RST"}))
        self.assertIn("the client|RST|packet 91|the connection, no GOAWAY", said)

    def test_requests(self) -> None:
        """The whole life, a status of gRPC, a push, and an end that was not captured."""
        report, document = stalled()
        document["connections"][0]["requests"][0].update(
            life="2.05 s: the server's window 2 s (98 %)", grpc_status=14, grpc_status_name="UNAVAILABLE", stream=2,
            end_unseen=True, name=None,
        )  # fmt: skip
        self.assertIn(
            "pushed (name unknown)|2|1|200 grpc UNAVAILABLE|2.05 s|HUNG for 2 s: the client granted nothing|"
            "2.05 s: the server's window 2 s (98 %)|the client|its end was not captured",
            rows(page_of(report, document)),
        )

    def test_all_is_bounded(self) -> None:
        """What peers wrote at length, and very often, makes no page of 5 MB."""
        report, document = many(60, 20)
        letters = random.Random(1)
        long = ["".join(letters.choices(string.printable[:94], k=1024)) for _ in range(1024)]
        signal: dict[str, Any] = {"word": "GOAWAY", "side": "server", "code": 3, "code_name": "FLOW_CONTROL_ERROR",
                                  "stream": 0, "last_stream": 7, "at": at(90, START, 30)}  # fmt: skip
        setting = {"side": "client", "initial_window": 10**5, "at": at(4, START, 1), "acknowledged": None}
        for one in document["connections"]:
            one["settings"] = [setting] * 1000
            one["signals"] = [{**signal, "debug": debug} for debug in long]
            one["notes"] = long[:2]
            for request, name in zip(one["requests"], long):
                request["name"] = name
        document["not_audited"] = [
            {"reason": f"gap {at}", "count": 1, "text": f"1 connection {at}"} for at in range(9999)
        ]
        text = page_of(report, document)
        self.assertLess(len(text.encode()), 5 * 10**6)
        self.assertIn("9,899 reasons more, which h2audit-why tells.", text)

    def test_many_warnings(self) -> None:
        report, document = stalled()
        document["warnings"] = [{"text": f"bytes are missing from {at}", "connection": 1} for at in range(30000)]
        text = page_of(report, document)
        self.assertEqual(text.count("bytes are missing from"), 100)
        self.assertIn("<li>29,900 warnings more, which h2audit-why tells.</li>", text)


class Sums(unittest.TestCase):
    def test_the_same_instant_counts_once(self) -> None:
        """Three streams of two connections wait from one instant on: one row, and a sum without overlaps."""
        report = HEAD
        for number in (1, 2):
            lines = [finding(4, 10 * MS, "server", "stream-stall-begin", stream, 0) for stream in (1, 3, 5)]
            lines += [finding(9, 30 * MS, "server", "stream-stall-end", stream, 9) for stream in (1, 3, 5)]
            report += opening(number) + FLOWS + "".join(lines) + "audit of all frames\n"
        (found,) = asked(audit_of(report))
        self.assertEqual((found.times, found.longest, found.nanos), (6, 20 * MS, 40 * MS))
        said = [row for row in rows(page_of(report)) if row.startswith("20 ms|server")]
        self.assertEqual(
            said,
            [f"20 ms|server, 10.0.0.2:443|streams 1, 3, 5|connection {number}, frame 4, packet 4" for number in (1, 2)],
        )


class Causes(unittest.TestCase):
    def test_whom_to_ask(self) -> None:
        """Each cause that h2audit-why sums up has a row, and words."""
        report, document = stalled()
        sums = {"times": 3, "connections": 2, "longest": 20 * MS, "nanos": 50 * MS}
        for kind, why, words in (
            ("stream-window", "granted-nothing", "its window of a stream: no grant came"),
            ("application", "before", "its application: it took long to begin"),
        ):
            document["asked"] = [{"side": "client", "peer": "10.0.0.1", "kind": kind, "why": why, **sums}]
            text = page_of(report, document)
            self.assertIn(f"the client, 10.0.0.1|{words}|3|2|20 ms|50 ms", rows(text))

    def test_nobody_to_ask(self) -> None:
        report, document = stalled()
        document["asked"] = [{"side": None, "peer": None, "kind": "tcp", "why": "resent", "times": 1, "connections": 1,
                              "longest": 20 * MS, "nanos": 20 * MS}]  # fmt: skip
        text = page_of(report, document)
        self.assertIn("nobody: the path between them|TCP: bytes were sent again|1|1|20 ms|20 ms", rows(text))


class TimeZero(unittest.TestCase):
    """Times count from the SYN with and without the credit lines; a report alone has no time of it."""

    def test_both_forms(self) -> None:
        report, document = stalled()
        without = "".join(line for line in report.splitlines(True) if "-credit stream" not in line)
        for said in (document, None):
            moments = [[cells.split("|")[2] for cells in rows(page_of(one, said)) if "(zero-stream" in cells]
                       for one in (report, without)]  # fmt: skip
            self.assertEqual(moments[0], moments[1])
            self.assertEqual(moments[0], ["80 ms"] if said else ["2023-11-14 22:13:20.080000000"])


class Requests(unittest.TestCase):
    def packed(self, text: str) -> Any:
        (data,) = [text for one, text in Tags(text).texts["script"] if one.get("id") == "request-data"]
        return json.loads(zlib.decompress(base64.b64decode(data)))

    def test_each_is_in_the_table(self) -> None:
        text = page_of(*stalled())
        self.assertIn(
            "GET /hung|1|1|200|2.05 s|HUNG for 2 s: the client granted nothing|the client|not ended: the capture ends",
            rows(text),
        )
        names = [one["name"] for one in self.packed(text)["requests"]]
        self.assertEqual(names, ["GET /faulty", "GET /hung", "GET /calm"])

    def test_spans_and_marks(self) -> None:
        said = self.packed(page_of(*stalled()))
        faulty, hung, _ = said["requests"]
        self.assertEqual(hung["server"]["spans"], [50 * MS, 1, 2000 * MS, 2])
        self.assertEqual((faulty["marks"], hung["hung"]), ([[80 * MS, "zero-stream-grant", 1]], 1))

    def test_no_request(self) -> None:
        text = page_of(HEAD + opening(1) + FLOWS + finding(1, 5, "client", "connection-credit", 0, 9),
                       document_of([connection(1, 9, [])]))  # fmt: skip
        self.assertFalse(any(one.get("id") == "requests" for _, one in Tags(text).elements))

    def test_hostile_names(self) -> None:
        report, document = stalled()
        plain = [tag for tag, _ in Tags(page_of(report, document)).elements]
        for evil in ("</script><b>", "<img src=x onerror=alert(1)>", "\x01\u202e", "x" * 99999):
            document["connections"][0]["requests"][0]["name"] = evil
            document["connections"][0]["requests"][0]["cause"]["text"] = evil
            text = page_of(report, document)
            self.assertEqual([tag for tag, _ in Tags(text).elements], plain)
            self.assertLess(len(text), 600_000)

    def test_joined_spans_take_the_same_time(self) -> None:
        spans = [(at, at + 1, "sending" if at % 2 else "stream_stall") for at in range(1000)]
        for most in (512, 64, 4):
            found = joined(spans, most)
            self.assertLessEqual(len(found), most)
            self.assertEqual(sum(nanos for _, nanos, _ in found), sum(range(1001)))
        self.assertEqual(joined(spans, 1000), spans)

    def test_too_many_are_left_out(self) -> None:
        """Those with the least trouble, and the page says so."""
        report, document = many(2, 300)
        with mock.patch.object(waterfall, "MOST_BYTES", 6000):
            text = page_of(report, document)
        said = self.packed(text)["requests"]
        self.assertLess(len(said), 600)
        self.assertIn(f"The waterfall has {len(said)} of 600 requests, those with most trouble.", text)
        self.assertEqual(sum(one["cause"] == "stream-window" for one in said), 86)


if __name__ == "__main__":
    unittest.main()
