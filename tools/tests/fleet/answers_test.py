"""Tests of requests in h2audit-fleet under misfortunes: python3 -m tools.tests.fleet.answers_test PROGRAM

Want of memory, time and programs, lost workers, hostile captures, large ones in parts, and what is left behind.
"""

import contextlib
import os
import pathlib
import shutil
import signal
import sqlite3
import stat
import struct
import unittest
from unittest import mock

from h2audit.fleet import tasks
from tests.captures import PREFACE, SYN, SYN_ACK, Capture, frame
from tools.tests.fleet import parts_test as parts
from tools.tests.fleet.captures import PATIENCE, PROGRAM, TOP, Machine, beside, until
from tools.tests.fleet.cluster_test import Cluster
from tools.tests.fleet.imports_test import SPLIT, TABLES, Imported, over_tls
from tools.tests.fleet.requests_test import NEW_TABLES, Base, link_programs, name_programs, rows_of, sorted_rows
from tools.tests.fleet.rows import Row
from tools.tests.request_captures import block
from tools.tests.why_tools import LONGEST_NAME, said_of

RUNS = ("$H2AUDIT Misfortunes", "$H2AUDIT Names Owner", "$H2AUDIT Large")
TIMED = True
EXAMPLES = ("paused_stream_node", "stream_overrun_go")
ASKED = "outcome, status, reason, tries, requests"


@unittest.skipUnless(PROGRAM, "requests: h2audit is not built")
class OnMachine(unittest.TestCase):
    def setUp(self) -> None:
        self.machine = Machine([], None)
        self.machine.__enter__()
        self.addCleanup(self.machine.__exit__)
        link_programs(self.machine)

    def add(self, *names: str) -> None:
        for name in names:
            shutil.copy(TOP / "examples" / f"{name}.pcap", self.machine.captures)

    def instead(self, script: str, name: str = "h2audit-why") -> None:
        """A shell goes through a script before the program."""
        program = beside(name) if name != "h2audit" else PROGRAM
        self.machine.script(name, f'cd {self.machine.folder}\n{script}\nexec {program} "$@"\n')

    def run_fleet(self, *words: str) -> int:
        status, said, error = self.machine.run("--jobs", "2", "--requests", *words, "captures")
        self.assertEqual(error, "", said)
        return status

    def check_nothing_left(self) -> None:
        self.assertEqual(list((self.machine.folder / "temporary").iterdir()), [])

    def told(self) -> int:
        return int(self.machine.ask("SELECT COUNT(*) FROM requests")[0][0])


class Misfortunes(OnMachine):
    def setUp(self) -> None:
        super().setUp()
        self.add(*EXAMPLES)

    def test_named(self) -> None:
        """Want of memory or of time, a signal: the report stands, and the reason is said."""
        cases = (
            ("echo 'h2audit-why: out of memory' >&2; exit 5", "no requests: out-of-memory"),
            ("kill -9 $$", "no requests: signal 9"),
            ("sleep 60", "no requests: timeout"),
            ("echo 'h2audit-why: the report is not about it' >&2; exit 4", "no requests: read-failed"),
        )
        for script, reason in cases:
            self.instead(script)
            self.machine.database.unlink(missing_ok=True)
            self.assertEqual(self.run_fleet("--timeout", "3", "--retries", "1"), 3)
            rows = self.machine.ask(f"SELECT {ASKED} FROM captures ORDER BY path")
            self.assertEqual(rows, [("partial", status, reason, 2, None) for status in (0, 1)])
            self.assertEqual(self.machine.ask("SELECT COUNT(*) FROM findings WHERE broke <> 'nobody'"), [(1,)])
            self.assertEqual(self.machine.ask("SELECT DISTINCT reason FROM not_audited"), [(f"partial: {reason}",)])
            self.assertEqual(self.told(), 0)
            self.check_nothing_left()
        self.machine.link("h2audit-why", beside("h2audit-why"))
        self.assertEqual(self.run_fleet("--resume"), 1)
        rows = self.machine.ask("SELECT outcome, reason, requests > 0 FROM captures")
        self.assertEqual(rows, [("audited", None, 1)] * 2)

    def test_once(self) -> None:
        """What fails once is tried again, and then stands."""
        self.instead("[ -e failed ] || { : > failed; exit 5; }")
        self.assertEqual(self.run_fleet("--jobs", "1"), 1)
        rows = self.machine.ask("SELECT outcome, tries FROM captures ORDER BY tries")
        self.assertEqual(rows, [("audited", 1), ("audited", 2)])

    def test_no_rows(self) -> None:
        """What is no row fails the capture, which has no row of any kind then."""
        first = "printf 'h2audit-rows 3\\n[\"captures\",1,1,0,0,0,0,0]\\n'; "
        long = '["certainty", 1, 6, "client", "push", 1, "certain", null, "%s"]'
        for script, why in (
            ("echo text", "no rows, or those of another version"),
            ("true", "no rows, or those of another version"),
            (first + "echo text", "line 3 of the rows is none"),
            (first + "echo '[\"captures\", 1]'", "line 3 of the rows is none"),
            (first + "echo '[\"certainty\", 1]'", "line 3 of the rows is none"),
            (first + "echo '[[], 1]'", "line 3 of the rows is none"),
            (first + "echo '" + long.replace("%s", "\\u001b[31m") + "'", "line 3 of the rows is none"),
            (first + "echo '" + long.replace("%s", "\\ud800") + "'", "line 3 of the rows is none"),
            (first + "head -c 3000000 /dev/zero", "line 3 of the rows is none"),
            (first + "yes '[' | head -n 100000 | tr -d '\\n'", "line 3 of the rows is none"),
            (first + "echo '" + long.replace("6,", f"{1 << 63},") + "'", "a number is too large"),
            (first + f"for n in 1 2; do echo '{long}'; done", "UNIQUE constraint failed: certainty"),
            (first + "echo '" + long.replace("certain", "sure", 2) + "'", "line 3 of the rows is none"),
            (first + "echo '" + long.replace('"certain"', '"sure"') + "'", "CHECK constraint failed"),
        ):  # fmt: skip
            find = 'for word; do [ "$before" = --rows ] && rows=$word; before=$word; done'
            report = f'{beside("h2audit-why")} "$@"'
            self.machine.script("h2audit-why", f'{find}\n{report}\n{{ {script}; }} > "$rows"\nexit 0\n')
            self.machine.database.unlink(missing_ok=True)
            self.assertEqual(self.run_fleet(), 3, script)
            for outcome, reason in self.machine.ask("SELECT outcome, reason FROM captures"):
                self.assertEqual(outcome, "failed")
                self.assertTrue(reason.startswith(f"bad-report: {why}"), (script, reason))
            for table in (*TABLES[1:], *NEW_TABLES):
                self.assertEqual(self.machine.ask(f"SELECT COUNT(*) FROM {table}"), [(0,)], table)

    def test_no_program(self) -> None:
        """Without h2audit-why the row says so, at once; h2audit-any and h2audit-import are not asked for."""
        path = os.fsencode(self.machine.captures / f"{EXAMPLES[0]}.pcap")
        order: tasks.Order = {"keys": [], "timeout": 60.0, "split_above": 0, "requests": "named"}
        for name in ("h2audit-any", "h2audit-import"):
            (self.machine.bin / name).unlink()
        with mock.patch.dict(os.environ, self.machine.surroundings):
            self.assertEqual(tasks.audit(path, order)["outcome"], "audited")
            (self.machine.bin / "h2audit-why").unlink()
            answer = tasks.audit(path, order)
        self.assertEqual((answer["outcome"], answer["reason"]), ("failed", "no-program h2audit-why"))

    def test_killed_worker(self) -> None:
        """A worker is killed while it tells of a capture: another does, and nothing is left."""
        self.instead("[ -e killed ] || { : > killed; kill -9 $PPID; sleep 60; }")
        self.assertEqual(self.run_fleet(), 1)
        self.assertTrue((self.machine.folder / "killed").exists())
        self.assertEqual(self.machine.ask("SELECT DISTINCT outcome FROM captures"), [("audited",)])
        self.assertGreater(self.told(), 0)
        self.check_nothing_left()

    def test_interrupted(self) -> None:
        """Ctrl-C while a capture is told of: no file with a name is left, and --resume goes on."""
        self.instead("[ -e go ] || { : > at; sleep 90; }")
        words = ("--jobs", "2", "--requests", "--resume", "captures")
        child = self.machine.start(*words, start_new_session=True)
        until((self.machine.folder / "at").exists)
        (scratch,) = (self.machine.folder / "temporary").glob("h2audit-fleet-*")
        found = [scratch, *scratch.iterdir()]
        self.assertGreater(len(found), 1)
        self.assertEqual({stat.S_IMODE(folder.stat().st_mode) for folder in found}, {0o700})
        os.killpg(child.pid, signal.SIGINT)
        _, error = child.communicate(timeout=PATIENCE)
        self.assertEqual((child.returncode, error.count("\n")), (130, 1), error)
        self.check_nothing_left()
        self.assertEqual(self.machine.ask("SELECT COUNT(*) FROM captures"), [(0,)])
        (self.machine.folder / "go").touch()
        self.assertEqual(self.run_fleet("--resume"), 1)
        self.assertGreater(self.told(), 0)

    def test_interrupted_files(self) -> None:
        """Ctrl-C while programs put one file after the other into the folder of the run: none is left."""
        self.machine.script(
            "h2audit-why",
            'while [ "$1" != --rows ]; do shift; done\n'
            'while :; do n=$(((n + 1) % 200)); : > "$2.$n"; [ $n != 199 ] || : > "$FLEET_ORDERS.at"; done\n',
        )
        for number in (signal.SIGINT, signal.SIGTERM):
            (self.machine.folder / "orders.json.at").unlink(missing_ok=True)
            child = self.machine.start("--jobs", "2", "--requests", "--resume", "captures", start_new_session=True)
            until((self.machine.folder / "orders.json.at").exists)
            os.killpg(child.pid, number)
            _, error = child.communicate(timeout=PATIENCE)
            self.assertEqual((child.returncode, error.count("\n")), (128 + number, 1), error)
            self.check_nothing_left()

    def test_refused(self) -> None:
        """Files that are no capture are refused as ever, and have no requests."""
        for name, octets in (("empty.pcap", b""), ("text.pcap", b"no capture at all, but text of some length")):
            (self.machine.captures / name).write_bytes(octets)
        self.assertEqual(self.run_fleet(), 3)
        rows = self.machine.ask("SELECT outcome, reason, requests FROM captures WHERE outcome <> 'audited' ORDER BY 2")
        self.assertEqual(rows, [("refused", "bad-magic", None), ("refused", "short-header", None)])

    def test_words(self) -> None:
        for words in (("--requests", "--unnamed-requests", "captures"), ("--requests", "--collect", "captures")):
            status, said, error = self.machine.run(*words)
            self.assertEqual((status, said, error.count("\n")), (2, "", 1), error)


class Names(OnMachine):
    def capture_of(self, name: str, requests: list[bytes], answers: list[bytes] | None = None) -> pathlib.Path:
        made = Capture()
        made.syn("C", 1000, SYN)
        made.syn("S", 5000, SYN_ACK)
        made.send("C", PREFACE + frame(4, 0, 0))
        made.send("S", frame(4, 0, 0, struct.pack(">HI", 1, 1 << 16)))
        for at in range(0, len(requests), 2000):
            octets = b"".join(requests[at : at + 2000])
            for begin in range(0, len(octets), 40_000):
                made.send("C", octets[begin : begin + 40_000])
        for octets in answers or ():
            made.send("S", octets)
        path = self.machine.captures / name
        path.write_bytes(made.bytes)
        return path

    def test_hostile(self) -> None:
        """Names of whatever bytes stand as text that no terminal acts on, and long ones are cut."""
        strange = bytes(range(1, 32)) + b"\0\xff\xed\xa0\x80\xc2\x9b\\'\"; DROP TABLE requests;--"
        fields = block(
            (b":method", b"G\x1b"), (b":scheme", b"http"), (b":path", b"/" + strange), (b":authority", b"\0")
        )
        grown = b"\x3f\xe1\xff\x03\x82\x86" + b"\x40\x05:path\x7f\x81\x7d" + b"/" + b"n" * 16_127
        again = [frame(1, 5, stream, b"\x82\x86\xbe") for stream in range(5, 4005, 2)]
        path = self.capture_of("hostile.pcap", [frame(1, 5, 1, fields), frame(1, 5, 3, grown), *again])
        self.assertEqual(self.run_fleet(), 0)
        said = said_of(str(path))
        base = Base(self.machine.database)
        self.addCleanup(base.base.close)
        for table in NEW_TABLES:
            self.assertEqual(sorted_rows(base.of_capture(table, path)), sorted_rows(rows_of(said)[table]))
        for row in base.ask("SELECT * FROM requests"):
            self.assertTrue(all(value.isprintable() for value in row.values() if isinstance(value, str)), row)
            self.assertLessEqual(len(row["request_path"] or ""), LONGEST_NAME)
        self.assertEqual(base.ask("SELECT method FROM requests WHERE stream = 1"), [{"method": "G\\x1b"}])
        cut = "/" + "n" * (LONGEST_NAME - 1)
        self.assertEqual(base.ask("SELECT COUNT(*) AS cut FROM requests WHERE request_path = ?", cut), [{"cut": 2001}])
        self.assertLess(self.machine.database.stat().st_size, 16_000_000)

    def test_many(self) -> None:
        """100,000 requests stand; where memory is short the report stands alone, with the reason, and no traceback."""
        fields = block((b":method", b"GET"), (b":path", b"/secret-name"))
        self.capture_of("many.pcap", [frame(1, 5, stream, fields) for stream in range(1, 200_001, 2)])
        self.assertEqual(self.run_fleet(), 0)
        self.assertEqual(self.machine.ask("SELECT requests FROM captures"), [(100_000,)])
        self.assertEqual(self.machine.ask("SELECT name, requests FROM stalls_by_name"),
                         [("GET /secret-name", 100_000)])  # fmt: skip
        self.machine.database.unlink()
        self.instead("ulimit -v 30000")
        self.assertEqual(self.run_fleet("--retries", "0"), 3)
        rows = self.machine.ask(f"SELECT {ASKED} FROM captures")
        ((outcome, audited, reason, tries, requests),) = rows
        self.assertEqual((outcome, audited, tries, requests), ("partial", 0, 1, None))
        # Where Rust gets no memory a program ends by SIGABRT.
        self.assertIn(reason, ("no requests: out-of-memory", "no requests: signal 6"))
        self.check_nothing_left()

    def test_taken_away(self) -> None:
        """A database that is resumed without names has no byte of them left, nor has one without requests."""
        fields = block((b":method", b"GET"), (b":path", b"/secret-name"), (b":authority", b"secret.example"))
        self.capture_of("a.pcap", [frame(1, 5, stream, fields) for stream in range(1, 4001, 2)])
        for words in (("--unnamed-requests",), ()):
            self.assertEqual(self.run_fleet("--resume"), 0)
            self.assertIn(b"secret", self.machine.database.read_bytes())
            status, said, error = self.machine.run("--jobs", "1", "--resume", *words, "captures")
            self.assertEqual((status, error), (0, ""), said)
            self.assertNotIn(b"secret", self.machine.database.read_bytes())
            self.assertEqual(self.machine.ask("SELECT requests FROM captures"), [(2000 if words else None,)])
            left = sorted(path.name for path in self.machine.folder.iterdir())
            self.assertEqual([name for name in left if "sqlite" in name], ["audits.sqlite"])

    def test_taken_away_of_others(self) -> None:
        """So it is with captures that are not named again, and with names are audited anew when they are."""
        fields = [
            block((b":method", b"GET"), (b":path", b"/secret-name" * length), (b":authority", b"secret.example"))
            for length in (1, 9, 3, 10, 7, 2)
        ]
        named = self.capture_of("a.pcap", [frame(1, 5, one, fields[one % 11 % 6]) for one in range(1, 4001, 2)])
        self.add(EXAMPLES[1])
        other = self.machine.captures / f"{EXAMPLES[1]}.pcap"
        columns = "name, method, request_path, authority, requests.status, grpc_status"
        life = "connection, stream, nanos, cause, text"
        for words in (("--unnamed-requests",), ()):
            self.assertEqual(self.run_fleet("--resume"), 1)
            self.assertIn(b"secret", self.machine.database.read_bytes())
            before = self.machine.ask(
                f"SELECT {life} FROM requests JOIN captures ON id = capture WHERE path LIKE '%/a.%'"
            )
            status, said, error = self.machine.run("--jobs", "1", "--resume", *words, other)
            self.assertEqual((status, error), (1, ""), said)
            self.assertNotIn(b"secret", self.machine.database.read_bytes())
            self.assertEqual(self.machine.ask(f"SELECT DISTINCT {columns} FROM requests"), [(None,) * 6] * len(words))
            after = self.machine.ask(
                f"SELECT {life} FROM requests JOIN captures ON id = capture WHERE path LIKE '%/a.%'"
            )
            self.assertEqual(after, before if words else [])
            self.assertEqual(
                self.machine.ask("SELECT requests FROM captures WHERE path LIKE '%/a.%'"), [(2000 if words else None,)]
            )
            if not words:
                self.assertEqual([self.machine.ask(f"SELECT * FROM {table}") for table in NEW_TABLES], 4 * [[]])
            self.assertEqual(self.machine.ask("PRAGMA foreign_key_check") + self.machine.ask("PRAGMA integrity_check"),
                             [("ok",)])  # fmt: skip
            self.assertEqual(self.machine.run("--resume", "--requests", named)[0], 0)
            self.assertIn(b"secret", self.machine.database.read_bytes())

    def test_older(self) -> None:
        """A database of the version before is refused by name, and is not changed."""
        self.add(EXAMPLES[0])
        with contextlib.closing(sqlite3.connect(self.machine.database)) as base:
            base.executescript("PRAGMA application_id = 1748123206; PRAGMA user_version = 2; CREATE TABLE a (b);")
        before = self.machine.database.read_bytes()
        for words in (("--resume",), ("--resume", "--requests")):
            status, said, error = self.machine.run(*words, "captures")
            self.assertEqual((status, said), (4, ""))
            self.assertIn("its schema is 2, of an older h2audit-fleet, and this one writes 5: name a new file", error)
        self.assertEqual(self.machine.database.read_bytes(), before)


class Owner(OnMachine):
    def test_private(self) -> None:
        """A database that is made for names is its owner's alone; another one is as the mask has it."""
        self.add(EXAMPLES[0])
        mask = os.umask(0o022)
        self.addCleanup(os.umask, mask)
        for words, mode in (("--requests", 0o600), ("--unnamed-requests", 0o644)):
            self.machine.database.unlink(missing_ok=True)
            self.assertEqual(self.machine.run(words, "captures")[0], 0)
            self.assertEqual(stat.S_IMODE(self.machine.database.stat().st_mode), mode)


class Large(Imported):
    """Captures that are split: the rows are those of a run that splits nothing."""

    def setUp(self) -> None:
        super().setUp()
        self.machine.link("h2audit-why", beside("h2audit-why"))

    def all_rows(self, name: str) -> dict[str, list[Row]]:
        with contextlib.closing(sqlite3.connect(self.machine.folder / name)) as base:
            found = {}
            for table in NEW_TABLES:
                columns = [row[1] for row in base.execute(f"PRAGMA table_info({table})")][1:]
                question = f"SELECT path, {', '.join(f'{table}.{column}' for column in columns)} FROM {table}"
                found[table] = sorted(base.execute(f"{question} JOIN captures ON id = capture"), key=repr)
            return found

    def check_requests(self) -> None:
        wanted = self.all_rows("whole.sqlite")
        self.assertTrue(wanted["requests"] and wanted["certainty"])
        self.assertEqual(self.all_rows("audits.sqlite"), wanted)

    def test_forms(self) -> None:
        """A plain capture, pcapng, and TLS with its keys."""
        self.capture("tls.pcap", over_tls(self.machine.folder))
        self.capture("plain.pcap", self.plain())
        self.pcapng()
        words = ("--requests", "-k", "keys")
        self.by_one_worker(*words)
        self.assertEqual(self.machine.run("--jobs", "2", *SPLIT, *words, "captures")[::2], (1, ""))
        self.check_rows("-k", self.machine.folder / "keys")
        self.check_requests()

    def test_misfortunes(self) -> None:
        """A worker is killed in a part, another while it tells of the whole: others do both."""
        self.pcapng()
        self.by_one_worker("--requests")
        kill = "[ -e {0} ] || {{ : > {0}; kill -9 $PPID; sleep 60; }}"
        self.instead("h2audit-why", beside("h2audit-why"), kill.format("why-was-killed"))
        self.instead("h2audit", PROGRAM, f"case $* in *part-002*) {kill.format('part-was-killed')} ;; esac")
        status, said, error = self.machine.run("--jobs", "2", *SPLIT, "--requests", "captures")
        self.assertEqual((status, error), (1, ""), said)
        self.assertTrue(all((self.machine.folder / f"{what}-was-killed").exists() for what in ("why", "part")))
        self.check_requests()
        self.check_nothing_left()

    def test_refused_part(self) -> None:
        """Where a part is refused, the requests of the others stand, by the numbers of their connections."""
        self.pcapng()
        self.by_one_worker("--requests")
        self.machine.link("h2audit-split", parts.STAND_IN)
        os.environ["FLEET_MOST"] = "450000"
        self.addCleanup(os.environ.pop, "FLEET_MOST")
        self.assertEqual(self.machine.run("--jobs", "2", *SPLIT, "--requests", "captures")[0], 3)
        asked = "SELECT outcome, reason LIKE '%no requests%', requests FROM captures"
        ((outcome, is_unanswered, requests),) = self.machine.ask(asked)
        self.assertEqual((outcome, is_unanswered), ("partial", 0))
        self.assertEqual(requests, self.machine.ask("SELECT COUNT(*) FROM requests")[0][0])
        self.assertEqual(self.machine.ask("PRAGMA foreign_key_check"), [])
        columns = "client, stream, requests.nanos, cause, text"
        question = f"SELECT {columns} FROM requests JOIN connections ON number = connection AND " \
                   "connections.capture = requests.capture"  # fmt: skip
        with contextlib.closing(sqlite3.connect(self.machine.folder / "whole.sqlite")) as base:
            whole = set(base.execute(question))
        found = set(self.machine.ask(question))
        self.assertTrue(found and found < whole)

    def test_time_is_up(self) -> None:
        """A large capture of which nothing can be told has its report."""
        self.pcapng()
        self.instead("h2audit-why", "true", "sleep 60")
        words = ("--jobs", "2", "--timeout", "4", "--retries", "0", *SPLIT, "--requests", "captures")
        self.assertEqual(self.machine.run(*words)[0], 3)
        rows = self.machine.ask("SELECT outcome, status, reason, requests, report_bytes > 0 FROM captures")
        self.assertEqual(rows, [("partial", 1, "no requests: timeout", None, 1)])
        self.check_nothing_left()

    def test_cluster(self) -> None:
        """Two workers of a scheduler, with a folder that they share and without one: what they need is sent to them."""
        self.capture("plain.pcap", self.plain())
        shutil.copy(TOP / "examples" / "stream_overrun_go.pcap", self.machine.captures)
        self.by_one_worker("--requests")
        cluster = Cluster(self.machine)
        self.addCleanup(cluster.stop)
        two = cluster.of_two()
        (self.machine.folder / "shared").mkdir()
        for words in (("--scratch", "shared"), ()):
            self.machine.database.unlink(missing_ok=True)
            found = self.machine.run(*two, *SPLIT, "--requests", *words, "captures")
            self.assertEqual(found[::2], (1, ""))
            self.check_requests()
            self.assertEqual(list((self.machine.folder / "shared").iterdir()), [])


if __name__ == "__main__":
    name_programs()
    unittest.main()
