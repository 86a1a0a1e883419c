"""Tests of h2audit-fleet on the workers of this machine: fleet_test.py [PROGRAM]

What a capture's rows should be is taken from answers that were written by hand, as tests/reports and examples/ have
them. With PROGRAM more captures are generated, and their answers are those of PROGRAM alone.
"""

import contextlib
import hashlib
import os
import re
import shutil
import signal
import sqlite3
import subprocess
import threading
import unittest
from dataclasses import replace
from typing import ClassVar
from unittest import mock

from h2audit.fleet import database, names, pool, programs, tasks
from h2audit.fleet import workers as of_run
from h2audit.report import VERSION
from tools.tests.fleet.captures import (
    PATIENCE,
    PROGRAM,
    TOP,
    Machine,
    Sample,
    by_hand,
    count,
    generated,
    summary,
    until,
)
from tools.tests.fleet.rows import Row, rows_by_hand

RUNS = (
    "$H2AUDIT Tables",
    "Words Schema",
    "Workers FlowsOfTls",
    "Dispatched.test_killed_worker Dispatched.test_worker_killed_each_time Dispatched.test_memory_and_time",
    "Dispatched.test_interrupted Dispatched.test_ended_at_start Dispatched.test_resumed",
    "Writer",
)
QUICK = ("$H2AUDIT Tables", "Words Schema")
TIMED = True
CAPTURES = 200
NOTHING_READ = 6
# Captures of which an import reads more than h2audit, or says why it does not.
READ_BY_IMPORT = ("other_link_type", "two_vlan_tags", "raw_ipv6", "bad_magic")
WANTED = """size, sha256, outcome, status, reason, program, version, tries, report_sha256, report_bytes,
    records, segments, snapped, not_ipv4, fragments, not_tcp, refused"""


def sorted_samples() -> list[Sample]:
    """200 captures, none twice: those written by hand, and either generated ones or the former with a cut record."""
    hand = list({sample.digest: sample for sample in by_hand() if sample.name not in READ_BY_IMPORT}.values())
    if not PROGRAM:
        return [*hand, *cut_ones(hand)][:CAPTURES]
    more = generated(PROGRAM, CAPTURES - len(hand))
    return [replace(one, status=NOTHING_READ) if is_nothing_read(one) else one for one in (*hand, *more)]


def is_nothing_read(sample: Sample) -> bool:
    """Whether h2audit-any says so of a capture in which h2audit finds no fault."""
    return sample.status == 0 and "\nconnection " not in sample.report


def cut_ones(samples: list[Sample]) -> list[Sample]:
    """Captures with one to three bytes of a record more: the report says in one line more which record was cut."""
    found = []
    for sample in samples:
        first, _, rest = sample.report.partition("\n")
        if not first or " cut\n" in rest:
            continue
        passed = [line for line in rest.splitlines(True) if line.startswith("record ")]
        others = [line for line in rest.splitlines(True) if not line.startswith("record ")]
        cut = f"record {int(first.split()[2]) + 1} cut\n"
        report = "".join([first + "\n", *passed, cut, *others])
        for number in (1, 2, 3):
            capture = sample.capture + bytes(number)
            found.append(Sample(f"{sample.name}_cut_{number}", capture, sample.status, "", report))
    return found


class Tables(unittest.TestCase):
    """200 captures over four workers of this machine: each row is what the report says."""

    samples: ClassVar[list[Sample]]
    machine: ClassVar[Machine]
    answer: ClassVar[tuple[int, str, str]]

    @classmethod
    def setUpClass(cls) -> None:
        cls.samples = sorted_samples()
        cls.machine = Machine(cls.samples, PROGRAM).__enter__()
        cls.addClassCleanup(cls.machine.__exit__)
        cls.answer = cls.machine.run("--jobs", "4", "--reports", "reports", "captures")

    def rows_of(self, sample: Sample, table: str) -> list[Row]:
        path = names.word_of(os.fsencode(self.machine.captures / f"{sample.name}.pcap"))
        rows = self.machine.ask(f"SELECT {table}.* FROM {table} JOIN captures ON id = capture WHERE path = ?", path)
        return [row[1:] for row in rows]

    def test_all_stand(self) -> None:
        self.assertEqual(len(self.samples), CAPTURES)
        self.assertEqual(self.answer, (3, f"{summary(self.samples)}\n", ""))

    def test_captures(self) -> None:
        for sample in self.samples:
            path = names.word_of(os.fsencode(self.machine.captures / f"{sample.name}.pcap"))
            row = self.machine.ask(f"SELECT {WANTED} FROM captures WHERE path = ?", path)
            outcome: list[object] = ["audited", sample.status, None]
            if sample.status == NOTHING_READ:
                # What was passed over: that is for fleet_unread_test.
                row = [(*one[:4], None, *one[5:]) for one in row]
            report: list[object] = [hashlib.sha256(sample.report.encode()).hexdigest(), len(sample.report)]
            if sample.status == 3:
                outcome = ["refused", sample.status, sample.error.strip().rpartition(" ")[2]]
                report += [None] * 7
                report[:2] = [None, None]
            else:
                report += [int(word) for word in sample.report.splitlines()[0].split()[2::2]]
            program = ["h2audit-any", f"h2audit {VERSION}", 1]
            wanted = (len(sample.capture), sample.digest, *outcome, *program, *report)
            self.assertEqual(row, [wanted], sample.name)

    def test_rows(self) -> None:
        for sample in self.samples:
            for table, rows in rows_by_hand("" if sample.status == 3 else sample.report).items():
                found = self.rows_of(sample, table)
                if table == "stalls":
                    # How long an open one lasted no report says: that is for fleet_stalls_test.
                    found = [row if row[5] else (*row[:6], None, *row[7:]) for row in found]
                self.assertEqual(found, rows, f"{sample.name}: {table}")

    def test_reports(self) -> None:
        kept = {path.name: path.read_bytes() for path in (self.machine.folder / "reports").iterdir()}
        reports = [sample.report.encode() for sample in self.samples if sample.status != 3]
        self.assertEqual(kept, {f"{hashlib.sha256(report).hexdigest()}.report": report for report in reports})

    def test_whole(self) -> None:
        """Each reference leads to a row, and no log or lock is left beside the database."""
        self.assertEqual(self.machine.ask("PRAGMA foreign_key_check"), [])
        self.assertEqual(self.machine.ask("PRAGMA integrity_check"), [("ok",)])
        self.assertEqual([path.name for path in self.machine.folder.glob("audits.sqlite*")], ["audits.sqlite"])
        self.assertEqual(list((self.machine.folder / "temporary").iterdir()), [])


class Dispatched(unittest.TestCase):
    """What becomes of captures under misfortunes."""

    def machine(self, number: int) -> Machine:
        samples = list({sample.digest: sample for sample in by_hand() if sample.status < 2}.values())[:number]
        machine = Machine(samples, None)
        machine.__enter__()
        self.addCleanup(machine.__exit__)
        return machine

    def outcomes(self, machine: Machine) -> dict[str, Row]:
        rows = machine.ask("SELECT sha256, path, outcome, reason, tries FROM captures")
        digests = {f"{sample.name}.pcap": sample.digest for sample in machine.samples}
        return {digests[os.path.basename(path)]: tuple(more) for _, path, *more in rows}

    def test_killed_worker(self) -> None:
        """A worker is killed by its process number while it audits: another audits the capture, and none is missing."""
        machine = self.machine(30)
        slow = machine.samples[7]
        machine.acts[slow.digest] = ["wait", 1]
        child = machine.start("--jobs", "4", "captures")
        until(lambda: slow.digest in machine.notes())
        os.kill(machine.notes()[slow.digest][0], signal.SIGKILL)
        said, error = child.communicate(timeout=PATIENCE)
        self.assertEqual((child.returncode, error), (1, ""), said)
        outcomes = self.outcomes(machine)
        self.assertEqual(len(outcomes), 30)
        self.assertEqual({outcome[:2] for outcome in outcomes.values()}, {("audited", None)})
        self.assertEqual(outcomes[slow.digest][2], 2)
        first, second = machine.notes()[slow.digest]
        self.assertNotEqual(first, second)

    def test_worker_killed_each_time(self) -> None:
        """A capture whose worker is lost at each try is entered as such, and all others stand."""
        machine = self.machine(12)
        deadly = machine.samples[3]
        machine.acts[deadly.digest] = ["kill", 100]
        status, said, error = machine.run("--jobs", "2", "--retries", "1", "captures")
        self.assertEqual((status, error), (3, ""))
        self.assertIn(" (1 failed)\n", said)
        outcomes = self.outcomes(machine)
        self.assertEqual(outcomes.pop(deadly.digest), ("failed", "worker-lost", 2))
        self.assertEqual({outcome[:2] for outcome in outcomes.values()}, {("audited", None)})
        self.assertEqual((len(outcomes), len(machine.notes()[deadly.digest])), (11, 2))

    def test_memory_and_time(self) -> None:
        """Status 5 and time that is up are tried again, and then entered; one that ends well at last is audited."""
        machine = self.machine(8)
        poor, late, lucky = machine.samples[:3]
        machine.acts = {poor.digest: ["status", 5, 100], late.digest: ["sleep", 60], lucky.digest: ["status", 5, 2]}
        status, _, error = machine.run("--jobs", "4", "--timeout", "10", "captures")
        self.assertEqual((status, error), (3, ""))
        outcomes = self.outcomes(machine)
        self.assertEqual(outcomes.pop(poor.digest), ("failed", "out-of-memory", 3))
        self.assertEqual(outcomes.pop(late.digest), ("failed", "timeout", 3))
        self.assertEqual(outcomes.pop(lucky.digest), ("audited", None, 3))
        self.assertEqual(set(outcomes.values()), {("audited", None, 1)})
        self.assertEqual([len(machine.notes()[sample.digest]) for sample in (poor, late, lucky)], [3, 3, 3])
        self.assertEqual(subprocess.run(["pgrep", "-f", str(machine.bin)], capture_output=True).stdout, b"")

    def test_interrupted(self) -> None:
        """Ctrl-C leaves whole captures, which --resume does not audit again."""
        machine = self.machine(40)
        machine.acts = {sample.digest: ["sleep", 0.5] for sample in machine.samples}
        child = machine.start("--jobs", "2", "captures", start_new_session=True)
        until(lambda: machine.database.exists() and count(machine) >= 5)
        self.assertEqual(listening(child.pid), [])
        os.killpg(child.pid, signal.SIGINT)
        _, error = child.communicate(timeout=PATIENCE)
        said = "h2audit-fleet: ended early: --resume goes on with the database\n"
        self.assertEqual((child.returncode, error), (130, said), error)
        before = {path: when for path, when in machine.ask("SELECT path, entered FROM captures")}
        self.assertTrue(5 <= len(before) < 40)
        self.assertEqual(machine.ask("PRAGMA integrity_check"), [("ok",)])
        left = [*machine.folder.glob("audits.sqlite-*"), *(machine.folder / "temporary").iterdir()]
        self.assertEqual(left, [])
        machine.acts = {}
        status, said, error = machine.run("--jobs", "4", "--resume", "captures")
        self.assertEqual((status, error), (1, ""))
        self.assertEqual(said, f"{summary(machine.samples)}; {len(before)} were there\n")
        after = {path: when for path, when in machine.ask("SELECT path, entered FROM captures")}
        self.assertEqual((len(after), {path: after[path] for path in before}), (40, before))

    def test_ended_at_start(self) -> None:
        """Ctrl-C, or the end of all processes of the run, as the workers begin: one line, and nothing is left."""
        machine = self.machine(12)
        for number in (signal.SIGINT, signal.SIGTERM):
            child = machine.start("--jobs", "2", "--resume", "captures", start_new_session=True)
            until(lambda: machine.database.exists() and any((machine.folder / "temporary").iterdir()))
            os.killpg(child.pid, number)
            _, error = child.communicate(timeout=PATIENCE)
            self.assertEqual(
                (child.returncode, error),
                (128 + number, "h2audit-fleet: ended early: --resume goes on with the database\n"),
            )
            self.assertEqual(list((machine.folder / "temporary").iterdir()), [])
        self.assertEqual(machine.run("--jobs", "2", "--resume", "captures")[0], 1)

    def test_resumed(self) -> None:
        """What failed, is new or has changed is audited, and nothing else; rows of what a capture was are gone."""
        machine = self.machine(12)
        failed, changed, new, touched = machine.samples[:4]
        machine.acts[failed.digest] = ["status", 5, 1]
        other = next(sample for sample in by_hand() if sample.name == "stream_overrun_go")
        new_name = machine.captures / f"{new.name}.pcap"
        new_name.rename(machine.folder / "aside")
        self.assertEqual(machine.run("--retries", "0", "--jobs", "2", "captures")[0], 3)
        new_name.write_bytes(new.capture)
        (machine.captures / f"{changed.name}.pcap").write_bytes(other.capture)
        os.utime(machine.captures / f"{touched.name}.pcap", (1, 1))
        shutil.rmtree(machine.folder / "notes")
        (machine.folder / "notes").mkdir()
        machine.samples.append(other)
        self.assertEqual(machine.run("--resume", "--jobs", "2", "captures")[0], 1)
        self.assertEqual(set(machine.notes()), {failed.digest, other.digest, new.digest, touched.digest})
        rows = machine.ask(
            "SELECT kind, value, broke, faults.record FROM faults WHERE path LIKE ?", f"%/{changed.name}.pcap"
        )
        self.assertEqual(rows, [("stream-overrun", -5000, "client", 12)])
        self.assertEqual(machine.ask("PRAGMA foreign_key_check"), [])


class OneCapture(unittest.TestCase):
    """A machine with one capture."""

    def setUp(self) -> None:
        self.machine = Machine([sample for sample in by_hand() if sample.name == "stream_overrun_go"], None)
        self.machine.__enter__()
        self.addCleanup(self.machine.__exit__)
        self.capture = self.machine.samples[0].capture


class Words(OneCapture):
    """Names, lists and refusals."""

    def test_hostile_names(self) -> None:
        """A name may hold any byte but 0, and each stands in one word of the database."""
        hostile = [
            b"--help",
            b"-o a.pcap",
            b"a\nb.pcap",
            b"\xff\xfe.pcap",
            b"%41.pcap",
            "Köln.pcap".encode(),
            b" ",
            b"'; DROP TABLE",
        ]
        for name in hostile:
            with open(os.path.join(os.fsencode(self.machine.captures), name), "wb") as file:
                file.write(self.capture)
        status, said, error = self.machine.run("--jobs", "2", "captures")
        self.assertEqual((status, said, error), (1, "9 captures: 9 with faults, 0 in which nothing was audited\n", ""))
        paths = [path for path, in self.machine.ask("SELECT path FROM captures WHERE outcome = 'audited'")]
        found = {os.path.basename(names.path_of(path)) for path in paths}
        self.assertEqual(found, {b"stream_overrun_go.pcap", *hostile})
        self.assertTrue(any(path.endswith("/a%0Ab.pcap") for path in paths))
        self.assertTrue(all(path.isascii() and path.isprintable() and " " not in path for path in paths))

    def test_named_and_listed(self) -> None:
        """Lists of either kind, and a name that looks like an option; each capture stands once."""
        odd = os.path.join(os.fsencode(self.machine.folder), b"-a\n.pcap")
        with open(odd, "wb") as file:
            file.write(self.capture)
        listed = self.machine.folder / "listed"
        listed.write_bytes(odd + b"\0" + os.fsencode(self.machine.captures) + b"\0")
        (self.machine.folder / "lines").write_bytes(os.fsencode(self.machine.captures) + b"\n/not/there.pcap\n")
        status, said, _ = self.machine.run("--jobs", "1", "--list", "listed", "--list", "lines", "captures")
        self.assertEqual((status, said), (3, "3 captures: 2 with faults, 1 in which nothing was audited (1 failed)\n"))
        failed = self.machine.ask("SELECT path, reason, tries FROM captures WHERE outcome = 'failed'")
        self.assertEqual(failed, [("/not/there.pcap", "not-there", 1)])

    def test_what_a_folder_holds(self) -> None:
        """Captures are known by name or by first bytes; pipes and other files are passed over, and links to folders."""
        (self.machine.captures / "unnamed").write_bytes(self.capture)
        (self.machine.captures / "ring.pcap12").write_bytes(b"")
        (self.machine.captures / "README").write_text("of no interest")
        os.mkfifo(self.machine.captures / "pipe.pcap")
        (self.machine.captures / "again").symlink_to(self.machine.captures)
        self.machine.samples.append(next(sample for sample in by_hand() if sample.error.endswith("short-header\n")))
        (self.machine.captures / "ring.pcap12").write_bytes(self.machine.samples[1].capture)
        status, said, _ = self.machine.run("--jobs", "1", "captures")
        wanted = "3 captures: 2 with faults, 1 in which nothing was audited (1 refused); " "2 other files passed over\n"
        self.assertEqual((status, said), (3, wanted))

    def test_refused(self) -> None:
        """Each refusal is one line on standard error with its status, and leaves a database as it was."""
        (self.machine.folder / "other.sqlite").write_bytes(b"SQLite format 3\0" + bytes(5000))
        keyless = ("--scheduler", "tls://127.0.0.1:1", "captures")
        for wanted, status, words in (
            ("a PATH, --list, --collect or --watch is needed", 2, ()),
            ("'0' is no number from 1 to 1024", 2, ("--jobs", "0", "captures")),
            ("--unencrypted allows it", 2, ("--scheduler", "tcp://127.0.0.1:1", "captures")),
            ("needs --tls-ca, --tls-cert and --tls-key", 2, keyless),
            ("--jobs is for workers on this machine", 2, ("--jobs", "2", *keyless)),
            ("no scheduler is reached by http://", 2, ("--scheduler", "http://127.0.0.1:1", "captures")),
            ("No such file or directory", 4, ("not-there",)),
            ("No such file or directory", 4, ("--list", "not-there")),
            ("No such file or directory", 4, ("-k", "not-there", "captures")),
            ("not a folder", 4, ("--collect", "not-there")),
            ("127.0.0.1:1: ", 7, ("--scheduler", "tcp://127.0.0.1:1", "--unencrypted", "captures")),
        ):
            found = self.machine.run(*words)
            self.assertEqual((found[0], found[1], found[2].count("\n")), (status, "", 1), words)
            self.assertIn(wanted, found[2])
        self.machine.database.unlink(missing_ok=True)
        self.machine.database.write_bytes(b"of no interest")
        self.assertEqual(
            self.machine.run("captures"),
            (4, "", f"h2audit-fleet: {self.machine.database}: file is not " "a database\n"),
        )
        self.assertEqual(
            self.machine.run("--resume", "captures"),
            (4, "", f"h2audit-fleet: {self.machine.database}: " "file is not a database\n"),
        )
        self.assertEqual(self.machine.database.read_bytes(), b"of no interest")

    def test_dashboard(self) -> None:
        """With a dashboard dask carries the tasks of this machine."""
        status, said, error = self.machine.run("--jobs", "1", "--dashboard", "127.0.0.1:0", "captures")
        self.assertEqual((status, said), (1, f"{summary(self.machine.samples)}\n"))
        self.assertRegex(error, r"^h2audit-fleet: dashboard at http://127\.0\.0\.1:\d+/status\n$")
        self.assertEqual(list((self.machine.folder / "temporary").iterdir()), [])

    def test_modules_where_it_runs(self) -> None:
        """What lies in the folder that it is run in is no module of any worker."""
        for name in ("multiprocessing", "queue", "socket", "struct", "tempfile"):
            (self.machine.folder / f"{name}.py").write_text("open('found', 'w')\n")
        for words in ((), ("--dashboard", "127.0.0.1:0")):
            status, said, error = self.machine.run("--jobs", "1", *words, "captures")
            self.assertEqual((status, (self.machine.folder / "found").exists()), (1, False), error)
            self.machine.database.unlink()

    def test_no_program(self) -> None:
        (self.machine.bin / "h2audit").unlink()
        status, said, error = self.machine.run("--jobs", "1", "captures")
        self.assertEqual((status, said), (7, ""))
        self.assertRegex(error, r"^h2audit-fleet: this machine has no program h2audit\n$")


class Writer(OneCapture):
    """The database, and the one that writes it."""

    def test_read_and_written_by_others(self) -> None:
        """While others read the database it is written all the same; another h2audit-fleet may not write it."""
        leave = self.machine.folder / "leave"
        self.machine.acts = {self.machine.samples[0].digest: ["file", str(leave)]}
        child = self.machine.start("--jobs", "1", "captures")
        until(lambda: self.machine.workers() == 1)
        reader = sqlite3.connect(self.machine.database)
        self.addCleanup(reader.close)
        self.assertEqual(reader.execute("SELECT COUNT(*) FROM captures").fetchone(), (0,))
        second = self.machine.run("--jobs", "1", "--resume", "captures")
        self.assertEqual(second, (4, "", f"h2audit-fleet: {self.machine.database}: another h2audit-fleet writes it\n"))
        leave.touch()
        said, error = child.communicate(timeout=PATIENCE)
        self.assertEqual((child.returncode, error), (1, ""), said)
        self.assertEqual(reader.execute("SELECT COUNT(*) FROM captures").fetchone(), (1,))

    def test_no_room(self) -> None:
        """Where no more can be written one line says so, and what stands is whole; so it is with kept reports."""
        for number in range(60):
            (self.machine.captures / f"{number}.pcap").write_bytes(self.capture)
        little = ("prlimit", "--fsize=140000")
        status, said, error = self.machine.run("--jobs", "1", "captures", before=little)
        self.assertEqual((status, said), (4, ""))
        why = "(disk I/O error|database or disk is full)"
        self.assertRegex(error, rf"^h2audit-fleet: {self.machine.database}: {why}\n$")
        self.assertEqual(self.machine.ask("PRAGMA integrity_check"), [("ok",)])
        torn = self.machine.ask("SELECT COUNT(*) FROM captures WHERE id NOT IN (SELECT capture FROM connections)")
        self.assertEqual(torn, [(0,)])
        with open("/dev/full", "wb", buffering=0) as full:
            with self.assertRaisesRegex(OSError, "No space left on device: 'reports'"):
                database.write_all(full.fileno(), b"a", "reports")

    def test_no_database(self) -> None:
        """A folder, a pipe, a database of another version or of something else is refused, and stays as it was."""
        os.mkfifo(self.machine.folder / "pipe")
        for name, why in (
            ("pipe", "it is no file"),
            ("captures", "Is a directory"),
            ("none/a", "No such file or directory"),
        ):
            with self.assertRaisesRegex((database.Unusable, OSError), why):
                database.Database(str(self.machine.folder / name), True)
        for change, why in (
            ("PRAGMA user_version = 2", "schema is 2, of an older h2audit-fleet, and this one writes 5: name a new"),
            ("PRAGMA user_version = 6", "schema is 6, of a newer h2audit-fleet, and this one writes 5: name a new"),
            ("PRAGMA application_id = 7", "it is no database of h2audit-fleet"),
        ):
            self.machine.database.unlink(missing_ok=True)
            with contextlib.closing(sqlite3.connect(self.machine.database)) as base:
                base.executescript((TOP / "h2audit" / "fleet" / "schema.sql").read_text() + change)
            before = self.machine.database.read_bytes()
            with self.assertRaisesRegex(database.Unusable, why):
                database.Database(str(self.machine.database), True)
            self.assertEqual(self.machine.database.read_bytes(), before)

    def test_time_of_no_column(self) -> None:
        """A file of a year that no column holds stands with the nearest time, and a later run finds it there."""
        name = self.machine.captures / f"{self.machine.samples[0].name}.pcap"
        (self.machine.captures / "b.pcap").write_bytes(self.capture)
        for seconds, nanos in ((13569465600, (1 << 63) - 1), (-10413792000, -(1 << 63))):
            os.utime(name, (seconds, seconds))
            if os.stat(name).st_mtime_ns != seconds * 10**9:
                continue  # this file system holds no such time
            status, _, error = self.machine.run("--jobs", "1", "--resume", "captures")
            self.assertEqual((status, error), (1, ""))
            row = self.machine.ask("SELECT outcome, modified FROM captures WHERE path NOT LIKE '%/b.pcap'")
            self.assertEqual(row, [("audited", nanos)])
            _, said, error = self.machine.run("--jobs", "1", "--resume", "captures")
            self.assertEqual((said.partition("; ")[2], error), ("2 were there\n", ""))

    def test_reason_of_bytes(self) -> None:
        """A reason that others wrote as bytes ends no run."""
        self.assertEqual(self.machine.run("--jobs", "1", "captures")[0], 1)
        for outcome in ("failed", "audited"):
            with contextlib.closing(sqlite3.connect(self.machine.database)) as base:
                base.execute("UPDATE captures SET reason = x'00ff', outcome = ?", (outcome,))
                base.commit()
            status, _, error = self.machine.run("--jobs", "1", "--resume", "captures")
            self.assertEqual((status, error), (1, ""))

    def test_changed_while_read(self) -> None:
        """A capture that is written to while it is imported is tried again, and is then entered as such."""
        (self.machine.captures / "a.pcapng").write_bytes(bytes.fromhex("0a0d0d0a") + bytes(40))
        self.machine.script("h2audit-any", f"echo more >> {self.machine.captures / 'a.pcapng'}\necho a report\n")
        self.assertEqual(self.machine.run("--jobs", "1", "captures")[0], 3)
        rows = self.machine.ask("SELECT outcome, reason, tries, report_sha256 FROM captures WHERE path LIKE '%.pcapng'")
        self.assertEqual(rows, [("failed", "changed", 3, None)])

    def test_no_end(self) -> None:
        """A capture that grows for ever is given up when time is up."""
        file = os.open(self.machine.captures / "stream_overrun_go.pcap", os.O_RDWR)
        late = threading.Event()
        late.set()
        self.assertEqual(programs.digest_of([file], late), (0, ""))
        os.close(file)
        answer = tasks.verdict(programs.Run(0, "", 1.0, True))
        self.assertEqual((answer["outcome"], answer["reason"]), ("failed", "timeout"))


class Workers(unittest.TestCase):
    """The pool of this machine."""

    ORDER: ClassVar[tasks.Order] = {"keys": [], "timeout": 60.0, "split_above": 5}

    def done(self, task: pool.Task) -> pool.Task:
        until(lambda: task.status != pool.WAITS)
        return task

    def test_answers(self) -> None:
        """A task answers, or raises what it raised; one whose worker is gone is lost, and the next has another."""
        with pool.Pool(1) as workers:
            self.assertEqual(self.done(workers.submit(tasks.parts_of, 10, self.ORDER, priority=0)).result(0), 4)
            with self.assertRaisesRegex(TypeError, "NoneType"):
                self.done(workers.submit(tasks.audit, None, self.ORDER, priority=0)).result(0)
            (before,) = workers.workers
            before.process.kill()
            with self.assertRaises(workers.lost):
                self.done(workers.submit(tasks.parts_of, 10, self.ORDER, priority=0)).result(0)
            self.assertEqual(self.done(workers.submit(tasks.parts_of, 10, self.ORDER, priority=0)).result(0), 4)
            (after,) = workers.workers
        self.assertNotEqual(before.process.pid, after.process.pid)
        self.assertEqual([one.process.poll() for one in (before, after)], [-signal.SIGKILL] * 2)

    def test_no_version(self) -> None:
        """An h2audit that says no version within its time is named, as are workers that do not answer."""
        with Machine([], None) as machine:
            machine.script("h2audit", "exec sleep 60\n")
            changed = mock.patch.dict(os.environ, machine.surroundings), mock.patch.object(tasks, "VERSION_SECONDS", 1)
            why = "the workers do not answer: h2audit --version did not end within 1 seconds"
            with changed[0], changed[1], self.assertRaisesRegex(of_run.NoWorkers, f"^{why}$"):
                of_run.version_of(pool.Pool(1))

    def test_order(self) -> None:
        """The most urgent goes first, and what was given up is not done."""
        workers = pool.Pool(1)
        asked = [
            workers.submit(tasks.parts_of, size, self.ORDER, priority=priority)
            for size, priority in ((10, -1), (20, 0), (30, 5), (40, 0))
        ]
        ended: list[object] = []
        for task in asked:
            task.add_done_callback(ended.append)
        workers.cancel([asked[1]])
        with workers:
            until(lambda: len(ended) == 3)
        self.assertEqual(ended, [asked[2], asked[3], asked[0]])


class FlowsOfTls(OneCapture):
    def test_ends(self) -> None:
        """A gap where plaintext ended for another reason is no loss of bytes, and the rest was not audited."""
        first = self.machine.samples[0]
        ends = ("gap 104 tail 0 end renegotiation\n", "gap 7 tail 0\n")
        report = first.report.replace(
            "flow client bytes 15112 gap none tail 0\n", f"flow client bytes 7 {ends[1]}"
        ).replace("flow server bytes 104 gap none tail 0\n", f"flow server bytes 104 {ends[0]}")
        self.machine.samples[0] = Sample(first.name, first.capture, first.status, "", report)
        self.assertEqual(self.machine.run("--jobs", "1", "captures")[::2], (1, ""))
        self.assertEqual(self.machine.ask("SELECT client_end, server_end FROM connections"), [(None, "renegotiation")])
        self.assertEqual(self.machine.ask("SELECT side, gap FROM lost_bytes"), [("client", 7)])
        self.assertEqual(
            self.machine.ask("SELECT what, sender, reason FROM not_audited"),
            [("rest of connection 1", "127.0.0.1:21100", "renegotiation")],
        )


class Schema(unittest.TestCase):
    def test_documented(self) -> None:
        """The document names each table, column and view, and the versions of the schema."""
        base = sqlite3.connect(":memory:")
        base.executescript((TOP / "h2audit" / "fleet" / "schema.sql").read_text())
        text = (TOP / "docs" / "FLEET.md").read_text()
        named = set(re.findall(r"`([a-z0-9_]+)`", text)) | {"capture"}
        named |= {f"{side}_{word}" for side in ("client", "server") for word in ("bytes", "gap", "tail", "end")}
        for kind, name in base.execute("SELECT type, name FROM sqlite_master WHERE type IN ('table', 'view')"):
            columns = {row[1] for row in base.execute(f"PRAGMA table_info({name})")} if kind == "table" else set()
            self.assertEqual(({name} | columns) - named, set(), name)
        self.assertIn(f"schema, {base.execute('PRAGMA user_version').fetchone()[0]};", text)
        self.assertIn(f"is {base.execute('PRAGMA application_id').fetchone()[0]}.", text)


def listening(process: int) -> list[str]:
    """The addresses at which a process, or one that it started, waits for others."""
    started = subprocess.run(["pgrep", "-P", str(process)], capture_output=True, text=True, check=True).stdout.split()
    sessions = {process, *map(int, started)}
    found = []
    for line in subprocess.run(["ss", "-Hltnp"], capture_output=True, text=True, check=True).stdout.splitlines():
        at = re.search(r"pid=(\d+)", line)
        if at and os.path.exists(f"/proc/{at[1]}") and os.getsid(int(at[1])) in sessions:
            found.append(line.split()[3])
    return found


if __name__ == "__main__":
    unittest.main()
