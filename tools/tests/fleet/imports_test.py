"""Tests of large captures that have to be imported first, in h2audit-fleet: fleet_imports_test.py PROGRAM

What is wanted of each is the report of h2audit-any alone, and every row of a run that splits nothing, where one worker
audits it whole.
"""

import gzip
import hashlib
import os
import pathlib
import random
import signal
import sqlite3
import ssl
import subprocess
import unittest

from bench import wire
from h2audit.fleet import large, tasks
from tools.tests import pcapng_blocks, tls_talk
from tools.tests.fleet import parts_test as parts
from tools.tests.fleet.captures import PATIENCE, PROGRAM, beside, until
from tools.tests.fleet.cluster_test import Cluster

RUNS = ("$H2AUDIT Forms", "$H2AUDIT Misfortunes", "$H2AUDIT OnCluster")
TIMED = ("$H2AUDIT OnCluster",)
# What two runs may differ in.
OF_ONE_RUN = {"seconds", "worker", "entered"}
TABLES = ("captures", "connections", "findings", "stalls", "unopened", "passed_over")
SPLIT = ("--split-above", "1")


def in_pcapng(records: list[tuple[int, int, int, bytes]]) -> bytes:
    blocks = [pcapng_blocks.section(), pcapng_blocks.interface("<", 1)]
    return b"".join(blocks + [pcapng_blocks.packet("<", 0, pcapng_blocks.micros(one), one) for one in records])


def over_tls(folder: pathlib.Path) -> bytes:
    """Connections of TLS with more than a megabyte of content, most of which no window has room for; and their keys."""
    key_log = folder / "keys"
    pair = tls_talk.contexts([tls_talk.certificate(folder, "ec")], key_log, ssl.TLSVersion.TLSv1_3)
    capture = tls_talk.Capture()
    for port in range(40000, 40012):
        talk = tls_talk.Talk(capture, pair, port).shake_hands()
        talk.say(tls_talk.CLIENT, wire.PREFACE + wire.frame(4, 0, 0) + wire.frame(1, 5, 1, b"\x82"))
        talk.say(tls_talk.SERVER, wire.frame(4, 0, 0) + wire.frame(1, 4, 1, b"\x88"))
        for _ in range(port % 12):
            talk.say(tls_talk.SERVER, wire.frame(0, 0, 1, bytes(16000)))
            talk.say(tls_talk.CLIENT, wire.window_update(1, 9000))
        talk.end()
    capture.write(folder / "tls")
    return (folder / "tls").read_bytes()


def noise() -> bytes:
    """Records that no compression makes smaller."""
    maker = random.Random(1)
    records = [(1, at, 1054, maker.randbytes(1054)) for at in range(500)]
    return pcapng_blocks.classic(records, 1)[pcapng_blocks.EXAMPLE_HEAD :]


class Imported(parts.Beside):
    """A machine with all programs, and large captures in forms that h2audit does not read."""

    def capture(self, name: str, content: bytes) -> pathlib.Path:
        path = self.machine.captures / name
        path.write_bytes(content)
        return path

    def plain(self) -> bytes:
        """The large capture, which ends within a record."""
        path = self.large()
        content = path.read_bytes()
        path.unlink()
        return content

    def pcapng(self) -> pathlib.Path:
        path = self.capture("plain", self.plain()[: -len(b"cut")])
        records, _ = pcapng_blocks.records_of(path)
        path.unlink()
        return self.capture("large.pcapng", in_pcapng(records))

    def instead(self, name: str, program: object, script: str) -> None:
        """A shell goes through a script before the program."""
        self.machine.script(name, f'cd {self.machine.folder}\n{script}\nexec {program} "$@"\n')

    def everything(self, name: str = "audits.sqlite", but: tuple[str, ...] = ()) -> dict[str, list[tuple[object, ...]]]:
        """All rows of a database, but for what is of one run alone."""
        base = sqlite3.connect(self.machine.folder / name)
        try:
            found = {}
            for table in TABLES:
                columns = [row[1] for row in base.execute(f"PRAGMA table_info({table})")]
                columns = [column for column in columns if column not in OF_ONE_RUN.union(but)]
                if table == "captures":
                    columns.remove("id")
                wanted = ", ".join(columns).replace("capture,", "(SELECT path FROM captures WHERE id = capture),")
                found[table] = sorted(base.execute(f"SELECT {wanted} FROM {table}"), key=repr)
            return found
        finally:
            base.close()

    def by_one_worker(self, *words: object) -> None:
        """Audits the captures as h2audit-any does, whole, into a database of its own."""
        status, _, error = self.machine.run("--jobs", "2", "--split-above", "0", *words, "captures")
        self.assertEqual((status in (0, 1), error), (True, ""))
        self.machine.database.rename(self.machine.folder / "whole.sqlite")

    def check_rows(self, *words: object) -> None:
        """Each row is that of one worker, and its report that of h2audit-any alone."""
        found = self.everything()
        self.assertEqual(found, self.everything("whole.sqlite"))
        self.assertTrue(found["connections"] and found["findings"])
        rows = self.machine.ask(
            "SELECT path, program, outcome, reason, status, sha256, report_sha256, report_bytes FROM captures"
        )
        self.assertEqual(len(rows), len(list(self.machine.captures.iterdir())))
        for path, *row in rows:
            alone = self.any(*words, path)
            digests = [hashlib.sha256(text).hexdigest() for text in (pathlib.Path(path).read_bytes(), alone.stdout)]
            self.assertEqual(row, ["h2audit-any", "audited", None, alone.returncode, *digests, len(alone.stdout)], path)
        self.check_nothing_left()

    def check_nothing_left(self) -> None:
        self.assertEqual(list((self.machine.folder / "temporary").iterdir()), [])


class Forms(Imported):
    def test_without_keys(self) -> None:
        """IPv6 that h2audit passes over, pcapng and gzip: what is imported goes in parts, and no row shows it."""
        self.instead("h2audit", PROGRAM, 'echo "$*" >> runs')
        self.capture("six.pcap", parts.over_ipv6(self.plain()))
        self.pcapng()
        packed = self.capture("packed.pcap.gz", gzip.compress(self.plain()[: -len(b"cut")] + noise()))
        self.assertLess(packed.stat().st_size, 1000000)
        self.by_one_worker()
        (self.machine.folder / "runs").unlink()
        status, said, error = self.machine.run("--jobs", "2", *SPLIT, "captures")
        self.assertEqual((status, said, error), (1, "3 captures: 3 with faults, 0 in which nothing was audited\n", ""))
        self.check_rows()
        runs = (self.machine.folder / "runs").read_text().splitlines()
        audits = [run for run in runs if run.startswith("--workers ")]
        self.assertEqual([run for run in audits if "/part-" not in run], [])
        self.assertEqual(len(audits), 3 * 3)

    def test_keys(self) -> None:
        """TLS with its keys, which make each capture one that is imported: also one that h2audit would read."""
        self.capture("tls.pcap", over_tls(self.machine.folder))
        self.capture("plain.pcap", self.plain())
        self.by_one_worker("-k", "keys")
        self.assertEqual(self.machine.run("--jobs", "2", *SPLIT, "-k", "keys", "captures")[::2], (1, ""))
        self.check_rows("-k", self.machine.folder / "keys")

    def test_grows_too_large(self) -> None:
        """What h2audit-any made may be too large for h2audit: then the import is a task, and its size decides again."""
        self.pcapng()
        self.by_one_worker()
        too_large = "case $* in *--map*) ;; *) echo 'h2audit: capture refused: too-large' >&2; exit 3 ;; esac"
        self.instead("h2audit-any", beside("h2audit-any"), too_large)
        self.assertEqual(self.machine.run("--jobs", "1", "captures")[::2], (1, ""))
        self.check_rows()
        self.machine.database.unlink()
        self.assertEqual(self.machine.run("--jobs", "1", "--split-above", "0", "captures")[0], 3)
        self.assertEqual(self.machine.ask("SELECT outcome, reason FROM captures"), [("refused", "too-large")])

    def test_no_key(self) -> None:
        """TLS without keys cannot be read: the status is 6."""
        self.capture("tls.pcap", over_tls(self.machine.folder))
        self.machine.run("--jobs", "2", *SPLIT, "captures")
        path = self.machine.captures / "tls.pcap"
        alone = self.any(path)
        rows = self.machine.ask("SELECT outcome, status, report_sha256 FROM captures")
        self.assertEqual(rows, [("audited", 6, hashlib.sha256(alone.stdout).hexdigest())])
        self.assertEqual(alone.returncode, 6)


class Misfortunes(Imported):
    def test_workers_killed(self) -> None:
        """A worker is killed while it imports, and another while it audits a part: each is done by another."""
        self.pcapng()
        self.by_one_worker()
        kill = "[ -e {0} ] || {{ : > {0}; kill -9 $PPID; sleep 60; }}"
        self.instead("h2audit-import", beside("h2audit-import"), kill.format("import-was-killed"))
        self.instead("h2audit", PROGRAM, f"case $* in *part-002*) {kill.format('part-was-killed')} ;; esac")
        status, said, error = self.machine.run("--jobs", "2", *SPLIT, "captures")
        self.assertEqual((status, error), (1, ""), said)
        self.assertTrue(all((self.machine.folder / f"{what}-was-killed").exists() for what in ("import", "part")))
        self.assertEqual(self.everything(but=("tries",)), self.everything("whole.sqlite", but=("tries",)))
        self.assertEqual(self.machine.ask("SELECT tries FROM captures"), [(2,)])
        self.check_nothing_left()

    def test_interrupted(self) -> None:
        """Ctrl-C during an import, and during the audit of parts: nothing is entered or left, and --resume does it."""
        self.pcapng()
        self.by_one_worker()
        for name, program in (("h2audit-import", beside("h2audit-import")), ("h2audit", PROGRAM)):
            wait = f"[ -e go-{name} ] || {{ : > at-{name}; sleep 90; }}"
            self.instead(name, program, f"case $* in *imported*|*part*) {wait} ;; esac")
        for name in ("h2audit-import", "h2audit"):
            child = self.machine.start("--jobs", "2", "--resume", *SPLIT, "captures", start_new_session=True)
            until((self.machine.folder / f"at-{name}").exists)
            os.killpg(child.pid, signal.SIGINT)
            _, error = child.communicate(timeout=PATIENCE)
            said = "h2audit-fleet: ended early: --resume goes on with the database\n"
            self.assertEqual((child.returncode, error), (130, said))
            self.assertEqual(self.machine.ask("SELECT COUNT(*) FROM captures"), [(0,)])
            self.check_nothing_left()
            (self.machine.folder / f"go-{name}").touch()
        self.assertEqual(self.machine.run("--jobs", "2", "--resume", *SPLIT, "captures")[::2], (1, ""))
        self.check_rows()

    def test_time_is_up(self) -> None:
        """An import that takes too long is ended and tried again, and is then entered as failed."""
        self.pcapng()
        self.instead("h2audit-import", "true", "echo once more >> tries; sleep 60")
        self.assertEqual(self.machine.run("--jobs", "1", "--timeout", "2", "--retries", "1", *SPLIT, "captures")[0], 3)
        rows = self.machine.ask("SELECT program, outcome, reason, tries, length(sha256) FROM captures")
        self.assertEqual(rows, [("h2audit-any", "failed", "timeout", 2, 64)])
        self.assertEqual((self.machine.folder / "tries").read_text(), "once more\n" * 2)
        self.check_nothing_left()

    def test_too_large(self) -> None:
        """A part of an import that would be too large is named, and the row is that of h2audit-any --parts."""
        path = self.pcapng()
        self.machine.link("h2audit-split", parts.STAND_IN)
        os.environ["FLEET_MOST"] = "450000"
        self.addCleanup(os.environ.pop, "FLEET_MOST")
        self.assertEqual(self.machine.run("--jobs", "2", *SPLIT, "captures")[0], 3)
        made = self.machine.folder / "made.pcap"
        subprocess.run([self.machine.bin / "h2audit-import", "-o", made, path], check=True)
        order: tasks.Order = {"keys": [], "timeout": 60.0, "split_above": 1000000}
        alone = self.any("--parts", str(tasks.parts_of(made.stat().st_size, order)), path)
        row = self.machine.ask("SELECT program, outcome, status, reason, report_sha256 FROM captures")[0]
        self.assertEqual(row[:3], ("h2audit-any", "partial", alone.returncode))
        self.assertIn(row[3], alone.stderr.decode())
        self.assertEqual(row[4], hashlib.sha256(alone.stdout).hexdigest())

    def test_no_program(self) -> None:
        """Without the program that splits one row says so, at once."""
        self.pcapng()
        (self.machine.bin / "h2audit-split").unlink()
        self.assertEqual(self.machine.run("--jobs", "1", *SPLIT, "captures")[0], 3)
        self.assertEqual(self.machine.ask("SELECT reason, tries FROM captures"), [("no-program h2audit-split", 1)])


class OnCluster(Imported):
    """A scheduler with TLS and two workers, with a folder that they share and without one."""

    def test_shared_and_not(self) -> None:
        self.pcapng()
        self.by_one_worker()
        self.instead("h2audit", PROGRAM, "case $* in *part*) echo $PPID >> workers ;; esac")
        cluster = Cluster(self.machine)
        self.addCleanup(cluster.stop)
        two = cluster.of_two()
        (self.machine.folder / "shared").mkdir()
        for words, workers in ((("--scratch", "shared"), 2), ((), 1)):
            self.machine.database.unlink(missing_ok=True)
            (self.machine.folder / "workers").unlink(missing_ok=True)
            found = self.machine.run(*two, *SPLIT, *words, "captures")
            self.assertEqual(found[::2], (1, ""))
            self.assertEqual(self.everything(), self.everything("whole.sqlite"))
            self.assertEqual(len(set((self.machine.folder / "workers").read_text().split())), workers)
            self.assertEqual(list((self.machine.folder / "shared").iterdir()), [])

    def test_one_worker(self) -> None:
        """Where workers share no folder one of them does all of it."""
        os.environ["PATH"], path = f"{self.machine.bin}:/usr/bin:/bin", os.environ["PATH"]
        self.addCleanup(os.environ.__setitem__, "PATH", path)
        order: tasks.Order = {"keys": [], "timeout": 60.0, "split_above": 1000000}
        for name, content in (("six.pcap", parts.over_ipv6(self.plain())), ("a.pcapng", self.pcapng().read_bytes())):
            capture = self.capture(name, content)
            answer = large.in_parts(os.fsencode(capture), order)
            alone = self.any(capture)
            self.assertEqual(
                (answer["outcome"], answer["status"], answer["program"], answer["report_sha256"]),
                ("audited", alone.returncode, "h2audit-any", hashlib.sha256(alone.stdout).hexdigest()),
            )


if __name__ == "__main__":
    unittest.main()
