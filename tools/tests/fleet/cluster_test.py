"""Tests of h2audit-fleet on a cluster by its scheduler's address: with TLS, and on two machines.

The certificates are made by openssl here. The machines are network namespaces that the test makes and takes away, which
needs root; without it that test is skipped by name.
"""

import itertools
import json
import os
import pathlib
import signal
import subprocess
import unittest

from tools.tests.fleet.captures import PATIENCE, Machine, by_hand, count, summary, until

RUNS = ("Tls", "TwoMachines")
TIMED = True
# What is started ends with this program, however that ends.
TIED = ("setpriv", "--pdeathsig", "KILL", "--")
A, B = "192.0.2.1", "192.0.2.2"


class Cluster:
    """A scheduler of dask and its workers, each a process of its own. The scheduler is at a port that is free."""

    def __init__(self, machine: Machine) -> None:
        self.machine = machine
        self.address = ""
        self.children: list[subprocess.Popen[bytes]] = []
        self.numbers = itertools.count()
        self.certify("authority")
        self.certify("scheduler", "authority")
        self.certify("client", "authority")

    @property
    def folder(self) -> pathlib.Path:
        return self.machine.folder

    def certify(self, name: str, authority: str | None = None) -> None:
        """A key of its own, and a certificate that itself or the authority signs."""
        words = [
            "openssl",
            "req",
            "-x509",
            "-newkey",
            "ec",
            "-pkeyopt",
            "ec_paramgen_curve:P-256",
            "-nodes",
            "-days",
            "2",
            "-subj",
            f"/CN={name}",
            "-keyout",
            f"{name}.key",
            "-out",
            f"{name}.pem",
        ]
        if authority:
            words += ["-CA", f"{authority}.pem", "-CAkey", f"{authority}.key"]
            words += ["-addext", "basicConstraints=critical,CA:false"]
        subprocess.run(words, cwd=self.folder, check=True, capture_output=True)

    def words_of_tls(self, name: str) -> list[str]:
        files = {"--tls-ca-file": "authority.pem", "--tls-cert": f"{name}.pem", "--tls-key": f"{name}.key"}
        return [word for option, file in files.items() for word in (option, str(self.folder / file))]

    def start(self, program: str, *words: str, before: tuple[str, ...] = ()) -> subprocess.Popen[bytes]:
        log = self.folder / f"{program}.{next(self.numbers)}"
        surroundings = {
            **self.machine.surroundings,
            "DASK_DISTRIBUTED__COMM__TIMEOUTS__TCP": "15s",
            "DASK_DISTRIBUTED__SCHEDULER__WORKER_TTL": "15s",
        }
        with open(log, "wb") as said:
            child = subprocess.Popen(
                [*TIED, *before, program, *self.words_of_tls("scheduler"), *words],
                stdin=subprocess.DEVNULL,
                stdout=said,
                stderr=said,
                env=surroundings,
                cwd=self.folder,
                start_new_session=True,
            )
        self.children.append(child)
        return child

    def scheduler(self, host: str, before: tuple[str, ...] = ()) -> None:
        child = self.start(
            "dask-scheduler",
            "--host",
            host,
            "--port",
            "0",
            "--scheduler-file",
            "scheduler.json",
            "--no-dashboard",
            "--protocol",
            "tls",
            before=before,
        )
        until(lambda: self.is_found() or child.poll() is not None, self.said)
        assert self.address, self.said()

    def is_found(self) -> bool:
        """Whether the scheduler has said where it is."""
        try:
            self.address = json.loads((self.folder / "scheduler.json").read_text())["address"]
        except (FileNotFoundError, ValueError):
            pass
        return bool(self.address)

    def worker(self, *words: str, before: tuple[str, ...] = ()) -> subprocess.Popen[bytes]:
        return self.start(
            "dask-worker",
            self.address,
            "--nthreads",
            "1",
            "--no-dashboard",
            "--local-directory",
            str(self.folder / "temporary"),
            *words,
            before=before,
        )

    def of_two(self) -> tuple[str, ...]:
        """Starts a scheduler and two workers, and answers the words by which h2audit-fleet reaches them."""
        self.scheduler("127.0.0.1")
        for _ in range(2):
            self.worker()
        self.wait_for(2)
        tls = ("--tls-ca", "authority.pem", "--tls-cert", "client.pem", "--tls-key", "client.key")
        return ("--scheduler", self.address, *tls)

    def wait_for(self, workers: int) -> None:
        """Until so many workers say that they have found their scheduler."""
        until(
            lambda: self.said("dask-worker").count("Registered to") == workers
            or any(child.poll() is not None for child in self.children),
            self.said,
        )
        assert self.said("dask-worker").count("Registered to") == workers, self.said()

    def said(self, program: str = "dask-*") -> str:
        """What the scheduler and the workers said."""
        return "".join(f"\n{log.name}:\n{log.read_text()}" for log in sorted(self.folder.glob(f"{program}.[0-9]*")))

    def stop(self) -> None:
        for child in reversed(self.children):
            if child.poll() is None:
                os.killpg(child.pid, signal.SIGKILL)
            child.wait()


def machine_of(test: unittest.TestCase, number: int) -> Machine:
    samples = list({sample.digest: sample for sample in by_hand() if sample.status < 2}.values())[:number]
    machine = Machine(samples, None)
    machine.__enter__()
    test.addCleanup(machine.__exit__)
    return machine


class Tls(unittest.TestCase):
    """A scheduler with TLS, and two workers."""

    def setUp(self) -> None:
        self.machine = machine_of(self, 20)
        self.cluster = Cluster(self.machine)
        self.addCleanup(self.cluster.stop)
        self.cluster.scheduler("127.0.0.1")
        for _ in range(2):
            self.cluster.worker()
        self.cluster.wait_for(2)

    def words(self, name: str = "client", authority: str = "authority") -> tuple[str, ...]:
        tls = ("--tls-ca", f"{authority}.pem", "--tls-cert", f"{name}.pem", "--tls-key", f"{name}.key")
        return ("--scheduler", self.cluster.address.removeprefix("tls://"), *tls, "captures")

    def test_by_address(self) -> None:
        """All captures are audited over TLS, by both workers; who has no certificate of the authority is not let in."""
        self.machine.acts = {sample.digest: ["meet", 2] for sample in self.machine.samples}
        self.assertEqual(self.machine.run(*self.words()), (1, f"{summary(self.machine.samples)}\n", ""))
        rows = self.machine.ask("SELECT sha256, status, report_sha256 IS NOT NULL FROM captures")
        self.assertEqual(sorted(rows), sorted((sample.digest, sample.status, 1) for sample in self.machine.samples))
        self.assertEqual(len({worker for worker, in self.machine.ask("SELECT DISTINCT worker FROM captures")}), 2)
        self.cluster.certify("stranger")
        for name, authority in (("stranger", "authority"), ("client", "stranger")):
            status, said, error = self.machine.run("--resume", *self.words(name, authority))
            self.assertEqual((status, said, error.count("\n")), (7, "", 1), error)

    def test_without_tls(self) -> None:
        """Who asks without TLS is not let in."""
        address = self.cluster.address.replace("tls://", "tcp://")
        status, said, error = self.machine.run("--scheduler", address, "--unencrypted", "captures")
        self.assertEqual((status, said, error.count("\n")), (7, "", 1), error)

    def test_scheduler_goes(self) -> None:
        """The scheduler ends in mid-run: what was entered stands, and one line says so."""
        self.machine.acts = {sample.digest: ["sleep", 0.5] for sample in self.machine.samples}
        child = self.machine.start(*self.words())
        until(lambda: self.machine.database.exists() and count(self.machine) >= 3)
        self.cluster.children[0].kill()
        said, error = child.communicate(timeout=PATIENCE)
        self.assertEqual((child.returncode, said, error), (7, "", "h2audit-fleet: the scheduler went away\n"))
        self.assertTrue(3 <= len(self.machine.ask("SELECT path FROM captures WHERE outcome = 'audited'")) < 20)
        self.assertEqual(self.machine.ask("PRAGMA integrity_check"), [("ok",)])


@unittest.skipUnless(os.geteuid() == 0, "two machines: network namespaces need root")
class TwoMachines(unittest.TestCase):
    """Two network namespaces with a cable between them. The second machine's cable is cut in mid-run."""

    def setUp(self) -> None:
        self.names = tuple(f"h2audit-{os.getpid()}-{side}" for side in "ab")
        self.addCleanup(self.take_away)
        try:
            self.lay_cable()
        except (subprocess.CalledProcessError, FileNotFoundError):
            self.skipTest("two machines: no network namespaces can be made here")
        self.machine = machine_of(self, 30)

    def ip(self, *words: str) -> None:
        subprocess.run(["ip", *words], check=True, capture_output=True)

    def lay_cable(self) -> None:
        first, second = self.names
        for name in self.names:
            self.ip("netns", "add", name)
        self.ip("-n", first, "link", "add", "cable", "type", "veth", "peer", "name", "cable", "netns", second)
        for name, address in zip(self.names, (A, B)):
            self.ip("-n", name, "address", "add", f"{address}/24", "dev", "cable")
            self.ip("-n", name, "link", "set", "cable", "up")
            self.ip("-n", name, "link", "set", "lo", "up")

    def take_away(self) -> None:
        for name in self.names:
            subprocess.run(["ip", "netns", "delete", name], capture_output=True)

    def test_cable_is_cut(self) -> None:
        """Both machines take part; when one goes away in mid-run all captures stand nevertheless."""
        here, there = ((("ip", "netns", "exec", name)) for name in self.names)
        cluster = Cluster(self.machine)
        self.addCleanup(cluster.stop)
        cluster.scheduler(A, before=here)
        cluster.worker("--host", A, "--name", "here", before=here)
        cluster.worker("--host", B, "--name", "there", before=there)
        cluster.wait_for(2)
        self.machine.acts = {sample.digest: ["sleep", 0.4] for sample in self.machine.samples}
        tls = ("--tls-ca", "authority.pem", "--tls-cert", "client.pem", "--tls-key", "client.key")
        child = self.machine.start("--scheduler", cluster.address, *tls, "captures", before=here)
        until(lambda: self.machine.workers() == 2 or child.poll() is not None, cluster.said)
        self.ip("-n", self.names[1], "link", "set", "cable", "down")
        said, error = child.communicate(timeout=PATIENCE)
        self.assertEqual((child.returncode, error), (1, ""), said)
        rows = self.machine.ask("SELECT outcome, COUNT(*) FROM captures GROUP BY outcome")
        self.assertEqual(rows, [("audited", 30)])


if __name__ == "__main__":
    unittest.main()
