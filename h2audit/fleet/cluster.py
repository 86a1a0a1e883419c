"""The workers of a scheduler of dask that is named by its address; and those of this machine, with dask's dashboard.

Whoever reaches a scheduler of dask without TLS may run programs as its workers. So a local cluster has certificates of
its own, made anew and held in memory, serves this machine alone, and a scheduler without TLS is refused unless it is
asked for.
"""

import logging
import multiprocessing
import os
import signal
import ssl
import sys
import tempfile
import time
import warnings
from collections.abc import Callable, Iterator, Sequence
from contextlib import contextmanager
from dataclasses import dataclass
from importlib import import_module
from multiprocessing import resource_tracker
from types import TracebackType
from typing import Any

from h2audit.fleet import large, programs, sniff, tasks
from h2audit.fleet.carrier import Client, Future
from h2audit.fleet.workers import LOOK_SECONDS, NoWorkers, first_line

# They have no types of their own.
cloudpickle: Any = import_module("cloudpickle")
dask: Any = import_module("dask")
distributed: Any = import_module("distributed")
security: Any = import_module("distributed.security")

CONNECT_SECONDS = 30
CLOSE_SECONDS = 10
HERE = "127.0.0.1"
OF_TERMINAL = (signal.SIGINT, signal.SIGHUP)


@dataclass(frozen=True)
class Certificates:
    """The files of an authority, of a certificate and of its key."""

    authority: str
    certificate: str
    key: str


class Dask(Client):
    """A client of dask, and its workers."""

    lost = distributed.KilledWorker

    def __init__(self, scheduler: Any, **more: Any) -> None:
        self.client: Any = distributed.Client(scheduler, **more)
        self.dashboard_link = str(self.client.dashboard_link)

    def __exit__(
        self, kind: type[BaseException] | None, error: BaseException | None, trace: TracebackType | None
    ) -> None:
        self.client.close()

    def submit(self, work: Callable[..., object], *words: object, priority: int) -> Future:
        future: Future = self.client.submit(work, *words, pure=False, priority=priority)
        return future

    def cancel(self, futures: Sequence[Future]) -> None:
        self.client.cancel(list(futures))

    def threads(self) -> int:
        return sum(self.client.nthreads().values())

    def run(self, work: Callable[[], str]) -> dict[str, str]:
        return {f"worker {worker}": said for worker, said in self.client.run(work).items()}


class Quiet(distributed.WorkerPlugin):  # type: ignore[misc]  # dask says no type of it
    """Keeps the words of the workers of this machine from its terminal: answers say what failed."""

    name = "quiet"

    def setup(self, worker: Any) -> None:
        nowhere = os.open(os.devnull, os.O_WRONLY)
        os.dup2(nowhere, 2)
        os.close(nowhere)


def settle() -> None:
    """What dask is to do and not to do, in this process and in the workers that it starts.

    When a worker is lost dask says so of each task that it had, and tries none again: that is for `dispatch` to judge.
    """
    warnings.simplefilter("ignore")
    logging.disable(logging.CRITICAL)
    os.environ.setdefault("DASK_LOGGING__DISTRIBUTED", "critical")
    os.environ["PYTHONSAFEPATH"] = "1"  # what lies in the folder that they begin in is no module of theirs
    for module in (tasks, large, programs, sniff, sys.modules[__name__]):
        cloudpickle.register_pickle_by_value(module)
    dask.config.set({"distributed.scheduler.allowed-failures": 0, "logging.distributed": "critical"})


@contextmanager
def deaf() -> Iterator[None]:
    """Threads that begin here, and the processes that they start, do not hear the terminal's keys, nor that it goes."""
    # To start this one later would let its thread hear again.
    resource_tracker.ensure_running()
    before = signal.pthread_sigmask(signal.SIG_BLOCK, OF_TERMINAL)
    try:
        yield
    finally:
        signal.pthread_sigmask(signal.SIG_SETMASK, before)


@contextmanager
def local(jobs: int, dashboard: str) -> Iterator[Client]:
    """Workers of this machine with a dashboard, one process each, which may still be on their way."""
    settle()
    with tempfile.TemporaryDirectory(prefix="h2audit-fleet-", ignore_cleanup_errors=True) as folder:
        cluster = local_cluster(dashboard, folder)
        try:
            client = Dask(cluster)
            with client:
                client.client.register_worker_plugin(Quiet())
                cluster.scale(jobs)
                yield client
        finally:
            close(cluster)


def close(cluster: Any) -> None:
    """Ends the workers. Where one was ended while it began dask waits for it, and it never comes."""
    try:
        cluster.close(timeout=CLOSE_SECONDS)
    except TimeoutError:
        # Without its loop it brings no worker back.
        cluster.shutdown_on_close = False
        cluster.loop.add_callback(cluster.loop.stop)
        time.sleep(LOOK_SECONDS)
        for child in multiprocessing.active_children():
            child.kill()
            child.join()


def local_cluster(dashboard: str, folder: str) -> Any:
    try:
        with deaf():
            return distributed.LocalCluster(
                n_workers=0,
                threads_per_worker=1,
                host=HERE,
                security=security.Security.temporary(),
                silence_logs=50,
                local_directory=folder,
                dashboard_address=dashboard,
                worker_dashboard_address=f"{HERE}:0",
            )
    except (OSError, ImportError, RuntimeError) as why:
        raise NoWorkers(f"the workers cannot be started: {first_line(why)}") from None


@contextmanager
def remote(address: str, certificates: Certificates | None) -> Iterator[Client]:
    """The workers of a scheduler; an address without a scheme is one of TLS."""
    settle()
    address = address if "://" in address else f"tls://{address}"
    try:
        client = Dask(address, security=security_of(certificates), timeout=CONNECT_SECONDS, set_as_default=False)
    except (OSError, TimeoutError, ssl.SSLError, ValueError, RuntimeError) as why:
        raise NoWorkers(f"{address}: {first_line(why)}") from None
    with client:
        yield client


def security_of(certificates: Certificates | None) -> Any:
    """How a client proves who it is, in dask's terms."""
    if certificates is None:
        return None
    for name in (certificates.authority, certificates.certificate, certificates.key):
        with open(name, "rb"):
            pass
    return security.Security(
        require_encryption=True,
        tls_ca_file=certificates.authority,
        tls_client_cert=certificates.certificate,
        tls_client_key=certificates.key,
    )
