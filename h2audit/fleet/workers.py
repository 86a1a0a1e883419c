"""The workers of a run: of this machine, or of dask; that there are some, and that they have the same h2audit."""

import time
from collections.abc import Callable
from contextlib import AbstractContextManager, suppress

from h2audit.fleet import tasks
from h2audit.fleet.carrier import Client
from h2audit.fleet.pool import Pool
from h2audit.fleet.words import Asked

WORKER_SECONDS = 120
LOOK_SECONDS = 0.1


class NoWorkers(Exception):
    """Why there are no workers."""


def workers_of(asked: Asked, processors: int) -> AbstractContextManager[Client]:
    """The workers that were asked for. What needs dask is loaded here, where it may be missing."""
    if asked.scheduler is None and asked.dashboard is None:
        return Pool(asked.jobs or processors)
    from h2audit.fleet import cluster

    if asked.scheduler is None:
        assert asked.dashboard
        return cluster.local(asked.jobs or processors, asked.dashboard)
    certificates = None
    if asked.tls_ca and asked.tls_cert and asked.tls_key:
        certificates = cluster.Certificates(asked.tls_ca, asked.tls_cert, asked.tls_key)
    return cluster.remote(asked.scheduler, certificates)


def has_worker(client: Client, is_ended: Callable[[], bool]) -> bool:
    """Waits for the first worker; False where the program is to end before."""
    latest = time.monotonic() + WORKER_SECONDS
    while not is_ended():
        with suppress(OSError):
            if client.threads():
                return True
        if time.monotonic() > latest:
            raise NoWorkers(f"no worker came within {WORKER_SECONDS} seconds")
        time.sleep(LOOK_SECONDS)
    return False


def version_of(client: Client) -> str:
    """What h2audit says of itself on all workers, which have to have the same: else reports might differ."""
    try:
        versions = client.run(tasks.version)
    except (OSError, TimeoutError) as why:
        raise NoWorkers(f"the workers do not answer: {first_line(why)}") from None
    for worker, version in sorted(versions.items()):
        if not version:
            raise NoWorkers(f"{worker} has no program {tasks.AUDIT}")
    if len(set(versions.values())) > 1:
        each = ", ".join(f"{worker} {version}" for worker, version in sorted(versions.items()))
        raise NoWorkers(f"the workers have different versions: {each}")
    return str(next(iter(versions.values())))


def first_line(why: BaseException) -> str:
    return (str(why).splitlines() or [type(why).__name__])[0]
