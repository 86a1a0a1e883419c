"""The command line of h2audit-fleet."""

import argparse
from dataclasses import dataclass

from h2audit.fleet.tasks import NAMED, UNNAMED
from h2audit.report.command import Words, number

MEGABYTE = 1000000
LARGEST = 2147
STRETCH = 256
EPILOG = """\
A PATH is a capture, or a folder that is walked over; captures there are known by name or by first bytes.

exit status:
  0    every capture stands in the database, and none shows a fault; with --watch a signal ended it
  1    every capture stands there, and some connection shows a fault
  2    the command line is invalid
  3    some capture was refused or failed, which its row says; all others stand. Also where a folder or a list
       brings no capture, and with --require-http2 where nothing was audited in one
  4    reading or writing failed: a PATH, the database
  5    there was not enough memory
  7    there are no workers: dask is missing, no scheduler answers, h2audit is missing on a worker
  130  ended by Ctrl-C (143 by SIGTERM, 129 by SIGHUP): --resume goes on
"""


@dataclass(frozen=True)
class Asked:
    """What the command line asks for."""

    db: str
    scheduler: str | None
    jobs: int | None
    tls_ca: str | None
    tls_cert: str | None
    tls_key: str | None
    unencrypted: bool
    dashboard: str | None
    keys: list[str]
    requests: str | None
    no_legs: bool
    no_joined: bool
    timeout: int
    retries: int
    split_above: int
    scratch: str | None
    reports: str | None
    resume: bool
    require_http2: bool
    lists: list[str]
    collect: str | None
    watch: str | None
    stretch: int | None
    keep: int | None
    metrics: str | None
    paths: list[str]


def parser() -> Words:
    words = Words(
        prog="h2audit-fleet",
        description="Audits many captures, and enters them into one SQLite database.",
        formatter_class=argparse.RawDescriptionHelpFormatter,
        epilog=EPILOG,
        allow_abbrev=False,
    )
    words.add_argument("paths", nargs="*", metavar="PATH", help="captures, and folders of captures")
    words.add_argument("--db", metavar="FILE", required=True, help="the database")
    words.add_argument(
        "--list",
        dest="lists",
        metavar="FILE",
        action="append",
        default=[],
        help="a list of PATHs, one a line or each ended by a zero byte; - is standard input",
    )
    words.add_argument(
        "--resume", action="store_true", help="go on with a database: do what is missing, failed or has changed"
    )
    words.add_argument(
        "--require-http2",
        action="store_true",
        help="status 3 where a capture has no HTTP/2 connection that was audited",
    )
    words.add_argument("--reports", metavar="DIR", help="keep each report as DIR/SHA256.report")
    words.add_argument(
        "--collect", metavar="DIR", help="enter the reports that h2audit-any left in DIR, and audit nothing"
    )
    add_watch(words)
    add_audit(words)
    add_workers(words)
    words.add_version()
    return words


def add_watch(words: Words) -> None:
    words.add_argument(
        "--watch", metavar="DIR", help="take the captures in DIR as a ring buffer closes them, until a signal ends it"
    )
    words.add_argument(
        "--stretch",
        metavar="MB",
        type=number(1, LARGEST),
        help=f"how much of a ring is audited together, and anew with each file (default: {STRETCH})",
    )
    words.add_argument(
        "--keep",
        metavar="MB",
        type=number(1, 10**9),
        help="keep the database below MB megabytes: the oldest captures go",
    )
    words.add_argument(
        "--metrics", metavar="FILE", help="write counters for Prometheus, as a text file of its node exporter"
    )


def add_audit(words: Words) -> None:
    words.add_argument("-k", "--keys", metavar="FILE", action="append", default=[], help="a key log of TLS")
    requests = words.add_mutually_exclusive_group()
    requests.add_argument(
        "--requests",
        action="store_const",
        const=NAMED,
        help="enter requests too, as h2audit-why tells of them, with their names, which may be secret",
    )
    requests.add_argument(
        "--unnamed-requests",
        dest="requests",
        action="store_const",
        const=UNNAMED,
        help="enter requests without their names and statuses",
    )
    words.add_argument("--no-legs", action="store_true", help="tell nothing of both legs of a proxy with requests")
    words.add_argument("--no-joined", action="store_true", help="leave connections alone that began before the capture")
    words.add_argument(
        "--timeout",
        metavar="SECONDS",
        type=number(1, 10**6),
        default=3600,
        help="end a program that takes longer (default: 3600)",
    )
    words.add_argument(
        "--retries",
        metavar="N",
        type=number(0, 100),
        default=2,
        help="tries after the first where memory, time or a worker is lost (default: 2)",
    )
    words.add_argument(
        "--split-above",
        metavar="MB",
        type=number(0, LARGEST),
        default=512,
        help="split captures of more megabytes, and audit their parts side by side; 0 never (default: 512)",
    )
    words.add_argument(
        "--scratch", metavar="DIR", help="where imports and parts stand for a while: a folder that all workers share"
    )


def add_workers(words: Words) -> None:
    words.add_argument(
        "-j",
        "--jobs",
        metavar="N",
        type=number(1, 1024),
        help="workers on this machine (default: one for each processor)",
    )
    words.add_argument("--dashboard", metavar="ADDRESS", help="serve dask's dashboard of the workers on this machine")
    words.add_argument("--scheduler", metavar="ADDRESS", help="use the workers of this scheduler, as tls://HOST:8786")
    words.add_argument("--tls-ca", metavar="FILE", help="the authority that signs the scheduler's certificate")
    words.add_argument("--tls-cert", metavar="FILE", help="the certificate of this program")
    words.add_argument("--tls-key", metavar="FILE", help="the key of that certificate")
    words.add_argument(
        "--unencrypted", action="store_true", help="use a scheduler without TLS, which anybody may command"
    )


def read_words(words: list[str]) -> Asked:
    """What the words ask for; ends the program where they are invalid."""
    line = parser()
    asked = Asked(**vars(line.parse_intermixed_args(words)))
    if problem := problem_of(asked):
        line.error(problem)
    return asked


def problem_of(asked: Asked) -> str | None:
    has_tls = [word is not None for word in (asked.tls_ca, asked.tls_cert, asked.tls_key)]
    if asked.watch is not None:
        return problem_of_watch(asked)
    if asked.stretch is not None or asked.keep is not None or asked.metrics is not None:
        return "--stretch, --keep and --metrics are for --watch"
    if asked.collect is not None:
        return problem_of_collection(asked)
    if not asked.paths and not asked.lists:
        return "a PATH, --list, --collect or --watch is needed"
    if asked.scheduler is None:
        is_for_one = any(has_tls) or asked.unencrypted
        return "--tls-ca, --tls-cert, --tls-key and --unencrypted are for a --scheduler" if is_for_one else None
    if asked.jobs is not None:
        return "--jobs is for workers on this machine; a scheduler has its own"
    if asked.dashboard is not None:
        return "--dashboard is for workers on this machine; a scheduler has its own"
    return problem_of_scheduler(asked, has_tls)


def problem_of_watch(asked: Asked) -> str | None:
    if asked.paths or asked.lists or asked.collect is not None:
        return "--watch takes no PATH, no --list and no --collect"
    if asked.scheduler is not None or asked.dashboard is not None:
        return "--watch has workers on this machine alone: no --scheduler and no --dashboard"
    if asked.reports is not None or asked.require_http2:
        return "--watch keeps no --reports, and has no --require-http2"
    return None


def problem_of_collection(asked: Asked) -> str | None:
    if asked.paths or asked.lists:
        return "--collect takes no PATH and no --list"
    return "--collect enters no requests: not with --requests or --unnamed-requests" if asked.requests else None


def problem_of_scheduler(asked: Asked, has_tls: list[bool]) -> str | None:
    scheme = asked.scheduler.partition("://")[0] if asked.scheduler and "://" in asked.scheduler else "tls"
    if scheme == "tcp" and asked.unencrypted:
        return None
    if scheme == "tcp":
        return "a scheduler without TLS runs the programs of anybody: --unencrypted allows it"
    if scheme != "tls":
        return f"no scheduler is reached by {scheme}://"
    if asked.unencrypted:
        return "--unencrypted is for a scheduler at tcp://"
    return None if all(has_tls) else "a scheduler with TLS needs --tls-ca, --tls-cert and --tls-key"
