"""Shows captures, or a report of h2audit, on one HTML page, which needs no network, no server and no installation.

    h2audit-page -k keys.log capture.pcapng -o page.html
    h2audit --frames capture.pcap | h2audit-page - -o page.html

For captures the page says what h2audit-why says, with the requests over time; for a report what it holds: who broke
which rule, how long the longest stalls were, and each finding of each connection. With credit lines, as of --frames, it
has a chart for each window.

Exit status: 0 if the page was written, 2 for an invalid command line, 3 if the report or a capture is refused, 4 if
reading, writing or running a program failed, 5 for want of memory, 7 if a library is not installed. What went wrong is
one line on standard error.
"""

import argparse
import os

from h2audit.page.document import page
from h2audit.page.library import library
from h2audit.page.sources import audit_of
from h2audit.report.command import OK, Words
from h2audit.report.output import written

NAME = "h2audit-page"


def arguments(words: list[str]) -> argparse.Namespace:
    parser = Words(prog=NAME, description=__doc__, formatter_class=argparse.RawDescriptionHelpFormatter)
    parser.add_argument(
        "files",
        nargs="+",
        metavar="FILE",
        help="captures, as h2audit-any reads them; or one report, with credit lines for charts; - is standard input",
    )
    parser.add_argument(
        "-k",
        "--key-log",
        action="append",
        default=[],
        metavar="KEYLOG",
        help="secrets of TLS connections, as SSLKEYLOGFILE gets them; may stand several times",
    )
    parser.add_argument("-o", "--output", required=True, metavar="FILE", help="the page; - is standard output")
    parser.add_argument(
        "-t", "--title", metavar="TITLE", help="the heading of the page; without it the name of the file"
    )
    parser.add_argument("--sort", action="store_true", help="read several captures in the order of their first packets")
    parser.add_argument("--reorder", action="store_true", help="put packets in order of time that are at most 1 s late")
    parser.add_argument("--no-requests", action="store_true", help="leave out the names of requests")
    parser.add_version()
    return parser.parse_args(words)


def title_of(asked: argparse.Namespace) -> str:
    if asked.title is not None:
        return str(asked.title).encode(errors="replace").decode()
    if asked.files[0] == "-":
        return "Audit of HTTP/2 flow control"
    name = os.path.basename(str(asked.files[0])).encode(errors="replace").decode()
    return f"Audit of HTTP/2 flow control: {name}"


def main(words: list[str]) -> int:
    asked = arguments(words)
    audit = audit_of(asked)
    text = page(audit, title_of(asked), library())
    with written(asked.output) as out:
        out.write(text.encode())
    return OK
