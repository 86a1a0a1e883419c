"""Draws the credit of the windows in a report of h2audit.

The report has to hold credit lines, so it is made with --frames:

    h2audit --frames capture.pcap | h2audit-plot --output picture.svg

Each window has a panel: its credit over time, one dot for each credit line, all by one scale. Stalls are shaded, and
faults stand as red lines, named with their frame and the side that broke the rule. Where there are more windows than
--panels, those with faults are drawn, and then those with the longest stalls.

Exit status: 0 if the picture was written, 2 for an invalid command line, 3 if the report is refused, 4 if reading or
writing failed, 5 for want of memory, 7 if matplotlib is not installed. What went wrong is one line on standard error.
"""

import argparse
import os

from h2audit.plot.drawing import LARGEST_WINDOW, draw, save
from h2audit.plot.windows import chosen, connections_of
from h2audit.report.command import OK, Words, number, opened
from h2audit.report.output import written

NAME = "h2audit-plot"
MOST_PANELS = 64
FORMATS = ("svg", "png")


def arguments(words: list[str]) -> argparse.Namespace:
    parser = Words(prog=NAME, description=__doc__, formatter_class=argparse.RawDescriptionHelpFormatter)
    parser.add_argument("report", nargs="?", default="-", help="made with --frames; standard input without it, or as -")
    parser.add_argument(
        "-o", "--output", default="-", metavar="FILE", help="the picture; standard output without it, or as -"
    )
    parser.add_argument("--format", choices=FORMATS, help="without it by the name of the output, else svg")
    parser.add_argument("--connection", type=number(1, LARGEST_WINDOW), metavar="K", help="draw connection K alone")
    parser.add_argument(
        "--stream",
        type=number(0, LARGEST_WINDOW),
        metavar="S",
        help="draw the windows of stream S alone; 0 is the connection's",
    )
    parser.add_argument(
        "--panels",
        type=number(1, MOST_PANELS),
        default=8,
        metavar="N",
        help=f"draw at most N windows, 1 to {MOST_PANELS}; 8 without it",
    )
    parser.add_argument("--by-frame", action="store_true", help="draw over frame numbers, and not over time")
    parser.add_argument("-t", "--title", metavar="TITLE", default="", help="a heading above the picture")
    parser.add_version()
    asked = parser.parse_args(words)
    asked.title = " ".join(asked.title.encode(errors="replace").decode().split())
    if problem := problem_of(asked):
        parser.error(problem)
    asked.format = asked.format or ending_of(asked.output) or FORMATS[0]
    return asked


def ending_of(name: str) -> str:
    """What a name says that a file is: its ending, where that has letters alone."""
    ending = os.path.splitext(name)[1][1:].lower()
    return ending if ending.isalpha() else ""


def problem_of(asked: argparse.Namespace) -> str | None:
    """Whether the name of the picture says something else than what is drawn."""
    ending = ending_of(asked.output)
    if not ending or ending == asked.format or (asked.format and ending not in FORMATS):
        return None
    if asked.format:
        return f"{asked.output}: its name says {ending}, and --format {asked.format}"
    return None if ending in FORMATS else f"{asked.output}: no {ending} is drawn, but {' or '.join(FORMATS)}"


def main(words: list[str]) -> int:
    asked = arguments(words)
    with opened(asked.report) as report:
        connections = connections_of(report)
    figure = draw(*chosen(connections, asked), asked.by_frame, asked.title)
    with written(asked.output) as out:
        save(figure, out, asked.format)
    return OK
