"""Lines of a report that tests count by themselves: findings, stalls, and where connections begin."""

import re
from collections.abc import Iterator
from typing import BinaryIO, NamedTuple

from tools.tests.kinds import KINDS, NOBODY

FINDING = re.compile(r"frame (\d+) record (\d+) time (\d+) (client|server) ([a-z-]+) stream (\d+) value (-?\d+)")
STALL = re.compile(r"stall (client|server) stream (\d+) from (\d+) (?:open|to (\d+) nanos (-?\d+))")
CONNECTION = re.compile(r"connection (\d+) client (\S+) server (\S+) record (\d+) (?:(http2) frames (\d+)|(.*))")


class Opening(NamedTuple):
    number: int
    client: str
    server: str
    record: int
    form: str
    frames: int


class Finding(NamedTuple):
    frame: int
    record: int
    time: int
    side: str
    kind: str
    stream: int
    value: int

    @property
    def is_fault(self) -> bool:
        return KINDS[self.kind].blame != NOBODY


class Stall(NamedTuple):
    side: str
    stream: int
    begin: int
    end: int | None
    nanos: int | None


def read_lines(report: BinaryIO) -> Iterator[Opening | Finding | Stall]:
    for line in report.read().decode("ascii").splitlines():
        if said := FINDING.fullmatch(line):
            frame, record, time, side, kind, stream, value = said.groups()
            yield Finding(int(frame), int(record), int(time), side, kind, int(stream), int(value))
        elif said := STALL.fullmatch(line):
            side, stream, begin, end, nanos = said.groups()
            yield Stall(side, int(stream), int(begin), int(end) if end else None, int(nanos) if nanos else None)
        elif said := CONNECTION.fullmatch(line):
            number, client, server, record, http2, frames, other = said.groups()
            yield Opening(int(number), client, server, int(record), http2 or other, int(frames or 0))
