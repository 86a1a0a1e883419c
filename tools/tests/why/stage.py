"""Where a script sets a cause: loopback or a wire, a server, clients, and the capture of what they say."""

import contextlib
import pathlib
import struct
from collections.abc import Callable, Iterator
from dataclasses import dataclass
from typing import Any

from tools.tests import peers as why_peers
from tools.tests.peers import LOOPBACK, Place, RawClient, ran
from tools.tests.why.wire import Loses, Wire, captured_at, wire

# How long a peer that is held back waits, in seconds.
PAUSE = 0.7
CLIENT_END, SERVER_END = 0, 1
WINDOW = 65_535
WIDE = struct.pack(">HI", 4, 1 << 24)
NOTHING = struct.pack(">HI", 4, WINDOW)
Server = Callable[..., Any]


@dataclass(frozen=True)
class Line:
    """A wire: its round trip in seconds, its bandwidth in bytes a second, and the end that is captured."""

    round_trip: float
    bandwidth: float = 0
    end: int = SERVER_END

    def words(self) -> str:
        speed = f", {self.bandwidth / 1000:.0f} kB/s" if self.bandwidth else ""
        return f"{self.round_trip * 1000:.0f} ms{speed}, at the {('client', 'server')[self.end]}"


@dataclass
class Stage:
    folder: pathlib.Path
    capture: pathlib.Path
    line: Line | None = None
    place: Place = LOOPBACK
    # What a wire is told to lose, which a script may set, and the times of what was lost.
    loses: Loses = lambda _, __: False
    port: int = 0

    @contextlib.contextmanager
    def laid(self) -> Iterator[None]:
        """Lays the wire, if there is one."""
        if self.line is None:
            yield
            return
        with wire(self.line.round_trip, lambda end, octets: self.loses(end, octets), self.line.bandwidth) as made:
            self.place = made
            yield

    @contextlib.contextmanager
    def captured(self, port: int) -> Iterator[None]:
        self.port = port
        if isinstance(self.place, Wire) and self.line:
            with captured_at(self.place, self.line.end, self.capture):
                yield
        else:
            with why_peers.captured(self.capture, port):
                yield

    @contextlib.contextmanager
    def serving(self, server: Server, *words: Any) -> Iterator[int]:
        """A server that answers, and whose packets are captured."""
        with server(self.folder, self.place, *words) as port, self.captured(port):
            yield port

    @contextlib.contextmanager
    def raw(self, port: int, settings: bytes = b"") -> Iterator[RawClient]:
        client = RawClient(port, settings, self.place)
        try:
            yield client
        finally:
            client.close()

    def asks(self, *words: str | pathlib.Path) -> None:
        """Runs a client to its end."""
        ran(*self.place.within(CLIENT_END), *words)

    def url(self, path: str) -> str:
        return f"http://{self.place.address}:{self.port}/{path}"

    def nghttp(self, *words: str | pathlib.Path, paths: tuple[str, ...] = ("large",)) -> None:
        self.asks("nghttp", "-n", *words, *map(self.url, paths))


Script = Callable[[Stage], float]
