"""Scripts that set a cause between real peers. Each answers for how many seconds it held the request back."""

import signal
import socket
import struct
import time

from tools.tests import peers as why_peers
from tools.tests.peers import SIZES, RawClient, frame, process, proxy_to, request
from tools.tests.why.stage import CLIENT_END, NOTHING, PAUSE, SERVER_END, WIDE, WINDOW, Script, Server, Stage

# Windows


def grants_late(server: Server, window: str = "both") -> Script:
    """The client grants a while after it has all that the window lets through."""

    def make(stage: Stage) -> float:
        with stage.serving(server) as port, stage.raw(port, WIDE if window == "connection" else NOTHING) as client:
            client.get(1, "/large")
            client.read_until(lambda _: client.all_content() >= WINDOW)
            began = time.monotonic()
            time.sleep(PAUSE)
            client.grant(0, 1)
            held = time.monotonic() - began
            client.read_until(lambda _: client.content(1) >= SIZES["large"])
        return held

    return make


def never_grants(server: Server) -> Script:
    """The client grants nothing, and goes away."""

    def make(stage: Stage) -> float:
        with stage.serving(server) as port, stage.raw(port, NOTHING) as client:
            client.get(1, "/large")
            client.read_until(lambda _: client.all_content() >= WINDOW)
            began = time.monotonic()
            time.sleep(PAUSE)
            held = time.monotonic() - began
        return held

    return make


def one_stream_holds(server: Server) -> Script:
    """The client does not read stream 1, which holds the connection's window; stream 3 waits for it."""

    def make(stage: Stage) -> float:
        with stage.serving(server) as port, stage.raw(port, WIDE) as client:
            client.get(1, "/large")
            client.read_until(lambda _: client.all_content() >= WINDOW)
            client.get(3, "/small")
            began = time.monotonic()
            client.read_until(lambda _: False, PAUSE)
            client.grant(0)
            held = time.monotonic() - began
            client.read_until(lambda _: client.content(3) >= SIZES["small"] and client.content(1) >= SIZES["large"])
        return held

    return make


def leaks(stage: Stage) -> float:
    """Cancelled streams use up the connection's window, which the client does not give back."""
    with stage.serving(why_peers.nginx) as port, stage.raw(port) as client:
        for stream in (1, 3):
            client.get(stream, "/large")
            client.read_until(lambda _: client.content(stream) >= 16_384 or client.all_content() >= WINDOW, 2)
            client.write(frame(3, 0, stream, struct.pack(">I", 8)))
        client.get(5, "/small")
        client.read_until(lambda _: client.all_content() >= WINDOW, 0.3)
        client.get(7, "/medium")
        began = time.monotonic()
        client.read_until(lambda _: False, PAUSE)
        return time.monotonic() - began


def small_window(server: Server, *words: str) -> Script:
    """65,535 bytes a round trip, of a million, as nghttp grants them."""

    def make(stage: Stage) -> float:
        assert stage.line
        with stage.serving(server):
            stage.nghttp(*words, paths=("mega",))
        return (SIZES["mega"] / WINDOW - 1) * stage.line.round_trip

    return make


def grants_at_once(server: Server, window: str = "stream") -> Script:
    """The client grants a window as soon as it has all of it: each time nothing comes until the grant is there."""

    def make(stage: Stage) -> float:
        held = 0.0
        with stage.serving(server) as port, stage.raw(port, WIDE if window == "connection" else NOTHING) as client:
            if window == "stream":
                client.grant(0, size=1 << 24)
            client.get(1, "/mega")
            for came in range(WINDOW, SIZES["mega"], WINDOW):
                client.read_until(lambda _: client.content(1) >= came)
                began = time.monotonic()
                client.grant(int(window == "stream"), size=WINDOW)
                client.read_until(lambda _: client.content(1) > came)
                held += time.monotonic() - began
            client.read_until(lambda _: client.content(1) >= SIZES["mega"])
        return held

    return make


def behind_proxy(server: Server, round_trip: float) -> Script:
    """A small window behind a proxy that ends TCP, so that TCP's own round trip is short."""

    def make(stage: Stage) -> float:
        with stage.serving(server) as port, proxy_to(port, round_trip) as near:
            stage.port = near
            stage.nghttp("-w16", "-W24", paths=("mega",))
        return (SIZES["mega"] / WINDOW - 1) * round_trip

    return make


def uploads_through_small_window(stage: Stage) -> float:
    """The server's window is 65,535."""
    assert stage.line
    with stage.serving(why_peers.node):
        stage.nghttp("-d", stage.folder / "mega", paths=("reads",))
    return (SIZES["mega"] / WINDOW - 1) * stage.line.round_trip


def server_reads_late(stage: Stage) -> float:
    """The server's application begins to read an upload after a while."""
    with stage.serving(why_peers.node):
        stage.nghttp("-d", stage.folder / "large", paths=("reads-late",))
    return 0.7


# TCP

# Where a frame says that it is of IPv4 and TCP, and where the segment's number stands in it.
KIND, PROTOCOL, SEQUENCE = slice(12, 14), 14 + 9, 14 + 20 + 4


def stops_reading(server: Server, pause: float) -> Script:
    """The client reads nothing for a while, and its HTTP/2 windows are wide."""

    def make(stage: Stage) -> float:
        with stage.serving(server) as port:
            client = RawClient(port, WIDE, stage.place, 1 << 16)
            client.grant(0, size=1 << 24)
            client.get(1, "/mega")
            client.read_until(lambda _: client.content(1) >= 100_000)
            began = time.monotonic()
            time.sleep(pause)
            held = time.monotonic() - began
            client.read_until(lambda _: client.content(1) >= SIZES["mega"])
            client.close()
        return held

    return make


def is_stopped(stage: Stage) -> float:
    """curl is stopped by a signal while it downloads; its own limit stops its reading too, for a part of the rest."""
    with stage.serving(why_peers.nginx) as port:
        words = ("curl", "-s", "-o", "/dev/null", "--http2-prior-knowledge", "--limit-rate", "16M", stage.url("huge"))
        with process(*words) as curl:
            why_peers.grown(stage.capture, 2_000_000)
            curl.send_signal(signal.SIGSTOP)
            began = time.monotonic()
            time.sleep(3)
            curl.send_signal(signal.SIGCONT)
            held = time.monotonic() - began
            curl.wait(why_peers.PATIENCE)
    return held if port else 0


class Lost:
    """Loses what an end sends for a while, from when it is told to; says how long until all of that got through."""

    def __init__(self, end: int, least: int, seconds: float) -> None:
        self.end, self.least, self.seconds = end, least, seconds
        self.is_armed = False
        self.first, self.through = 0.0, 0.0
        self.missing: set[int] = set()

    def __call__(self, end: int, octets: bytes) -> bool:
        is_tcp = octets[KIND] == b"\x08\0" and octets[PROTOCOL] == socket.IPPROTO_TCP
        if not self.is_armed or not is_tcp or end != self.end or len(octets) < self.least or self.through:
            return False
        now = time.monotonic()
        self.first = self.first or now
        (sequence,) = struct.unpack_from(">I", octets, SEQUENCE)
        if now < self.first + self.seconds:
            self.missing.add(sequence)
            return True
        self.missing -= set(range(sequence, sequence + len(octets)))
        if not self.missing:
            self.through = now
        return False

    def held(self) -> float:
        return self.through - self.first


def loses_content(stage: Stage) -> float:
    """All that the server sends for a second is lost."""
    lost = stage.loses = Lost(SERVER_END, 1000, 1)
    with stage.serving(why_peers.nghttpd) as port, stage.raw(port, WIDE) as client:
        client.grant(0, size=1 << 24)
        client.get(1, "/large")
        client.read_until(lambda _: client.content(1) >= 60_000)
        lost.is_armed = True
        client.read_until(lambda _: client.content(1) >= SIZES["large"])
    return lost.held()


def loses_request(stage: Stage) -> float:
    """The request is lost, and sent again by TCP."""
    lost = stage.loses = Lost(CLIENT_END, 80, 0.5)
    with stage.serving(why_peers.nginx) as port, stage.raw(port) as client:
        client.get(1, "/small")
        client.read_until(lambda _: client.content(1) >= SIZES["small"])
        time.sleep(0.2)
        lost.is_armed = True
        client.get(3, "/small")
        client.read_until(lambda _: client.content(3) >= SIZES["small"])
    return lost.held()


def loses_syn(stage: Stage) -> float:
    """The SYN is lost; the request comes after the handshake."""
    with stage.serving(why_peers.nginx) as port:
        lost = stage.loses = Lost(CLIENT_END, 60, 0.5)
        lost.is_armed = True
        with stage.raw(port) as client:
            client.get(1, "/small")
            client.read_until(lambda _: client.content(1) >= SIZES["small"])
    return 0


# The path


def fills_path(server: Server, path: str, count: int = 1) -> Script:
    """Windows are wide, and the path is slow; so many downloads share it."""

    def make(stage: Stage) -> float:
        assert stage.line
        with stage.serving(server):
            stage.nghttp("-w24", "-W24", f"-m{count}", paths=(path,))
        return count * SIZES[path] / stage.line.bandwidth

    return make


def behind_download(server: Server) -> Script:
    """A small answer that is asked for while a download fills a slow path."""

    def make(stage: Stage) -> float:
        with stage.serving(server) as port, stage.raw(port, WIDE) as client:
            client.grant(0, size=1 << 24)
            client.get(1, "/mega")
            client.read_until(lambda _: client.content(1) >= 100_000)
            began = time.monotonic()
            client.get(3, "/small")
            client.read_until(lambda _: client.content(3) >= SIZES["small"])
            held = time.monotonic() - began
            client.read_until(lambda _: client.content(1) >= SIZES["mega"])
        return held

    return make


def uploads_over_slow_path(stage: Stage) -> float:
    assert stage.line
    with stage.serving(why_peers.nghttpd, ("-w24", "-W24")):
        stage.nghttp("-d", stage.folder / "large", paths=("small",))
    return SIZES["large"] / stage.line.bandwidth


# Applications


def nodes(path: str, held: float) -> Script:
    """The server's application does something at this path."""

    def make(stage: Stage) -> float:
        with stage.serving(why_peers.node):
            stage.nghttp(paths=("at-once",))
            stage.nghttp(paths=(path,))
        return held

    return make


def is_limited(stage: Stage) -> float:
    """nginx sends 20,000 bytes a second."""
    with stage.serving(why_peers.nginx, "limit_rate 20000;"):
        stage.nghttp(paths=("medium",))
    return SIZES["medium"] / 20_000


def client_pauses(stage: Stage) -> float:
    """The client pauses within its upload."""
    return upload(stage, True)


def never_ends(stage: Stage) -> float:
    """The client never ends its upload, and goes away."""
    return upload(stage, False)


def upload(stage: Stage, has_end: bool) -> float:
    with stage.serving(why_peers.node) as port, stage.raw(port) as client:
        client.write(request(1, "POST", "/reads", 4) + frame(0, 0, 1, bytes(2000)))
        began = time.monotonic()
        client.read_until(lambda _: False, PAUSE)
        held = time.monotonic() - began
        if has_end:
            client.write(frame(0, 1, 1, bytes(2000)))
            client.read_until(lambda _: client.content(1) > 0)
    return held


def quick(stage: Stage) -> float:
    with stage.serving(why_peers.nginx):
        stage.asks("curl", "-s", "-o", stage.folder / "got", "--http2-prior-knowledge", stage.url("small"))
    return 0


def quick_many(stage: Stage) -> float:
    with stage.serving(why_peers.h2o):
        stage.asks("h2load", "-n", "60", "-c", "2", "-m", "4", stage.url("small"))
    return 0
