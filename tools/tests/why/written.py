"""Scripts that set a cause where the server is in Python: one that writes its frames itself, and one of gRPC."""

import contextlib
import pathlib
import socket
import threading
import time
from collections.abc import Iterator
from concurrent import futures
from dataclasses import dataclass
from typing import Any

from tools.tests.peers import Place, frame, free_port, proxy_to, request
from tools.tests.why.stage import PAUSE, SERVER_END, WIDE, WINDOW, Script, Stage


@dataclass
class Written:
    """A server in Python: what it writes once a request is there, and how long before its first byte it waits.

    Before that it answers so many requests on streams 1, 3, 5 .. at once, each in one piece.
    """

    pieces: tuple[bytes, ...]
    wait: float = 0
    has_delay: bool = False
    requests: int = 1
    at_once: int = 0

    @contextlib.contextmanager
    def __call__(self, _: pathlib.Path, place: Place) -> Iterator[int]:
        port = free_port()
        with place.socket(SERVER_END) as listening:
            listening.setsockopt(socket.SOL_SOCKET, socket.SO_REUSEADDR, 1)
            listening.bind((place.address, port))
            listening.listen()
            threading.Thread(target=self.serve, args=(listening,), daemon=True).start()
            yield port

    def serve(self, listening: socket.socket) -> None:
        one, _ = listening.accept()
        one.setsockopt(socket.IPPROTO_TCP, socket.TCP_NODELAY, int(not self.has_delay))
        time.sleep(self.wait)
        with contextlib.suppress(OSError):
            received = b""
            one.sendall(frame(4, 0, 0) + frame(4, 1, 0))
            for answered in range(self.at_once):
                while received.count(b"/at-once") <= answered:
                    received += one.recv(1 << 16)
                one.sendall(headers(2 * answered + 1) + frame(0, 1, 2 * answered + 1, bytes(100)))
            while received.count(b"/asked") < self.requests:
                received += one.recv(1 << 16)
            for piece in self.pieces:
                one.sendall(piece)
            while one.recv(1 << 16):
                pass
        one.close()


def headers(stream: int) -> bytes:
    return frame(1, 4, stream, b"\x88")


def answers(server: Written, wanted: int, requests: int = 1) -> Script:
    """A client asks, and reads so many bytes."""

    def make(stage: Stage) -> float:
        with stage.serving(server) as port, stage.raw(port, WIDE) as client:
            client.grant(0, size=1 << 24)
            client.write(b"".join(request(2 * at + 1, "GET", "/asked") for at in range(requests)))
            client.read_until(lambda _: client.all_content() >= wanted)
        return server.wait

    return make


def in_turn(stage: Stage) -> float:
    """Three answers one after the other over a slow path: the last one waits for the others."""
    assert stage.line
    size = 150_000
    pieces = tuple(
        headers(stream)
        + b"".join(frame(0, 0, stream, bytes(10_000)) for _ in range(size // 10_000))
        + frame(0, 1, stream)
        for stream in (1, 3, 5)
    )
    server = Written(pieces, requests=3)
    answers(server, 3 * size, 3)(stage)
    return 3 * size / stage.line.bandwidth


WARM = 8


def nagles(stage: Stage) -> float:
    """A server without TCP_NODELAY sends two small pieces: the second waits for the client's delayed ACK of the first.

    The client delays it, since requests and answers went to and fro before.
    """
    stream = 2 * WARM + 1
    pieces = (headers(stream) + frame(0, 0, stream, bytes(300)), frame(0, 1, stream, bytes(300)))
    server = Written(pieces, has_delay=True, at_once=WARM)
    with stage.serving(server) as port, stage.raw(port) as client:
        for answered in range(WARM):
            client.write(request(2 * answered + 1, "GET", "/at-once"))
            client.read_until(lambda _: client.all_content() >= 100 * (answered + 1))
        client.write(request(stream, "GET", "/asked"))
        client.read_until(lambda _: client.content(stream) >= 300)
        began = time.monotonic()
        client.read_until(lambda _: client.content(stream) >= 600)
        return time.monotonic() - began


# gRPC


class Feed:
    """What a server of gRPC does by the method's name."""

    def service(self, details: Any) -> Any:
        import grpc  # type: ignore[import]

        def watch(_: bytes, __: Any) -> Iterator[bytes]:
            yield from (bytes(10_000) for _ in range(100))

        def sleeps(_: bytes, __: Any) -> bytes:
            time.sleep(PAUSE)
            return b"done"

        def takes(some: Iterator[bytes], _: Any) -> bytes:
            time.sleep(PAUSE)
            return str(sum(map(len, some))).encode()

        name = details.method.rpartition("/")[2]
        if name == "Watch":
            return grpc.unary_stream_rpc_method_handler(watch)
        if name == "Take":
            return grpc.stream_unary_rpc_method_handler(takes)
        return grpc.unary_unary_rpc_method_handler(sleeps)


@contextlib.contextmanager
def grpc_server(_: pathlib.Path, place: Place) -> Iterator[int]:
    import grpc

    port = free_port()
    server = grpc.server(futures.ThreadPoolExecutor(4), options=NARROW)
    server.add_generic_rpc_handlers((Feed(),))
    server.add_insecure_port(f"{place.address}:{port}")
    server.start()
    yield port
    server.stop(None)


NARROW = [("grpc.http2.bdp_probe", 0), ("grpc.http2.lookahead_bytes", WINDOW)]


def grpc_behind_proxy(round_trip: float) -> Script:
    """A stream of a million bytes that is read at once, through a proxy that ends TCP."""

    def make(stage: Stage) -> float:
        import grpc

        with stage.serving(grpc_server) as port, proxy_to(port, round_trip) as near:
            with grpc.insecure_channel(f"127.0.0.1:{near}", NARROW) as channel:
                list(channel.unary_stream("/shop.Feed/Watch")(b""))
        return 0

    return make


def grpc_calls(method: str) -> Script:
    """A call whose server waits (Sleep), or whose client or server reads a stream after a while (Watch, Take)."""

    def make(stage: Stage) -> float:
        import grpc

        with stage.serving(grpc_server) as port:
            with grpc.insecure_channel(f"127.0.0.1:{port}", NARROW) as channel:
                if method == "Watch":
                    watched = channel.unary_stream("/shop.Feed/Watch")(b"")
                    next(watched)
                    time.sleep(PAUSE)
                    list(watched)
                elif method == "Take":
                    channel.stream_unary("/shop.Feed/Take")(bytes(10_000) for _ in range(100))
                else:
                    channel.unary_unary("/shop.Feed/Sleeps")(b"")
        return PAUSE

    return make
