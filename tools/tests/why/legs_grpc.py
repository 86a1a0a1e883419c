"""A server and a client of gRPC, each a process of its own: `serve ADDRESS PORT`, or `ask ADDRESS:PORT CALL..`.

Calls are Quick, Sleep, Watch (a stream that the client reads late), and Take (one that the server reads late).
"""

import contextlib
import itertools
import sys
import time
from collections.abc import Iterator
from concurrent import futures
from typing import Any

from tools.tests.peers import Place, free_port, process, ran

PAUSE = 0.6
WINDOW = 65_535
NARROW = [("grpc.http2.bdp_probe", 0), ("grpc.http2.lookahead_bytes", WINDOW)]
PIECES, PIECE = 24, 10_000
MODULE = "tools.tests.why.legs_grpc"


class Service:
    def __init__(self) -> None:
        self.count = itertools.count(1)

    def token(self) -> bytes:
        return b"<t:%08x>" % next(self.count)

    def service(self, details: Any) -> Any:
        import grpc  # type: ignore[import]

        def watch(_: bytes, context: Any) -> Iterator[bytes]:
            for __ in range(PIECES):
                yield self.token() + bytes(PIECE)

        def quick(_: bytes, __: Any) -> bytes:
            return self.token() + bytes(next(self.count) % 7 * 50)

        def sleep(_: bytes, __: Any) -> bytes:
            time.sleep(PAUSE)
            return self.token()

        def take(some: Iterator[bytes], _: Any) -> bytes:
            time.sleep(PAUSE)
            list(some)
            return self.token()

        name = details.method.rpartition("/")[2]
        if name == "Watch":
            return grpc.unary_stream_rpc_method_handler(watch)
        if name == "Take":
            return grpc.stream_unary_rpc_method_handler(take)
        return grpc.unary_unary_rpc_method_handler({"Sleep": sleep}.get(name, quick))


def serve(address: str, port: str) -> None:
    import grpc

    server = grpc.server(futures.ThreadPoolExecutor(8), options=NARROW)
    server.add_generic_rpc_handlers((Service(),))
    server.add_insecure_port(f"{address}:{port}")
    server.start()
    server.wait_for_termination()


def ask(target: str, calls: list[str]) -> None:
    import grpc

    with grpc.insecure_channel(target, NARROW) as channel:
        for call in calls:
            path = f"/shop.Feed/{call}"
            if call == "Watch":
                watched = channel.unary_stream(path)(b"")
                next(watched)
                time.sleep(PAUSE)
                list(watched)
            elif call == "Take":
                channel.stream_unary(path)(bytes(PIECE) for _ in range(PIECES))
            else:
                channel.unary_unary(path)(bytes(len(call)))


@contextlib.contextmanager
def serving(place: Place) -> Iterator[int]:
    """The server at a free port."""
    port = free_port()
    words = ["/usr/bin/python3", "-m", MODULE, "serve", place.address, str(port)]
    with process(*words, port=port, place=place):
        yield port


def asked(place: Place, port: int, *calls: str) -> None:
    """Runs a client to its end."""
    ran(*place.within(0), "/usr/bin/python3", "-m", MODULE, "ask", f"{place.address}:{port}", *calls)


if __name__ == "__main__":
    if sys.argv[1] == "serve":
        serve(*sys.argv[2:])
    else:
        ask(sys.argv[2], sys.argv[3:])
