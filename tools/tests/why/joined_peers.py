"""Captures on which no threshold of joining was set, by real peers: windows, delays, many streams, uploads, gRPC, loss.

    python3 -m tools.tests.why.joined_peers [NAME..]

Makes those of tests/joined anew, all by default, as root, with tcpdump and the peers. No other run makes the same
bytes: what is true of a capture is what its own whole says.
"""

import gzip
import struct
import sys
import time
from collections.abc import Callable
from dataclasses import dataclass

from tools.tests.import_tools import TOP
from tools.tests.peers import SIZES, caddy, folder_to_serve, frame, h2o, nghttpd, nginx, node
from tools.tests.why.stage import CLIENT_END, SERVER_END, Line, Server, Stage
from tools.tests.why.written import grpc_server

KEPT = TOP / "tests" / "joined"
# What is kept of a capture, packed, at most.
LARGEST = 120_000
Says = Callable[[Stage], None]


@dataclass(frozen=True)
class Made:
    """A capture: its name, the wire or loopback, and who says what."""

    name: str
    say: Says
    line: Line | None = None


def asked(server: Server, *words: str, paths: tuple[str, ...]) -> Says:
    """nghttp asks for files, at once."""

    def say(stage: Stage) -> None:
        with stage.serving(server):
            stage.nghttp(*words, paths=paths)

    return say


def loaded(server: Server, *words: str, paths: tuple[str, ...]) -> Says:
    """h2load asks again and again."""

    def say(stage: Stage) -> None:
        with stage.serving(server):
            stage.asks("h2load", *words, *map(stage.url, paths))

    return say


def curled(server: Server, *words: str, paths: tuple[str, ...]) -> Says:
    """curl asks for files."""

    def say(stage: Stage) -> None:
        with stage.serving(server):
            urls = [word for path in paths for word in ("-o", "/dev/null", stage.url(path))]
            stage.asks("curl", "--silent", "--http2-prior-knowledge", *words, *urls)

    return say


def curl_uploads(stage: Stage) -> None:
    """curl sends a file."""
    with stage.serving(nghttpd, ("-w", "14")):
        words = ("--silent", "--http2-prior-knowledge", "-o", "/dev/null")
        stage.asks("curl", *words, "--data-binary", f"@{stage.folder / 'mega'}", stage.url("small"))


def uploaded(server: Server, *words: str, file: str, more: tuple[object, ...] = ()) -> Says:
    """nghttp sends a file."""

    def say(stage: Stage) -> None:
        with stage.serving(server, *more):
            stage.asks("nghttp", "-n", *words, "-d", stage.folder / file, stage.url("small"))

    return say


def granted_by_hand(server: Server, stream_window: int, connection: int, pause: float) -> Says:
    """A client with odd windows, of which it gives back what it read, now the stream's and now the connection's."""

    def say(stage: Stage) -> None:
        settings = struct.pack(">HI", 4, stream_window)
        with stage.serving(server) as port, stage.raw(port, settings) as client:
            client.write(frame(8, 0, 0, struct.pack(">I", connection)))
            for stream in (1, 3, 5):
                client.get(stream, "/large")
            given = {0: 0, 1: 0, 3: 0, 5: 0}
            until = time.monotonic() + 8
            while client.all_content() < 3 * SIZES["large"] and time.monotonic() < until:
                client.read_until(lambda _: False, pause)
                for stream in given:
                    got = client.content(stream) if stream else client.all_content()
                    if got > given[stream]:
                        client.grant(stream, size=got - given[stream])
                        given[stream] = got

    return say


NODE_CLIENT = """
const http2 = require('http2');
const session = http2.connect(process.argv[2], {settings: {initialWindowSize: 30000}});
let left = 6;
const over = () => { if (--left === 0) session.close(); };
for (let at = 0; at < 4; at++) {
  const stream = session.request({':path': '/large'});
  stream.on('data', () => { stream.pause(); setTimeout(() => stream.resume(), 3 + at); });
  stream.on('close', over);
  stream.end();
}
for (let at = 0; at < 2; at++) {
  const stream = session.request({':path': at ? '/reads-late' : '/reads', ':method': 'POST'});
  stream.on('data', () => {});
  stream.on('close', over);
  stream.end(Buffer.alloc(300000));
}
"""


def node_to_node(stage: Stage) -> None:
    """Downloads by a slow reader, and uploads, of which one is read late."""
    script = stage.folder / "client.js"
    script.write_text(NODE_CLIENT)
    with stage.serving(node):
        stage.asks("node", script, stage.url(""))


def grpc_both_ways(stage: Stage) -> None:
    """Calls on one channel: a stream that is read slowly, long messages of the client, and small calls between."""
    import grpc  # type: ignore[import]

    with stage.serving(grpc_server) as port:
        with grpc.insecure_channel(f"127.0.0.1:{port}", [("grpc.http2.bdp_probe", 0)]) as channel:
            watched = channel.unary_stream("/shop.Feed/Watch")(b"")
            for _ in watched:
                time.sleep(0.004)
            channel.stream_unary("/shop.Feed/Take")(bytes(9_000) for _ in range(90))
            for _ in range(2):
                channel.unary_unary("/shop.Feed/Sleeps")(b"")


SIX = ("large", "medium", "large", "small", "large", "medium")
MANY = ("small", "medium") * 6
FAR, NEAR = Line(0.07), Line(0.018, end=CLIENT_END)
CAPTURES = [
    Made("windows_14_nghttpd_far", asked(nghttpd, "-w", "14", "-W", "15", paths=SIX), FAR),
    Made("windows_15_nghttpd", asked(nghttpd, "-w", "15", "-W", "16", "-m", "2", paths=("large", "medium"))),
    Made("windows_16_nginx_near", asked(nginx, "-w", "16", "-W", "18", paths=("large", "mega", "large")), NEAR),
    Made("windows_13_h2o", asked(h2o, "-w", "13", "-W", "15", paths=MANY)),
    Made("connection_15_h2o_far", asked(h2o, "-w", "18", "-W", "15", paths=SIX[:3]), FAR),
    Made("streams_caddy_near", asked(caddy, "-w", "14", "-W", "17", paths=MANY), NEAR),
    Made("load_nghttpd", loaded(nghttpd, "-n", "60", "-c", "2", "-m", "10", "-w", "14", "-W", "16", paths=("medium",))),
    Made("load_caddy_far",
         loaded(caddy, "-n", "30", "-c", "2", "-m", "8", "-w", "15", "-W", "17", paths=("medium",)), FAR),
    Made("load_chatty_nginx", loaded(nginx, "-n", "400", "-c", "2", "-m", "4", paths=("small",))),
    Made("curl_nginx_far", curled(nginx, paths=("mega",)), FAR),
    Made("curl_parallel_h2o", curled(h2o, "-Z", "--limit-rate", "900k", paths=("large", "large", "medium"))),
    Made("curl_upload_nghttpd_near", curl_uploads, NEAR),
    Made("upload_nghttpd_far", uploaded(nghttpd, file="large", more=(("-w", "15", "-W", "14"),)), FAR),
    Made("upload_nghttpd", uploaded(nghttpd, "-m", "3", file="large", more=(("-w", "16", "-W", "16"),))),
    Made("upload_h2o_near", uploaded(h2o, file="mega"), NEAR),
    Made("by_hand_nginx", granted_by_hand(nginx, 40_000, 34_465, 0.006)),
    Made("by_hand_nghttpd_far", granted_by_hand(nghttpd, 50_000, 10_000, 0.02), FAR),
    Made("by_hand_caddy", granted_by_hand(caddy, 22_222, 100_000, 0.012)),
    Made("node_to_node", node_to_node),
    Made("node_to_node_near", node_to_node, Line(0.018, end=SERVER_END)),
    Made("grpc_both_ways", grpc_both_ways),
    Made("slow_path_nghttpd", asked(nghttpd, "-w", "15", paths=("large", "medium")), Line(0.03, 900_000)),
]  # fmt: skip


def lossy(stage: Stage) -> None:
    """Every fortieth frame of the server's end is lost."""
    count = 0

    def loses(end: int, octets: bytes) -> bool:
        nonlocal count
        count += end == SERVER_END and len(octets) > 1000
        return count % 40 == 39 and end == SERVER_END and len(octets) > 1000

    stage.loses = loses
    with stage.serving(nghttpd):
        stage.nghttp("-w", "16", paths=("large", "mega"))


CAPTURES.append(Made("lossy_nghttpd", lossy, Line(0.03)))


def made(one: Made) -> bytes:
    """What is said, captured."""
    with folder_to_serve() as folder:
        capture = folder / "capture.pcap"
        stage = Stage(folder, capture, one.line)
        with stage.laid():
            one.say(stage)
        return capture.read_bytes()


def shortened(data: bytes) -> bytes:
    """What is kept of a capture: its first packets, as many as are small when packed."""
    packed = gzip.compress(data, mtime=0)
    at, ends = 24, []
    while at < len(data):
        at += 16 + struct.unpack_from("<I", data, at + 8)[0]
        ends.append(at)
    while len(packed) > LARGEST and len(ends) > 100:
        ends = ends[: len(ends) * 3 // 4]
        packed = gzip.compress(data[: ends[-1]], mtime=0)
    return packed


def main(names: list[str]) -> int:
    KEPT.mkdir(exist_ok=True)
    for one in CAPTURES:
        if not names or one.name in names:
            packed = shortened(made(one))
            (KEPT / f"{one.name}.pcap.gz").write_bytes(packed)
            print(f"{one.name}: {len(packed)} bytes", flush=True)
    return 0


if __name__ == "__main__":
    sys.exit(main(sys.argv[1:]))
