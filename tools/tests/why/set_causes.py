"""Causes that are set, each in a capture of tests/causes, and what h2audit-why has to name there."""

from collections.abc import Callable
from dataclasses import dataclass
from typing import Any

from tools.tests.peers import caddy, frame, h2o, nghttpd, nginx, node
from tools.tests.why.scripts import (
    behind_download,
    behind_proxy,
    client_pauses,
    fills_path,
    grants_at_once,
    grants_late,
    is_limited,
    is_stopped,
    leaks,
    loses_content,
    loses_request,
    loses_syn,
    never_ends,
    never_grants,
    nodes,
    one_stream_holds,
    quick,
    quick_many,
    server_reads_late,
    small_window,
    stops_reading,
    uploads_over_slow_path,
    uploads_through_small_window,
)
from tools.tests.why.stage import CLIENT_END, PAUSE, Line, Script, Server
from tools.tests.why.written import WARM, Written, answers, grpc_behind_proxy, grpc_calls, headers, in_turn, nagles


@dataclass(frozen=True)
class Row:
    """A capture, what was set, and what is true of the request of a path or stream: all requests without either."""

    name: str
    peers: str
    was_set: str
    make: Script
    kind: str
    why: str | None = None
    side: str | None = None
    ask: str | None = None
    # The shares of this side's direction that last as long as the script held the request back.
    shares: tuple[str, ...] = ()
    of: str = "server"
    path: str = ""
    stream: int = 0
    line: Line | None = None

    def place(self) -> str:
        return self.line.words() if self.line else "loopback"


NEAR, FAR = Line(0.04), Line(0.1)
Like = dict[str, Any]
SENT = ("sending", "others")
LATE: Like = {
    "kind": "stream-window",
    "why": "granted-late",
    "side": "server",
    "ask": "client",
    "shares": ("stream_stall",),
}
ON_CONNECTION: Like = {**LATE, "kind": "connection-window", "shares": ("connection_stall",)}
NEVER: Like = {**LATE, "why": "granted-nothing"}
HELD_BY_ONE: Like = {**ON_CONNECTION, "stream": 3}
NARROW_WINDOW: Like = {**LATE, "why": "round-trip", "path": "/mega"}
NARROW_CONNECTION: Like = {**NARROW_WINDOW, "kind": "connection-window", "shares": ("connection_stall",)}
TCP: Like = {"kind": "tcp", "side": "server", "shares": ("tcp",)}
PATH: Like = {"kind": "path", "side": "server", "shares": SENT}
WAITS: Like = {"kind": "application", "why": "before", "side": "server", "ask": "server", "shares": ("waiting",)}
STOPS: Like = {"kind": "application", "why": "between", "side": "server", "ask": "server", "shares": ("idle",)}
CLIENT_STOPS: Like = {**STOPS, "side": "client", "ask": "client", "of": "client"}


def row(name: str, peers: str, was_set: str, make: Script, like: Like, **more: Any) -> Row:
    return Row(name, peers, was_set, make, **{**like, **more})


def each(
    name: str, servers: tuple[Server, ...], was_set: str, make: Callable[[Server], Script], like: Like
) -> list[Row]:
    """Rows that set one thing at several servers; the client writes its frames itself."""
    return [row(f"{name}_{server.__name__}", server.__name__, was_set, make(server), like) for server in servers]


ROWS: list[Row] = [
    *each(
        "grants_late",
        (nginx, h2o, caddy, nghttpd, node),
        "the client grants 0.7 s after it has all that the windows let through",
        grants_late,
        LATE,
    ),
    *each(
        "grants_connection_late",
        (nginx, h2o, nghttpd),
        "the client grants on the connection after 0.7 s; the stream's window is wide",
        lambda server: grants_late(server, "connection"),
        ON_CONNECTION,
    ),
    *each(
        "never_grants", (nginx, h2o, caddy), "the client grants nothing, and goes away after 0.7 s", never_grants, NEVER
    ),
    *each(
        "one_stream_holds",
        (nginx, h2o, caddy),
        "a stream that is not read holds the connection's window; another waits 0.7 s for it",
        one_stream_holds,
        HELD_BY_ONE,
    ),
    row(
        "cancelled_streams",
        "nginx",
        "cancelled streams used the connection's window, and nothing is granted for them",
        leaks,
        ON_CONNECTION,
        why="cancelled-streams",
        stream=7,
    ),
    row("small_window", "nghttpd", "a stream's window of 65,535", grants_at_once(nghttpd), NARROW_WINDOW, line=FAR),
    row("small_window_h2o", "h2o", "a stream's window of 65,535", grants_at_once(h2o), NARROW_WINDOW, line=FAR),
    row("small_window_nginx", "nginx", "a stream's window of 65,535", grants_at_once(nginx), NARROW_WINDOW, line=FAR),
    row(
        "small_connection_window",
        "nghttpd",
        "a connection's window of 65,535",
        grants_at_once(nghttpd, "connection"),
        NARROW_CONNECTION,
        line=FAR,
    ),
    row(
        "small_connection_window_caddy",
        "caddy",
        "a connection's window of 65,535",
        grants_at_once(caddy, "connection"),
        NARROW_CONNECTION,
        line=FAR,
    ),
    row(
        "small_window_nghttp",
        "nghttp, nghttpd",
        "a stream's window of 65,535",
        small_window(nghttpd, "-w16", "-W24"),
        NARROW_WINDOW,
        shares=(),
        line=FAR,
    ),
    row(
        "small_window_at_client",
        "nghttp, nghttpd",
        "a stream's window of 65,535",
        small_window(nghttpd, "-w16", "-W24"),
        NARROW_WINDOW,
        why="unshown",
        shares=(),
        line=Line(0.1, end=CLIENT_END),
    ),
    row(
        "behind_proxy",
        "nghttp, nghttpd",
        "a stream's window of 65,535, and a proxy on the way that takes 100 ms there and back",
        behind_proxy(nghttpd, 0.1),
        NARROW_WINDOW,
        shares=(),
    ),
    row(
        "behind_proxy_grpc",
        "gRPC",
        "a stream's window of 65,535, and a proxy on the way that takes 80 ms there and back",
        grpc_behind_proxy(0.08),
        NARROW_WINDOW,
        shares=(),
        path="/shop.Feed/Watch",
    ),
    row(
        "upload_through_small_window",
        "nghttp, node",
        "the server's window of 65,535",
        uploads_through_small_window,
        NARROW_WINDOW,
        side="client",
        ask="server",
        shares=(),
        path="/reads",
        line=Line(0.1, end=CLIENT_END),
    ),
    row(
        "server_reads_late",
        "nghttp, node",
        "the server's application reads an upload after 0.7 s",
        server_reads_late,
        LATE,
        side="client",
        ask="server",
        of="client",
        path="/reads-late",
    ),
    *each(
        "stops_reading",
        (h2o, caddy),
        "the client reads nothing for 3 s; HTTP/2's windows are wide",
        lambda server: stops_reading(server, 3),
        {**TCP, "why": "zero-window", "ask": "client"},
    ),
    row(
        "stops_reading_briefly",
        "caddy",
        "the client reads nothing for 0.5 s; HTTP/2's windows are wide",
        stops_reading(caddy, 0.5),
        TCP,
        why="zero-window",
        ask="client",
    ),
    row(
        "stops_reading_far",
        "nginx",
        "the client reads nothing for 3 s; HTTP/2's windows are wide",
        stops_reading(nginx, 3),
        TCP,
        why="zero-window",
        ask="client",
        line=NEAR,
    ),
    row(
        "is_stopped",
        "curl, nginx",
        "the client is stopped for 3 s by SIGSTOP",
        is_stopped,
        TCP,
        why="zero-window",
        ask="client",
        shares=(),
    ),
    row("loses_content", "nghttpd", "what the server sends is lost for 1 s", loses_content, TCP, line=NEAR),
    row(
        "loses_content_at_client",
        "nghttpd",
        "what the server sends is lost for 1 s",
        loses_content,
        TCP,
        line=Line(0.04, end=CLIENT_END),
    ),
    row(
        "loses_request",
        "nginx",
        "the request is lost for 0.5 s",
        loses_request,
        TCP,
        side="client",
        stream=3,
        line=Line(0.04, end=CLIENT_END),
    ),
    row(
        "loses_syn",
        "nginx",
        "the SYN is lost, and the request comes behind the handshake",
        loses_syn,
        {"kind": "none"},
        line=Line(0.02, end=CLIENT_END),
    ),
    row(
        "slow_path",
        "nghttp, nghttpd",
        "a slow path, and wide windows",
        fills_path(nghttpd, "large"),
        PATH,
        line=Line(0.04, 500_000),
    ),
    row(
        "slow_path_nginx",
        "nghttp, nginx",
        "a slow path, and wide windows",
        fills_path(nginx, "large"),
        PATH,
        line=Line(0.04, 500_000),
    ),
    row(
        "slow_path_at_client",
        "nghttp, h2o",
        "a slow path, and wide windows",
        fills_path(h2o, "large"),
        PATH,
        line=Line(0.04, 500_000, CLIENT_END),
    ),
    row(
        "ten_downloads",
        "nghttp, nghttpd",
        "a slow path that ten downloads share",
        fills_path(nghttpd, "medium", 10),
        PATH,
        line=Line(0.04, 500_000),
        path="/medium",
    ),
    row(
        "in_turn",
        "a server in Python",
        "a slow path, over which three answers go one after the other",
        in_turn,
        PATH,
        stream=5,
        line=Line(0.04, 500_000),
    ),
    row(
        "behind_download",
        "nginx",
        "a slow path, and a small answer behind a download",
        behind_download(nginx),
        PATH,
        stream=3,
        line=Line(0.04, 500_000),
    ),
    row(
        "behind_download_at_client",
        "h2o",
        "a slow path, and a small answer behind a download",
        behind_download(h2o),
        PATH,
        stream=3,
        line=Line(0.04, 500_000, CLIENT_END),
    ),
    row(
        "upload_over_slow_path",
        "nghttp, nghttpd",
        "a slow path, and wide windows",
        uploads_over_slow_path,
        PATH,
        side="client",
        of="client",
        line=Line(0.04, 500_000, CLIENT_END),
    ),
    row(
        "answers_late",
        "nghttp, node",
        "the server's application waits 0.7 s before its answer",
        nodes("late", 0.7),
        WAITS,
        path="/late",
    ),
    row(
        "answers_late_far",
        "nghttp, node",
        "the server's application waits 0.7 s before its answer",
        nodes("late", 0.7),
        WAITS,
        path="/late",
        line=NEAR,
    ),
    row(
        "sleeps",
        "nghttp, node",
        "the server's application waits 0.7 s within its answer",
        nodes("sleeps", 0.7),
        STOPS,
        path="/sleeps",
    ),
    row(
        "sleeps_far",
        "nghttp, node",
        "the server's application waits 0.7 s within its answer",
        nodes("sleeps", 0.7),
        STOPS,
        path="/sleeps",
        line=Line(0.04, end=CLIENT_END),
    ),
    row(
        "goes_away",
        "nghttp, node",
        "the server sends nothing for 0.7 s, and goes away",
        nodes("goes-away", 0.7),
        STOPS,
        path="/goes-away",
    ),
    row("is_limited", "nghttp, nginx", "limit_rate of 20 kB/s", is_limited, STOPS),
    row(
        "first_answer",
        "a server in Python",
        "the server's first byte of any kind comes after 0.7 s",
        answers(Written((headers(1), frame(0, 1, 1, bytes(500))), wait=PAUSE), 500),
        WAITS,
    ),
    row(
        "first_answer_far",
        "a server in Python",
        "the server's first byte of any kind comes after 0.7 s",
        answers(Written((headers(1), frame(0, 1, 1, bytes(500))), wait=PAUSE), 500),
        WAITS,
        line=NEAR,
    ),
    row(
        "nagle",
        "a server in Python",
        "a server without TCP_NODELAY sends two small pieces",
        nagles,
        TCP,
        why="nagle",
        ask="server",
        stream=2 * WARM + 1,
    ),
    row(
        "nagle_far",
        "a server in Python",
        "a server without TCP_NODELAY sends two small pieces",
        nagles,
        TCP,
        why="nagle",
        ask="server",
        stream=2 * WARM + 1,
        line=Line(0.02),
    ),
    row("client_pauses", "node", "the client pauses for 0.7 s within its upload", client_pauses, CLIENT_STOPS),
    row(
        "never_ends", "node", "the client does not end its upload, and goes away after 0.7 s", never_ends, CLIENT_STOPS
    ),
    row("grpc_sleeps", "gRPC", "the server's application waits 0.7 s before its answer", grpc_calls("Sleep"), WAITS),
    row("grpc_reads_late", "gRPC", "the client's application reads a stream after 0.7 s", grpc_calls("Watch"), LATE),
    row(
        "grpc_server_reads_late",
        "gRPC",
        "the server's application reads a stream after 0.7 s",
        grpc_calls("Take"),
        LATE,
        side="client",
        ask="server",
        of="client",
    ),
    row("quick", "curl, nginx", "nothing", quick, {"kind": "none"}),
    row("quick_many", "h2load, h2o", "nothing", quick_many, {"kind": "none"}),
]
