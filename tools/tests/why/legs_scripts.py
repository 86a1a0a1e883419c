"""Scripts that set a cause on one of a proxy's legs. Each answers what is true of its requests."""

import struct
import time
from typing import Any

from tools.tests import peers as why_peers
from tools.tests.peers import RawClient, frame, ran
from tools.tests.why.legs_stage import Script, Stage, Truth
from tools.tests.why.stage import NOTHING, WIDE, WINDOW

PAUSE = 0.6
END_STREAM, DATA, HEADERS, RST_STREAM = 1, 0, 1, 3
CANCEL = 8


def has_ended(client: RawClient, *streams: int) -> bool:
    ended = {
        stream
        for kind, flags, stream, _ in client.frames
        if kind == RST_STREAM or (kind in (DATA, HEADERS) and flags & END_STREAM)
    }
    return ended >= set(streams)


def read_rest(client: RawClient, *streams: int) -> None:
    client.read_until(lambda _: has_ended(client, *streams))


def slow_client(path: str, passed_on: bool) -> Script:
    """The client grants nothing for a while after it has all that its windows let through."""

    def make(stage: Stage) -> list[Truth]:
        with stage.serving(), stage.raw(NOTHING) as client:
            stage.asks({"path": "/quick/small"})
            client.get(1, path)
            client.read_until(lambda _: client.all_content() >= WINDOW)
            time.sleep(PAUSE)
            client.grant(0, 1, size=1 << 26)
            read_rest(client, 1)
        return [Truth("/quick/small"), Truth(path, "client", seconds=PAUSE, passed_on=passed_on)]

    return make


def does_not_read(stage: Stage) -> list[Truth]:
    """The client reads nothing of TCP for a while; HTTP/2's windows are wide."""
    with stage.serving():
        stage.asks({"path": "/quick/small"})
        client = RawClient(stage.port, WIDE, stage.yard.front, 1 << 15)
        client.grant(0, size=1 << 24)
        client.get(1, "/slow/mega")
        client.read_until(lambda _: client.all_content() >= WINDOW)
        time.sleep(2 * PAUSE)
        read_rest(client, 1)
        client.close()
    return [Truth("/quick/small"), Truth("/slow/mega", "client", seconds=PAUSE)]


def queues(stage: Stage) -> list[Truth]:
    """The proxy lets one request through at a time: another client's is not opened before the first is answered."""
    with stage.serving():
        stage.asks({"path": "/quick/small"})
        first, second = {"path": "/a/think"}, {"path": "/b/small", "wait": 100}
        stage.asks(first, second, clients=2)
    return [
        Truth("/quick/small"),
        Truth("/a/think", "upstream", seconds=0.4),
        Truth("/b/small", "proxy", "before", 0.2),
    ]


def limits(stage: Stage) -> list[Truth]:
    """The proxy hands on so many bytes a second."""
    with stage.serving():
        stage.asks({"path": "/quick/small"}, {"path": "/limited/medium"})
    return [Truth("/quick/small"), Truth("/limited/medium", "proxy", "held", 1)]


def thinks(stage: Stage) -> list[Truth]:
    """The upstream waits 0.4 s before its answer, and within one."""
    with stage.serving():
        stage.asks({"path": "/quick/small"}, {"path": "/a/think"}, {"path": "/b/pause"})
    return [
        Truth("/quick/small"),
        Truth("/a/think", "upstream", seconds=0.4),
        Truth("/b/pause", "upstream", seconds=0.4),
    ]


def thinks_forwarded(stage: Stage) -> list[Truth]:
    """An upstream that thinks, behind what hands on TCP's bytes: one connection is seen twice."""
    thinks(stage)
    return []


def reads_late(passed_on: bool) -> Script:
    """The upstream reads an upload after 0.7 s."""

    def make(stage: Stage) -> list[Truth]:
        with stage.serving():
            stage.asks({"path": "/quick/small"}, {"path": "/up/read-late", "upload": 250_000})
        return [Truth("/quick/small"), Truth("/up/read-late", "upstream", seconds=0.5, passed_on=passed_on)]

    return make


def far(ask: str) -> Script:
    """The upstream is far. What the proxy grants is small, so that all of the answer goes in pieces of it; or large."""

    def make(stage: Stage) -> list[Truth]:
        with stage.serving():
            stage.asks({"path": "/quick/small"}, {"path": "/far/large"})
        return [Truth("/quick/small"), Truth("/far/large", ask, "stall" if ask == "proxy" else None)]

    return make


def shared(held: str | None, passed_on: bool | None = True, size: str = "small") -> Script:
    """Three clients ask while a fourth reads nothing of what the same back connection carries."""

    def make(stage: Stage) -> list[Truth]:
        others = [{"path": f"/other-{at}/{size}"} for at in range(6)]
        with stage.serving(), stage.raw(NOTHING) as client:
            stage.asks({"path": "/quick/small"})
            client.get(1, "/slow/large")
            client.read_until(lambda _: client.all_content() >= WINDOW)
            with stage.meanwhile(*others, at_once=2, clients=3):
                time.sleep(2 * PAUSE)
                client.grant(0, 1, size=1 << 26)
                read_rest(client, 1)
        how: Any = {"ask": "client", "why": held, "behind": "/slow/large", "seconds": PAUSE} if held else {}
        stood = [Truth(one["path"], **how) for one in others]
        return [Truth("/quick/small"), Truth("/slow/large", "client", seconds=PAUSE, passed_on=passed_on), *stood]

    return make


def behind_upload(is_held: bool) -> Script:
    """A client asks while its own upload on the same connection is not read by the upstream."""

    def make(stage: Stage) -> list[Truth]:
        with stage.serving():
            stage.asks({"path": "/quick/small"})
            stage.asks({"path": "/up/read-late", "upload": 250_000}, {"path": "/behind/small", "wait": 150}, at_once=2)
        held: Any = {"ask": "upstream", "why": "upload", "behind": "/up/read-late", "seconds": 0.4} if is_held else {}
        return [Truth("/quick/small"), Truth("/up/read-late", "upstream", seconds=0.5), Truth("/behind/small", **held)]

    return make


def refused(is_tried_again: bool) -> Script:
    """The upstream refuses a stream after 0.2 s."""

    def make(stage: Stage) -> list[Truth]:
        with stage.serving():
            stage.asks({"path": "/quick/small"}, {"path": "/x/again"})
        tries = 2 if is_tried_again else 1
        return [
            Truth("/quick/small"),
            Truth("/x/again", "upstream", "failed-try" if is_tried_again else None, 0.2, tries=tries),
        ]

    return make


def answers_itself(stage: Stage) -> list[Truth]:
    """The proxy is told to answer one path itself."""
    paths = ("/quick/small", "/local", "/more/small", "/local/again")
    with stage.serving():
        stage.asks(*({"path": path} for path in paths))
    return [Truth(path, tries=0 if "local" in path else 1) for path in paths]


def upstream_is_down(tries: int | None) -> Script:
    """The upstream goes away; what is asked then is answered by the proxy, after so many tries on what it had open."""

    def make(stage: Stage) -> list[Truth]:
        with stage.serving():
            stage.asks({"path": "/quick/small"}, {"path": "/b/exit"}, {"path": "/down/small", "wait": 400})
        return [Truth("/quick/small"), Truth("/b/exit"), Truth("/down/small", tries=tries)]

    return make


def fails(name: str) -> Script:
    """The upstream fails in the middle of an answer, 0.3 s after its first part."""

    def make(stage: Stage) -> list[Truth]:
        with stage.serving():
            stage.asks({"path": "/quick/small"}, {"path": f"/k/{name}"})
        return [Truth("/quick/small"), Truth(f"/k/{name}", "upstream", seconds=0.25)]

    return make


def leaves(stage: Stage) -> list[Truth]:
    """The client goes away in the middle, while the upstream thinks."""
    with stage.serving():
        stage.asks({"path": "/quick/small"}, {"path": "/k/think", "leave": 250}, {"path": "/after/small"})
        time.sleep(0.3)
    return [Truth("/quick/small"), Truth("/k/think", "upstream", seconds=0.2), Truth("/after/small")]


def leaves_unread(stage: Stage) -> list[Truth]:
    """The client reads nothing for a while, and goes away."""
    with stage.serving(), stage.raw(NOTHING) as client:
        stage.asks({"path": "/quick/small"})
        client.get(1, "/k/large")
        client.read_until(lambda _: client.all_content() >= WINDOW)
        time.sleep(PAUSE)
        client.write(frame(RST_STREAM, 0, 1, struct.pack(">I", CANCEL)))
        time.sleep(0.2)
    return [Truth("/quick/small"), Truth("/k/large", "client", seconds=PAUSE)]


def over_http1(stage: Stage) -> list[Truth]:
    """Behind the proxy is HTTP/1.1: there are no two legs."""
    with why_peers.h2o(stage.folder, stage.yard.back) as port, stage.before(port):
        for path in ("/small", "/medium", "/small"):
            ran(*stage.yard.front.within(0), "curl", "-s", "-o", stage.folder / "got", "--http2-prior-knowledge",
                stage.url(path))  # fmt: skip
    return []


def two_proxies(stage: Stage) -> list[Truth]:
    """Two proxies in a row; a client that reads late, an upstream that thinks."""
    with stage.serving(), stage.raw(NOTHING) as client:
        stage.asks({"path": "/quick/small"}, {"path": "/a/think"}, {"path": "/b/medium"})
        client.get(1, "/slow/large")
        client.read_until(lambda _: client.all_content() >= WINDOW)
        time.sleep(PAUSE)
        client.grant(0, 1, size=1 << 26)
        read_rest(client, 1)
    return [
        Truth("/quick/small"),
        Truth("/a/think", "upstream", seconds=0.4),
        Truth("/b/medium"),
        Truth("/slow/large", "client", seconds=PAUSE),
    ]
