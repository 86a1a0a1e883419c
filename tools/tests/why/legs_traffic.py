"""Traffic of several clients through a proxy: mixed, all alike, and of gRPC."""

import random
import time

from tools.tests.peers import ran
from tools.tests.why import legs_grpc as why_legs_grpc
from tools.tests.why import proxies as why_proxies
from tools.tests.why.legs_grpc import PAUSE, asked
from tools.tests.why.legs_stage import Script, Stage, Truth
from tools.tests.why.upstream import Request, asks, upstream

PATHS = ("/api/items/{}", "/api/items/{}/reviews", "/api/search?q=word{}", "/static/{}.js", "/users/{}/orders?page=2")
UPLOADS = ("/login", "/api/orders", "/api/items/{}/reviews")
REQUESTS, AT_ONCE, CLIENTS = 90, 4, 4


def requests(names: str, seed: int) -> list[Request]:
    """Requests whose names are `full` (path and query), `paths` (one of three), `none`, or that have `ids`."""
    picked = random.Random(seed)
    made: list[Request] = []
    for number in range(REQUESTS):
        upload = picked.randrange(12, 4000) if picked.random() < 0.2 else 0
        path = picked.choice(UPLOADS if upload else PATHS).format(picked.randrange(30))
        if names != "full":
            path = picked.choice(("/a", "/b", "/c")) if names == "paths" else "/"
        fields = {"x-request-id": f"{picked.getrandbits(64):016x}-{number}"} if names == "ids" else {}
        wait = picked.choice((0, 0, 3, 20))
        made.append({"path": path, "upload": upload, "fields": fields, "wait": wait})
    return made


def mixed(names: str, seed: int = 1) -> Script:
    """What clients in node, h2load, nghttp and curl ask for at the same time."""

    def make(stage: Stage) -> list[Truth]:
        some = requests(names, seed)
        with stage.serving("varies"), stage.meanwhile(*some, at_once=AT_ONCE, clients=CLIENTS):
            if names != "ids":
                time.sleep(0.3)
                others(stage, names)
        return []

    return make


def mixed_and_slow(stage: Stage) -> list[Truth]:
    """Mixed traffic, and an upstream that thinks and reads late."""
    with stage.serving("varies"), stage.meanwhile(*requests("full", 3)[:50], at_once=AT_ONCE, clients=CLIENTS):
        stage.asks({"path": "/a/think"}, {"path": "/up/read-late", "upload": 250_000})
    return [Truth("/a/think", "upstream", seconds=0.4), Truth("/up/read-late", "upstream", seconds=0.5)]


def both(names: str) -> Script:
    """Mixed traffic to two proxies, nghttpx being the other one, which have the same upstream."""

    def make(stage: Stage) -> list[Truth]:
        yard = stage.yard
        with upstream(stage.folder, yard.back, "varies") as port:
            with why_proxies.nghttpx(stage.aside("other"), yard.front, yard.back.address, port) as second:
                stage.hops.append((f"{yard.front.address}:{second}", f"{yard.back.address}:{port}"))
                yard.ports.append(second)
                with stage.before(port), stage.meanwhile(*requests(names, 5), at_once=AT_ONCE, clients=CLIENTS):
                    url = f"http://{yard.front.address}:{second}"
                    asks(url, yard.front, stage.aside("asks"), requests(names, 6), AT_ONCE, CLIENTS)
        return []

    return make


def others(stage: Stage, names: str) -> None:
    path = {"full": "/api/items/3", "paths": "/a"}.get(names, "/")
    url = stage.url(path)
    front = stage.yard.front.within(0)
    ran(*front, "h2load", "-n", "10", "-c", "2", "-m", "2", url)
    ran(*front, "nghttp", "-n", "-m", "5", url)
    for _ in range(5):
        ran(*front, "curl", "-s", "-o", stage.folder / "got", "--http2-prior-knowledge", url)


def equal(has_ids: bool, number: int = 400, clients: int = 8, at_once: int = 10) -> Script:
    """So many equal requests of eight clients, ten at once each."""

    def make(stage: Stage) -> list[Truth]:
        with stage.serving():
            if has_ids:
                some = [{"path": "/", "fields": {"x-request-id": f"id-{at:05}"}} for at in range(number)]
                stage.asks(*some, at_once=at_once, clients=clients)
            else:
                ran(*stage.yard.front.within(0), "h2load", "-n", str(number), "-c", str(clients), "-m", str(at_once),
                    stage.url("/"))  # fmt: skip
        return []

    return make


def grpc(passed_on: bool | None, upload_passed_on: bool) -> Script:
    """Calls of gRPC: quick ones, a server that thinks, a client that reads late, a server that reads late."""

    def make(stage: Stage) -> list[Truth]:
        place = stage.yard.back
        with why_legs_grpc.serving(place) as port, stage.before(port):
            calls = (*(f"Quick{at}" for at in range(8)), "Sleep", "Watch", "Take")
            asked(stage.yard.front, stage.port, *calls)
        feed = "/shop.Feed/"
        quick = [Truth(f"{feed}Quick{at}") for at in range(8)]
        return [
            *quick,
            Truth(feed + "Sleep", "upstream", seconds=PAUSE * 0.9),
            Truth(feed + "Watch", "client", seconds=PAUSE * 0.7, passed_on=passed_on),
            Truth(feed + "Take", "upstream", seconds=PAUSE * 0.7, passed_on=upload_passed_on),
        ]

    return make
