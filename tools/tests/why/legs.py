"""Captures of both legs of real proxies, with a set cause or mixed traffic, and what h2audit-why has to say of them."""

from dataclasses import dataclass
from typing import Any

from tools.tests.why import proxies as why_proxies
from tools.tests.why.legs_scripts import (
    answers_itself,
    behind_upload,
    does_not_read,
    fails,
    far,
    leaves,
    leaves_unread,
    limits,
    over_http1,
    queues,
    reads_late,
    refused,
    shared,
    slow_client,
    thinks,
    thinks_forwarded,
    two_proxies,
    upstream_is_down,
)
from tools.tests.why.legs_stage import Script
from tools.tests.why.legs_traffic import both, equal, grpc, mixed, mixed_and_slow
from tools.tests.why.proxies import Proxy

# The round trip between a proxy and an upstream that is far.
FAR = 0.08


@dataclass(frozen=True)
class Row:
    """A capture: its proxies, what was set, and the script that says what is true."""

    name: str
    proxy: Proxy
    was_set: str
    make: Script
    words: tuple[str, ...] = ()
    then: Proxy | None = None
    round_trip: float = 0
    is_on_loopback: bool = False
    # No two legs of HTTP/2 are there.
    has_none: bool = False

    @property
    def group(self) -> str:
        """The captures that it is judged with: the same cause, or names of the same kind."""
        letter, *rest = self.name.split("_")
        return "_".join([letter, *(word for word in rest if word in ("mixed", "paths", "nopath", "ids"))])

    @property
    def kind(self) -> str:
        return "traffic" if {"mixed", "w", "two"} & set(self.name.split("_")) else "causes"


def each(letter: str, was_set: str, names: dict[str, Script], **more: Any) -> list[Row]:
    """Rows that set one thing at several proxies."""
    return [
        Row(f"{letter}_{name}", why_proxies.PROXIES[name.split("_")[0]], was_set, script, **more)
        for name, script in names.items()
    ]


ALL = ("nghttpx", "haproxy", "caddy", "apache", "nginx")
SLOW = "the client grants nothing for 0.6 s after it has all that its windows let through"
SHARED = "a client reads nothing for 1.2 s; three others ask over the same back connection"
UPLOAD = "the upstream reads an upload after 0.7 s"
THINKS = "the upstream waits 0.4 s before its answer, and within one"
ON_LOOPBACK = "on loopback: "
UNREAD = "the client reads nothing of TCP for 1.2 s; HTTP/2's windows are wide"
LIMITED = "the proxy hands on 100 kB a second"
QUEUE = ("default-server maxconn 1",)
RATE_LIMIT = (
    "LoadModule ratelimit_module /usr/lib/apache2/modules/mod_ratelimit.so",
    "LoadModule env_module /usr/lib/apache2/modules/mod_env.so",
    "<Location /limited>",
    "SetOutputFilter RATE_LIMIT",
    "SetEnv rate-limit 100",
    "</Location>",
)
REFUSED = "the upstream refuses a stream after 0.2 s"
AGAIN = ("retry-on all-retryable-errors",)
NARROW = ("--backend-http2-connection-window-size=65535",)
# Whether a proxy passes the back-pressure of some 200 kB on; of nginx TCP's buffers decide.
PASSES_GRPC = {"nghttpx": True, "haproxy": True, "caddy": False}
LOCAL: dict[str, tuple[str, ...]] = {
    "haproxy": (),
    "caddy": ("respond /local* 404",),
    "nginx": ("location /local { return 404; }",),
}
NAMES = (
    ("full", "", "with paths and queries"),
    ("paths", "_paths", "three paths"),
    ("none", "_nopath", "one path"),
    ("ids", "_ids", "one path, and x-request-id"),
)

ROWS: list[Row] = [
    *each("a", SLOW, {name: slow_client("/slow/large", name != "caddy") for name in ALL}),
    Row("a_caddy_huge", why_proxies.caddy, SLOW, slow_client("/slow/huge", True)),
    *each("t", UNREAD, {name: does_not_read for name in ALL}),
    Row("p_haproxy", why_proxies.haproxy, "the proxy lets one request through at a time", queues, words=QUEUE),
    Row("p_apache", why_proxies.apache, LIMITED, limits, words=RATE_LIMIT),
    *each("b", THINKS, {name: thinks for name in ALL}),
    *each("c", UPLOAD, {name: reads_late(name != "caddy") for name in ALL}),
    *each(
        "d",
        "the upstream is 80 ms away; 200 kB go through the proxy's window",
        {name: far("nobody" if name in ("caddy", "nginx") else "proxy") for name in ALL},
        round_trip=FAR,
    ),
    *each("e", SHARED, {name: shared("held" if name == "haproxy" else None, name != "caddy") for name in ALL}),
    Row("e_nghttpx_narrow", why_proxies.nghttpx, SHARED, shared("window", size="medium"), words=NARROW),
    *each("eu", UPLOAD + ", and its client asks for more", {name: behind_upload(name == "haproxy") for name in ALL}),
    *each("f", REFUSED, {name: refused(name != "nghttpx" and name != "nginx") for name in ALL if name != "haproxy"}),
    Row("f_haproxy", why_proxies.haproxy, REFUSED, refused(True), words=AGAIN),
    Row("f_haproxy_once", why_proxies.haproxy, REFUSED, refused(False)),
    *[
        Row(f"g_{name}", why_proxies.PROXIES[name], "the proxy answers some paths itself", answers_itself, words)
        for name, words in LOCAL.items()
        if words
    ],
    *each(
        "down",
        "the upstream goes away before a request",
        {name: upstream_is_down(None if name == "apache" else 0) for name in ALL},
    ),
    *[
        Row(f"h_{name}", why_proxies.PROXIES[name], "HTTP/1.1 behind", over_http1, ("http",), has_none=True)
        for name in ("caddy", "nginx")
    ],
    Row(
        "h_haproxy_tcp",
        why_proxies.haproxy,
        "a forwarder of TCP: the same connection twice",
        thinks_forwarded,
        ("mode tcp",),
        has_none=True,
    ),
    *each("k", "the upstream resets a stream in the middle", {name: fails("breaks") for name in ALL}),
    *each("kd", "the upstream drops the connection in the middle", {name: fails("dies") for name in ALL}),
    *each("kl", "the client leaves while the upstream thinks", {name: leaves for name in ALL}),
    *each("ku", "the client reads nothing for 0.6 s, and cancels", {name: leaves_unread for name in ALL}),
    Row("m_haproxy_nghttpx", why_proxies.haproxy, "two proxies in a row", two_proxies, then=why_proxies.nghttpx),
    Row("m_caddy_haproxy", why_proxies.caddy, "two proxies in a row", two_proxies, then=why_proxies.haproxy),
    Row(
        "m_caddy_apache",
        why_proxies.caddy,
        "two proxies in a row; the first rewrites paths",
        two_proxies,
        words=("rewrite * /v2{uri}",),
        then=why_proxies.apache,
    ),
    *each(
        "n",
        "gRPC: a server that thinks, a client and a server that read late",
        {name: grpc(PASSES_GRPC.get(name), name != "caddy") for name in ALL if name != "apache"},
    ),
    *[
        Row(f"mixed_{name}{suffix}", why_proxies.PROXIES[name], f"mixed traffic, {said}", mixed(names, seed))
        for names, suffix, said in NAMES
        for seed, name in enumerate(ALL)
    ],
    *each("w", "400 equal requests of 8 clients, 10 at once each", {name: equal(False) for name in ALL}),
    *[
        Row(f"w_{name}_ids", why_proxies.PROXIES[name], "the same, with x-request-id", equal(True))
        for name in ("haproxy", "nghttpx")
    ],
    Row("lo_a_caddy_huge", why_proxies.caddy, ON_LOOPBACK + SLOW, slow_client("/slow/huge", True), is_on_loopback=True),
    Row("lo_e_haproxy", why_proxies.haproxy, ON_LOOPBACK + SHARED, shared("held"), is_on_loopback=True),
    Row("lo_b_nginx", why_proxies.nginx, ON_LOOPBACK + THINKS, thinks, is_on_loopback=True),
    *[
        Row(f"lo_mixed_{name}", why_proxies.PROXIES[name], "mixed traffic", mixed("full", 11), is_on_loopback=True)
        for name in ("nghttpx", "haproxy", "caddy")
    ],
    *[
        Row(f"two_{name}{suffix}", why_proxies.PROXIES[name], f"mixed traffic over two proxies, {said}", both(names))
        for name in ("haproxy", "caddy")
        for names, suffix, said in NAMES[:3]
    ],
    Row(
        "tls_haproxy",
        why_proxies.haproxy,
        "TLS in front: mixed traffic, an upstream that thinks and reads late",
        mixed_and_slow,
        words=("tls",),
    ),
]
