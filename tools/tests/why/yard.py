"""A client, a proxy and an upstream, each in a network namespace, and the capture at the proxy; or all on loopback.

The leg in front of the proxy and the one behind it are two places (why_peers.Place), so that servers and clients are
put there as elsewhere. The leg behind may be a wire that delays.
"""

import contextlib
import os
import pathlib
import socket
from collections.abc import Iterator
from dataclasses import dataclass, field

from tools.tests.peers import Loopback, Place, dumping
from tools.tests.why.wire import Wire, ip, network, no_network, set_up, socket_in

LARGEST_PACKET = 60_000
FRONT, BACK = ("10.97.1.1", "10.97.1.2"), ("10.97.2.1", "10.97.2.2")


@dataclass
class Leg:
    """One leg: the namespaces of its client and of its server, and the server's address."""

    names: tuple[str, str]
    address: str

    def within(self, end: int) -> list[str]:
        return ["ip", "netns", "exec", self.names[end]]

    def socket(self, end: int) -> socket.socket:
        return socket_in(self.names[end])


@dataclass
class Yard:
    """Where the legs are; `middle` is one between two proxies of the same host."""

    front: Place
    back: Place
    middle: Place
    # Where tcpdump runs, and on what.
    within: list[str]
    device: str
    wire: Wire | None = None
    ports: list[int] = field(default_factory=list)

    def captured(self, path: pathlib.Path) -> contextlib.AbstractContextManager[None]:
        """Captures both legs at the proxy; on loopback of these ports alone."""
        ways = "tcp" if self.within else " or ".join(f"tcp port {port}" for port in self.ports)
        words = ("-i", self.device, "--time-stamp-precision=nano", ways)
        return dumping(path, *words, within=self.within, wait=0.4)


@contextlib.contextmanager
def laid(round_trip: float = 0) -> Iterator[Yard]:
    """Lays a yard of three namespaces, with so many seconds of a round trip between proxy and upstream."""
    client, proxy, upstream = (f"h2audit-legs-{os.getpid()}-{end}" for end in ("client", "proxy", "upstream"))
    front, back = Leg((client, proxy), FRONT[1]), Leg((proxy, upstream), BACK[1])
    middle = Leg((proxy, proxy), "127.0.0.1")
    yard = Yard(front, back, middle, within=["ip", "netns", "exec", proxy], device="any")
    try:
        for name in (client, proxy, upstream):
            network(name)
        joined((client, proxy), FRONT, "front")
        if round_trip:
            yard.wire = Wire(round_trip, lambda _, __: False)
            yard.wire.names = [proxy, upstream]
            yard.wire.join(BACK, "back")
            # Few packets: a thread hands them on, which a busy machine makes wait.
            for name in (proxy, upstream):
                ip("-n", name, "link", "set", "back", "mtu", str(LARGEST_PACKET))
        else:
            joined((proxy, upstream), BACK, "back")
        yield yard
    finally:
        if yard.wire:
            yard.wire.stop()
        for name in (client, proxy, upstream):
            no_network(name)


def joined(names: tuple[str, str], addresses: tuple[str, str], device: str) -> None:
    """Joins two namespaces by a pair of devices."""
    near, far = names
    ip("link", "add", device, "netns", near, "type", "veth", "peer", "name", device, "netns", far)
    for name, address in zip(names, addresses):
        set_up(name, device, address)


def on_loopback() -> Yard:
    """Where no namespaces can be had."""
    return Yard(Loopback(), Loopback(), Loopback(), within=[], device="lo")
