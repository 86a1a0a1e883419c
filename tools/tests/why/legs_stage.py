"""Where a cause is set on both legs of a proxy: a yard, an upstream, one or two proxies, clients, and the capture."""

import contextlib
import pathlib
import threading
from collections.abc import Callable, Iterator
from dataclasses import dataclass, field

from tools.tests.peers import RawClient
from tools.tests.why.proxies import Proxy
from tools.tests.why.upstream import Request, asks, upstream
from tools.tests.why.yard import Yard

# The servers of both legs: the proxy as its clients see it, and what stands behind it.
Hop = tuple[str, str]


@dataclass(frozen=True)
class Truth:
    """What is true of the front request of a path.

    `ask` is whom to ask (client, upstream, proxy, nobody), `behind` the path of another request that it stood behind,
    whose client or upstream that is, and `passed_on` whether back-pressure reached the other leg; of null nothing is
    known.
    """

    path: str
    ask: str | None = None
    # What that one did, as the answer names it.
    why: str | None = None
    # For so many seconds at least it stood because of that one.
    seconds: float = 0
    behind: str | None = None
    passed_on: bool | None = None
    # So many back requests carried it, one after the other; 0 if the proxy answered itself, null if that differs.
    tries: int | None = 1


@dataclass
class Stage:
    folder: pathlib.Path
    yard: Yard
    proxy: Proxy
    words: tuple[str, ...] = ()
    # A second proxy behind the first.
    then: Proxy | None = None
    then_words: tuple[str, ...] = ()
    port: int = 0
    # The servers of both legs of each hop, as the capture names them.
    hops: list[Hop] = field(default_factory=list)

    @property
    def capture(self) -> pathlib.Path:
        return self.folder / "capture.pcap"

    def keys(self) -> bytes:
        """The key log of TLS."""
        log = self.folder / "keys.log"
        return log.read_bytes() if log.exists() else b""

    @contextlib.contextmanager
    def serving(self, ending: str = "") -> Iterator[int]:
        """The upstream in node, behind the proxies, whose both sides are captured."""
        with upstream(self.folder, self.yard.back, ending) as port, self.before(port):
            yield self.port

    @contextlib.contextmanager
    def before(self, port: int) -> Iterator[None]:
        """The proxies before an upstream's port."""
        yard = self.yard
        with contextlib.ExitStack() as stack:
            address, ports = yard.back.address, [port]
            if self.then:
                port = stack.enter_context(self.then(self.aside("then"), yard.middle, address, port, *self.then_words))
                self.hops.append((f"{yard.middle.address}:{port}", f"{address}:{ports[0]}"))
                address = yard.middle.address
                ports.append(port)
            self.port = stack.enter_context(self.proxy(self.folder, yard.front, address, port, *self.words))
            self.hops.insert(0, (f"{yard.front.address}:{self.port}", f"{address}:{port}"))
            yard.ports += [*ports, self.port]
            stack.enter_context(yard.captured(self.capture))
            yield

    def aside(self, name: str) -> pathlib.Path:
        """A folder of one's own, as for a second proxy."""
        folder = self.folder / name
        folder.mkdir()
        folder.chmod(0o755)
        return folder

    @contextlib.contextmanager
    def raw(self, settings: bytes = b"") -> Iterator[RawClient]:
        client = RawClient(self.port, settings, self.yard.front)
        try:
            yield client
        finally:
            client.close()

    def asks(self, *requests: Request, at_once: int = 1, clients: int = 1) -> None:
        """Clients in node ask for all of this, and end."""
        asks(self.url(""), self.yard.front, self.folder, list(requests), at_once, clients)

    @contextlib.contextmanager
    def meanwhile(self, *requests: Request, at_once: int = 1, clients: int = 1) -> Iterator[None]:
        """Clients ask for these requests while something else is done."""
        asking = threading.Thread(target=self.asks, args=requests, kwargs={"at_once": at_once, "clients": clients})
        asking.start()
        try:
            yield
        finally:
            asking.join()

    def url(self, path: str) -> str:
        scheme = "https" if "tls" in self.words else "http"
        return f"{scheme}://{self.yard.front.address}:{self.port}{path}"


Script = Callable[[Stage], list[Truth]]
