"""Real servers and clients, on loopback or at the ends of a wire (why/wire.py); a proxy that delays, and their capture.

A client speaks to the proxy, and the proxy to the server, so that one capture has the connection as each end sees it.
"""

import contextlib
import os
import pathlib
import shutil
import socket
import struct
import subprocess
import tempfile
import threading
import time
import unittest
from collections import deque
from collections.abc import Callable, Iterator, Sequence
from typing import Protocol

PREFACE = b"PRI * HTTP/2.0\r\n\r\nSM\r\n\r\n"
# No test depends on how fast a machine is; what takes longer than this has failed.
PATIENCE = 60.0
TRIES = 3
LARGEST_QUEUE = 1 << 20
# The files that servers have.
SIZES = {"small": 2_000, "medium": 60_000, "large": 400_000, "mega": 1_000_000, "huge": 24_000_000}
can_capture = os.geteuid() == 0 and shutil.which("tcpdump") is not None


class Place(Protocol):
    """Where a client (end 0) and a server (end 1) are, and the server's address."""

    address: str

    def within(self, end: int) -> list[str]:
        """The words that run a command at an end."""

    def socket(self, end: int) -> socket.socket:
        """A socket of TCP at an end."""


class Loopback:
    address = "127.0.0.1"

    def within(self, _: int) -> list[str]:
        return []

    def socket(self, _: int) -> socket.socket:
        return socket.socket()


LOOPBACK = Loopback()


def free_port() -> int:
    with socket.socket() as one:
        one.bind(("127.0.0.1", 0))
        return int(one.getsockname()[1])


def wait_for_port(port: int, place: Place = LOOPBACK) -> None:
    """Waits until a server answers at its own end."""
    until = time.monotonic() + PATIENCE
    while time.monotonic() < until:
        with contextlib.suppress(OSError), place.socket(1) as one:
            one.settimeout(1)
            one.connect((place.address, port))
            return
        time.sleep(0.02)
    raise AssertionError(f"no server at port {port}")


class Way:
    """One direction through the proxy: what comes is sent on after a delay, and no more is taken than the queue holds.

    So a reader that stops is felt by the sender.
    """

    def __init__(self, source: socket.socket, target: socket.socket, delay: float) -> None:
        self.source, self.target, self.delay = source, target, delay
        self.queue: deque[tuple[float, bytes]] = deque()
        self.size = 0
        self.changed = threading.Condition()
        self.threads = [threading.Thread(target=work, daemon=True) for work in (self.take, self.give)]
        for thread in self.threads:
            thread.start()

    def take(self) -> None:
        octets = b"-"
        while octets:
            try:
                octets = self.source.recv(1 << 16)
            except OSError:
                octets = b""
            with self.changed:
                self.queue.append((time.monotonic() + self.delay, octets))
                self.size += len(octets)
                self.changed.notify_all()
                while self.size > LARGEST_QUEUE:
                    self.changed.wait()

    def give(self) -> None:
        while True:
            with self.changed:
                while not self.queue:
                    self.changed.wait()
                due, octets = self.queue.popleft()
            time.sleep(max(0.0, due - time.monotonic()))
            with contextlib.suppress(OSError):
                if not octets:
                    self.target.shutdown(socket.SHUT_WR)
                    return
                self.target.sendall(octets)
            with self.changed:
                self.size -= len(octets)
                self.changed.notify_all()


class Proxy:
    """A TCP proxy to a server's port, with so many seconds of a round trip in it."""

    def __init__(self, target: int, round_trip: float) -> None:
        self.target, self.round_trip = target, round_trip
        self.listening = socket.create_server(("127.0.0.1", 0), backlog=64)
        self.port = int(self.listening.getsockname()[1])
        self.ways: list[Way] = []
        threading.Thread(target=self.serve, daemon=True).start()

    def serve(self) -> None:
        while True:
            try:
                client, _ = self.listening.accept()
            except OSError:
                return
            server = socket.create_connection(("127.0.0.1", self.target))
            for one in (client, server):
                one.setsockopt(socket.IPPROTO_TCP, socket.TCP_NODELAY, 1)
            self.ways += [Way(client, server, self.round_trip / 2), Way(server, client, self.round_trip / 2)]

    def close(self) -> None:
        self.listening.close()


@contextlib.contextmanager
def proxy_to(port: int, round_trip: float) -> Iterator[int]:
    proxy = Proxy(port, round_trip)
    try:
        yield proxy.port
    finally:
        proxy.close()


@contextlib.contextmanager
def dumping(path: pathlib.Path, *words: str, within: Sequence[str] = (), wait: float | None = None) -> Iterator[None]:
    """tcpdump writes whole packets meanwhile, and so long after, or until the file grows no more."""
    # A packet takes a slot of 256 KiB at once, so of the usual buffer a busy machine loses some.
    options = ["-U", "--immediate-mode", "-s", "0", "-B", "65536", "-Z", "root", "-w", str(path)]
    child = subprocess.Popen([*within, "tcpdump", *options, *words], stderr=subprocess.PIPE)
    assert child.stderr
    child.stderr.readline()
    try:
        yield
        settle(path) if wait is None else time.sleep(wait)
    finally:
        child.terminate()
        child.communicate()


def captured(path: pathlib.Path, *ports: int) -> contextlib.AbstractContextManager[None]:
    """Captures the packets of some ports on loopback."""
    return dumping(path, "-i", "lo", " or ".join(f"tcp port {port}" for port in ports))


def settle(path: pathlib.Path) -> None:
    """Waits until a capture grows no more, as where a connection's last packets are still on their way."""
    size, since = -1, time.monotonic()
    until = since + 10
    while time.monotonic() < until and time.monotonic() - since < 0.5:
        now = path.stat().st_size if path.exists() else 0
        if now != size:
            size, since = now, time.monotonic()
        time.sleep(0.05)


def grown(path: pathlib.Path, size: int) -> None:
    """Waits until a capture has so many bytes."""
    until = time.monotonic() + PATIENCE
    while not path.exists() or path.stat().st_size < size:
        if time.monotonic() > until:
            raise AssertionError(f"{path} does not grow")
        time.sleep(0.02)


@contextlib.contextmanager
def process(*words: str | pathlib.Path, port: int = 0, place: Place = LOOPBACK) -> Iterator[subprocess.Popen[bytes]]:
    """A program that runs meanwhile, and answers at a port where one is named: then it is a server."""
    front = place.within(1) if port else []
    child = subprocess.Popen([*front, *map(str, words)], stdout=subprocess.DEVNULL, stderr=subprocess.DEVNULL,
                             stdin=subprocess.DEVNULL)  # fmt: skip
    try:
        if port:
            wait_for_port(port, place)
        yield child
    finally:
        child.kill()
        child.wait()


def ran(*words: str | pathlib.Path, seconds: float = PATIENCE) -> None:
    """Runs a client to its end, whatever it says."""
    subprocess.run([str(word) for word in words], stdout=subprocess.DEVNULL, stderr=subprocess.DEVNULL,
                   stdin=subprocess.DEVNULL, timeout=seconds, check=False)  # fmt: skip


NGINX = """
daemon off; master_process off; pid {folder}/nginx.pid; error_log {folder}/error.log;
events {{ worker_connections 256; }}
http {{
    access_log off; client_body_temp_path {folder}/body; proxy_temp_path {folder}/proxy; fastcgi_temp_path {folder}/f;
    uwsgi_temp_path {folder}/u; scgi_temp_path {folder}/s; keepalive_timeout 60s;
    server {{ listen {address}:{port} http2; root {folder}; {more} }}
}}
"""


@contextlib.contextmanager
def nginx(folder: pathlib.Path, place: Place = LOOPBACK, more: str = "") -> Iterator[int]:
    port = free_port()
    configuration = folder / "nginx.conf"
    configuration.write_text(NGINX.format(folder=folder, address=place.address, port=port, more=more))
    words: list[str | pathlib.Path] = ["nginx", "-e", folder / "error.log", "-p", folder, "-c", configuration]
    with process(*words, port=port, place=place):
        yield port


@contextlib.contextmanager
def nghttpd(folder: pathlib.Path, place: Place = LOOPBACK, more: tuple[str, ...] = ()) -> Iterator[int]:
    port = free_port()
    words: list[str | pathlib.Path] = ["nghttpd", "--no-tls", "-a", place.address, *more, "-d", folder, str(port)]
    with process(*words, port=port, place=place):
        yield port


@contextlib.contextmanager
def h2o(folder: pathlib.Path, place: Place = LOOPBACK) -> Iterator[int]:
    port = free_port()
    configuration = folder / "h2o.conf"
    configuration.write_text(
        f"listen: {{host: {place.address}, port: {port}}}\nuser: root\nnum-threads: 1\n"
        f"hosts:\n  default:\n    paths:\n      /: {{file.dir: {folder}}}\n"
    )
    with process("h2o", "-c", configuration, port=port, place=place):
        yield port


CADDY = """
{{
    admin off
    auto_https off
    storage file_system {folder}/caddy
    servers {{
        protocols h1 h2c
    }}
}}
http://:{port} {{
    bind {address}
    root * {folder}
    file_server
}}
"""


@contextlib.contextmanager
def caddy(folder: pathlib.Path, place: Place = LOOPBACK) -> Iterator[int]:
    """A server in Go, which answers by GOAWAY where others reset the stream."""
    port = free_port()
    configuration = folder / "Caddyfile"
    configuration.write_text(CADDY.format(folder=folder, address=place.address, port=port))
    with process("caddy", "run", "--adapter", "caddyfile", "--config", configuration, port=port, place=place):
        yield port


NODE = """
const http2 = require('http2');
const server = http2.createServer();
server.on('sessionError', () => {});
server.on('stream', (stream, headers) => {
  stream.on('error', () => {});
  const path = headers[':path'];
  if (path === '/sleeps') {
    stream.respond({':status': 200});
    stream.write(Buffer.alloc(1000));
    setTimeout(() => stream.end(Buffer.alloc(1000)), 700);
  } else if (path === '/late') {
    setTimeout(() => { stream.respond({':status': 200}); stream.end('late'); }, 700);
  } else if (path === '/large') {
    stream.respond({':status': 200});
    stream.end(Buffer.alloc(400000));
  } else if (path === '/reads' || path === '/reads-late') {
    stream.on('end', () => { stream.respond({':status': 200}); stream.end('read'); });
    setTimeout(() => stream.resume(), path === '/reads' ? 0 : 700);
  } else if (path === '/goes-away') {
    stream.respond({':status': 200});
    stream.write(Buffer.alloc(1000));
    setTimeout(() => stream.session.destroy(new Error('made')), 700);
  } else if (path === '/reset') {
    stream.respond({':status': 200});
    stream.write(Buffer.alloc(1000));
    setTimeout(() => stream.destroy(new Error('made')), 200);
  } else { stream.respond({':status': 200}); stream.end('at once'); }
});
server.listen(Number(process.argv[2]), process.argv[3]);
"""


@contextlib.contextmanager
def node(folder: pathlib.Path, place: Place = LOOPBACK) -> Iterator[int]:
    port = free_port()
    script = folder / "server.js"
    script.write_text(NODE)
    with process("node", script, str(port), place.address, port=port, place=place):
        yield port


def frame(kind: int, flags: int, stream: int, payload: bytes = b"") -> bytes:
    return len(payload).to_bytes(3, "big") + bytes([kind, flags]) + struct.pack(">I", stream) + payload


def block_of(*fields: tuple[str, str]) -> bytes:
    """Literal fields without indexing (RFC 7541, 6.2.2)."""
    return b"".join(
        b"\0" + bytes([len(name)]) + name.encode() + bytes([len(value)]) + value.encode() for name, value in fields
    )


def request(stream: int, method: str, path: str, flags: int = 5) -> bytes:
    fields = ((":method", method), (":scheme", "http"), (":path", path), (":authority", "localhost"))
    return frame(1, flags, stream, block_of(*fields))


class RawClient:
    """A client that writes its frames itself, for what no library would send; it reads meanwhile, or does not."""

    def __init__(self, port: int, settings: bytes = b"", place: Place = LOOPBACK, receive_buffer: int = 0) -> None:
        self.socket = place.socket(0)
        if receive_buffer:
            self.socket.setsockopt(socket.SOL_SOCKET, socket.SO_RCVBUF, receive_buffer)
        self.socket.connect((place.address, port))
        self.socket.setsockopt(socket.IPPROTO_TCP, socket.TCP_NODELAY, 1)
        self.received = bytearray()
        self.frames: list[tuple[int, int, int, bytes]] = []
        self.answers = True
        self.write(PREFACE + frame(4, 0, 0, settings))

    def write(self, octets: bytes) -> None:
        self.socket.sendall(octets)

    def get(self, stream: int, path: str) -> None:
        self.write(request(stream, "GET", path))

    def grant(self, *streams: int, size: int = 1 << 20) -> None:
        self.write(b"".join(frame(8, 0, stream, struct.pack(">I", size)) for stream in streams))

    def read_until(
        self, is_enough: Callable[[list[tuple[int, int, int, bytes]]], bool], seconds: float = PATIENCE
    ) -> None:
        """Reads frames until enough came, or for so many seconds; SETTINGS are acknowledged."""
        until = time.monotonic() + seconds
        while not is_enough(self.frames) and (left := until - time.monotonic()) > 0:
            self.socket.settimeout(left)
            try:
                octets = self.socket.recv(1 << 16)
            except TimeoutError:
                return
            except OSError:
                octets = b""
            if not octets:
                return
            self.received += octets
            self.take()

    def take(self) -> None:
        while len(self.received) >= 9:
            length = int.from_bytes(self.received[:3], "big")
            if len(self.received) < 9 + length:
                return
            kind, flags = self.received[3], self.received[4]
            stream = int.from_bytes(self.received[5:9], "big")
            self.frames.append((kind, flags, stream, bytes(self.received[9 : 9 + length])))
            del self.received[: 9 + length]
            if kind == 4 and not flags & 1 and self.answers:
                with contextlib.suppress(OSError):
                    self.write(frame(4, 1, 0))

    def all_content(self) -> int:
        return sum(len(payload) for kind, _, _, payload in self.frames if kind == 0)

    def content(self, stream: int) -> int:
        return sum(len(payload) for kind, _, of, payload in self.frames if kind == 0 and of == stream)

    def close(self) -> None:
        self.socket.close()


@contextlib.contextmanager
def folder_to_serve() -> Iterator[pathlib.Path]:
    """A folder with files of zeros."""
    with tempfile.TemporaryDirectory(prefix="h2audit-why-test-") as name:
        folder = pathlib.Path(name)
        folder.chmod(0o755)
        for file, size in SIZES.items():
            (folder / file).write_bytes(bytes(size))
        yield folder


def passed_on(
    test: unittest.TestCase, tried: unittest.TestResult, result: unittest.TestResult | None
) -> unittest.TestResult:
    """Tells a result of a test that was tried by itself, and was right or left out."""
    told = result or unittest.TestResult()
    told.startTest(test)
    for _, reason in tried.skipped:
        told.addSkip(test, reason)
    if not tried.skipped:
        told.addSuccess(test)
    told.stopTest(test)
    return told


class Peers(unittest.TestCase):
    """A folder with files to serve, and the answer on what was captured.

    A test that fails is tried again, since a busy machine holds peers up itself; what is wrong fails each time.
    """

    def run(self, result: unittest.TestResult | None = None) -> unittest.TestResult | None:
        for _ in range(TRIES - 1):
            tried = unittest.TestResult()
            super().run(tried)
            if tried.wasSuccessful():
                return passed_on(self, tried, result)
            for _, why in tried.failures + tried.errors:
                print(f"{self.id()}: once more, since a busy machine holds peers up itself: {why}", flush=True)
        return super().run(result)

    def setUp(self) -> None:
        self.folder = self.enterContext(folder_to_serve())
        self.capture = self.folder / "capture.pcap"
