"""Two network namespaces with a line between them, which delays, has a bandwidth, and loses what it is told to: each
end can be captured.

Unlike a proxy it ends no TCP, so handshakes take the round trip, and lost packets are sent again. Each end is a tap
device, and a thread hands frames from one to the other, so no kernel needs to know of delays.
"""

import contextlib
import ctypes
import fcntl
import os
import pathlib
import select
import socket
import struct
import subprocess
import threading
import time
from collections import deque
from collections.abc import Callable, Iterator

from tools.tests.peers import dumping

CLIENT, SERVER = "10.98.0.1", "10.98.0.2"
# From <linux/if_tun.h> and <linux/sched.h>.
TUNSETIFF, TAP_WITHOUT_FRONT, NEW_NETWORK = 0x400454CA, 0x1002, 0x40000000
LONGEST_FRAME = 1 << 17
Loses = Callable[[int, bytes], bool]


def ip(*words: str) -> None:
    subprocess.run(["ip", *words], check=True, capture_output=True)


def tap(name: str) -> int:
    """A tap device that is there as long as this file is open: what is sent into it comes here, frame by frame."""
    file = os.open("/dev/net/tun", os.O_RDWR | os.O_NONBLOCK)
    fcntl.ioctl(file, TUNSETIFF, struct.pack("16sH14x", name.encode(), TAP_WITHOUT_FRONT))
    return file


def network(name: str) -> None:
    """Makes a network namespace."""
    ip("netns", "add", name)
    ip("-n", name, "link", "set", "lo", "up")


def no_network(name: str) -> None:
    subprocess.run(["ip", "netns", "delete", name], capture_output=True)


def set_up(name: str, device: str, address: str) -> None:
    """Gives a device of a network namespace its address."""
    ip("-n", name, "address", "add", f"{address}/24", "dev", device)
    ip("-n", name, "link", "set", device, "up")


def socket_in(name: str) -> socket.socket:
    """A socket of TCP in a network namespace."""
    made: list[socket.socket] = []

    def make() -> None:
        with open(f"/run/netns/{name}", "rb") as there:
            if ctypes.CDLL(None).setns(there.fileno(), NEW_NETWORK) == 0:
                made.append(socket.socket())

    # A thread has a network of its own, and its sockets stay there.
    thread = threading.Thread(target=make)
    thread.start()
    thread.join()
    return made[0]


class Wire:
    """Hands on each frame after half of a round trip. It loses those that it is told to, by their end and bytes.

    With a bandwidth, in bytes a second, a frame waits for those before it in its direction.
    """

    address = SERVER

    def __init__(self, round_trip: float, loses: Loses, bandwidth: float = 0) -> None:
        self.names = [f"h2audit-why-{os.getpid()}-{end}" for end in "ab"]
        self.delay, self.loses, self.bandwidth = round_trip / 2, loses, bandwidth
        self.files: list[int] = []
        self.free = [0.0, 0.0]
        self.is_over = False
        self.thread = threading.Thread(target=self.hand_on, daemon=True)

    def lay(self) -> None:
        for name in self.names:
            network(name)
        self.join((CLIENT, SERVER), "wire")

    def join(self, addresses: tuple[str, str], device: str) -> None:
        """Lays the wire between two network namespaces that are there."""
        for end, (name, address) in enumerate(zip(self.names, addresses)):
            outer = f"hw{os.getpid() % 100000}{'ab'[end]}"
            self.files.append(tap(outer))
            ip("link", "set", outer, "netns", name, "name", device)
            set_up(name, device, address)
        self.thread.start()

    def hand_on(self) -> None:
        waiting: list[deque[tuple[float, bytes]]] = [deque(), deque()]
        while not self.is_over:
            now = time.monotonic()
            for end in (0, 1):
                while waiting[end] and waiting[end][0][0] <= now:
                    with contextlib.suppress(OSError):
                        os.write(self.files[1 - end], waiting[end].popleft()[1])
            due = [queue[0][0] - now for queue in waiting if queue]
            for file in select.select(self.files, [], [], max(0.0, min([0.05, *due])))[0]:
                end = self.files.index(file)
                with contextlib.suppress(OSError):  # a device is down while it is laid
                    octets = os.read(file, LONGEST_FRAME)
                    if not self.loses(end, octets):
                        waiting[end].append((self.arrival(end, len(octets)), octets))

    def arrival(self, end: int, length: int) -> float:
        self.free[end] = max(time.monotonic(), self.free[end])
        if self.bandwidth:
            self.free[end] += length / self.bandwidth
        return self.free[end] + self.delay

    def within(self, end: int) -> list[str]:
        """The words that run a command at an end."""
        return ["ip", "netns", "exec", self.names[end]]

    def socket(self, end: int) -> socket.socket:
        """A socket of TCP at an end."""
        return socket_in(self.names[end])

    def stop(self) -> None:
        self.is_over = True
        if self.thread.is_alive():
            self.thread.join()
        for file in self.files:
            os.close(file)

    def take_away(self) -> None:
        self.stop()
        for name in self.names:
            no_network(name)


@contextlib.contextmanager
def wire(round_trip: float, loses: Loses = lambda _, __: False, bandwidth: float = 0) -> Iterator[Wire]:
    made = Wire(round_trip, loses, bandwidth)
    try:
        made.lay()
        yield made
    finally:
        made.take_away()


def captured_at(made: Wire, end: int, path: pathlib.Path) -> contextlib.AbstractContextManager[None]:
    """Captures TCP at an end of the wire."""
    return dumping(path, "-i", "wire", "tcp", within=made.within(end), wait=1)


def lost_for(seconds: float, end: int, number: int) -> Loses:
    """Loses all that an end sends for some seconds, from this large packet of the server on."""
    since: list[float] = []

    def loses(sender: int, octets: bytes) -> bool:
        if sender == 1 and len(octets) > 1000:
            since.append(time.monotonic())
        return sender == end and len(since) >= number and time.monotonic() < since[number - 1] + seconds

    return loses
