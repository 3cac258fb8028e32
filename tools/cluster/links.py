"""Links between hosts over TCP, on loopback alone.

Who connects is sent 32 bytes, and answers with its number and its signature of them: so each record
behind comes from that member. A record is 4 bytes of length and so many bytes. A client, with the
number of CLIENT and no signature, sends payloads instead. Nothing is encrypted."""
import asyncio
import os
import struct
from typing import Callable, Dict, Optional

from packets import LONGEST
from setup import LOOPBACK, Setup
from signatures import SIZE, Keys

CLIENT = 65_535
NONCE = 32
HELLO = 2 + SIZE
MOST_WAITING = 64_000_000  # bytes that wait for one peer; what is more is lost
ALLOWANCE = 64_000_000     # bytes that one peer may bring in a second
RECONNECT = 0.2


def text_of(setup: Setup, member: int, to: int, nonce: bytes) -> bytes:
    """What a member signs to show who it is."""
    return ("link of the cluster %s from %d to %d " % (setup.name, member, to)).encode() + nonce


class Inward(asyncio.Protocol):
    """A link from another host, or from a client."""

    def __init__(self, links: "Links"):
        self.links, self.nonce = links, os.urandom(NONCE)
        self.held, self.peer = bytearray(), None
        self.taken, self.since = 0, 0.0

    def connection_made(self, transport: asyncio.BaseTransport) -> None:
        self.transport = transport
        transport.write(self.nonce)

    def data_received(self, data: bytes) -> None:
        self.held += data
        if self.peer is None and len(self.held) >= HELLO:
            self.greet(bytes(self.held[:HELLO]))
            del self.held[:HELLO]
        if self.peer is not None and not self.transport.is_closing():
            self.read()
        self.slow(len(data))

    def greet(self, hello: bytes) -> None:
        number = int.from_bytes(hello[:2], "big")
        text = text_of(self.links.setup, number, self.links.number, self.nonce)
        if number == CLIENT or self.links.keys.is_right(number, text, hello[2:]):
            self.peer = number
        else:
            self.transport.abort()

    def read(self) -> None:
        """Takes each whole record."""
        place = 0
        while len(self.held) - place >= 4:
            size, = struct.unpack_from(">I", self.held, place)
            if size > LONGEST:
                self.transport.abort()
                return
            if len(self.held) - place - 4 < size:
                break
            self.links.take(self.peer, bytes(self.held[place + 4:place + 4 + size]))
            place += 4 + size
        del self.held[:place]

    def slow(self, count: int) -> None:
        """Who brings more than its allowance is read no further for a second."""
        now = self.links.loop.time()
        if now - self.since > 1:
            self.since, self.taken = now, 0
        self.taken += count
        if self.taken > ALLOWANCE and not self.transport.is_closing():
            self.transport.pause_reading()
            self.links.loop.call_later(1, self.transport.resume_reading)


class Outward(asyncio.Protocol):
    """A link to another host. What is sent before it stands waits."""

    def __init__(self, links: "Links", to: int):
        self.links, self.to = links, to
        self.nonce, self.waiting, self.is_open = b"", bytearray(), False

    def connection_made(self, transport: asyncio.BaseTransport) -> None:
        self.transport = transport

    def data_received(self, data: bytes) -> None:
        self.nonce += data
        if not self.is_open and len(self.nonce) >= NONCE:
            links = self.links
            text = text_of(links.setup, links.number, self.to, self.nonce[:NONCE])
            self.transport.write(struct.pack(">H", links.number) + links.keys.sign(text))
            self.transport.write(bytes(self.waiting))
            self.waiting.clear()
            self.is_open = True

    def connection_lost(self, error: Optional[Exception]) -> None:
        self.links.lost(self.to)

    def send(self, body: bytes) -> None:
        record = struct.pack(">I", len(body)) + body
        if not self.is_open:
            if len(self.waiting) < MOST_WAITING:
                self.waiting += record
        elif not self.transport.is_closing() and (
                self.transport.get_write_buffer_size() < MOST_WAITING):
            self.transport.write(record)


class Links:
    """All links of a host."""

    def __init__(self, setup: Setup, number: int, keys: Keys,
                 came: Callable[[int, bytes], None], client: Callable[[bytes], None]):
        self.setup, self.number, self.keys = setup, number, keys
        self.came, self.client = came, client
        self.loop = asyncio.get_running_loop()
        self.out: Dict[int, Outward] = {}

    async def listen(self) -> None:
        port = self.setup.ports[self.number]
        await self.loop.create_server(lambda: Inward(self), LOOPBACK, port, reuse_address=True)

    def take(self, peer: int, record: bytes) -> None:
        if peer == CLIENT:
            self.client(record)
        else:
            self.came(peer, record)

    def send(self, to: int, body: bytes) -> None:
        """Sends, or loses it: what is lost is no harm."""
        if to not in self.out:
            self.out[to] = Outward(self, to)
            self.loop.create_task(self.connect(to, self.out[to]))
        self.out[to].send(body)

    async def connect(self, to: int, link: Outward) -> None:
        try:
            await self.loop.create_connection(lambda: link, LOOPBACK, self.setup.ports[to])
        except OSError:
            self.lost(to)

    def lost(self, to: int) -> None:
        """A link is gone, with what waited; a new one is tried after a while."""
        self.loop.call_later(RECONNECT, self.out.pop, to, None)
