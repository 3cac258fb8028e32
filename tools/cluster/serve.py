#!/usr/bin/env python3
"""Runs the host of one member on this machine's clock and its loopback network, until it is killed
or its member ends. cluster.py writes the setup and starts the hosts."""
import argparse
import asyncio
import json
import os
import random
import resource
import time
from typing import Any, Callable

from host import Host, Outside
from links import Links
from member import Gone
from setup import Setup

TELL = 0.5  # seconds between two looks at the figures


class Network(Outside):
    """The machine's clock, and a network that may lose, repeat and delay what a host sends."""

    def __init__(self, setup: Setup):
        self.setup, self.random = setup, random.Random()
        self.loop = asyncio.get_running_loop()
        self.failure: "asyncio.Future[None]" = self.loop.create_future()
        self.links: Links

    def now(self) -> float:
        return self.loop.time()

    def after(self, seconds: float, what: Callable[..., None], *args: Any) -> None:
        self.loop.call_later(seconds, self.guarded, what, *args)

    def guarded(self, what: Callable[..., None], *args: Any) -> None:
        """An error ends the host: the next start is on what its files hold."""
        try:
            what(*args)
        except Exception as error:  # whatever it is
            if not self.failure.done():
                self.failure.set_exception(error)

    def transmit(self, to: int, body: bytes) -> None:
        setup, chance = self.setup, self.random.random
        for _ in range(2 if chance() < setup.repeat else 1):
            if chance() < setup.loss:
                continue
            if setup.delay:
                self.after(chance() * setup.delay, self.links.send, to, body)
            else:
                self.links.send(to, body)


class Figures:
    """What a host writes down about itself, for who looks on."""

    def __init__(self, host: Host):
        self.host, self.start = host, time.time()
        self.path = os.path.join(host.setup.home(host.number), "figures.json")

    def tell(self) -> None:
        host = self.host
        files = {"log": host.file, "said": host.said.rows.file, "blocks": host.blocks.rows.file}
        figures = dict(
            top=host.blocks.top(), place=host.place, refused=host.refused[:20],
            faults=host.blocks.faults[:20], member=host.member.process.pid, pid=os.getpid(),
            keys=host.signatures.keys.kind, lines=host.member.lines,
            bytes_in=host.member.bytes_in, bytes_out=host.member.bytes_out,
            python=resource.getrusage(resource.RUSAGE_SELF).ru_utime,
            syncs={name: file.syncs for name, file in files.items()},
            syncing={name: round(file.seconds, 3) for name, file in files.items()},
            seconds=time.time() - self.start, at=time.time())
        with open(self.path + ".new", "w", encoding="ascii") as file:
            json.dump(figures, file)
        os.replace(self.path + ".new", self.path)
        host.outside.after(TELL, self.tell)


async def serve(setup: Setup, number: int, new_host: Callable[..., Any] = Host) -> None:
    network = Network(setup)
    host = new_host(setup, number, network)
    network.links = Links(setup, number, host.signatures.keys,
                          lambda peer, body: network.guarded(host.came, peer, body),
                          lambda payload: network.guarded(host.client, payload))
    await network.links.listen()
    network.guarded(host.start)
    network.guarded(Figures(host).tell)
    await network.failure


def main(new_host: Callable[..., Any] = Host, about: str = __doc__) -> int:
    words = argparse.ArgumentParser(description=about)
    words.add_argument("setup", help="the file that cluster.py wrote")
    words.add_argument("member", type=int, help="the member's number")
    given = words.parse_args()
    try:
        asyncio.run(serve(Setup.read(given.setup), given.member, new_host))
    except Gone:
        print("the member of host %d has ended" % given.member, flush=True)
    return 1


if __name__ == "__main__":
    raise SystemExit(main())
