#!/usr/bin/env python3
"""The host of a faulty member: two members of one number on two files, each heard by half of the
others, so that it proposes two blocks in one view and votes for both. Beside them it sends garbage,
votes and certificates that nobody signed, right signatures beside another vote, and old messages in
parts."""
import os
from random import Random
from typing import Any, Callable, List, Optional

import packets
import serve
from host import Host, Outside
from setup import Setup

PAUSE = 0.1     # seconds between two pieces of mischief, at most
MOST_OLD = 200


class Half(Outside):
    """What is around one of the two: every other member hears it."""

    def __init__(self, outside: Outside, rest: int):
        self.outside, self.rest, self.random = outside, rest, outside.random

    def now(self) -> float:
        return self.outside.now()

    def after(self, seconds: float, what: Callable[..., None], *args: Any) -> None:
        self.outside.after(seconds, what, *args)

    def transmit(self, to: int, body: bytes) -> None:
        if to % 2 == self.rest:
            self.outside.transmit(to, body)


class Twin(Host):
    """One of the two: it proposes a payload of its own, at once."""

    def payload(self, parts: List[bytes]) -> bytes:
        return b"half %d of view %d" % (self.outside.rest, self.place.view)


class Faulty:
    """A faulty member's host. It takes the calls that a host takes."""

    def __init__(self, setup: Setup, number: int, outside: Outside, new_half: Any = Twin):
        self.setup, self.number, self.outside = setup, number, outside
        self.halves: List[Host] = []
        for rest in (0, 1):
            home = os.path.join(setup.home(number), "half%d" % rest)
            os.makedirs(home, exist_ok=True)
            self.halves.append(new_half(setup, number, Half(outside, rest), home))
        self.signatures, self.blocks = self.halves[0].signatures, self.halves[0].blocks
        self.file, self.said = self.halves[0].file, self.halves[0].said
        self.refused: List[str] = []
        self.place = self.halves[0].place
        self.old: List[bytes] = []

    @property
    def member(self) -> Any:
        return self.halves[0].member

    def start(self) -> None:
        for half in self.halves:
            half.start()
        self.outside.after(PAUSE, self.mischief)

    def came(self, peer: int, body: bytes) -> None:
        if len(self.old) < MOST_OLD:
            self.old.append(body)
        for half in self.halves:
            half.came(peer, body)

    def client(self, payload: bytes) -> None:
        """What clients want is none of its business."""

    def mischief(self) -> None:
        chance = self.outside.random
        body = forged(self, chance)
        to = chance.randrange(self.setup.members)
        if body is not None and to != self.number:
            self.outside.transmit(to, body)
        self.outside.after(PAUSE * chance.random(), self.mischief)


def forged(faulty: Faulty, chance: Random) -> Optional[bytes]:
    """Something that no honest host would send."""
    table = chance.choice(faulty.halves).signatures.loose
    votes = list(table)
    kind = chance.randrange(7)
    if kind == 0:
        return packets.Packet(chance.randbytes(chance.randrange(300)), b"", []).write()
    if kind == 1:
        return chance.randbytes(chance.randrange(1, 300))
    if kind == 2 and faulty.old:
        return spoiled(chance.choice(faulty.old), chance)
    if not votes:
        return None
    vote, other = chance.choice(votes), chance.choice(votes)
    everybody = range(faulty.setup.members)
    some = list(table[vote].items())
    if kind == 3:       # the vote of another, with a signature that is made up
        one = chance.randrange(len(everybody))
        return packets.Packet(ballot(one, vote), vote, [(one, chance.randbytes(64))]).write()
    if kind == 4:       # a certificate of everybody, with the signatures of some
        signed = some[:2] + [(one, chance.randbytes(64)) for one in everybody]
        return packets.Packet(certificate(everybody, vote), vote, signed).write()
    if kind == 5:       # right signatures, but of another vote
        return packets.Packet(certificate(everybody, other), vote, some).write()
    # its own vote, to nullify or to finalize what the others vote on
    own = bytes([chance.choice((0, 2)) if vote[0] in (0, 2) else vote[0]]) + vote[1:]
    signed = faulty.signatures.of(own, [faulty.number])
    return packets.Packet(ballot(faulty.number, own), own, signed).write()


def spoiled(body: bytes, chance: Random) -> bytes:
    """An old packet, cut or with a bit turned."""
    if chance.random() < 0.5:
        return body[:chance.randrange(len(body))]
    changed = bytearray(body)
    changed[chance.randrange(len(body))] ^= 1 << chance.randrange(8)
    return bytes(changed)


def ballot(member: int, vote: bytes) -> bytes:
    """A vote as a message, as docs/FORMATS.md has it."""
    return b"\1" + member.to_bytes(2, "big") + vote


def certificate(members: range, vote: bytes) -> bytes:
    rows = b"".join(one.to_bytes(2, "big") for one in members)
    return b"\2" + vote + len(members).to_bytes(2, "big") + rows


if __name__ == "__main__":
    raise SystemExit(serve.main(Faulty, __doc__))
