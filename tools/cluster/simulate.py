#!/usr/bin/env python3
"""Hosts with their members' processes and their files, but with a clock and a network that are
drawn from a seed. Hosts are killed between any two calls and packets, and lose power, which leaves
any image of the disk's model of all that wasn't synced: one by one, and all at once.

Looked at: what honest hosts kept is one chain; no two votes of an honest member that left it
contradict each other; no member finds its file foreign; no line is refused; all come to the height.
With --bad one thing about the hosts is wrong, which a run shows or doesn't, by what it meets.
HAIL_MEMBER is another command of a member's program than the built one (docs/HOSTING.md)."""
import argparse
import heapq
import itertools
import os
import random
import shlex
import shutil
import subprocess
import tempfile
import time
from collections import Counter
from typing import Any, Callable, Dict, List, NamedTuple, Optional, Sequence, Tuple

import chain
import packets
from faulty import Faulty, Twin
from host import Host, Outside, Turn
from member import Member, Refused
from setup import Setup, header, program
from signatures import new_keys, write_keys
from torn import Killed, Odds, files_of

BAD = ("hasty", "old", "lies", "mute")
LIMIT = 60_000  # events of one run
HEIGHT_EVERY = 50


class Hasty(Host):
    """A host that sends before it writes."""

    def make(self, turns: List[Turn]) -> None:
        for turn in turns:
            for send in turn.answer.sends:
                self.send(send)
        super().make(turns)


class Mute(Host):
    """A host that doesn't say again what was said before its start."""

    def start(self) -> None:
        self.said.again.clear()
        super().start()


class Recorded(Member):
    """A member whose lines and answers are kept."""

    def __init__(self, program_: str, number: int, words: Sequence[str] = ()):
        super().__init__(program_, number, words)
        self.words = [str(number), *words]
        self.given: List[bytes] = []
        self.rows: List[bytes] = []

    def ask(self, line: bytes) -> List[bytes]:
        self.given.append(line)
        try:
            rows = super().ask(line)
        except Refused as reason:
            self.rows.append(b"no " + str(reason).encode())
            raise
        self.rows += rows + [b"ok"]
        return rows

    def differs(self, other: str) -> bool:
        """Whether another program answers these lines otherwise."""
        run = subprocess.run(shlex.split(other) + self.words, stdout=subprocess.PIPE, check=False,
                             input=b"".join(line + b"\n" for line in self.given))
        return run.stdout != b"".join(row + b"\n" for row in self.rows)


class Votes:
    """The votes of honest members that left them. A member's vote to notarize is one in a view, and
    it doesn't both nullify and finalize there."""

    def __init__(self) -> None:
        self.cast: Dict[Tuple[int, bytes, bytes], Dict[int, bytes]] = {}
        self.faults: List[str] = []

    def left(self, member: int, packet: packets.Packet) -> None:
        vote = packet.vote
        if packet.message[:1] != b"\1" or [one for one, _ in packet.signed] != [member]:
            return
        kind, epoch, place = vote[0] % 3, vote[1:9] if vote[0] > 2 else b"", vote[1:]
        view = place[8:16] if vote[0] > 2 else place[:8]
        cast = self.cast.setdefault((member, epoch, view), {})
        if cast.setdefault(kind, vote) != vote or (1 in cast and 2 in cast):
            self.faults.append("member %d contradicts itself in view %d" % (
                member, int.from_bytes(view, "big")))

    def count(self) -> int:
        return sum(map(len, self.cast.values()))


class Event(NamedTuple):
    time: float
    number: int
    life: Optional["Life"]  # whose it is: it doesn't happen where that one is over
    what: Callable[..., None]
    args: Tuple[Any, ...]


class Life(Outside):
    """What is around one host from its start to its end."""

    def __init__(self, simulation: "Simulation", number: int):
        self.simulation, self.number, self.random = simulation, number, simulation.random
        words = simulation.words
        calm = number == words.faulty or simulation.is_calm
        self.odds = Odds(self.random, 0 if calm else words.kill, 0 if calm else words.power,
                         words.bad == "lies")
        self.host: Any = None
        self.lives = True

    def lose_power(self) -> None:
        self.odds.lose_power()

    def now(self) -> float:
        return self.simulation.time

    def after(self, seconds: float, what: Callable[..., None], *args: Any) -> None:
        self.simulation.after(seconds, self, what, *args)

    def transmit(self, to: int, body: bytes) -> None:
        self.odds.moment()
        simulation, setup, chance = self.simulation, self.simulation.setup, self.random.random
        packet = packets.read(body)
        if self.number != simulation.words.faulty:
            simulation.votes.left(self.number, packet)
        for _ in range(2 if chance() < setup.repeat else 1):
            if chance() >= setup.loss:
                delay = 0.001 + chance() * setup.delay
                simulation.after(delay, None, simulation.arrive, self.number, to, body)


class Simulation:
    """A cluster in virtual time."""

    def __init__(self, words: argparse.Namespace, folder: str):
        self.words, self.random, self.time = words, random.Random(words.seed), 0.0
        self.setup = Setup(
            program(), folder, "simulated", header(words.members, words.backlog, words.span),
            words.members, ["whole"] if words.whole else [], group=words.group,
            gather=0.02 if words.group else 0.0, idle=0.1, loss=words.loss, repeat=words.repeat,
            delay=words.delay)
        for member, keys in enumerate(new_keys(words.members, str(words.seed))):
            os.makedirs(self.setup.home(member), exist_ok=True)
            write_keys(os.path.join(self.setup.home(member), "keys.json"), keys)
        self.numbers = itertools.count()
        self.events: List[Event] = []
        self.lives: Dict[int, Life] = {}
        self.votes, self.counts = Votes(), Counter()  # type: Votes, Counter
        self.faults: List[str] = []
        self.is_calm = False
        self.payloads: List[bytes] = []

    def honest(self) -> List[int]:
        return [one for one in range(self.setup.members) if one != self.words.faulty]

    # ---- time

    def after(self, seconds: float, life: Optional[Life], what: Callable[..., None],
              *args: Any) -> None:
        event = Event(self.time + seconds, next(self.numbers), life, what, args)
        heapq.heappush(self.events, event)

    def run(self) -> None:
        for member in range(self.setup.members):
            self.launch(member)
        self.after(0.5, None, self.give)
        self.after(self.random.expovariate(self.words.dark), None, self.darken)
        for count in range(LIMIT):
            if not self.events or count % HEIGHT_EVERY == 0 and self.is_done():
                break
            self.happen(heapq.heappop(self.events))
        for life in self.lives.values():
            self.end(life)

    def is_done(self) -> bool:
        """A run is calm behind two thirds of its heights, so that it comes to its end."""
        hosts = [self.lives[one].host for one in self.honest()]
        tops = [host.blocks.top() if host else -1 for host in hosts]
        if max(tops) * 3 >= self.words.until * 2 and not self.is_calm:
            self.is_calm = True
            self.setup.loss = 0.0
            for life in self.lives.values():
                life.odds.kill = life.odds.power = 0.0
        return min(tops) >= self.words.until

    def happen(self, event: Event) -> None:
        self.time = event.time
        if event.life is None:
            event.what(*event.args)
        elif event.life.lives:
            self.guarded(event.life, event.what, *event.args)

    def guarded(self, life: Life, what: Callable[..., None], *args: Any) -> None:
        try:
            what(*args)
        except Killed as how:
            self.counts[str(how)] += 1
            self.end(life)
            self.after(0.2 + self.random.random(), None, self.launch, life.number)

    # ---- hosts

    def darken(self) -> None:
        """The power goes for all honest hosts at once."""
        if self.is_calm:
            return
        self.counts["dark"] += 1
        for life in list(self.lives.values()):
            if life.lives and life.number != self.words.faulty:
                self.guarded(life, life.lose_power)
        self.after(self.random.expovariate(self.words.dark), None, self.darken)

    def launch(self, member: int) -> None:
        """Starts a host on what its files hold."""
        self.counts["starts"] += 1
        if self.words.bad == "old":
            self.swap(os.path.join(self.setup.home(member), "log"))
        life = self.lives[member] = Life(self, member)
        try:
            self.guarded(life, self.begin, life)
        except Refused as reason:
            self.faults.append("member %d refuses its start: %s" % (member, reason))
            self.end(life)

    def begin(self, life: Life) -> None:
        life.host = self.new_host(life)
        life.host.start()

    def new_host(self, life: Life) -> Any:
        makes = {"new_file": staticmethod(files_of(life.odds))}
        if self.words.compare:
            makes["new_member"] = Recorded
        if life.number == self.words.faulty:
            return Faulty(self.setup, life.number, life, type("SimulatedTwin", (Twin,), makes))
        honest = {"hasty": Hasty, "mute": Mute}.get(self.words.bad, Host)
        return type("SimulatedHost", (honest,), makes)(self.setup, life.number, life)

    def swap(self, path: str) -> None:
        """Keeps a copy of a file, or puts an old one in its place."""
        old = path + ".old"
        if os.path.exists(path):
            if os.path.exists(old) and self.random.random() < 0.5:
                shutil.copy(old, path)
            elif self.random.random() < 0.5:
                shutil.copy(path, old)

    def end(self, life: Life) -> None:
        if not life.lives:
            return
        life.lives = False
        for host in getattr(life.host, "halves", [life.host] if life.host else []):
            if host.member:
                self.counts["lines"] += host.member.lines
                host.member.end()
                if self.words.compare and host.member.differs(self.words.compare):
                    self.faults.append("member %d: the programs differ" % life.number)
            if life.number != self.words.faulty:
                self.faults += ["refused: " + one for one in host.refused]
                self.faults += ["member %d: %s" % (life.number, one) for one in host.blocks.faults]
        for file in life.odds.files:
            file.close()

    # ---- messages and payloads

    def arrive(self, peer: int, to: int, body: bytes) -> None:
        self.counts["packets"] += 1
        life = self.lives[to]
        if life.lives:
            self.guarded(life, life.host.came, peer, body)

    def give(self) -> None:
        """A payload to one host, for each virtual half second."""
        payload = b"%d " % len(self.payloads) + self.random.randbytes(self.words.bytes)
        self.payloads.append(payload)
        life = self.lives[self.random.choice(self.honest())]
        if life.lives:
            self.guarded(life, life.host.client, payload)
        self.after(0.5, None, self.give)


def faults_of(simulation: Simulation) -> List[str]:
    kept = [chain.kept_by(simulation.setup, one) for one in simulation.honest()]
    found = simulation.faults + simulation.votes.faults + chain.faults(kept)
    found = list(dict.fromkeys(found))
    if min(len(one.blocks) - 1 for one in kept) < simulation.words.until:
        found.append("no progress: %s" % [len(one.blocks) - 1 for one in kept])
    return found


def tell(simulation: Simulation, seconds: float) -> bool:
    words, counts = simulation.words, simulation.counts
    found = faults_of(simulation)
    print("seed %d: %.0f virtual seconds in %.1f, %d starts, %d kills, %d power losses, %d for "
          "all, %d packets, %d lines, %d votes left" % (
              words.seed, simulation.time, seconds, counts["starts"], counts["kill"],
              counts["power"], counts["dark"], counts["packets"], counts["lines"],
              simulation.votes.count()), flush=True)
    for fault in found[:5]:
        print("  %s%s" % ("shown: " if words.bad else "FAULT ", fault))
    return bool(found) == bool(words.bad)


def read_words() -> argparse.Namespace:
    words = argparse.ArgumentParser(description=__doc__)
    add = words.add_argument
    add("--seed", type=int, default=1)
    add("--seeds", type=int, default=1, help="so many seeds, one after another; at most 1,000")
    add("--mixed", action="store_true", help="members, faults, epochs and losses by the seed")
    add("--members", type=int, default=4)
    add("--backlog", type=int, default=4)
    add("--until", type=int, default=20, help="this height of all")
    add("--kill", type=float, default=0.001, help="chance of a kill at each moment")
    add("--power", type=float, default=0.001, help="chance of a power loss at each moment")
    add("--dark", type=float, default=0.1, help="how often a virtual second all lose power")
    add("--loss", type=float, default=0.03)
    add("--repeat", type=float, default=0.03)
    add("--delay", type=float, default=0.02, help="up to so many virtual seconds")
    add("--faulty", type=int, help="this member has a faulty host")
    add("--span", type=int, default=0, help="heights of an epoch; 0 is one without end")
    add("--bytes", type=int, default=100, help="of a payload")
    add("--whole", action="store_true", help="blocks travel whole")
    add("--alone", dest="group", action="store_false", help="each answer has its own syncs")
    add("--compare", help="a second program, which is given each member's lines and is to answer "
                          "the same, as 'python3 tools/oracle/process.py'")
    add("--bad", choices=BAD, help="hasty: sends before it writes; old: starts on an old file; "
                                   "lies: a sync that does nothing; mute: doesn't say again "
                                   "what was said before its start")
    return words.parse_args()


def mixed(words: argparse.Namespace) -> argparse.Namespace:
    """A run of any kind, by its seed."""
    draw = random.Random(words.seed)
    made = argparse.Namespace(**vars(words))
    made.members = draw.choice((4, 4, 4, 7))
    made.faulty = draw.choice((None, *range(made.members), *range(made.members)))
    made.span = draw.choice((0, 0, 6))
    made.whole = made.span == 0 and draw.random() < 0.2
    made.group = draw.random() < 0.6
    made.loss, made.repeat = draw.choice((0.0, 0.03, 0.1)), draw.choice((0.0, 0.05))
    made.delay = draw.choice((0.0, 0.02, 0.3))
    made.kill, made.power = draw.choice((0.0005, 0.002)), draw.choice((0.0, 0.0005, 0.002))
    made.dark = draw.choice((0.01, 0.1, 0.3))
    return made


def run(words: argparse.Namespace) -> bool:
    folder, begin = tempfile.mkdtemp(prefix="buzmelik-"), time.monotonic()
    try:
        simulation = Simulation(words, folder)
        simulation.run()
        return tell(simulation, time.monotonic() - begin)
    finally:
        shutil.rmtree(folder, ignore_errors=True)


def main() -> int:
    words, right = read_words(), 0
    count = min(words.seeds, 1_000)
    for seed in range(words.seed, words.seed + count):
        words.seed = seed
        right += run(mixed(words) if words.mixed else words)
    if words.bad:
        print("%s: caught by %d of %d seeds" % (words.bad, right, count))
        return 0 if right else 1
    print("%d of %d seeds without a fault" % (right, count))
    return 0 if right == count else 1


if __name__ == "__main__":
    raise SystemExit(main())
