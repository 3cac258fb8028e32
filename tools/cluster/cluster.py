#!/usr/bin/env python3
"""Runs hosts of members on this machine, gives them payloads, kills some by SIGKILL and starts
them again, and looks whether what they handed out is one chain. Behind the run all have a minute to
come to the same, without kills and losses. Then it tells of each member its height (top), its
epoch, view and leader (place), its lines and syncs, and what it refused. It ends with 0 only where
there is one chain, which has all payloads. Only loopback is used, and it ends by itself.
HAIL_MEMBER is another command of a member's program than the built one (docs/HOSTING.md)."""
import argparse
import os
import random
import shutil
import signal
import socket
import struct
import subprocess
import sys
import tempfile
import time
from typing import Dict, List, Optional

import chain
from links import CLIENT, HELLO, NONCE
from setup import LOOPBACK, MOST_MEMBERS, Setup, header, program
from signatures import new_keys, write_keys

HERE = os.path.dirname(os.path.abspath(__file__))
MOST_STARTS = 1_000
LATE = 5.0  # seconds until a client gives a payload again that wasn't handed out
SLOWEST = 600.0


def free_ports(count: int) -> List[int]:
    """Ports that nobody listens on."""
    listening = [socket.create_server((LOOPBACK, 0)) for _ in range(count)]
    ports = [one.getsockname()[1] for one in listening]
    for one in listening:
        one.close()
    return ports


class Client:
    """Gives payloads to hosts, to one at a time, and again to another where one was lost."""

    def __init__(self, setup: Setup, hosts: List[int]):
        self.setup, self.hosts = setup, hosts
        self.given: Dict[bytes, float] = {}
        self.links: Dict[int, socket.socket] = {}
        self.turn = 0

    def give(self, payload: bytes) -> None:
        self.given[payload] = time.monotonic()
        self.turn += 1
        member = self.hosts[self.turn % len(self.hosts)]
        try:
            self.link(member).sendall(struct.pack(">I", len(payload)) + payload)
        except OSError:
            self.links.pop(member, None)

    def link(self, member: int) -> socket.socket:
        """The link to a host, made where there is none."""
        if member not in self.links:
            link = socket.create_connection((LOOPBACK, self.setup.ports[member]), 0.5)
            link.sendall(struct.pack(">H", CLIENT).ljust(HELLO, b"\0"))
            link.recv(NONCE)
            self.links[member] = link
        return self.links[member]

    def late(self, kept: List[chain.Kept]) -> List[bytes]:
        """The payloads that nobody kept for a while."""
        before = time.monotonic() - LATE
        return chain.missing(kept, [one for one, at in self.given.items() if at < before])


class Cluster:
    """Hosts as processes of this one."""

    def __init__(self, setup: Setup, faulty: Optional[int] = None):
        self.setup, self.faulty = setup, faulty
        self.hosts: Dict[int, subprocess.Popen] = {}
        self.starts = self.kills = 0
        setup.ports = free_ports(setup.members)
        for member, keys in enumerate(new_keys(setup.members)):
            os.makedirs(setup.home(member), exist_ok=True)
            write_keys(os.path.join(setup.home(member), "keys.json"), keys)
        self.path = setup.write()

    def honest(self) -> List[int]:
        return [one for one in range(self.setup.members) if one != self.faulty]

    def start(self, member: int) -> None:
        self.starts += 1
        if self.starts > MOST_STARTS:
            raise SystemExit("too many starts")
        script = "faulty.py" if member == self.faulty else "serve.py"
        with open(os.path.join(self.setup.home(member), "errors"), "ab") as errors:
            self.hosts[member] = subprocess.Popen(
                [sys.executable, "-B", os.path.join(HERE, script), self.path, str(member)],
                stdin=subprocess.DEVNULL, stdout=errors, stderr=errors)

    def runs(self, member: int) -> bool:
        return member in self.hosts and self.hosts[member].poll() is None

    def kill(self, member: int) -> None:
        """By SIGKILL. Its member's input is then at its end, and the process ends by itself."""
        self.kills += 1
        self.hosts[member].kill()
        self.hosts[member].wait()

    def kill_process(self, member: int) -> None:
        """The member's process alone, by SIGKILL: its host ends with it."""
        number = chain.figures_of(self.setup, member).get("member")
        if not number or not self.runs(member):
            return
        try:
            with open("/proc/%d/stat" % number, encoding="ascii") as file:
                parent = int(file.read().rsplit(")", 1)[1].split()[1])
            if parent == self.hosts[member].pid:
                os.kill(number, signal.SIGKILL)
                self.kills += 1
        except (OSError, ValueError):
            pass

    def kept(self) -> List[chain.Kept]:
        return [chain.kept_by(self.setup, member) for member in self.honest()]

    def tops(self) -> List[int]:
        return [len(one.blocks) - 1 for one in self.kept()]

    def end(self) -> None:
        for member, host in self.hosts.items():
            if host.poll() is None:
                host.kill()
            host.wait()


class Run:
    """A run of a cluster as its words say."""

    def __init__(self, cluster: Cluster, words: argparse.Namespace):
        self.cluster, self.words = cluster, words
        self.client = Client(cluster.setup, cluster.honest())
        self.random = random.Random(words.seed)
        self.back: Dict[int, float] = {}
        self.begin = time.monotonic()
        self.next_kill = self.begin + 2
        self.next_payload = self.begin + 1
        self.next_look = self.begin + LATE

    def seconds(self) -> float:
        return time.monotonic() - self.begin

    def run(self) -> None:
        for member in range(self.cluster.setup.members):
            self.cluster.start(member)
        while self.seconds() < self.words.seconds and not self.is_high():
            self.restart()
            self.kill()
            self.give()
            time.sleep(0.01)
        if self.client.given:
            self.calm()

    def is_high(self) -> bool:
        until = self.words.until
        return until is not None and min(
            chain.figures_of(self.cluster.setup, one).get("top", -1)
            for one in self.cluster.honest()) >= until

    def restart(self) -> None:
        """Hosts that fell come back after up to a second."""
        now = time.monotonic()
        for member in range(self.cluster.setup.members):
            if not self.cluster.runs(member):
                due = self.back.setdefault(member, now + self.random.random())
                if due <= now:
                    del self.back[member]
                    self.cluster.start(member)

    def kill(self) -> None:
        if not self.words.kills or time.monotonic() < self.next_kill:
            return
        self.next_kill += self.random.expovariate(self.words.kills)
        member = self.random.choice(self.cluster.honest())
        if not self.cluster.runs(member):
            return
        if self.random.random() < 0.3:
            self.cluster.kill_process(member)
        else:
            self.cluster.kill(member)

    def give(self) -> None:
        """Payloads at their rate, and those again that nobody handed out."""
        now = time.monotonic()
        if self.words.rate and now >= self.next_payload:
            self.next_payload += 1 / self.words.rate
            noise = self.random.randbytes(self.words.bytes)
            self.client.give(b"%d " % len(self.client.given) + noise)
        if now >= self.next_look and self.client.given:
            self.next_look = now + LATE
            for payload in self.client.late(self.cluster.kept())[:100]:
                self.client.give(payload)

    def calm(self) -> None:
        """No kills and no losses until all have all, for a minute at most."""
        setup = self.cluster.setup
        if setup.loss or setup.repeat or setup.delay:
            setup.loss = setup.repeat = setup.delay = 0.0
            setup.write()
            self.cluster.end()
        self.words.rate = 0
        end = time.monotonic() + 60
        while time.monotonic() < end:
            self.restart()
            self.give()
            kept = self.cluster.kept()
            tops = [len(one.blocks) for one in kept]
            if not chain.missing(kept, self.client.given) and max(tops) - min(tops) <= 1:
                return
            time.sleep(0.2)


def tell(run: Run) -> bool:
    """Tells what came of a run, whether it is one chain, and whether it has all payloads."""
    cluster, kept = run.cluster, run.cluster.kept()
    late = chain.missing(kept, run.client.given)
    found = chain.faults(kept)
    print("%.0f s, %d starts, %d killed; heights %s; %d payloads given, %d not yet, %d twice" % (
        run.seconds(), cluster.starts, cluster.kills, cluster.tops(), len(run.client.given),
        len(late), chain.repeated(kept[0])))
    for one in kept:
        told = one.figures
        print("member %d: %s" % (one.member, " ".join(
            "%s=%s" % (name, told.get(name)) for name in (
                "top", "place", "seconds", "lines", "syncs", "syncing", "python", "refused"))))
    for fault in found:
        print("FAULT " + fault)
    print("one chain" if not found else "NOT one chain")
    if late:
        print("SLOW: %d payloads weren't handed out within a minute behind the run" % len(late))
    return not found and not late


def read_words() -> argparse.Namespace:
    words = argparse.ArgumentParser(
        description=__doc__, formatter_class=argparse.ArgumentDefaultsHelpFormatter)
    add = words.add_argument
    add("--members", type=int, default=4, help="4 to %d" % MOST_MEMBERS)
    add("--seconds", type=float, default=20, help="at most 600")
    add("--until", type=int, help="ends at this height of all")
    add("--rate", type=float, default=5, help="payloads a second")
    add("--bytes", type=int, default=1024, help="of a payload")
    add("--bench", type=int, help="each leader makes payloads of so many bytes at once")
    add("--kills", type=float, default=0, help="a second, by SIGKILL")
    add("--loss", type=float, default=0, help="chance that a packet is lost")
    add("--repeat", type=float, default=0, help="chance that it is sent twice")
    add("--delay", type=float, default=0, help="up to so many seconds")
    add("--faulty", type=int, help="the member whose host is faulty.py")
    add("--span", type=int, default=0, help="heights of an epoch; 0 is one without end")
    add("--backlog", type=int, default=8, help="blocks handed out and not acknowledged")
    add("--timeout", type=float, default=1.0, help="of a view at first, in seconds")
    add("--whole", action="store_true", help="blocks travel whole")
    add("--alone", action="store_true", help="each answer has its own syncs")
    add("--gather", type=float, default=0.0, help="seconds for which lines wait for others")
    add("--no-fsync", action="store_true", help="syncs are left out: no run to trust after a crash")
    add("--folder", help="where the hosts keep their files; else one that is removed")
    add("--seed", type=int, default=1, help="of what is killed, and when")
    return words.parse_args()


def setup_of(words: argparse.Namespace, folder: str) -> Setup:
    if not 4 <= words.members <= MOST_MEMBERS or not 0 < words.seconds <= SLOWEST:
        raise SystemExit("4 to %d members, and at most %d seconds" % (MOST_MEMBERS, SLOWEST))
    return Setup(
        program(), folder, "test", header(words.members, words.backlog, words.span), words.members,
        ["whole"] if words.whole else [], fsync=not words.no_fsync, group=not words.alone,
        gather=words.gather, timeout=words.timeout, payload=words.bench, loss=words.loss,
        repeat=words.repeat, delay=words.delay)


def main() -> int:
    words = read_words()
    if words.bench is not None:
        words.rate = 0
    folder = os.path.abspath(words.folder or tempfile.mkdtemp(prefix="buzmelik-"))
    run = Run(Cluster(setup_of(words, folder), words.faulty), words)
    try:
        run.run()
        return 0 if tell(run) else 1
    finally:
        run.cluster.end()
        if not words.folder:
            shutil.rmtree(folder, ignore_errors=True)


if __name__ == "__main__":
    sys.exit(main())
