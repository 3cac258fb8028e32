#!/usr/bin/env python3
"""What members cost in processor time: one host without a network gives four members their lines
by turns and keeps their files, and each part is timed by itself. Blocks are proposed one after
another.
HAIL_MEMBER is another command of a member's program than the built one (docs/HOSTING.md)."""
import argparse
import os
import random
import shutil
import tempfile
import time
from collections import Counter, deque
from typing import Deque, Dict, List, Tuple

from files import File
from member import Member, Send, Sync, answer_of, hexed
from setup import header, program
from signatures import Signatures, keys_of, new_keys

MEMBERS, BACKLOG = 4, 8
TICKS = os.sysconf("SC_CLK_TCK")
WORDS = {0: "a chunk", 1: "a vote", 2: "a certificate", 5: "a block"}


def processor(pid: int) -> float:
    """Seconds of processor that a process has used."""
    with open("/proc/%d/stat" % pid, encoding="ascii") as file:
        fields = file.read().rsplit(")", 1)[1].split()
    return (int(fields[11]) + int(fields[12])) / TICKS


def memory(pid: int) -> str:
    with open("/proc/%d/status" % pid, encoding="ascii") as file:
        rows = dict(row.split(":", 1) for row in file)
    return "%d MB now, %d at most" % tuple(
        int(rows[name].split()[0]) / 1024 for name in ("VmRSS", "VmHWM"))


class Timed:
    """One member with its file and its signatures."""

    def __init__(self, bench: "Bench", number: int, keys: Dict):
        home = os.path.join(bench.folder, str(number))
        os.makedirs(home, exist_ok=True)
        self.bench, self.number = bench, number
        self.file = File(os.path.join(home, "log"), bench.words.fsync)
        self.signatures = Signatures(keys_of(keys, number), "speed", number)
        self.view, self.handed = 0, 0
        self.member = Member(program(), number)
        for line in header(MEMBERS, BACKLOG):
            self.member.ask(line.encode())

    def start(self) -> None:
        """Tells what a start on the file takes."""
        pid, size, begin = self.member.process.pid, self.file.size(), time.perf_counter()
        for data in self.file.pieces():
            self.member.ask(b"disk " + hexed(data))
        read, wall = processor(pid), time.perf_counter()
        self.give(b"start", "start")
        if size:
            print("member %d: %d bytes: `disk` %.2f s (%.2f of its processor), `start` %.2f s "
                  "(%.2f); %s" % (self.number, size, wall - begin, read,
                                  time.perf_counter() - wall, processor(pid) - read, memory(pid)))

    def give(self, line: bytes, word: str) -> None:
        bench = self.bench
        before = processor(self.member.process.pid) if bench.words.by_line else 0.0
        with bench.part("pipes"):
            rows = self.member.ask(line)
        if bench.words.by_line:
            bench.lines[word] += processor(self.member.process.pid) - before
        bench.counts[word] += 1
        with bench.part("reading answers"):
            answer = answer_of(rows)
        for call in answer.calls:
            bench.counts["syncs"] += isinstance(call, Sync)
        with bench.part("calls"):
            self.file.make(answer.calls)
        for send in answer.sends:
            self.send(send)
        for _ in answer.handed:
            self.handed += 1
            bench.due.append((self.number, b"ack", "ack"))
        if answer.place:
            bench.leader = answer.place.leader

    def send(self, send: Send) -> None:
        bench, signed = self.bench, []
        if send.vote:
            with bench.part("signing"):
                signed = self.signatures.of(send.vote, send.signers)
        for to in range(MEMBERS) if send.to is None else [send.to]:
            with bench.part("testing signatures"):
                for member, signature in signed:
                    if to != self.number:
                        assert bench.members[to].signatures.is_right(send.vote, member, signature)
            with bench.part("writing lines"):
                fields = [b"deliver", hexed(send.message)]
                if send.vote:
                    fields += [hexed(send.vote)] + [b"%d" % member for member, _ in signed]
                line = b" ".join(fields)
            bench.due.append((to, line, WORDS.get(send.message[0], "else")))


class Part:
    """Adds the processor time of a part."""

    def __init__(self, parts: Counter, name: str):
        self.parts, self.name = parts, name

    def __enter__(self) -> None:
        self.start = time.thread_time()

    def __exit__(self, *_: object) -> None:
        self.parts[self.name] += time.thread_time() - self.start


class Bench:
    """Members in lockstep."""

    def __init__(self, words: argparse.Namespace, folder: str):
        self.words, self.folder, self.random = words, folder, random.Random(1)
        self.parts: Counter = Counter()
        self.lines: Counter = Counter()
        self.counts: Counter = Counter()
        self.due: Deque[Tuple[int, bytes, str]] = deque()
        self.leader = 1
        self.members: List[Timed] = [
            Timed(self, number, keys) for number, keys in enumerate(new_keys(MEMBERS, "speed"))]

    def part(self, name: str) -> Part:
        return Part(self.parts, name)

    def drain(self) -> None:
        while self.due:
            number, line, word = self.due.popleft()
            self.members[number].give(line, word)

    def run(self) -> None:
        for one in self.members:
            one.start()
        self.drain()
        for figures in (self.parts, self.lines, self.counts):
            figures.clear()
        before = self.figures()
        for _ in range(self.words.blocks):
            payload = self.random.randbytes(self.words.bytes)
            self.members[self.leader].give(b"propose " + hexed(payload), "propose")
            self.drain()
        self.tell(before)

    def figures(self) -> List[float]:
        return [time.perf_counter(), time.process_time(),
                sum(processor(one.member.process.pid) for one in self.members),
                sum(one.member.lines for one in self.members),
                sum(one.member.bytes_in for one in self.members),
                sum(one.member.bytes_out for one in self.members),
                sum(one.file.seconds for one in self.members)]

    def tell(self, before: List[float]) -> None:
        """All figures are of a block and member."""
        blocks = max(1, self.words.blocks)
        each = [(after - first) / blocks / MEMBERS for after, first in zip(self.figures(), before)]
        print("%d blocks of %d bytes, handed out %s; load %.1f" % (
            self.words.blocks, self.words.bytes, [one.handed for one in self.members],
            os.getloadavg()[0]))
        print("a block and member: member %.2f ms of processor, host %.2f ms; by the clock %.2f "
              "ms, of them %.2f in syncs" % tuple(each[at] * 1e3 for at in (2, 1, 0, 6)))
        print("a block and member: %.1f lines, %d bytes in, %d bytes out, %.1f syncs of the log" % (
            each[3], each[4], each[5], self.counts["syncs"] / blocks / MEMBERS))
        for name, seconds in self.parts.most_common():
            print("  host: %-18s %.3f ms" % (name, seconds * 1e3 / blocks / MEMBERS))
        for name, seconds in self.lines.most_common():
            print("  member: %-13s %.1f of %.2f ms each" % (
                name, self.counts[name] / blocks / MEMBERS, seconds * 1e3 / self.counts[name]))
        for one in self.members:
            print("member %d: %s; its file has %d bytes" % (
                one.number, memory(one.member.process.pid), one.file.size()))


def main() -> int:
    words = argparse.ArgumentParser(description=__doc__)
    words.add_argument("blocks", type=int, help="at most 10,000; 0 only starts")
    words.add_argument("bytes", type=int, help="of a payload")
    words.add_argument("--fsync", action="store_true")
    words.add_argument("--by-line", action="store_true", help="the time of each kind of line")
    words.add_argument("--folder", help="a folder that is kept: a second run starts on its files")
    given = words.parse_args()
    given.blocks = min(given.blocks, 10_000)
    folder = given.folder or tempfile.mkdtemp(prefix="buzmelik-")
    try:
        Bench(given, folder).run()
    finally:
        if not given.folder:
            shutil.rmtree(folder, ignore_errors=True)
    return 0


if __name__ == "__main__":
    raise SystemExit(main())
