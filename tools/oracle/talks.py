#!/usr/bin/env python3
"""Talks of hosts with members, made at random, and what programs answer. In a talk a member of a
small cluster starts, mostly on the torn file of an earlier life, and hears from the others; and its
host says what it shouldn't: lines outside the grammar, lines too early and too late, claims of too
little, too much and something else.
usage: talks.py show SEED                 prints the talk of a seed
       talks.py words SEED                prints the words for it: the member, and whether `whole`
       talks.py compare PROGRAM COUNT [FIRST]
                                          compares the program's answers with those of process.py
PROGRAM is the command of a member's program."""
import random
import shlex
import subprocess
import sys

from process import Process, hexed
from travel import Chunked, Uncut

CLUSTERS = [(4, 1, 3), (5, 2, 2), (6, 1, 4)]
EARLIER, LATER = 120, 260  # lines of an earlier life, and of the talk, at most
NOISE = [
    b"", b" ", b"ok", b"ack ", b" ack", b"ack 1", b"start", b"start 0", b"view", b"view 0", b"disk",
    b"disk 0", b"disk 00", b"disk 0g", b"disk -", b"propose", b"propose -", b"propose 0 0",
    b"propose --", b"PROPOSE 00", b"timeout", b"timeout x", b"timeout -1", b"timeout 0",
    b"timeout 18446744073709551615", b"timeout 18446744073709551616", b"timeout 0001", b"prune 0",
    b"hint 0", b"hint 99", b"hint 18446744073709551615", b"at 0", b"at 1", b"at 00002", b"at -",
    b"at 18446744073709551615", b"final 0", b"final 1", b"block -", b"block " + b"00" * 32,
    b"block " + b"00" * 100, b"block " + b"01" * 100, b"watch 00", b"watch " + b"00" * 32,
    b"watch " + b"02" * 100, b"watch " + b"00" * 100, b"cancel 0", b"cancel 7", b"names",
    b"names -", b"names 00", b"deliver", b"deliver -", b"deliver 00", b"deliver - - 65535",
    b"deliver - - 65536", b"deliver - 00 x", b"deliver -  ", b"floor -", b"floor", b"floor 02",
    b"cluster 4 3",
    b"epochs 4 1 1 1", b"members 0 1 2 3", b"\xff", b"\0", b"deliver 0400000000000000000001",
    b"deliver 0400030000000000000001", b"deliver 04ffff0000000000000001",
]


class Life:
    """A member with its host's file."""

    def __init__(self, number, travel, header, file, draw):
        self.number, self.process, self.file = number, Process(number, travel), bytearray(file)
        self.lines, self.draw, self.sends, self.place = [], draw, [], None
        for line in header:
            self.say(line)
        at = 0
        while at < len(file):
            size = draw.choice([1, 5, 40, 1_000_000])
            self.say(b"disk " + hexed(bytes(file[at:at + size])).encode())
            at += size
        self.say(b"start")

    def say(self, line):
        """Says a line, and does what the answer says, but for a stop somewhere in the calls."""
        self.lines.append(line)
        for row in self.process.answer(line).encode().split(b"\n"):
            fields = row.split(b" ")
            if fields[0] == b"write":
                place, data = int(fields[1]), bytes.fromhex(fields[2].decode())
                self.file[place:place + len(data)] = data
            elif fields[0] == b"send":
                self.sends.append((fields[1], b" ".join(fields[2:])))
            elif fields[0] == b"hand" and self.draw.random() < 0.8:
                self.say(b"ack")
            elif fields[0] == b"view":
                self.place = tuple(map(int, fields[1:]))


class Cluster:
    """Lives that hear each other, with losses, repeats and in any order."""

    def __init__(self, draw):
        self.draw, self.travel = draw, draw.choice([Chunked, Chunked, Chunked, Uncut])
        self.total, self.header = self.headed()
        self.number = draw.randrange(self.total)
        self.lives = {one: self.life(one, b"") for one in range(self.total)}
        self.waiting, self.said = [], []

    def headed(self):
        draw = self.draw
        if self.travel is Uncut or draw.random() < 0.7:
            total = draw.choice([4, 4, 4, 5, 7])
            return total, [b"cluster %d %d" % (total, draw.choice([1, 2, 8]))]
        total, span, count = draw.choice(CLUSTERS)
        lists = [sorted(draw.sample(range(total), draw.randint(4, total))) for _ in range(count)]
        rows = [b"members " + b" ".join(b"%d" % one for one in row) for row in lists]
        return total, [b"epochs %d %d %d %d" % (total, draw.choice([1, 4]), span, count)] + rows

    def life(self, number, file):
        return Life(number, self.travel, self.header, file, self.draw)

    def run(self, count):
        """So many lines of the member."""
        target = self.lives[self.number]
        end = len(target.lines) + count
        while len(target.lines) < end:
            self.post()
            draw = self.draw.random()
            if self.waiting and draw < 0.95:
                self.deliver()
            elif draw < 0.97 or not self.waiting:
                self.move()
            else:
                self.wonder(target)

    def post(self):
        for number, life in self.lives.items():
            for to, tail in life.sends:
                self.said.append(tail)
                for other in range(self.total) if to == b"all" else [int(to)]:
                    times = self.draw.choice([0, 2] + [1] * 50) if other != number else 1
                    self.waiting += [(other, tail)] * times
            life.sends = []

    def deliver(self):
        """The oldest message, mostly."""
        at = 0 if self.draw.random() < 0.7 else self.draw.randrange(len(self.waiting))
        to, tail = self.waiting.pop(at)
        if to == self.number and self.draw.random() < 0.1:
            tail = self.turned(tail)
        self.lives[to].say(b"deliver " + tail)

    def move(self):
        """A leader proposes, or a view is over."""
        places = {life.place for life in self.lives.values() if life.place}
        for _, view, leader in sorted(places):
            if self.draw.random() < 0.95:
                size = self.draw.choice([0, 1, 3, 40, 200])
                self.lives[leader].say(b"propose " + hexed(self.draw.randbytes(size)).encode())
            else:
                for life in self.lives.values():
                    life.say(b"timeout %d" % view)

    def wonder(self, target):
        """Something that isn't part of a run without faults."""
        draw = self.draw
        kind = draw.randrange(6)
        if kind < 3:
            target.say(draw.choice(NOISE))
        elif kind == 3 and self.said:
            tail = draw.choice(self.said)
            tail = draw.choice([tail, self.turned(tail)])
            target.say(draw.choice([b"floor " + tail, b"names " + tail.split(b" ")[0]]))
        elif kind == 4:
            word = draw.choice([b"at", b"final", b"hint", b"prune", b"cancel", b"timeout"])
            target.say(word + b" %d" % draw.randrange(6))
        elif self.said:
            text = draw.choice(self.said).split(b" ")[0]
            at = 2 * draw.randrange(max(1, len(text) // 2))
            width = draw.choice([64, 200])
            word = draw.choice([b"watch ", b"block "])
            target.say(word + draw.choice([text[at:at + width], text[2:2 + width], text[-width:]]))

    def turned(self, tail):
        """A message and its claim, one of them changed."""
        message, *claim = tail.split(b" ")
        draw = self.draw
        kind = draw.randrange(8)
        if kind == 0:
            claim = claim[:draw.randrange(len(claim) + 1)]
        elif kind == 1 and claim:
            claim += [b"%d" % member for member in range(self.total)]
        elif kind == 2 and claim:
            claim = draw.choice(self.said).split(b" ")[1:] or claim
        elif kind == 3 and claim:
            claim[0] = claim[0][:2 * draw.randrange(len(claim[0]) // 2)] or b"-"
        elif kind == 4:
            message, claim = message.upper(), [one.upper() for one in claim]
        elif kind == 5 and len(message) > 1:
            message = message[:draw.randrange(len(message))] or b"-"
        elif kind == 6 and len(message) > 1:
            at = draw.randrange(len(message))
            message = message[:at] + b"%x" % draw.randrange(16) + message[at + 1:]
        elif claim:
            claim = [claim[0]] + [b"00" + member for member in claim[1:]]
        return b" ".join([message, *claim])


def torn(file, draw):
    """What an earlier life's file may have become, or something that no life leaves."""
    kind = draw.randrange(6)
    if kind == 0:
        return file[:draw.randrange(len(file) + 1)]
    if kind == 1 and file:
        changed = bytearray(file)
        changed[draw.randrange(len(file))] ^= 1 << draw.randrange(8)
        return bytes(changed)
    if kind == 2:
        return file + draw.randbytes(draw.choice([1, 9, 100]))
    return file


def talk_of(seed):
    """The words of a talk, and its lines."""
    draw = random.Random(seed)
    cluster = Cluster(draw)
    words = ["%d" % cluster.number] + (["whole"] if cluster.travel is Uncut else [])
    if draw.random() < 0.75:
        cluster.run(draw.randrange(EARLIER))
    file = torn(bytes(cluster.lives[cluster.number].file), draw)
    life = cluster.lives[cluster.number] = cluster.life(cluster.number, file)
    front = [draw.choice(NOISE) for _ in range(draw.choice([0, 0, 0, 3]))]
    if life.place:
        cluster.run(draw.randrange(20, LATER))
    else:
        front += [draw.choice(NOISE) for _ in range(10)]
    lines = misled(life.lines, front, draw)
    return words, b"\n".join(lines) + draw.choice([b"\n", b""])


def misled(lines, front, draw):
    """The lines of a life, with some between the first that a member may not like."""
    made = list(lines)
    for line in front:
        made.insert(draw.randrange(min(8, len(made)) + 1), line)
    return made


def answers(command, words, text):
    """The status, and the text that a program answers."""
    run = subprocess.run(command + words, input=text, stdout=subprocess.PIPE, check=False)
    return run.returncode, run.stdout


def own_answers(words, text):
    process = Process(int(words[0]), Uncut if words[1:] else Chunked)
    lines = text.split(b"\n")
    if lines[-1] == b"":
        lines.pop()
    return 0, "".join(map(process.answer, lines)).encode()


def differing(one, other):
    """Where two texts differ."""
    rows = one[1].split(b"\n"), other[1].split(b"\n")
    for at, (left, right) in enumerate(zip(*rows), 1):
        if left != right:
            return "line %d is %r, wanted %r" % (at, left[:100], right[:100])
    return "status %s and %d lines, wanted %s and %d" % (
        one[0], len(rows[0]), other[0], len(rows[1]))


def compare(command, count, first):
    wrong, size = 0, [0, 0, 0]
    for seed in range(first, first + count):
        words, text = talk_of(seed)
        wanted, got = own_answers(words, text), answers(command, words, text)
        lines = wanted[1].split(b"\n")
        size = [size[0] + lines.count(b"ok"), size[1] + len(wanted[1]),
                size[2] + sum(line.startswith(b"no ") for line in lines)]
        if got != wanted:
            wrong += 1
            print("seed %d differs: %s" % (seed, differing(got, wanted)), flush=True)
    print("%d talks, %d differ; %d lines done, %d refused, %d bytes" % (
        count, wrong, size[0], size[2], size[1]))
    return wrong == 0


def main():
    words = sys.argv[1:]
    if len(words) == 2 and words[0] in ("show", "words"):
        of, text = talk_of(int(words[1]))
        sys.stdout.buffer.write(text if words[0] == "show" else " ".join(of).encode() + b"\n")
        return 0
    if len(words) in (3, 4) and words[0] == "compare":
        first = int(words[3]) if words[3:] else 1
        return 0 if compare(shlex.split(words[1]), int(words[2]), first) else 1
    print(__doc__, file=sys.stderr)
    return 2


if __name__ == "__main__":
    sys.exit(main())
