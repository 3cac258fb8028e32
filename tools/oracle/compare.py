#!/usr/bin/env python3
"""Makes scripts at random, lets a program and oracle.py play them, and compares what they print,
byte for byte. The kinds of scripts: members that prune, members that are taken ahead by floors,
crashes, forgeries, and epochs with forgeries; and three in which each message of a run is changed
at each byte, cut off at each place and lengthened, all delivered. Prints how much the scripts held.
With the word `whole` blocks travel whole, and no script has several epochs.
usage: compare.py [whole] PROGRAM COUNT [FIRST]   (as crates/hail_run/out/hail_run 30)"""
import random
import subprocess
import sys
from collections import Counter

from coding import sha256
from formats import Ballot, Cert
from member import ALL, Entered, Floor, Prune
from oracle import answer
from script import line_of, parse
from travel import Chunked, Uncut
from world import World

KINDS = ["prunes", "floors", "crashes", "forgeries", "epochs", "epochs"]
KINDS_OF = {Chunked: KINDS, Uncut: KINDS[:4]}
CLUSTERS = [(4, 1, 3), (5, 2, 2), (6, 1, 4), (7, 2, 3), (8, 1, 5)]


def header(draw, kind):
    """The first lines, and a faulty member or two."""
    if kind != "epochs":
        total = draw.choice([4, 4, 5, 7])
        lines = ["cluster %d %d" % (total, draw.choice([1, 2, 3, 8]))]
    else:
        total, span, count = draw.choice(CLUSTERS)
        lines = ["epochs %d %d %d %d" % (total, draw.choice([1, 2, 5]), span, count)]
        for _ in range(count):
            members = sorted(draw.sample(range(total), draw.randint(4, total)))
            lines.append("members " + " ".join(map(str, members)))
    faulty = []
    if kind in ("forgeries", "epochs") and draw.random() < 0.8:
        faulty = draw.sample(range(total), 2 if (kind, total) == ("forgeries", 7) else 1)
    return lines + ["faulty %d silent" % member for member in sorted(faulty)]


class Growing:
    """A script that is played while it grows, so that its lines go by what has happened."""

    def __init__(self, seed, travel):
        kinds = KINDS_OF[travel]
        self.kind = kinds[seed % len(kinds)]
        self.draw = random.Random(seed)
        self.lines = header(self.draw, self.kind)
        self.world = World(parse(self.text()), sha256, travel).run()
        self.seen, self.behind = set(), None

    def text(self):
        return "".join(line + "\n" for line in self.lines).encode()

    def add(self, line):
        self.lines.append(line)
        self.world.play(line_of(len(self.lines), line.encode().split(b" ")))

    def happens(self, chance):
        return self.draw.random() < chance

    def stop(self, chance):
        """A stop in front of a line, mostly none."""
        if not self.happens(chance):
            return ""
        call, cut = self.draw.choice([1, 2, 3, 3, 4, 4, 5, 6]), self.draw.choice([0, 0, 1, 5, 40])
        return "cut %d %d %d " % (call, cut, self.draw.choice([0, 1, 255]))

    def round(self, number):
        if number % 3 == 0:
            often = self.kind in ("prunes", "floors", "crashes")
            some = sorted(self.world.honest)
            self.behind = self.draw.choice(some) if often or self.happens(0.4) else None
        self.propose()
        if self.world.faulty and self.happens(0.6):
            self.forge(self.draw.choice(sorted(self.world.faulty)))
        for _ in range(8):
            self.deliver()
        for member in sorted(self.world.honest):
            self.serve(member, number)
        if self.happens(0.5 if self.kind == "floors" else 0.35):
            self.time_out()

    def view(self, member):
        at = self.world.honest[member]
        return at.view(at.epoch())

    def propose(self):
        leaders = {
            self.world.leader(member.epoch(), member.view(member.epoch()))
            for member in self.world.honest.values() if member.live
        }
        for leader in sorted(leaders & set(self.world.honest)):
            payload = "%04x" % self.draw.randrange(65536) if self.happens(0.9) else "-"
            self.add("propose %d %s" % (leader, payload))

    def forge(self, member):
        count = len(self.world.pool)
        forms = [
            "offer %d %02x" % (self.draw.randint(0, 6), self.draw.randrange(256)),
            "nullify %d" % self.draw.randint(0, 8),
            "notarize %d" % self.draw.randrange(count + 2),
            "finalize %d" % self.draw.randrange(count + 2),
        ]
        if count:
            forms.append("raw " + self.changed(member, self.draw.choice(self.world.pool)))
        self.add("faulty %d %s" % (member, self.draw.choice(forms)))
        for number in range(max(0, count - 12), count):
            if isinstance(self.world.pool[number].message, Ballot) and self.happens(0.2):
                kind = self.draw.choice(["notarize", "finalize"])
                self.add("faulty %d %s %d" % (member, kind, number))

    def changed(self, member, sent):
        """The bytes of a message with a change."""
        text = bytearray(sent.message.write())
        form = self.draw.randrange(4)
        if form == 0 and text:
            text[self.draw.randrange(len(text))] ^= 1 << self.draw.randrange(8)
        elif form == 1:
            text = text[:self.draw.randrange(len(text) + 1)]
        elif form == 2:
            text.append(self.draw.randrange(256))
        elif isinstance(sent.message, Ballot):
            text[1:3] = member.to_bytes(2, "big")
        return bytes(text).hex() or "-"

    def deliver(self):
        """The messages that nobody has been asked to take yet, some lost, some twice."""
        todo = [
            (sent, member) for sent in self.world.pool for member in sorted(self.world.honest)
            if sent.to in (ALL, member) and (sent.number, member) not in self.seen
        ]
        if self.happens(0.3):
            self.draw.shuffle(todo)
        for sent, member in todo:
            self.seen.add((sent.number, member))
            if self.happens(self.loss(sent.message, member)):
                continue
            stop = self.stop(0 if self.kind == "prunes" else 0.03)
            self.add("%sdeliver %d %d" % (stop, sent.number, member))
            if stop:
                self.add("restart %d" % member)
            if self.happens(0.02):
                self.add("deliver %d %d" % (sent.number, member))

    def loss(self, message, member):
        final = isinstance(message, (Ballot, Cert)) and message.vote.kind == "finalize"
        if final and member == self.behind:
            return 0.95
        return 0.12 if self.kind == "floors" else 0.05

    def serve(self, member, number):
        """What the member's own side asks of it."""
        for _ in range(self.draw.randrange(4)):
            self.add("ack %d" % member)
        acked = self.world.honest[member].notes.acked or 0
        if self.happens(0.6 if self.kind == "prunes" else 0.3):
            height = self.draw.choice([acked, acked, acked + 1, self.draw.randint(0, number + 1)])
            self.add("%sprune %d %d" % (self.stop(0.2), member, height))
            if self.happens(0.5):
                self.add("restart %d" % member)
        finals = [sent for sent in self.world.pool if is_final(sent.message)]
        due = 0.7 if member == self.behind and number % 3 == 2 else 0.1
        if finals and self.happens(due):
            one = self.draw.choice(finals[-8:]).number
            self.add("%sfloor %d %d" % (self.stop(0.4), member, one))
            self.add("restart %d" % member)
        if self.happens(0.15):
            self.add("hint %d %d" % (member, self.draw.randint(0, number + 2)))
        if self.kind == "crashes" and self.happens(0.4):
            asked = ["ack %d", "timeout %d " + str(self.view(member)), "hint %d 1", "propose %d 00"]
            self.add(self.stop(1) + self.draw.choice(asked) % member)
            self.add("restart %d" % member)

    def time_out(self):
        for member in sorted(self.world.honest):
            if self.happens(0.9):
                self.add("timeout %d %d" % (member, self.view(member)))


def is_final(message):
    return isinstance(message, Cert) and message.vote.kind == "finalize"


def grown(seed, travel):
    """A script by its number."""
    growing = Growing(seed, travel)
    for number in range(16 if growing.kind == "prunes" else 10):
        growing.round(number)
    for member in sorted(growing.world.honest):
        growing.add("restart %d" % member)
    return growing.kind, growing.text()


# One block to its end, in chunks and whole.
SIXTEEN = """cluster 4 3
propose 1 6869
deliver 0 0
deliver 1 0
deliver 4 0
deliver 2 2
deliver 4 2
deliver 8 0
deliver 9 1
deliver 9 2
deliver 5 2
deliver 10 2
deliver 12 2
"""
ELEVEN = """cluster 4 3
propose 1 6869
deliver 0 0
deliver 1 0
deliver 0 2
deliver 1 2
deliver 3 0
deliver 4 1
deliver 4 2
deliver 5 2
deliver 7 2
"""
RUN_OF = {Chunked: (SIXTEEN, (2, 7, 13)), Uncut: (ELEVEN, (2, 6, 11))}


def fuzzed(run, lines, travel):
    """Behind so many lines of a run its messages come changed, from member 3; then the rest."""
    draw = random.Random(lines)
    _, _, world = answer(run.encode(), travel=travel)
    front, rest = run.splitlines()[:lines], run.splitlines()[lines:]
    _, _, begun = answer("".join(line + "\n" for line in front).encode(), travel=travel)
    texts = [changed for sent in world.pool for changed in changes(draw, sent.message.write())]
    first = len(begun.pool)
    raw = ["faulty 3 raw " + (text.hex() or "-") for text in texts]
    taken = [
        "deliver %d %d" % (first + place, member)
        for place in range(len(texts)) for member in range(3)
    ]
    return "fuzzed", "".join(line + "\n" for line in front + raw + taken + rest).encode()


def changes(draw, text):
    for place in range(len(text)):
        bit = 1 << draw.randrange(8)
        yield text[:place] + bytes([text[place] ^ bit]) + text[place + 1:]
        yield text[:place]
    yield text + bytes([draw.randrange(256)])


def compared(program, name, text, travel):
    """What the script held, and whether both print the same."""
    status, want, world = answer(text, travel=travel)
    ran = subprocess.run([program], input=text, stdout=subprocess.PIPE, check=False)
    same = (ran.returncode, ran.stdout.decode()) == (status, want)
    held = Counter(scripts=1, lines=text.count(b"\n"), differ=int(not same))
    if world:
        notes = Counter(type(n) for member in world.honest.values() for n in member.notes.all)
        handed = sum(len(entry.handed) for entry in world.entries)
        founds = sum(entry.found is not None for entry in world.entries)
        held.update(messages=len(world.pool), handed=handed, restarts=founds)
        held.update(prunes=notes[Prune], floors=notes[Floor], epochs=notes[Entered])
        held.update(heights=len(world.chain()) - 1)
    print(name, "same" if same else "DIFFERS", dict(held), flush=True)
    return held


def main():
    words, travel = sys.argv[1:], Chunked
    if words[:1] == ["whole"]:
        words, travel = words[1:], Uncut
    program, count = words[0], int(words[1])
    first = int(words[2]) if len(words) > 2 else 0
    held, (run, behind) = Counter(), RUN_OF[travel]
    for seed in range(first, first + count):
        kind, text = grown(seed, travel)
        held += compared(program, "%s %d" % (kind, seed), text, travel)
    for lines in behind if first == 0 else ():
        kind, text = fuzzed(run, lines, travel)
        held += compared(program, "%s behind line %d" % (kind, lines), text, travel)
    print("in all", dict(held))
    return 1 if held["differ"] else 0


if __name__ == "__main__":
    sys.exit(main())
