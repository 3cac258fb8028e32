#!/usr/bin/env python3
"""Plays a script under the test hash and prints of each honest member what storm_tests expects of
the node that comes back: where it is, its notes, the bytes of its disk, and what it sends and hands
out when it is asked for a height, then given votes to nullify its view, then an acknowledgement.
Written from docs/RULES.md and docs/FORMATS.md alone.
usage: nodes.py [storm N]"""
import sys

from coding import be, byte_sum
from formats import Ask, AskHeight, Ballot, Cert, Shard, Vote, nullify
from member import Ack, Certified, Entered, Floor, Member, Noted, Prune, Verified
from script import parse, storm
from world import World

HEIGHT, SIGNERS = 9, 6


def bytes_of(note):
    """A note's bytes: its tag, which tells whether an epoch stands behind it, and its fields."""
    if isinstance(note, Noted):
        return bytes([0]) + note.commitment.write() + note.block.write()
    if isinstance(note, Verified):
        return tagged(1, 10, note.epoch) + be(note.view, 8) + note.commitment.write()
    if isinstance(note, Certified):
        it = note.proposal
        return tagged(2, 9, it.epoch) + be(it.view, 8) + be(it.parent, 8) + it.payload.write()
    if isinstance(note, Vote):
        return bytes([3]) + note.write()
    if isinstance(note, Cert):
        return bytes([4]) + note.write()[1:]  # as in a message, but for the message's tag
    if isinstance(note, Entered):
        return bytes([8]) + be(note.epoch, 8) + note.commitment.write()
    return bytes([{Ack: 5, Floor: 6, Prune: 7}[type(note)]]) + be(note.height, 8)


def tagged(first, later, epoch):
    return bytes([first]) if epoch == 0 else bytes([later]) + be(epoch, 8)


class Written(Member):
    """A member with the bytes of its disk, and the place of its last gate."""

    def __init__(self, world, number):
        super().__init__(world, number)
        self.disk, self.gate = b"", 0

    def step(self, event, value, stop):
        count, gate = len(self.frames), self.gate
        made = super().step(event, value, stop)
        if len(self.frames) > count and self.gate == gate:
            self.append(self.frames[-1], True)
        return made

    def cut(self, stop, notes):
        kept = super().cut(stop, notes)
        self.append(notes, bool(kept))
        return kept

    def append(self, notes, kept):
        """Length, frame and a closed gate behind the last gate, which opens where they are kept."""
        text = b"".join(map(bytes_of, notes))
        front = self.disk[:self.gate] + bytes([kept]) + be(len(text), 8) + text + bytes([0])
        self.disk = front + self.disk[len(front):]
        if kept:
            self.gate = len(front) - 1


def message_text(message):
    if isinstance(message, AskHeight):
        return "ask %d %d" % (message.from_, message.height)
    if isinstance(message, Ask):
        return "ask %d" % message.from_
    if isinstance(message, Ballot):
        return "vote %d" % message.signer
    if isinstance(message, Cert):
        return "cert %s" % list(message.signers)
    return "shard" if isinstance(message, Shard) else "block"


def told(member, event, value):
    sent, handed, _ = member.step(event, value, None)
    words = [message_text(message) for _, message in sent]
    return "".join("; " + word for word in words + ["hand %d" % one.block.height for one in handed])


def line_of(world, member):
    if not member.live:
        return "%d stopped, %d bytes" % (member.number, len(member.disk))
    epoch = member.epoch()
    view = member.view(epoch)
    own = len(member.notes.all), len(member.disk)
    text = "%d in %d/%d: %d notes, %d bytes" % (member.number, epoch, view, *own)
    text += told(member, "hint", HEIGHT)
    for signer in range(SIGNERS):
        world.votes.add((signer, nullify(epoch, view)))
        text += told(member, "deliver", Ballot(signer, nullify(epoch, view)))
    return text + told(member, "ack", None)


def main():
    words = sys.argv[1:]
    text = storm(int(words[1])) if words else sys.stdin.buffer.read()
    world = World(parse(text), byte_sum)
    world.honest = {number: Written(world, number) for number in world.honest}
    world.run()
    for member in world.honest.values():
        print(line_of(world, member))
    return 0


if __name__ == "__main__":
    sys.exit(main())
