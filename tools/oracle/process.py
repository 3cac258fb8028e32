#!/usr/bin/env python3
"""A member as a process, as hail_member is, but written by itself from docs/PROTOCOL.md,
docs/RULES.md and docs/FORMATS.md alone: each line of standard input is answered on standard output.
usage: process.py M [whole]"""
import os
import sys

from coding import be, sha256
from formats import LONGEST_PAYLOAD, Ballot, Cert, Reader, message_of, whole
from frames import Foreign, frames_on
from member import Member, Noted
from nodes import bytes_of
from script import Refused as NoScript, number, parse, payload
from travel import Chunked, Uncut
from world import World

LONGEST_LINE = 4_194_304


class No(Exception):
    """Why a line is refused."""


# ---- the lines of a host

def claim_of(fields):
    """Who signed which vote, for which a host vouches: bytes that are no vote claim nothing."""
    if not fields:
        return None, ()
    vote, members = whole(payload(fields[0]), Reader.vote), tuple(map(number, fields[1:]))
    if any(member >= 65536 for member in members):
        raise ValueError()
    return vote, members


def named(field):
    """The 32 bytes of a digest, else a commitment."""
    text = payload(field)
    found = text if len(text) == 32 else whole(text, Reader.commitment)
    if found is None:
        raise ValueError()
    return found


def proposed(field):
    text = payload(field)
    if len(text) > LONGEST_PAYLOAD:
        raise No("OversizeBlock")
    return text


def delivered(fields):
    text, claim = payload(fields[0]), claim_of(fields[1:])
    return message_of(text), claim


def floored(fields):
    message, claim = delivered(fields)
    if not isinstance(message, Cert) or message.vote.kind != "finalize":
        raise No("NoFinalization")
    return message, claim


ALONE = ("start", "ack", "view")
FIELD = {
    "disk": payload, "propose": proposed, "timeout": number, "prune": number, "hint": number,
    "watch": named, "cancel": number, "at": number, "block": named, "final": number,
    "names": lambda field: message_of(payload(field)),
}
FIELDS = {"deliver": delivered, "floor": floored}


def asked(line):
    """What a line asks for: its word, and what stands behind it."""
    try:
        word, *fields = line.split(b" ")
        word = word.decode()
        if word in ALONE and not fields:
            return word, None
        if word in FIELD and len(fields) == 1:
            return word, FIELD[word](fields[0])
        if word in FIELDS and fields:
            return word, FIELDS[word](fields)
    except ValueError:
        pass
    raise No("Syntax")


# ---- the lines of an answer

def hexed(text):
    return text.hex() or "-"


def signed_text(message):
    """The vote that a message is of, and its signers."""
    if isinstance(message, Ballot):
        vote, signers = message.vote, [message.signer]
    elif isinstance(message, Cert):
        vote, signers = message.vote, message.signers
    else:
        return ""
    return " " + " ".join([hexed(vote.write())] + ["%d" % signer for signer in signers])


def message_text(message):
    return hexed(message.write()) + signed_text(message)


class Claimed(Member):
    """A member who takes a vote as signed by whom its host vouches for, beside one line."""

    def __init__(self, world, number):
        self.claim = None, ()
        super().__init__(world, number)

    def signed(self, member, vote):
        return vote == self.claim[0] and member in self.claim[1]


class Running:
    """A member at work, the place of its last gate, and the tickets that wait."""

    def __init__(self, world, number, file):
        self.world, self.member = world, Claimed(world, number)
        self.member.frames, self.gate = frames_on(file)
        self.coming, self.waiting = 0, []
        calls = "sync\n" + ("write 0 00\nsync\n" if len(file) < 2 else "")
        self.opening = calls + self.given(*self.member.start(), []) + self.view(None)

    def take(self, word, value):
        """What a line's answer says, but for its last line."""
        return getattr(self, "ask_" + word)(value) if hasattr(self, "ask_" + word) else \
            self.step(word, value)

    # An event.

    def step(self, word, value):
        tickets = self.ticketed(word, value)
        if word in ("deliver", "floor"):
            value, self.member.claim = value
        count, before = len(self.member.frames), self.place()
        sent, handed, _ = self.member.step(word, value, None)
        self.member.claim = None, ()
        frames = self.member.frames[count:]
        told = "".join(map(self.append, frames)) + self.given(sent, handed, tickets)
        return told + (self.view(None) if self.place() != before else "")

    def append(self, notes):
        """The device calls of an append."""
        text = b"".join(map(bytes_of, notes))
        block = be(len(text), 8) + text + bytes([0])
        calls = "write %d %s\nsync\nwrite %d 01\nsync\n" % (self.gate + 1, block.hex(), self.gate)
        self.gate += len(block)
        return calls

    def given(self, sent, handed, tickets):
        told = "".join("send %s %s\n" % (to, message_text(message)) for to, message in sent)
        for one in handed:
            told += self.block_line("hand", one.block, self.member.at(one.block.height))
        return told + "".join(tickets) + "".join(self.served())

    def block_line(self, word, block, commitment):
        digest = self.world.digest_of(block.write())
        name = hexed(commitment.write()) if commitment else "-"
        return "%s %d %s %s %s\n" % (word, block.height, hexed(digest), name, hexed(block.payload))

    def place(self):
        epoch = self.member.epoch()
        return epoch, self.member.view(epoch)

    def view(self, _):
        return "view %d %d %d\n" % (*self.place(), self.world.leader(*self.place()))

    # Tickets.

    def ticketed(self, word, value):
        """A watch has its ticket told at once; a cancelled one waits no more."""
        if word == "watch":
            self.waiting.append((self.coming, value))
            self.coming += 1
            return ["told %d\n" % (self.coming - 1)]
        if word == "cancel":
            self.waiting = [one for one in self.waiting if one[0] != value]
        return []

    def served(self):
        """The tickets whose block is held, which then wait no more."""
        told, waiting, self.waiting = [], self.waiting, []
        for number_, wanted in waiting:
            found = self.found(wanted)
            if found:
                told.append("told %d %s\n" % (number_, hexed(found.write())))
            else:
                self.waiting.append((number_, wanted))
        return told

    def found(self, wanted):
        """The commitment of a held block: of a digest genesis, or the first such block."""
        if not isinstance(wanted, bytes):
            return wanted if self.member.held(wanted) else None
        if wanted == self.world.digest_of(self.world.first.write()):
            return self.world.first_commitment
        for note in self.member.notes.all:
            if isinstance(note, Noted):
                block = self.member.held(note.commitment)
                if block and self.world.digest_of(block.write()) == wanted:
                    return note.commitment
        return None

    # Questions.

    def ask_view(self, _):
        return self.view(None)

    def ask_names(self, message):
        return "names%s\n" % signed_text(message)

    def told_block(self, commitment, name):
        block = commitment and self.member.held(commitment)
        if not block:
            raise No("NoBlock")
        return self.block_line("block", block, name)

    def ask_at(self, height):
        commitment = self.member.at(height)
        return self.told_block(commitment, commitment)

    def ask_block(self, wanted):
        name = None if isinstance(wanted, bytes) else wanted
        return self.told_block(self.found(wanted), name)

    def ask_final(self, height):
        cert = self.member.finalization(height)
        if not cert:
            raise No("NoBlock")
        return "final %d %s\n" % (height, message_text(cert))


class Process:
    """A member's number, its header, its file, and the member once it has started."""

    def __init__(self, number_, travel):
        self.number, self.travel = number_, travel
        self.header, self.world, self.file, self.running = b"", None, b"", None

    def answer(self, line):
        try:
            return self.take(line) + "ok\n"
        except No as reason:
            return "no %s\n" % reason

    def take(self, line):
        if len(line) > LONGEST_LINE:
            raise No("TooLong")
        try:
            word, value = asked(line)
        except No as reason:
            if self.world is None and str(reason) == "Syntax":
                return self.head(line)
            raise
        if self.running is None:
            return self.prepare(word, value)
        if word in ("disk", "start"):
            raise No("TooLate")
        return self.running.take(word, value)

    def head(self, line):
        """A line of the header. It lacks one where the script would end before its last list."""
        text = self.header + line + b"\n"
        count = text.count(b"\n")
        try:
            script = parse(text, self.travel.has_epochs)
        except NoScript as refused:
            words = str(refused).split(" ")
            if words[2:] == ["Syntax", "%d" % (count + 1)]:
                self.header = text
                return ""
            raise No(words[2] if words[1] in ("2", "3") else "Syntax") from None
        if self.number >= script.total:
            raise No("UnknownMember")
        self.world = World(script, sha256, self.travel)
        return ""

    def prepare(self, word, value):
        if self.world is None or word not in ("disk", "start"):
            raise No("TooEarly")
        if word == "disk":
            self.file += value
            return ""
        try:
            self.running = Running(self.world, self.number, self.file)
        except Foreign as place:
            raise No("Foreign %s" % place) from None
        return self.running.opening


def process_of(words):
    """The process that the words name, None where they are none of the usage."""
    if not words or words[1:] not in ([], ["whole"]):
        return None
    try:
        member = number(words[0].encode())
    except ValueError:
        return None
    return Process(member, Uncut if words[1:] else Chunked) if member < 65536 else None


def main():
    process = process_of(sys.argv[1:])
    if process is None:
        sys.stdout.write("usage: hail_member M [whole]\n")
        return 2
    try:
        for line in sys.stdin.buffer:
            sys.stdout.write(process.answer(line[:-1] if line.endswith(b"\n") else line))
            sys.stdout.flush()
    except OSError:
        # What is left in the buffer goes nowhere when the interpreter ends.
        os.dup2(os.open(os.devnull, os.O_WRONLY), sys.stdout.fileno())
        return 6
    return 0


if __name__ == "__main__":
    sys.exit(main())
