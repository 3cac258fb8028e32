"""Values of a cluster, their bytes, and how bytes are read, as docs/FORMATS.md has them."""
from typing import NamedTuple, Optional, Tuple

from coding import be, width

END = 2 ** 64
LONGEST_PAYLOAD = 1_048_576
LONGEST_BLOCK = 1_048_745


class Commitment(NamedTuple):
    block: bytes
    root: bytes
    context: bytes
    k: int
    m: int

    def write(self):
        return self.block + self.root + self.context + be(self.k, 2) + be(self.m, 2)


class Context(NamedTuple):
    epoch: int
    view: int
    leader: int
    parent_view: int
    parent: Commitment

    def write(self):
        numbers = be(self.epoch, 8) + be(self.view, 8) + be(self.leader, 2)
        return numbers + be(self.parent_view, 8) + self.parent.write()


class Block(NamedTuple):
    context: Context
    parent: bytes
    height: int
    payload: bytes

    def write(self):
        front = self.context.write() + self.parent + be(self.height, 8)
        return front + varint(len(self.payload)) + self.payload


class Proposal(NamedTuple):
    epoch: int
    view: int
    parent: int
    payload: Commitment


class Vote(NamedTuple):
    """`kind` is notarize, nullify or finalize; a proposal stands in all but nullify."""
    kind: str
    epoch: int
    view: int
    proposal: Optional[Proposal]

    def write(self):
        tag = KINDS.index(self.kind)
        front = bytes([tag]) if self.epoch == 0 else bytes([tag + 3]) + be(self.epoch, 8)
        if self.proposal is None:
            return front + be(self.view, 8)
        numbers = be(self.view, 8) + be(self.proposal.parent, 8)
        return front + numbers + self.proposal.payload.write()

    def is_well_formed(self):
        inside = 1 <= self.view <= END - 2
        return inside and (self.proposal is None or self.proposal.parent < self.view)


KINDS = ["notarize", "nullify", "finalize"]


def vote_on(kind, proposal):
    return Vote(kind, proposal.epoch, proposal.view, proposal)


def nullify(epoch, view):
    return Vote("nullify", epoch, view, None)


class Chunk(NamedTuple):
    shard: bytes
    index: int
    count: int
    siblings: Tuple[bytes, ...]

    def write(self):
        front = varint(len(self.shard)) + self.shard + be(self.index, 2) + be(self.count, 4)
        return front + bytes([len(self.siblings) % 256]) + b"".join(self.siblings)


# Messages.

class Shard(NamedTuple):
    commitment: Commitment
    chunk: Chunk

    def write(self):
        return b"\0" + self.commitment.write() + self.chunk.write()


class Ballot(NamedTuple):
    signer: int
    vote: Vote

    def write(self):
        return b"\1" + be(self.signer, 2) + self.vote.write()


class Cert(NamedTuple):
    vote: Vote
    signers: Tuple[int, ...]

    def write(self):
        count = be(len(self.signers) % 65536, 2)
        return b"\2" + self.vote.write() + count + b"".join(be(one, 2) for one in self.signers)


class Ask(NamedTuple):
    from_: int
    commitment: Commitment

    def write(self):
        return b"\3" + be(self.from_, 2) + self.commitment.write()


class AskHeight(NamedTuple):
    from_: int
    height: int

    def write(self):
        return b"\4" + be(self.from_, 2) + be(self.height, 8)


class Whole(NamedTuple):
    block: Block

    def write(self):
        return b"\5" + self.block.write()


class Junk(NamedTuple):
    text: bytes

    def write(self):
        return self.text


def varint(number):
    out = b""
    while number >= 128:
        out += bytes([number % 128 + 128])
        number //= 128
    return out + bytes([number])


# Reading.

class Refused(Exception):
    pass


def unless(refused):
    if refused:
        raise Refused()


class Reader:
    def __init__(self, text):
        self.text, self.place = text, 0

    def take(self, count):
        unless(self.place + count > len(self.text))
        self.place += count
        return self.text[self.place - count:self.place]

    def number(self, size):
        return int.from_bytes(self.take(size), "big")

    def varint(self):
        value = 0
        for place in range(5):
            byte = self.number(1)
            unless(place == 4 and byte > 15)
            value |= byte % 128 << 7 * place
            if byte < 128:
                unless(place > 0 and byte == 0)
                return value

    def commitment(self):
        digests = [self.take(32) for _ in range(3)]
        k, m = self.number(2), self.number(2)
        unless(k == 0 or m == 0)
        return Commitment(*digests, k, m)

    def context(self):
        numbers = [self.number(size) for size in (8, 8, 2, 8)]
        return Context(*numbers, self.commitment())

    def block(self):
        context, parent, height = self.context(), self.take(32), self.number(8)
        unless(height == END - 1)
        length = self.varint()
        unless(length > LONGEST_PAYLOAD)
        return Block(context, parent, height, self.take(length))

    def vote(self):
        tag, epoch = self.number(1), 0
        unless(tag > 5)
        if tag > 2:
            tag, epoch = tag - 3, self.number(8)
            unless(epoch == 0)
        if tag == 1:
            return nullify(epoch, self.number(8))
        view, parent = self.number(8), self.number(8)
        return vote_on(KINDS[tag], Proposal(epoch, view, parent, self.commitment()))

    def chunk(self, k):
        length = self.varint()
        unless(length > width(LONGEST_BLOCK, k))
        shard, index, count = self.take(length), self.number(2), self.number(4)
        siblings = self.number(1)
        unless(siblings > 32)
        return Chunk(shard, index, count, tuple(self.take(32) for _ in range(siblings)))

    def shard(self):
        commitment = self.commitment()
        return Shard(commitment, self.chunk(commitment.k))

    def cert(self):
        vote, count = self.vote(), self.number(2)
        return Cert(vote, tuple(self.number(2) for _ in range(count)))

    def message(self):
        tag = self.number(1)
        unless(tag > 5)
        return [
            self.shard,
            lambda: Ballot(self.number(2), self.vote()),
            self.cert,
            lambda: Ask(self.number(2), self.commitment()),
            lambda: AskHeight(self.number(2), self.number(8)),
            lambda: Whole(self.block()),
        ][tag]()


def whole(text, read):
    """What a text reads as to its end, None where it doesn't."""
    reader = Reader(text)
    try:
        value = read(reader)
    except Refused:
        return None
    return value if reader.place == len(text) else None


def message_of(text):
    return whole(text, Reader.message) or Junk(text)
