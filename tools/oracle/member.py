"""A member: its notes, what came, and what it does in a step, as docs/RULES.md has it."""
from typing import NamedTuple

from formats import (
    END, Ask, AskHeight, Ballot, Block, Cert, Commitment, Context, Proposal, Shard, Vote, Whole,
    nullify, vote_on,
)

ALL = "all"


# Notes, beside votes and certificates; the first two are also what comes.

class Noted(NamedTuple):
    commitment: Commitment
    block: Block


class Verified(NamedTuple):
    epoch: int
    view: int
    commitment: Commitment


class Certified(NamedTuple):
    proposal: Proposal


class Ack(NamedTuple):
    height: int


class Floor(NamedTuple):
    height: int


class Prune(NamedTuple):
    height: int


class Entered(NamedTuple):
    epoch: int
    commitment: Commitment


class Wish(NamedTuple):
    commitment: Commitment


class Given(NamedTuple):
    member: int
    block: Block


class Notes:
    """A list of notes with what is looked up in it."""

    def __init__(self):
        self.all, self.blocks, self.certs, self.payloads = [], {}, {}, {}
        self.nullified, self.certified, self.own, self.finals = set(), set(), set(), []
        self.views, self.entered = {}, {}
        self.acked = self.floor = self.prune = None

    def add(self, note):
        self.all.append(note)
        if isinstance(note, Noted):
            self.blocks.setdefault(note.commitment, note.block)
        elif isinstance(note, Certified):
            self.certified.add(note.proposal)
            self.settle(note.proposal)
        elif isinstance(note, Vote):
            self.own.add(note)
        elif isinstance(note, Cert):
            self.add_cert(note)
        elif isinstance(note, Ack):
            self.acked = note.height
        elif isinstance(note, Floor):
            self.floor = max(self.floor or 0, note.height)
        elif isinstance(note, Prune):
            self.prune = max(self.prune or 0, note.height)
        elif isinstance(note, Entered):
            self.entered.setdefault(note.epoch, note.commitment)

    def add_cert(self, cert):
        vote = cert.vote
        self.certs.setdefault(vote, cert)
        if vote.kind == "nullify":
            self.nullified.add((vote.epoch, vote.view))
            self.pass_view(vote.epoch, vote.view)
        if vote.kind == "finalize":
            self.finals.append(cert)
            self.settle(vote.proposal)

    def settle(self, proposal):
        self.payloads.setdefault((proposal.epoch, proposal.view), proposal.payload)
        self.pass_view(proposal.epoch, proposal.view)

    def pass_view(self, epoch, view):
        self.views[epoch] = max(self.views.get(epoch, 0), view)


def named_vote(entry):
    """The vote that an entry of what came, or a note, names."""
    if isinstance(entry, (Ballot, Cert)):
        return entry.vote
    return entry if isinstance(entry, Vote) else None


def named_proposal(entry):
    if isinstance(entry, Certified):
        return entry.proposal
    vote = named_vote(entry)
    return vote and vote.proposal


class Member:
    def __init__(self, world, number):
        self.world, self.number, self.frames, self.live = world, number, [], True
        self.forget()

    def forget(self):
        """What is left behind a stop."""
        self.came, self.given = [], []
        self.notes = Notes()
        for frame in self.frames:
            for note in frame:
                self.notes.add(note)

    # What is held and reached.

    def held(self, commitment):
        if commitment == self.world.first_commitment:
            return self.world.first
        block = self.notes.blocks.get(commitment)
        if block and 0 < block.height < (self.notes.prune or 0):
            return None
        return block

    def parent(self, block):
        below = self.held(block.context.parent)
        return below if below and below.height + 1 == block.height else None

    def at(self, height):
        """The commitment of the block that stands at a height."""
        if height == 0:
            return self.world.first_commitment
        for cert in self.notes.finals:
            commitment = cert.vote.proposal.payload
            block = self.held(commitment)
            while block and block.height > height:
                commitment, block = block.context.parent, self.parent(block)
            if block and block.height == height:
                return commitment
        return None

    def finalization(self, height):
        for cert in self.notes.finals:
            block = self.held(cert.vote.proposal.payload)
            if block and block.height == height:
                return cert
        return None

    # Views.

    def epoch(self):
        return max(self.notes.entered, default=0)

    def view(self, epoch):
        return 1 + self.notes.views.get(epoch, 0)

    def settled(self, epoch, view):
        if view > 0:
            return self.notes.payloads.get((epoch, view))
        return self.notes.entered.get(epoch) if epoch else self.world.first_commitment

    def is_nullified_between(self, epoch, low, high):
        if high - low - 1 > len(self.notes.nullified):
            return False
        return all((epoch, view) in self.notes.nullified for view in range(low + 1, high))

    def own_votes(self, epoch, view):
        return [vote for vote in self.notes.own if (vote.epoch, vote.view) == (epoch, view)]

    def context_over(self, proposal, commitment):
        leader = self.world.leader(proposal.epoch, proposal.view)
        return Context(proposal.epoch, proposal.view, leader, proposal.parent, commitment)

    def fits(self, proposal, block):
        commitment = self.settled(proposal.epoch, proposal.parent)
        below = commitment and self.held(commitment)
        if not below:
            return False
        last = self.world.last_height(proposal.epoch)
        again = proposal.payload == commitment and block == below and proposal.parent > 0
        if again and block.height == last:
            return True
        inside = last is None or block.height <= last
        context = self.context_over(proposal, commitment)
        link = (context, self.world.digest_of(below.write()), below.height + 1)
        return inside and (block.context, block.parent, block.height) == link

    # Heights.

    def next(self):
        floor = self.notes.floor or 0
        if self.given:
            return max(self.given[-1] + 1, floor)
        return max(0 if self.notes.acked is None else self.notes.acked + 1, floor)

    def pending(self):
        above = -1 if self.notes.acked is None else self.notes.acked
        low = self.notes.floor or 0
        return [height for height in self.given if height > above and height >= low]

    # What comes.

    def signed(self, member, vote):
        return member in self.world.faulty or (member, vote) in self.world.votes

    def is_valid(self, cert):
        members, signers = self.world.members(cert.vote.epoch), cert.signers
        rising = all(low < high for low, high in zip(signers, signers[1:]))
        known = all(one in members and self.signed(one, cert.vote) for one in signers)
        enough = len(signers) >= self.world.quorum(cert.vote.epoch)
        return cert.vote.is_well_formed() and rising and known and enough

    def is_taken(self, message):
        if isinstance(message, Ballot):
            known = message.signer in self.world.members(message.vote.epoch)
            signed = self.signed(message.signer, message.vote)
            return known and signed and message.vote.is_well_formed()
        if isinstance(message, Cert):
            return self.is_valid(message)
        return isinstance(message, Shard) and self.world.travel.takes(message)

    def is_there(self, message):
        if not isinstance(message, Shard):
            return message in self.came
        place = (message.commitment, message.chunk.index)
        return any(
            isinstance(other, Shard) and (other.commitment, other.chunk.index) == place
            for other in self.came
        )

    def accept(self, message):
        """Whether the message is taken."""
        if isinstance(message, Whole):
            message = Noted(self.world.travel.commit(message.block), message.block)
            if not self.is_there(message):
                self.came.append(message)
            return False
        if self.is_there(message) or not self.is_taken(message):
            return False
        self.came.append(message)
        return True

    def accept_floor(self, cert):
        if self.is_valid(cert):
            if cert not in self.came:
                self.came.append(cert)
            self.came.append(Wish(cert.vote.proposal.payload))

    def came_whole(self, commitment):
        """The first block that came whole under a commitment."""
        for entry in self.came:
            if isinstance(entry, Noted) and entry.commitment == commitment:
                return entry.block
        return None

    def chunks_of(self, commitment):
        return [
            entry.chunk for entry in self.came
            if isinstance(entry, Shard) and entry.commitment == commitment
        ]

    def shown(self, commitment):
        return self.world.travel.shown(self, commitment)

    # What is owed.

    def owed(self):
        entries = self.came + self.notes.all
        proposals = list(dict.fromkeys(filter(None, map(named_proposal, entries))))
        return (
            self.owed_block() or self.owed_cert(entries) or self.owed_certified(proposals)
            or self.owed_floor() or self.owed_epoch() or self.owed_notarize(proposals)
            or self.owed_finalize(proposals)
        )

    def owed_block(self):
        low = max(self.notes.floor or 0, self.notes.prune or 0)
        for commitment in dict.fromkeys(
            entry.commitment for entry in self.came if isinstance(entry, (Shard, Noted))
        ):
            block = None if commitment in self.notes.blocks else self.shown(commitment)
            if block and block.height >= low:
                return Noted(commitment, block)
        return None

    def owed_cert(self, entries):
        for vote in dict.fromkeys(filter(None, map(named_vote, entries))):
            if vote in self.notes.certs:
                continue
            for entry in self.came:
                if isinstance(entry, Cert) and entry.vote == vote:
                    return entry
            signers = {
                entry.signer for entry in self.came
                if isinstance(entry, Ballot) and entry.vote == vote
            }
            if vote in self.notes.own:
                signers.add(self.number)
            if len(signers) >= self.world.quorum(vote.epoch):
                return Cert(vote, tuple(sorted(signers)))
        return None

    def owed_certified(self, proposals):
        for proposal in proposals:
            noted = vote_on("notarize", proposal) in self.notes.certs
            if noted and proposal not in self.notes.certified:
                block = self.held(proposal.payload)
                if block and self.fits(proposal, block):
                    return Certified(proposal)
        return None

    def owed_floor(self):
        for entry in self.came:
            block = self.held(entry.commitment) if isinstance(entry, Wish) else None
            above = -1 if self.notes.floor is None else self.notes.floor
            if block and block.height >= self.next() and block.height > above:
                return Floor(block.height)
        return None

    def owed_epoch(self):
        if self.world.span is None:
            return None
        blocks = (self.held(cert.vote.proposal.payload) for cert in self.notes.finals)
        top = max((block.height for block in blocks if block), default=0)
        for epoch in range(top // self.world.span, self.epoch(), -1):
            commitment = self.at(epoch * self.world.span)
            if commitment:
                return Entered(epoch, commitment)
        return None

    def owed_notarize(self, proposals):
        epoch = self.epoch()
        place = self.world.place(epoch, self.number)
        for proposal in proposals:
            if place is None or (proposal.epoch, proposal.view) != (epoch, self.view(epoch)):
                continue
            vote = vote_on("notarize", proposal)
            led = Ballot(self.world.leader(epoch, proposal.view), vote) in self.came
            commitment = self.settled(epoch, proposal.parent)
            passed = self.is_nullified_between(epoch, proposal.parent, proposal.view)
            if not led or not commitment or not passed or self.own_votes(epoch, proposal.view):
                continue
            if self.is_new(proposal, commitment) or self.is_again(proposal, commitment):
                return vote
        return None

    def is_new(self, proposal, commitment):
        payload = proposal.payload
        context = self.world.digest_of(self.context_over(proposal, commitment).write())
        fitting = (payload.k, payload.m) == self.world.config(proposal.epoch)
        fitting = fitting and payload.context == context
        return fitting and self.world.travel.has_part(self, proposal)

    def is_again(self, proposal, commitment):
        block = self.held(commitment)
        last = block and block.height == self.world.last_height(proposal.epoch)
        return proposal.payload == commitment and proposal.parent > 0 and last

    def owed_finalize(self, proposals):
        for proposal in proposals:
            certified = proposal in self.notes.certified
            listed = self.world.place(proposal.epoch, self.number) is not None
            votes = self.own_votes(proposal.epoch, proposal.view)
            if certified and listed and all(vote.kind == "notarize" for vote in votes):
                return vote_on("finalize", proposal)
        return None

    # What an event gives at once.

    def direct(self, event, value):
        epoch = self.epoch()
        view = self.view(epoch)
        if event == "propose":
            return self.proposed(epoch, view, value)
        if event == "timeout" and value == view <= END - 2:
            listed = self.world.place(epoch, self.number) is not None
            votes = self.own_votes(epoch, view)
            if listed and all(vote.kind == "notarize" for vote in votes):
                return [nullify(epoch, view)]
        if event == "ack" and self.pending():
            return [Ack(min(self.pending()))]
        acked = self.notes.acked
        if event == "prune" and acked is not None and (self.notes.prune or 0) < value <= acked:
            return [Prune(value)]
        return []

    def parent_of(self, epoch, view):
        """The greatest settled view below one whose payload is held, past nullified ones."""
        for below in range(view - 1, -1, -1):
            commitment = self.settled(epoch, below)
            if commitment and self.held(commitment):
                return below, commitment
            if (epoch, below) not in self.notes.nullified:
                break
        return None

    def proposed(self, epoch, view, payload):
        leads = self.world.leader(epoch, view) == self.number
        if not leads or view > END - 2 or self.own_votes(epoch, view):
            return []
        found = self.parent_of(epoch, view)
        if not found:
            return []
        below, commitment = found
        parent, last = self.held(commitment), self.world.last_height(epoch)
        if below > 0 and parent.height == last:
            return [vote_on("notarize", Proposal(epoch, view, below, commitment))]
        height = parent.height + 1
        if height >= END - 1 or (last is not None and height > last):
            return []
        context = Context(epoch, view, self.number, below, commitment)
        block = Block(context, self.world.digest_of(parent.write()), height, payload)
        own = self.world.travel.commit(block)
        noted = [] if own in self.notes.blocks else [Noted(own, block)]
        vote = vote_on("notarize", Proposal(epoch, view, below, own))
        return noted + [Verified(epoch, view, own), vote]

    # What is sent and handed out.

    def given_by(self, notes):
        out = []
        for note in notes:
            if isinstance(note, Verified) and note.commitment in self.notes.blocks:
                block = self.notes.blocks[note.commitment]
                out += self.world.travel.sends(block, note.epoch, self.number)
            elif isinstance(note, Vote):
                out.append((ALL, Ballot(self.number, note)))
            elif isinstance(note, Cert):
                out.append((ALL, note))
        return out

    def missing(self):
        found = {}
        for note in self.notes.all:
            if isinstance(note, Cert) and note.vote.proposal:
                found[note.vote.proposal.payload] = True
            elif isinstance(note, Noted):
                block = self.held(note.commitment)
                if block and block.height > self.next():
                    found[block.context.parent] = True
        found.pop(self.world.first_commitment, None)
        return [commitment for commitment in found if commitment not in self.notes.blocks]

    def asks(self, before):
        return [(ALL, Ask(self.number, one)) for one in self.missing() if one not in before]

    def passed_on(self, epoch, message):
        """The chunk that was taken, where it is the own one of the epoch."""
        if not isinstance(message, Shard):
            return []
        own = message.chunk.index == self.world.place(epoch, self.number)
        config = (message.commitment.k, message.commitment.m)
        return [(ALL, message)] if own and config == self.world.config(epoch) else []

    def answer(self, event, value):
        if event == "hint" and not self.finalization(value):
            return [(ALL, AskHeight(self.number, value))]
        if event != "deliver":
            return []
        known = isinstance(value, (Ask, AskHeight)) and value.from_ < self.world.total
        if known and isinstance(value, Ask) and value.commitment != self.world.first_commitment:
            block = self.held(value.commitment)
            return [(value.from_, Whole(block))] if block else []
        cert = self.finalization(value.height) if known and isinstance(value, AskHeight) else None
        if not cert:
            return []
        block = self.held(cert.vote.proposal.payload)
        return [(value.from_, cert), (value.from_, Whole(block))]

    def deliver(self):
        handed = []
        while len(self.pending()) < self.world.backlog:
            height = self.next()
            commitment = self.at(height)
            if not commitment:
                break
            self.given.append(height)
            handed.append(Given(self.number, self.held(commitment)))
        return handed

    # A step, and a start.

    def step(self, event, value, stop):
        """What is sent, what is handed out, and the notes that stay."""
        before, epoch, count = self.missing(), self.epoch(), len(self.notes.all)
        taken = event == "deliver" and self.accept(value)
        if event == "floor":
            self.accept_floor(value)
        for note in self.direct(event, value):
            self.notes.add(note)
        while note := self.owed():
            self.notes.add(note)
        notes = self.notes.all[count:]
        self.live = stop is None
        if stop and notes and stop[0] <= 4:
            return [], [], self.cut(stop, notes)
        if notes:
            self.frames.append(notes)
        sent = self.given_by(notes) + (self.passed_on(epoch, value) if taken else [])
        sent += self.asks(before) + self.answer(event, value)
        return sent, self.deliver(), notes

    def cut(self, stop, notes):
        call, cut, fill = stop
        stays = call >= 3 and (cut >= 1 or fill == 1)
        if stays:
            self.frames.append(notes)
        self.forget()
        return notes if stays else []

    def start(self):
        self.live = True
        self.forget()
        last = self.frames[-1] if self.frames else []
        return self.given_by(last) + self.asks([]), self.deliver()
