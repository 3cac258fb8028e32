"""A cluster that plays the lines of a script, and what is reported, as docs/RULES.md has it."""
from typing import Any, List, NamedTuple, Optional

from formats import (
    Ask, AskHeight, Ballot, Block, Cert, Commitment, Context, Proposal, Shard, Whole, message_of,
    nullify, vote_on,
)
from member import ALL, Member, Noted
from travel import Chunked

EMPTY = bytes(32)


class Sent(NamedTuple):
    number: int
    from_: int
    to: Any
    message: Any


class Entry(NamedTuple):
    head: str
    found: Optional[int]
    sent: List[Sent]
    handed: List[Any]


class Clash(Exception):
    """Two blocks of one digest, the earlier first."""


class World:
    def __init__(self, script, digest_of, travel=Chunked):
        self.script, self.digest_of, self.travel = script, digest_of, travel(self)
        self.total, self.backlog, self.span = script.total, script.backlog, script.span
        self.faulty, self.pool, self.votes, self.entries = script.faulty, [], set(), []
        self.configs = {self.config(epoch) for epoch in range(len(script.lists))}
        parent = Commitment(EMPTY, EMPTY, EMPTY, 1, 1)
        self.first = Block(Context(0, 0, 0, 0, parent), digest_of(b""), 0, b"")
        digest = digest_of(self.first.write())
        context = digest_of(self.first.context.write())
        self.first_commitment = Commitment(digest, digest, context, 1, 1)
        self.honest = {
            number: Member(self, number) for number in range(self.total)
            if number not in self.faulty
        }

    # Committees.

    def members(self, epoch):
        lists = self.script.lists
        return lists[min(epoch, len(lists) - 1)]

    def place(self, epoch, member):
        members = self.members(epoch)
        return members.index(member) if member in members else None

    def faults(self, epoch):
        return (len(self.members(epoch)) - 1) // 3

    def quorum(self, epoch):
        return len(self.members(epoch)) - self.faults(epoch)

    def config(self, epoch):
        return self.travel.config(len(self.members(epoch)))

    def leader(self, epoch, view):
        members = self.members(epoch)
        return members[view % len(members)]

    def last_height(self, epoch):
        return None if self.span is None else (epoch + 1) * self.span

    # A run.

    def run(self):
        for number, member in self.honest.items():
            self.enter("open %d" % number, None, number, *member.start())
        for line in self.script.lines:
            self.play(line)
        return self

    def enter(self, head, found, sender, sent, handed):
        first = len(self.pool)
        new = [Sent(first + at, sender, *out) for at, out in enumerate(sent)]
        self.pool += new
        self.entries.append(Entry(head, found, new, handed))
        for one in new:
            if isinstance(one.message, Ballot) and one.message.signer == sender:
                self.votes.add((sender, one.message.vote))

    def play(self, line):
        head = "step %d" % line.number
        if line.event == "faulty":
            return self.enter(head, None, line.member, self.forged(line), [])
        member = self.honest.get(line.member)
        value = self.value_of(line) if member else None
        if value is None or member.live == (line.event == "restart"):
            return self.enter(head, None, line.member, [], [])
        if line.event == "restart":
            sent, handed = member.start()
            return self.enter(head, len(member.notes.all), line.member, sent, handed)
        sent, handed, notes = member.step(line.event, value, line.stop)
        self.enter(head, None, line.member, sent, handed)
        self.find_clash(member, len(notes))

    def value_of(self, line):
        """What a line brings to its member, None where it brings nothing."""
        if line.event not in ("deliver", "floor"):
            return line.value
        sent = self.pool[line.value] if line.value < len(self.pool) else None
        if not sent or sent.to not in (ALL, line.member):
            return None
        message = sent.message
        final = isinstance(message, Cert) and message.vote.kind == "finalize"
        return message if line.event == "deliver" or final else None

    def forged(self, line):
        """What a faulty member sends."""
        kind, value = line.value[0], line.value[1:]
        if kind == "offer":
            view, payload = value
            context = Context(0, view, self.leader(0, view), 0, self.first_commitment)
            parent = self.digest_of(self.first.write())
            block = Block(context, parent, 1, payload)
            vote = vote_on("notarize", Proposal(0, view, 0, self.travel.commit(block)))
            sent = self.travel.sends(block, 0, line.member)
            return sent + [(ALL, Ballot(line.member, vote))]
        if kind in ("notarize", "finalize"):
            sent = self.pool[value[0]] if value[0] < len(self.pool) else None
            if not sent or not isinstance(sent.message, Ballot) or not sent.message.vote.proposal:
                return []
            return [(ALL, Ballot(line.member, vote_on(kind, sent.message.vote.proposal)))]
        if kind == "nullify":
            return [(ALL, Ballot(line.member, nullify(0, value[0])))]
        return [(ALL, message_of(value[0]))] if kind == "raw" else []

    # What comes of it.

    def find_clash(self, member, count):
        """Each of a member's new blocks against genesis and all blocks noted before it."""
        notes = member.notes.all
        for place in range(len(notes) - count, len(notes)):
            if isinstance(notes[place], Noted):
                block, text = notes[place].block, notes[place].block.write()
                for earlier in self.noted_before(member.number, place):
                    other = earlier != block and earlier.write()
                    if other and other != text and self.digest_of(other) == self.digest_of(text):
                        raise Clash(other, text)

    def noted_before(self, own, place):
        yield self.first
        for number, member in self.honest.items():
            end = place if number == own else len(member.notes.all)
            for note in member.notes.all[:end]:
                if isinstance(note, Noted):
                    yield note.block

    def noted(self, commitment):
        if commitment == self.first_commitment:
            return self.first
        blocks = (member.notes.blocks.get(commitment) for member in self.honest.values())
        return next(block for block in blocks if block)

    def chain(self):
        handed = [given.block for entry in self.entries for given in entry.handed]
        top = max(handed, key=lambda block: block.height, default=None)
        links = [top] if top else []
        while links and links[-1].height > 0:
            links.append(self.noted(links[-1].context.parent))
        return links[::-1]

    # Text.

    def shown(self, text):
        return self.digest_of(text).hex()

    def report(self):
        lines = []
        for entry in self.entries:
            lines.append(entry.head)
            if entry.found is not None:
                lines.append("found %d" % entry.found)
            for sent in entry.sent:
                numbers = "sent %d %d %s" % (sent.number, sent.from_, sent.to)
                digest = self.shown(sent.message.write())
                lines.append("%s %s %s" % (numbers, what(sent.message), digest))
            for given in entry.handed:
                numbers = given.member, given.block.height
                lines.append("hand %d %d %s" % (*numbers, self.shown(given.block.write())))
        for number, member in self.honest.items():
            acked = "none" if member.notes.acked is None else member.notes.acked
            state = "live" if member.live else "stopped"
            count = len(member.notes.all)
            lines.append("member %d %s acked %s notes %d" % (number, state, acked, count))
        for height, block in enumerate(self.chain()):
            lines.append("chain %d %s" % (height, self.shown(block.write())))
        lines.append("done %d" % len(self.script.lines))
        return text_of(lines)

    def summary(self, storm):
        chain = self.chain()
        return text_of([
            "storm %d" % storm,
            "events %d" % len(self.script.lines),
            "messages %d" % len(self.pool),
            "handed %d" % sum(len(entry.handed) for entry in self.entries),
            "top %d" % (len(chain) - 1),
            "chain %s" % self.shown(chain[-1].write()),
        ])


def text_of(lines):
    return "".join(line + "\n" for line in lines)


def vote_text(vote):
    view = vote.view if vote.epoch == 0 else "%d/%d" % (vote.epoch, vote.view)
    return "%s %s" % (vote.kind, view)


def what(message):
    if isinstance(message, Shard):
        return "shard %d" % message.chunk.index
    if isinstance(message, Ballot):
        return "vote %d %s" % (message.signer, vote_text(message.vote))
    if isinstance(message, Cert):
        return "cert %s %d" % (vote_text(message.vote), len(message.signers))
    if isinstance(message, Ask):
        return "ask"
    if isinstance(message, AskHeight):
        return "askheight %d" % message.height
    if isinstance(message, Whole):
        return "block %d" % message.block.height
    return "junk %d" % len(message.text)
