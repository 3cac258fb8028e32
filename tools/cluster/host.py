"""The host of one member: file, signatures, clock and network around a process of hail_member.

The process decides. Its host makes the calls of each answer on the member's file, and only then
sends what the answer says, keeps the blocks that it hands out, and sets the timer of a view.
docs/HOSTING.md says why in this order."""
import os
from collections import deque
from random import Random
from typing import Any, Callable, Deque, Dict, List, NamedTuple, Optional, Tuple

import packets
from blocks import Blocks, joined, parts_of
from files import File, grouped, last_gate
from member import Answer, Handed, Member, Place, Refused, Send, answer_of, hexed
from said import Said
from setup import Setup
from signatures import Signatures, read_keys

BATCH = 32_768  # bytes of what goes into one block; a payload may have 1,048,576
MOST_PAYLOADS = 10_000
LATEST_ACK = 0.1
VIEWS = 6    # in the next so many views chunks, blocks and questions may be sent again
RETRY = 3.0  # seconds until a payload is proposed again that wasn't handed out


class Line(NamedTuple):
    """A line for the member, and who sent what it delivers."""

    text: bytes
    peer: Optional[int] = None


class Turn(NamedTuple):
    line: Line
    answer: Answer


class Outside:
    """What is around a host: a clock, chance, and the other hosts."""

    random: Random

    def now(self) -> float:
        raise NotImplementedError

    def after(self, seconds: float, what: Callable[..., None], *args: Any) -> None:
        raise NotImplementedError

    def transmit(self, to: int, body: bytes) -> None:
        raise NotImplementedError


class Host:
    """A host, whatever is around it. All that it does begins in a call from outside."""

    new_file, new_member = File, Member

    def __init__(self, setup: Setup, number: int, outside: Outside, home: str = ""):
        self.setup, self.number, self.outside = setup, number, outside
        self.random = outside.random
        home = home or setup.home(number)
        self.file = self.new_file(os.path.join(home, "log"), setup.fsync)
        keys = read_keys(os.path.join(setup.home(number), "keys.json"), number)
        self.signatures = Signatures(keys, setup.name, number)
        self.said = Said(self.new_file(os.path.join(home, "said"), setup.fsync), self.signatures,
                         last_gate(self.file))
        self.blocks = Blocks(self.new_file(os.path.join(home, "blocks"), setup.fsync))
        self.member: Optional[Member] = None
        self.pending: List[Line] = []
        self.unacked = 0                # blocks that were handed out
        self.is_due = False             # whether `drain` will be called
        self.place = self.proposed = Place(0, 0, -1)
        self.failures, self.moved, self.patience = 0, outside.now(), setup.again
        self.parts: Deque[Tuple[int, int, bytes]] = deque()   # at which view, to whom, what
        self.payloads: Dict[bytes, float] = {}                # and from when on to propose it
        self.refused: List[str] = []

    # ---- the member

    def start(self) -> None:
        """Starts the member on its file, and wishes for what it may have missed."""
        self.member = self.new_member(self.setup.program, self.number, self.setup.words)
        for line in self.setup.header:
            self.member.ask(line.encode())
        for data in self.file.pieces():
            self.member.ask(b"disk " + hexed(data))
        self.do([Turn(Line(b"start"), answer_of(self.member.ask(b"start")))])
        self.add(Line(b"hint %d" % (self.blocks.top() + 1)))
        self.outside.after(self.setup.again, self.look)

    def add(self, line: Line) -> None:
        """A line that is given to the member soon."""
        self.pending.append(line)
        if not self.is_due:
            self.is_due = True
            self.outside.after(self.setup.gather, self.drain)

    def drain(self) -> None:
        """Gives what is pending: all lines as one group, or each by itself."""
        self.is_due = False
        lines, self.pending = self.acks() + self.pending, []
        if self.setup.group:
            self.take(lines)
        else:
            for line in lines:
                self.take([line])

    def acks(self) -> List[Line]:
        """Acknowledges blocks, once the application has them for good. That hurries nobody, so it
        goes with other lines, and shares their syncs."""
        self.blocks.sync()
        count, self.unacked = self.unacked, 0
        return [Line(b"ack")] * count

    def take(self, lines: List[Line]) -> List[Answer]:
        """Gives lines, and does what the answers say."""
        turns = [turn for turn in map(self.turn, lines) if turn]
        self.do(turns)
        return [turn.answer for turn in turns]

    def do(self, turns: List[Turn]) -> None:
        """Makes the calls of all answers, and only then lets out what they say."""
        self.make(turns)
        for turn in turns:
            self.let_out(turn)

    def turn(self, line: Line) -> Optional[Turn]:
        """A line that is refused changed nothing: it is this host's fault, and told."""
        try:
            return Turn(line, answer_of(self.member.ask(line.text)))
        except Refused as reason:
            self.refused.append("%s: %s" % (line.text[:40].decode("ascii", "replace"), reason))
            return None

    def make(self, turns: List[Turn]) -> None:
        """What is said to all with votes first, then the member's calls."""
        for turn in turns:
            for send in turn.answer.sends:
                if send.vote and send.to is None and turn.line.text != b"start":
                    self.said.add(turn.answer.calls[2].place, self.packet(send))
        self.said.sync()
        if len(turns) == 1:
            self.file.make(turns[0].answer.calls)
        else:
            self.file.make(grouped([turn.answer.calls for turn in turns]))

    def let_out(self, turn: Turn) -> None:
        for send in turn.answer.sends:
            if turn.line.peer in (None, send.to) or send.to is None:
                self.send(send)
        for handed in turn.answer.handed:
            self.hand(handed)
        if turn.answer.place:
            self.enter(turn.answer.place)

    def hand(self, handed: Handed) -> None:
        self.unacked += 1
        self.outside.after(LATEST_ACK, self.hurry)
        if self.blocks.take(handed):
            self.moved, self.failures = self.outside.now(), 0
            self.patience = self.setup.again
            self.said.hand()
            for part in parts_of(handed.payload):
                self.payloads.pop(part, None)

    def hurry(self) -> None:
        if self.unacked and not self.is_due:
            self.drain()

    # ---- views

    def enter(self, place: Place) -> None:
        """The member stands in another view: its timer is set, and a leader proposes."""
        self.place, self.moved = place, self.outside.now()
        self.said.entered += 1
        while self.parts and self.parts[0][0] <= self.said.entered - VIEWS:
            self.parts.popleft()
        self.outside.after(self.timeout(), self.time_out, place)
        if place.leader == self.number:
            self.outside.after(0, self.propose, place)
            self.outside.after(self.setup.idle, self.propose, place, True)

    def timeout(self) -> float:
        return min(self.setup.timeout * 2 ** self.failures, self.setup.longest)

    def time_out(self, place: Place) -> None:
        if place == self.place:
            self.failures = min(self.failures + 1, 16)
            self.add(Line(b"timeout %d" % place.view))
            self.outside.after(self.timeout(), self.time_out, place)

    def propose(self, place: Place, idle: bool = False) -> None:
        """Proposes what waits, or after a while nothing; again where the parent isn't there yet."""
        if place != self.place or place == self.proposed:
            return
        parts = self.waiting()
        payload = self.payload(parts)
        if not payload and not idle:
            return
        answers = self.take([Line(b"propose " + hexed(payload))])
        if not any(answer.sends for answer in answers):
            self.outside.after(0.05, self.propose, place, idle)
            return
        self.proposed = place
        for part in parts:
            self.payloads[part] = self.outside.now() + RETRY

    def waiting(self) -> List[bytes]:
        """What waits, as much as goes into one block."""
        parts, room = [], BATCH
        for part, due in self.payloads.items():
            room -= len(part) + 4 if due <= self.outside.now() else 0
            if room < 0:
                break
            if due <= self.outside.now():
                parts.append(part)
        return parts

    def payload(self, parts: List[bytes]) -> bytes:
        size = self.setup.payload
        return joined(parts) if size is None else self.random.randbytes(size)

    def client(self, payload: bytes) -> None:
        """A payload of a client, to be proposed when this member leads."""
        if len(payload) <= BATCH - 4 and len(self.payloads) < MOST_PAYLOADS:
            self.payloads.setdefault(payload, 0.0)
            if self.place.leader == self.number:
                self.propose(self.place)

    # ---- messages

    def packet(self, send: Send) -> packets.Packet:
        """A message with the signatures that stand for it."""
        signed = self.signatures.of(send.vote, send.signers) if send.vote else []
        return packets.Packet(send.message, send.vote, signed)

    def send(self, send: Send) -> None:
        """Sends a message, to this member too."""
        packet = self.packet(send)
        body = packet.write()
        for to in range(self.setup.members) if send.to is None else [send.to]:
            if to == self.number:
                self.deliver(to, packet)
            else:
                self.outside.transmit(to, body)
                if not send.vote:
                    self.parts.append((self.said.entered, to, body))

    def came(self, peer: int, body: bytes) -> None:
        """A packet came: what isn't rightly signed isn't vouched for."""
        packet = packets.read(body)
        if packet is not None:
            right = [(member, signature) for member, signature in packet.signed
                     if self.signatures.is_right(packet.vote, member, signature)]
            self.deliver(peer, packet._replace(signed=right))

    def deliver(self, peer: int, packet: packets.Packet) -> None:
        fields = [b"deliver", hexed(packet.message)]
        if packet.vote:
            fields += [hexed(packet.vote)] + [b"%d" % member for member, _ in packet.signed]
        self.add(Line(b" ".join(fields), peer))

    def look(self) -> None:
        """Where nothing moves, what was said is said again, and the next height is asked for:
        somebody may have it. The longer nothing moves, the more seldom."""
        if self.outside.now() - self.moved >= self.patience:
            self.patience = min(2 * self.patience, self.setup.longest)
            self.say_again()
            self.add(Line(b"hint %d" % (self.blocks.top() + 1)))
        self.outside.after(self.patience * (0.5 + self.random.random()), self.look)

    def say_again(self) -> None:
        bodies = [packet.write() for packet in self.said.packets()]
        for to in range(self.setup.members):
            if to != self.number:
                for body in bodies:
                    self.outside.transmit(to, body)
        for _, to, body in list(self.parts):
            self.outside.transmit(to, body)
