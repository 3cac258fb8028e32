"""What a member said to all: its votes and its certificates, with their signatures, on file.

A member that starts says again what its last step said, and no more. So where all lost their
memory, votes of earlier steps might come to nobody any more, and the cluster would stand still.

A row is on file before the step is on the member's log, so that the log never has what can't be
shown. So behind a crash the last rows may be of steps that the member knows nothing of, and saying
those would make it contradict itself. They are cut off at the start, by the log."""
from collections import deque
from itertools import takewhile
from typing import Deque, List, NamedTuple

from files import File, Rows
from member import hexed, unhexed
from packets import Packet
from signatures import Signatures

HAND = b"hand"
VIEWS = 4       # views that were entered before the last block was handed out
MOST = 20_000   # of what is said again


class Entry(NamedTuple):
    """A packet, and how many views had been entered."""

    entered: int
    packet: Packet


class Said:
    """All is kept for its signatures, since others may ask for a certificate at any time; what may
    have to be said again is what was said since a while before the last block."""

    def __init__(self, file: File, signatures: Signatures, gate: int):
        self.signatures, self.entered = signatures, 0
        self.again: Deque[Entry] = deque(maxlen=MOST)
        self.rows = Rows(file)
        noted = list(takewhile(lambda row: int(row.split(b" ", 1)[0]) < gate, self.rows.kept))
        if len(noted) < len(self.rows.kept):
            self.rows.cut(len(noted))
        for row in noted:
            self.load(row)

    def load(self, row: bytes) -> None:
        _, entered, what, *fields = row.split(b" ")
        self.entered = int(entered)
        if what == HAND:
            self.forget()
            return
        members, texts = fields[1::2], fields[2::2]
        signed = [(int(member), unhexed(text)) for member, text in zip(members, texts)]
        self.remember(Packet(unhexed(what), unhexed(fields[0]), signed))

    def remember(self, packet: Packet) -> None:
        self.again.append(Entry(self.entered, packet))
        self.signatures.keep(packet.vote, packet.signed)

    def add(self, gate: int, packet: Packet) -> None:
        """What a step says whose frame is behind this gate, before its calls are made."""
        fields = [b"%d %d" % (gate, self.entered), hexed(packet.message), hexed(packet.vote)]
        for member, signature in packet.signed:
            fields += [b"%d" % member, hexed(signature)]
        self.rows.add(b" ".join(fields))
        self.remember(packet)

    def hand(self) -> None:
        """A block was handed out, so what was said long before is known to enough."""
        self.rows.add(b"0 %d %s" % (self.entered, HAND), False)
        self.forget()

    def forget(self) -> None:
        while self.again and self.again[0].entered <= self.entered - VIEWS:
            self.again.popleft()

    def packets(self) -> List[Packet]:
        return [entry.packet for entry in self.again]

    def sync(self) -> None:
        self.rows.sync()
