"""The application of a host. It keeps each block that is handed out, once, by its height; and takes
a block's payload as a list of what clients gave."""
import hashlib
import struct
from typing import Dict, Iterable, List, NamedTuple, Tuple

from files import File, Rows
from member import Handed


def joined(parts: Iterable[bytes]) -> bytes:
    """A payload of these parts: each behind its length in four bytes."""
    return b"".join(struct.pack(">I", len(part)) + part for part in parts)


def parts_of(payload: bytes) -> List[bytes]:
    """The parts of a payload. One that is no such list has none: members vote for any bytes, so
    each application passes over, as all others do, what makes no sense to it."""
    parts, place = [], 0
    while place < len(payload):
        end = place + 4 + int.from_bytes(payload[place:place + 4], "big")
        if end > len(payload) or place + 4 > len(payload):
            return []
        parts.append(payload[place + 4:end])
        place = end
    return parts


def named(part: bytes) -> str:
    """What is kept of a part: a real application would apply it, where it hasn't before."""
    return hashlib.sha256(part).hexdigest()[:16]


class Block(NamedTuple):
    height: int
    digest: str
    names: Tuple[str, ...]

    def row(self) -> bytes:
        return " ".join([str(self.height), self.digest, *self.names]).encode()


def read(row: bytes) -> Block:
    """The block that a line of the file is."""
    height, digest, *names = row.decode().split(" ")
    return Block(int(height), digest, tuple(names))


class Blocks:
    """The blocks that were kept, and what was wrong with any that were handed out."""

    def __init__(self, file: File):
        self.rows = Rows(file)
        self.kept: Dict[int, Block] = {block.height: block for block in map(read, self.rows.kept)}
        self.faults: List[str] = []

    def top(self) -> int:
        return max(self.kept, default=-1)

    def take(self, handed: Handed) -> bool:
        """Whether a block is new. After a start some that were kept are handed out again."""
        names = tuple(map(named, parts_of(handed.payload)))
        block = Block(handed.height, handed.digest.hex(), names)
        if block.height in self.kept:
            if self.kept[block.height] != block:
                self.faults.append("FORK at height %d" % block.height)
            return False
        if block.height != self.top() + 1:
            self.faults.append("GAP below height %d" % block.height)
        self.kept[block.height] = block
        self.rows.add(block.row())
        return True

    def sync(self) -> None:
        self.rows.sync()
