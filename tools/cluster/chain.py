"""Whether what hosts kept is one chain."""
import json
import os
from typing import Any, Dict, Iterable, List, NamedTuple

from blocks import Block, named, read
from files import whole_rows
from setup import Setup


class Kept(NamedTuple):
    """What one host kept, in its order, and its figures."""

    member: int
    blocks: List[Block]
    figures: Dict[str, Any]


def figures_of(setup: Setup, member: int) -> Dict[str, Any]:
    try:
        with open(os.path.join(setup.home(member), "figures.json"), encoding="ascii") as file:
            return json.load(file)
    except (OSError, ValueError):
        return {}


def kept_by(setup: Setup, member: int) -> Kept:
    """What lies in a host's folder. A line that is cut isn't kept yet."""
    try:
        with open(os.path.join(setup.home(member), "blocks"), "rb") as file:
            rows, _ = whole_rows(file.read())
    except OSError:
        rows = []
    return Kept(member, list(map(read, rows)), figures_of(setup, member))


def faults(kept: Iterable[Kept]) -> List[str]:
    """What contradicts one chain: two digests at a height, a height left out or kept twice, and
    what the hosts themselves found wrong."""
    found: List[str] = []
    chain: Dict[int, Block] = {}
    for one in kept:
        for at, block in enumerate(one.blocks):
            if block.height != at:
                found.append("member %d kept height %d as its block %d" % (
                    one.member, block.height, at))
            if chain.setdefault(block.height, block) != block:
                found.append("member %d kept another block at %d" % (one.member, block.height))
        for fault in one.figures.get("faults", []):
            found.append("member %d: %s" % (one.member, fault))
    return found


def missing(kept: Iterable[Kept], payloads: Iterable[bytes]) -> List[bytes]:
    """The payloads that nobody kept."""
    names = {name for one in kept for block in one.blocks for name in block.names}
    return [payload for payload in payloads if named(payload) not in names]


def repeated(kept: Kept) -> int:
    """How many payloads stand in the chain more than once."""
    names = [name for block in kept.blocks for name in block.names]
    return len(names) - len(set(names))
