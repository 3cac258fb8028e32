"""Files that lose power, as the model of a disk has it, and hosts that are killed at any moment."""
import os
from random import Random
from typing import Any, List, Tuple

from files import File, put


class Killed(Exception):
    """The host is gone: by a kill, or with the machine's power."""


class Odds:
    """Chances, for each call on a file and each packet that leaves."""

    def __init__(self, random: Random, kill: float = 0.0, power: float = 0.0, lies: bool = False):
        self.random, self.kill, self.power, self.lies = random, kill, power, lies
        self.files: List["TornFile"] = []

    def moment(self) -> None:
        """Maybe the host is gone here. With the power all its files lose what wasn't synced."""
        draw = self.random.random()
        if draw < self.kill:
            raise Killed("kill")
        if draw < self.kill + self.power:
            self.lose_power()

    def lose_power(self) -> None:
        for file in self.files:
            file.tear()
        raise Killed("power")


class TornFile(File):
    """A file that remembers what the last sync left of each range that was written since."""

    def __init__(self, path: str, odds: Odds):
        super().__init__(path, False)
        self.odds = odds
        self.synced, self.ranges = self.size(), []  # type: int, List[Tuple[int, bytes, bytes]]
        odds.files.append(self)

    def write(self, place: int, data: bytes) -> None:
        self.odds.moment()
        self.ranges.append((place, os.pread(self.handle, len(data), place), data))
        super().write(place, data)
        self.odds.moment()

    def sync(self) -> None:
        self.odds.moment()
        super().sync()
        if not self.odds.lies:
            self.synced, self.ranges = self.size(), []
        self.odds.moment()

    def tear(self) -> None:
        """Leaves any bytes in each range, and any length between what the last sync left and what a
        read gives."""
        random, seen = self.odds.random, self.size()
        for place, old, new in self.ranges:
            put(self.handle, place, torn(old.ljust(len(new), b"\0"), new, random))
        os.ftruncate(self.handle, random.randint(min(self.synced, seen), seen))


def torn(old: bytes, new: bytes, random: Random) -> bytes:
    """All new, all old, anything, or a mixture."""
    how = random.randrange(4)
    if how < 3:
        return (new, old, random.randbytes(len(new)))[how]
    noise = random.randbytes(len(new))
    return bytes(random.choice(three) for three in zip(new, old, noise))


def files_of(odds: Odds) -> Any:
    """What a host makes its files by."""
    return lambda path, fsync: TornFile(path, odds)
