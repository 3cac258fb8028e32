"""A host's files: that of the member, and rows that are only added."""
import fcntl
import os
import time
from binascii import crc32
from typing import Iterator, List, Sequence, Tuple

from member import Call, Sync, Write

PIECE = 1 << 20


class Held(Exception):
    """Another process holds the file."""


def opened(path: str) -> int:
    """A file that this process alone holds; a new one stands in its folder for good."""
    handle = os.open(path, os.O_RDWR | os.O_CREAT, 0o644)
    try:
        fcntl.flock(handle, fcntl.LOCK_EX | fcntl.LOCK_NB)
    except BlockingIOError:
        os.close(handle)
        raise Held(path) from None
    folder = os.open(os.path.dirname(path), os.O_RDONLY)
    os.fsync(folder)
    os.close(folder)
    return handle


def put(handle: int, place: int, data: bytes) -> None:
    left = memoryview(data)
    while left:
        done = os.pwrite(handle, left, place)
        place, left = place + done, left[done:]


class File:
    """A file, how often it was synced, and how many seconds that took."""

    def __init__(self, path: str, fsync: bool):
        self.handle, self.fsync = opened(path), fsync
        self.syncs, self.seconds = 0, 0.0

    def size(self) -> int:
        return os.fstat(self.handle).st_size

    def write(self, place: int, data: bytes) -> None:
        put(self.handle, place, data)

    def sync(self) -> None:
        """All that was written stays. An error ends the host: what the file holds isn't known."""
        self.syncs += 1
        if self.fsync:
            start = time.perf_counter()
            os.fdatasync(self.handle)
            self.seconds += time.perf_counter() - start

    def pieces(self) -> Iterator[bytes]:
        place = 0
        while data := os.pread(self.handle, PIECE, place):
            place += len(data)
            yield data

    def make(self, calls: Sequence[Call]) -> None:
        """Makes a member's calls, in their order."""
        for call in calls:
            if isinstance(call, Write):
                self.write(call.place, call.data)
            else:
                self.sync()

    def close(self) -> None:
        os.close(self.handle)


def last_gate(log: File) -> int:
    """The place of the last gate of a member's log: a step is on it where the gate in front of its
    frame lies before. docs/FORMATS.md has the log."""
    place = 0
    while (front := os.pread(log.handle, 9, place))[:1] == b"\1":
        place += 9 + int.from_bytes(front[1:], "big")
    return place


def grouped(answers: Sequence[List[Call]]) -> List[Call]:
    """The calls of several answers with their syncs shared: the first writes of all and a sync, the
    second writes of all and a sync. An answer has two writes or none, but for that of a start."""
    firsts: List[Call] = []
    seconds: List[Call] = []
    for calls in answers:
        if calls:
            first, one, second, other = calls
            writes = isinstance(first, Write) and isinstance(second, Write)
            if not writes or not one == other == Sync():
                raise ValueError("no append: %r" % calls)
            firsts.append(first)
            seconds.append(second)
    return firsts + [Sync()] + seconds + [Sync()] if firsts else []


class Rows:
    """A file of lines that are only added, each with a checksum. A start keeps the front of those
    that are whole."""

    def __init__(self, file: File):
        self.file, self.dirty = file, False
        self.kept, self.place = whole_rows(b"".join(file.pieces()))
        os.ftruncate(file.handle, self.place)

    def add(self, row: bytes, matters: bool = True) -> None:
        """What doesn't matter is synced with what does."""
        line = b"%s %08x\n" % (row, crc32(row))
        self.file.write(self.place, line)
        self.place += len(line)
        self.dirty |= matters

    def cut(self, count: int) -> None:
        """Keeps so many rows for good, and lets go of those behind."""
        self.place -= sum(len(row) + 10 for row in self.kept[count:])
        del self.kept[count:]
        os.ftruncate(self.file.handle, self.place)
        self.file.sync()

    def sync(self) -> None:
        if self.dirty:
            self.file.sync()
            self.dirty = False


def whole_rows(data: bytes) -> Tuple[List[bytes], int]:
    """The whole lines at the front, without their checksums, and where they end."""
    rows: List[bytes] = []
    place = 0
    for line in data.split(b"\n")[:-1]:
        row, _, digits = line.rpartition(b" ")
        if digits != b"%08x" % crc32(row):
            break
        rows.append(row)
        place += len(line) + 1
    return rows, place
