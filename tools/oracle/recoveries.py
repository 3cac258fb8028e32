#!/usr/bin/env python3
"""Recoveries, from the definition of a codeword alone: the table of
crates/code_tests/src/code/many.rt, and random shapes against a library for C.
usage: recoveries.py K M WIDTH ..     prints the rows of the table for these sizes
       recoveries.py --library FILE [COUNT [SEED]]
                                      so many random shapes, 1,000 without word: what the shared
                                      library of crates/coding_c gives of the same shards and texts;
                                      ends with 1 at the first that differs"""
import ctypes
import hashlib
import random
import sys

from coding import LOG, POWER, be, levels_over, proof_at, root_of, sha256, width as width_of
from formats import Chunk


def originals(count):
    """So many bytes, as the tests have them."""
    byte, found = 1, bytearray()
    for _ in range(count):
        found.append(byte)
        byte = (byte * 5 + 3) % 256
    return bytes(found)


def weights(k):
    """The logarithm of 1 over the product of each place's differences to the others."""
    return [-sum(LOG[one ^ other] for other in range(k) if other != one) for one in range(k)]


def recoveries(k, m, rows, width):
    """The rows at the places from k on of the codeword of k rows, end to end."""
    weight = weights(k)
    columns = range(0, width, 2)
    logs = [[LOG.get(rows[s * width + at] << 8 | rows[s * width + at + 1]) for at in columns]
            for s in range(k)]
    found = bytearray()
    for place in range(k, k + m):
        distance = sum(LOG[place ^ s] for s in range(k))
        sums = [0] * len(columns)
        for s in range(k):
            factor = (distance + weight[s] - LOG[place ^ s]) % 65535
            sums = [old if log is None else old ^ POWER[(log + factor) % 65535]
                    for old, log in zip(sums, logs[s])]
        for symbol in sums:
            found += be(symbol, 2)
    return bytes(found)


def main(sizes):
    for k, m, width in zip(sizes[::3], sizes[1::3], sizes[2::3]):
        found = recoveries(k, m, originals(k * width), width)
        print("== %d %d %d\n%s" % (k, m, width, hashlib.sha256(found).hexdigest()))


class Buffer(ctypes.Structure):
    """A pointer and a length: buz_bytes, and buz_room."""
    _fields_ = [("bytes", ctypes.c_void_p), ("length", ctypes.c_size_t)]


def buffers_of(rows):
    """An array of buffers that hold these rows, and what keeps them alive."""
    held = [ctypes.create_string_buffer(row, len(row)) for row in rows]
    array = (Buffer * len(held))(*[Buffer(ctypes.addressof(it), len(it)) for it in held])
    return array, held


class Library:
    """The calls of coding.h that take shards and texts."""

    def __init__(self, file):
        self.calls = ctypes.CDLL(file)
        self.calls.buz_chunk_len.restype = ctypes.c_size_t

    def recoveries(self, k, m, rows):
        shards, _held = buffers_of(rows)
        found, held = buffers_of([b"\xee" * len(rows[0])] * m)
        self.refuse(self.calls.buz_encode_shards(k, m, shards, ctypes.c_size_t(k), found,
                                                 ctypes.c_size_t(m)))
        return [it.raw for it in held]

    def rebuilt(self, k, m, indices, rows, targets):
        shards, _held = buffers_of(rows)
        found, held = buffers_of([b"\xee" * len(rows[0])] * len(targets))
        self.refuse(self.calls.buz_rebuild_shards(
            k, m, (ctypes.c_uint16 * k)(*indices), ctypes.c_size_t(k), shards, ctypes.c_size_t(k),
            (ctypes.c_uint16 * len(targets))(*targets), ctypes.c_size_t(len(targets)), found,
            ctypes.c_size_t(len(targets))))
        return [it.raw for it in held]

    def chunks(self, k, m, text):
        room = (k + m) * self.calls.buz_chunk_len(k, m, ctypes.c_size_t(len(text)))
        bytes_, root = ctypes.create_string_buffer(room), ctypes.create_string_buffer(32)
        used, sizes = ctypes.c_size_t(), (ctypes.c_size_t * (k + m))()
        self.refuse(self.calls.buz_encode(
            k, m, text, ctypes.c_size_t(len(text)), bytes_, ctypes.c_size_t(room),
            ctypes.byref(used), sizes, ctypes.c_size_t(k + m), root))
        found, at = [], 0
        for size in sizes:
            found.append(bytes_.raw[at:at + size])
            at += size
        return root.raw, found

    def text(self, k, m, root, chunks):
        array, _held = buffers_of(chunks)
        room = sum(map(len, chunks))
        found, size = ctypes.create_string_buffer(room), ctypes.c_size_t()
        self.refuse(self.calls.buz_decode(k, m, root, array, ctypes.c_size_t(len(chunks)), found,
                                          ctypes.c_size_t(room), ctypes.byref(size)))
        return found.raw[:size.value]

    def refuse(self, status):
        if status:
            words = ctypes.create_string_buffer(64)
            self.calls.buz_status_text(status, words, ctypes.c_size_t(64))
            raise SystemExit("recoveries.py: the library answers %d, %s" % (status, words.value))


def try_shape(library, k, m, length, some):
    """A text's chunks, recoveries and rebuilt shards by the library, and by the definition."""
    text = some.randbytes(length)
    wide = width_of(length, k)
    laid = (be(length, 4) + text).ljust(k * wide, b"\0")
    rows = laid + recoveries(k, m, laid, wide)
    rows = [rows[at:at + wide] for at in range(0, len(rows), wide)]
    levels = levels_over(sha256, rows)
    wanted = [Chunk(row, place, k + m, proof_at(levels, place)).write()
              for place, row in enumerate(rows)]
    root, chunks = library.chunks(k, m, text)
    if root != root_of(sha256, levels) or chunks != wanted:
        return "another encoding"
    if library.recoveries(k, m, rows[:k]) != rows[k:]:
        return "other recoveries"
    given = some.sample(range(k + m), k)
    targets = some.choices(range(k + m), k=some.randrange(1, 2 * m + 2))
    if library.rebuilt(k, m, given, [rows[it] for it in given], targets) != [
            rows[it] for it in targets]:
        return "other shards rebuilt"
    given = some.sample(range(k + m), some.randrange(k, k + m + 1))
    if library.text(k, m, root, [chunks[it] for it in given]) != text:
        return "another text"
    return None


def try_library(file, count=1000, seed=1):
    """Random shapes, one in ten of them large enough for the transform."""
    library, some = Library(file), random.Random(seed)
    for shape in range(count):
        large = shape % 10 == 0
        low, high = (60, 140) if large else (1, 40)
        k, m = some.randrange(low, high), some.randrange(low, high)
        length = some.choice([0, 1, some.randrange(4 * k), some.randrange(20 * k)])
        found = try_shape(library, k, m, length, some)
        if found:
            raise SystemExit("recoveries.py: k %d, m %d, %d bytes, seed %d: %s"
                             % (k, m, length, seed, found))
    print("recoveries.py: %d random shapes agree, seed %d" % (count, seed))


if __name__ == "__main__":
    if sys.argv[1:2] == ["--library"]:
        try_library(sys.argv[2], *map(int, sys.argv[3:5]))
    else:
        main([int(size) for size in sys.argv[1:]])
