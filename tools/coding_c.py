"""The coding calls from Python by ctypes, over the shared library that tools/coding_c installs.
usage: coding_c.py FILE"""
import ctypes as c
import os
import sys

lib = c.CDLL(sys.argv[1])


class Bytes(c.Structure):
    _fields_ = [("bytes", c.POINTER(c.c_uint8)), ("length", c.c_size_t)]


lib.buz_chunk_len.argtypes = [c.c_uint16, c.c_uint16, c.c_size_t]
lib.buz_chunk_len.restype = c.c_size_t
lib.buz_encode.argtypes = [c.c_uint16, c.c_uint16, c.c_char_p, c.c_size_t, c.c_char_p, c.c_size_t,
                           c.POINTER(c.c_size_t), c.POINTER(c.c_size_t), c.c_size_t, c.c_char_p]
lib.buz_encode.restype = c.c_uint32
lib.buz_check.argtypes = [c.c_uint16, c.c_uint16, c.c_char_p, c.c_uint16, c.c_char_p, c.c_size_t]
lib.buz_check.restype = c.c_uint32
lib.buz_decode.argtypes = [c.c_uint16, c.c_uint16, c.c_char_p, c.POINTER(Bytes), c.c_size_t,
                           c.c_char_p, c.c_size_t, c.POINTER(c.c_size_t)]
lib.buz_decode.restype = c.c_uint32


lib.buz_chunk_index.argtypes = [c.c_char_p, c.c_size_t, c.POINTER(c.c_uint16)]
lib.buz_status_text.argtypes = [c.c_uint32, c.c_char_p, c.c_size_t]
lib.buz_status_text.restype = c.c_size_t


class Refused(Exception):
    """A status that isn't 0, with its words."""


def refuse(status):
    if status:
        words = c.create_string_buffer(lib.buz_status_text(status, None, 0))
        lib.buz_status_text(status, words, len(words))
        raise Refused(status, words.value.decode())


def encode(k, m, text):
    n = k + m
    room = n * lib.buz_chunk_len(k, m, len(text))
    chunks, sizes = c.create_string_buffer(room), (c.c_size_t * n)()
    root = c.create_string_buffer(32)
    used = c.c_size_t()
    refuse(lib.buz_encode(k, m, text, len(text), chunks, room, c.byref(used), sizes, n, root))
    assert used.value == sum(sizes)
    out, at = [], 0
    for size in sizes:
        out.append(chunks.raw[at:at + size])
        at += size
    return root.raw, out


def decode(k, m, root, chunks):
    kept = [c.create_string_buffer(chunk, len(chunk)) for chunk in chunks]
    spans = (Bytes * len(kept))(*[Bytes(c.cast(b, c.POINTER(c.c_uint8)), len(b)) for b in kept])
    room = k * max(map(len, chunks))
    text, size = c.create_string_buffer(room), c.c_size_t()
    refuse(lib.buz_decode(k, m, root, spans, len(kept), text, room, c.byref(size)))
    return text.raw[:size.value]


text = os.urandom(100_000)
root, chunks = encode(10, 20, text)
assert decode(10, 20, root, chunks[17:27]) == text
assert lib.buz_check(10, 20, root, 3, chunks[3], len(chunks[3])) == 0
forged = chunks[3][:50] + bytes([chunks[3][50] ^ 1]) + chunks[3][51:]
assert lib.buz_check(10, 20, root, 3, forged, len(forged)) == 9
try:
    decode(10, 20, root, chunks[:9])
    raise SystemExit("too few were decoded")
except Refused as error:
    assert error.args == (10, "not enough chunks")
index = c.c_uint16()
assert lib.buz_chunk_index(chunks[29], len(chunks[29]), c.byref(index)) == 0 and index.value == 29
root = c.create_string_buffer(32)  # of no text, which may be a null pointer
assert lib.buz_root(2, 3, None, c.c_size_t(0), root) == 0 and root.raw == encode(2, 3, b"")[0]
print("python: ok")
