"""Hashes, the field, codewords and trees, as docs/FORMATS.md has them under "Shards and roots"."""
import hashlib


def sha256(text):
    return hashlib.sha256(text).digest()


def byte_sum(text):
    """The test hash: 32 bytes, each the sum of the text modulo 256."""
    return bytes([sum(text) % 256]) * 32


def be(number, size):
    return number.to_bytes(size, "big")


# The field. A step builds the products of all elements of twice the bits; `adjoined` is the element
# that the step before adjoined.

def doubled(below, bits, adjoined):
    def product(a, b):
        (a1, a0), (b1, b0) = divmod(a, 1 << bits), divmod(b, 1 << bits)
        both = below[a1][b1]
        high = below[a1][b0] ^ below[a0][b1] ^ below[both][adjoined]
        return high << bits | below[a0][b0] ^ both
    size = 1 << 2 * bits
    return [[product(a, b) for b in range(size)] for a in range(size)]


TWO = [[0, 0], [0, 1]]
BYTES = doubled(doubled(doubled(TWO, 1, 1), 2, 2), 4, 4)


def slow_product(a, b):
    (a1, a0), (b1, b0) = divmod(a, 256), divmod(b, 256)
    both = BYTES[a1][b1]
    return (BYTES[a1][b0] ^ BYTES[a0][b1] ^ BYTES[both][16]) << 8 | BYTES[a0][b0] ^ both


def powers():
    """The powers of the first element that has 65,535 of them."""
    for base in range(2, 65536):
        found, power = [1], base
        while power != 1 and len(found) < 65535:
            found.append(power)
            power = slow_product(power, base)
        if len(found) == 65535:
            return found


POWER = powers()
LOG = {power: exponent for exponent, power in enumerate(POWER)}


def product(a, b):
    return POWER[(LOG[a] + LOG[b]) % 65535] if a and b else 0


def quotient(a, b):
    return POWER[(LOG[a] - LOG[b]) % 65535] if a else 0


# Codewords.

def width(length, k):
    even = -(-(length + 4) // k)
    return even + even % 2


def symbols(row):
    return [int.from_bytes(row[at:at + 2], "big") for at in range(0, len(row), 2)]


def row_at(place, known):
    """The row at a place of the codeword through these rows by their places, as many as k."""
    factors = []
    for one in known:
        factor = 1
        for other in known:
            if other != one:
                factor = product(factor, quotient(place ^ other, one ^ other))
        factors.append(factor)
    columns = zip(*(symbols(row) for row in known.values()))
    row = bytearray()
    for column in columns:
        value = 0
        for symbol, factor in zip(column, factors):
            value ^= product(symbol, factor)
        row += be(value, 2)
    return bytes(row)


def codeword(text, k, m):
    """The k + m rows of a text."""
    size = width(len(text), k)
    laid = (be(len(text), 4) + text).ljust(k * size, b"\0")
    known = {place: laid[place * size:(place + 1) * size] for place in range(k)}
    return list(known.values()) + [row_at(place, known) for place in range(k, k + m)]


# Trees, of digests, by a hash.

def levels_over(digest_of, rows):
    level = [digest_of(be(place, 4) + digest_of(row)) for place, row in enumerate(rows)]
    levels = [level]
    while len(level) > 1:
        pairs = [level[at:at + 2] for at in range(0, len(level), 2)]
        level = [digest_of(pair[0] + pair[-1]) for pair in pairs]
        levels.append(level)
    return levels


def root_of(digest_of, levels):
    return digest_of(be(len(levels[0]), 4) + levels[-1][0])


def proof_at(levels, place):
    siblings = []
    for level in levels[:-1]:
        if place ^ 1 < len(level):
            siblings.append(level[place ^ 1])
        place //= 2
    return tuple(siblings)


def leads_to(digest_of, row, place, count, siblings, root):
    """Whether a row leads to the root by its siblings."""
    node, size, left = digest_of(be(place, 4) + digest_of(row)), count, list(siblings)
    while size > 1:
        if place ^ 1 >= size:
            other = node
        elif left:
            other = left.pop(0)
        else:
            return False
        node = digest_of(node + other if place % 2 == 0 else other + node)
        place, size = place // 2, (size + 1) // 2
    return not left and digest_of(be(count, 4) + node) == root
