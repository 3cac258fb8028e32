"""The grammar of scripts, and the scripts of storms, as docs/FORMATS.md has them."""
from typing import Any, NamedTuple, Optional, Tuple

from formats import END, LONGEST_PAYLOAD

LONGEST = 16_777_216


class Refused(Exception):
    """A script that isn't run, with the line that says why."""


class Line(NamedTuple):
    number: int
    event: str
    member: int
    value: Any
    stop: Optional[Tuple[int, int, int]]


class Script(NamedTuple):
    total: int
    backlog: int
    span: Optional[int]
    lists: list
    faulty: set
    lines: list


def number(field):
    if not field or field.strip(b"0123456789"):
        raise ValueError()
    value = int(field)
    if value >= END:
        raise ValueError()
    return value


def payload(field):
    if field == b"-":
        return b""
    if not field or len(field) % 2 or field.strip(b"0123456789abcdefABCDEF"):
        raise ValueError()
    return bytes.fromhex(field.decode())


# The fields behind the name of an event: which is the member, and what the other is read as.
EVENTS = {
    b"propose": (0, payload), b"timeout": (0, number), b"deliver": (1, number), b"ack": (0, None),
    b"prune": (0, number), b"floor": (0, number), b"hint": (0, number), b"restart": (0, None),
}
FORGERIES = {
    b"silent": (), b"offer": (number, payload), b"notarize": (number,), b"finalize": (number,),
    b"nullify": (number,), b"raw": (payload,),
}


def forgery(at, fields):
    member, kind, rest = number(fields[1]), fields[2], fields[3:]
    reads = FORGERIES[kind]
    if len(rest) != len(reads):
        raise ValueError()
    values = [read(field) for read, field in zip(reads, rest)]
    return Line(at, "faulty", member, (kind.decode(), *values), None)


def line_of(at, fields):
    if fields[0] == b"faulty":
        return forgery(at, fields)
    if fields[0] == b"cut":
        call, cut, fill = map(number, fields[1:4])
        line = line_of(at, fields[4:])
        if call == 0 or fill > 255 or line.stop or line.event in ("restart", "faulty"):
            raise ValueError()
        return line._replace(stop=(call, cut, fill))
    which, read = EVENTS[fields[0]]
    rest = fields[1:]
    if len(rest) != (1 if read is None else 2):
        raise ValueError()
    member = number(rest[which])
    return Line(at, fields[0].decode(), member, read(rest[1 - which]) if read else True, None)


def rising(fields):
    numbers = [number(field) for field in fields[1:]]
    if fields[0] != b"members" or not numbers or sorted(set(numbers)) != numbers:
        raise ValueError()
    return numbers


def header(fields, has_epochs):
    """The members, the backlog, the heights of an epoch, and how many lists follow."""
    word, numbers = fields[0], [number(field) for field in fields[1:]]
    if (word, len(numbers)) == (b"cluster", 2) and numbers[1] > 0:
        return numbers[0], numbers[1], None, 0
    several = has_epochs and (word, len(numbers)) == (b"epochs", 4)
    if several and min(numbers[1:]) > 0 and numbers[3] <= 64:
        return numbers
    raise ValueError()


def spelled(text, has_epochs):
    """The header, the lists and the lines of a text."""
    rows = text.split(b"\n")
    if rows[-1] == b"":
        rows.pop()
    head, lists, lines, at = None, [], [], 1
    try:
        head = header(rows[0].split(b" ") if rows else [b""], has_epochs)
        for at in range(2, head[3] + 2):
            if at > len(rows):
                raise ValueError()
            lists.append(rising(rows[at - 1].split(b" ")))
        for at in range(head[3] + 2, len(rows) + 1):
            lines.append(line_of(at, rows[at - 1].split(b" ")))
    except (ValueError, KeyError, IndexError):
        raise Refused("error 1 Syntax %d" % at) from None
    return head, lists, lines


def longest(line):
    if line.event == "propose":
        return len(line.value)
    return len(line.value[2]) if line.event == "faulty" and line.value[0] == "offer" else 0


def parse(text, has_epochs=True):
    """The script that a text spells. Where blocks travel whole no header is of several epochs."""
    if len(text) > LONGEST:
        raise Refused("error TooLong")
    (total, backlog, span, _), lists, lines = spelled(text, has_epochs)
    if not 4 <= total <= 65535 or any(len(one) < 4 for one in lists):
        raise Refused("error 2 BadCommittee")
    named = [(at, one[-1]) for at, one in enumerate(lists, 2)]
    for at, member in named + [(line.number, line.member) for line in lines]:
        if member >= total:
            raise Refused("error 3 UnknownMember %d" % at)
    lists = lists or [list(range(total))]
    faulty = {line.member for line in lines if line.event == "faulty"}
    if any(len(faulty & set(one)) > (len(one) - 1) // 3 for one in lists):
        raise Refused("error 4 TooManyFaulty")
    for line in lines:
        if longest(line) > LONGEST_PAYLOAD:
            raise Refused("error 5 OversizeBlock %d" % line.number)
    return Script(total, backlog, span, lists, faulty, lines)


def storm(state):
    """The script of a storm."""
    def word():
        nonlocal state
        state = (state * 6364136223846793005 + 1442695040888963407) % END
        return state >> 33
    lines = ["cluster 4 8"]
    for turn in range(1, 33):
        lines.append("propose %d %08x" % (turn % 4, word()))
        for message in range(24 * (turn - 1), 24 * turn + 24):
            for member in range(4):
                if word() % 8:
                    lines.append("deliver %d %d" % (message, member))
        lines += ["ack %d" % member for member in range(4)]
        if turn % 8 == 0:
            member, call, cut, fill = word() % 4, 1 + word() % 5, word() % 4, word() % 2
            lines += ["cut %d %d %d ack %d" % (call, cut, fill, member), "restart %d" % member]
    return "".join(line + "\n" for line in lines).encode()
