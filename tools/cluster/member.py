"""A member's process: a line goes in, an answer comes out."""
import shlex
import subprocess
from binascii import hexlify, unhexlify
from dataclasses import dataclass, field
from typing import List, NamedTuple, Optional, Sequence, Tuple, Union

ROOM = 1 << 20


class Refused(Exception):
    """A line that the member refused, with the reason. It changed nothing."""


class Gone(Exception):
    """The process has ended."""


class Write(NamedTuple):
    place: int
    data: bytes


class Sync(NamedTuple):
    """All that was written stays, whatever crashes."""


Call = Union[Write, Sync]


class Send(NamedTuple):
    """A message, the vote that it is of, and who signed that vote."""

    to: Optional[int]  # None is all, the sender too
    message: bytes
    vote: bytes
    signers: Tuple[int, ...]


class Handed(NamedTuple):
    height: int
    digest: bytes
    payload: bytes


class Place(NamedTuple):
    epoch: int
    view: int
    leader: int


@dataclass
class Answer:
    """What a member wants done, in this order."""

    calls: List[Call] = field(default_factory=list)
    sends: List[Send] = field(default_factory=list)
    handed: List[Handed] = field(default_factory=list)
    place: Optional[Place] = None


def hexed(data: bytes) -> bytes:
    return hexlify(data) or b"-"


def unhexed(text: bytes) -> bytes:
    return b"" if text == b"-" else unhexlify(text)


def send_of(fields: List[bytes]) -> Send:
    to = None if fields[0] == b"all" else int(fields[0])
    vote = unhexed(fields[2]) if len(fields) > 2 else b""
    return Send(to, unhexed(fields[1]), vote, tuple(map(int, fields[3:])))


def answer_of(rows: Sequence[bytes]) -> Answer:
    """The lines of an answer, read; those that answer a question or a watch are passed over."""
    answer = Answer()
    for row in rows:
        word, *fields = row.split(b" ")
        if word == b"write":
            answer.calls.append(Write(int(fields[0]), unhexed(fields[1])))
        elif word == b"sync":
            answer.calls.append(Sync())
        elif word == b"send":
            answer.sends.append(send_of(fields))
        elif word == b"hand":
            answer.handed.append(Handed(int(fields[0]), unhexed(fields[1]), unhexed(fields[3])))
        elif word == b"view":
            answer.place = Place(*map(int, fields))
    return answer


class Member:
    """A process of hail_member, or of a program that speaks as it does."""

    def __init__(self, program: str, number: int, words: Sequence[str] = ()):
        command = shlex.split(program) + [str(number), *words]
        self.process = subprocess.Popen(command, stdin=subprocess.PIPE, stdout=subprocess.PIPE,
                                        bufsize=ROOM, pipesize=ROOM)
        self.lines = self.bytes_in = self.bytes_out = 0

    def ask(self, line: bytes) -> List[bytes]:
        """Gives a line, and answers the lines of the answer, but for `ok`."""
        try:
            self.process.stdin.write(line + b"\n")
            self.process.stdin.flush()
        except BrokenPipeError:
            raise Gone() from None
        self.lines += 1
        self.bytes_in += len(line) + 1
        return self.answer()

    def answer(self) -> List[bytes]:
        rows: List[bytes] = []
        while True:
            row = self.process.stdout.readline()
            self.bytes_out += len(row)
            if not row.endswith(b"\n"):
                raise Gone()
            if row == b"ok\n":
                return rows
            if row.startswith(b"no "):
                raise Refused(row[3:-1].decode())
            rows.append(row[:-1])

    def end(self) -> None:
        """Ends the process at once."""
        self.process.kill()
        self.process.wait()
        self.process.stdin.close()
        self.process.stdout.close()
