"""What all hosts of a cluster are told."""
import json
import os
import shlex
import sys
from dataclasses import asdict, dataclass, field
from typing import List, Optional

TOP = os.path.dirname(os.path.dirname(os.path.dirname(os.path.abspath(__file__))))
MODEL = os.path.join(TOP, "tools", "oracle", "process.py")
BUILT = os.path.join(TOP, "crates", "hail_member", "out", "hail_member")
LOOPBACK = "127.0.0.1"
MOST_MEMBERS = 16


def program() -> str:
    """The command of a member's program."""
    if not is_given():
        raise SystemExit("no program of a member: `rt run` in crates/hail_member builds it")
    return os.environ.get("HAIL_MEMBER") or shlex.quote(BUILT)


def is_given() -> bool:
    return bool(os.environ.get("HAIL_MEMBER")) or os.path.exists(BUILT)


def model() -> str:
    """The model of a member in Python, which is slow."""
    return shlex.join([sys.executable, "-B", MODEL])


@dataclass
class Setup:
    """Seconds are of the hosts' own clocks; chances are for each packet that a host sends."""

    program: str
    folder: str
    name: str                       # of the cluster: signatures hold for it alone
    header: List[str]               # the lines of a script's header
    members: int = 4
    words: List[str] = field(default_factory=list)  # behind the member's number: `whole` or none
    ports: List[int] = field(default_factory=list)
    fsync: bool = True
    group: bool = True              # several answers share their syncs
    gather: float = 0.0             # how long lines are gathered for a group
    timeout: float = 1.0            # of a view; doubled with each that ends so
    longest: float = 8.0            # but never longer
    idle: float = 0.5               # how long a leader waits for a payload
    again: float = 1.0              # how long nothing moves before messages are sent again
    payload: Optional[int] = None   # each leader makes payloads of so many bytes
    loss: float = 0.0
    repeat: float = 0.0
    delay: float = 0.0              # up to so many seconds

    def write(self) -> str:
        """Writes it into the folder, and answers where."""
        path = os.path.join(self.folder, "setup.json")
        with open(path, "w", encoding="ascii") as file:
            json.dump(asdict(self), file, indent=1)
        return path

    @staticmethod
    def read(path: str) -> "Setup":
        with open(path, encoding="ascii") as file:
            return Setup(**json.load(file))

    def home(self, member: int) -> str:
        """The folder of a member's host."""
        return os.path.join(self.folder, str(member))


def header(members: int, backlog: int, span: int = 0) -> List[str]:
    """One epoch without end; else epochs of so many heights, with another member out in each."""
    if not span:
        return ["cluster %d %d" % (members, backlog)]
    out = [None] * 2 if members == 4 else [0, 1, 2]
    lists = [" ".join(str(one) for one in range(members) if one != left) for left in out]
    first = "epochs %d %d %d %d" % (members, backlog, span, len(lists))
    return [first] + ["members " + one for one in lists]
