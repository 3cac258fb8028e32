"""What hosts send each other: a message, the vote that it is of, and signatures of that vote."""
import struct
from typing import NamedTuple, Optional

from signatures import SIZE, Signed

LONGEST = 1_200_000  # more than a block, and less than a line can hold
MOST_SIGNERS = 1_000


class Packet(NamedTuple):
    message: bytes
    vote: bytes
    signed: Signed

    def write(self) -> bytes:
        """4 of the message's length and the message, 2 of the vote's length and the vote, 2 of how
        many signed, and 2 and 64 for each."""
        parts = [struct.pack(">I", len(self.message)), self.message,
                 struct.pack(">H", len(self.vote)), self.vote, struct.pack(">H", len(self.signed))]
        parts += [struct.pack(">H", member) + signature for member, signature in self.signed]
        return b"".join(parts)


def read(body: bytes) -> Optional[Packet]:
    """The packet that bytes are, None where they are none: they come from anybody."""
    try:
        size, = struct.unpack_from(">I", body)
        message, place = body[4:4 + size], 4 + size
        length, = struct.unpack_from(">H", body, place)
        vote, place = body[place + 2:place + 2 + length], place + 2 + length
        count, = struct.unpack_from(">H", body, place)
        place += 2
    except struct.error:
        return None
    if count > MOST_SIGNERS or len(body) != place + (2 + SIZE) * count:
        return None
    rows = (body[at:at + 2 + SIZE] for at in range(place, len(body), 2 + SIZE))
    return Packet(message, vote, [(int.from_bytes(row[:2], "big"), row[2:]) for row in rows])
