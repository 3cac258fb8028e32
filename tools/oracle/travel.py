"""How blocks travel: the two ways side by side, as docs/RULES.md has them, the second under "Blocks
that travel whole". All that the rules ask of a way stands here; all else is the same for both."""
import coding
from formats import Chunk, Commitment, Reader, Shard, Whole, whole
from member import ALL


class Chunked:
    """A block travels cut in chunks, one for each member, any k of which give it back."""

    has_epochs = True

    def __init__(self, world):
        # What was cut, and what chunks showed, is kept: both take long.
        self.world, self.cuts, self.shows = world, {}, {}

    def config(self, total):
        """The numbers in the commitment of a block among so many members."""
        k = (total - 1) // 3 + 1
        return k, total - k

    def commit(self, block):
        return self.cut(block)[0]

    def cut(self, block):
        """A block's commitment, and its chunks."""
        if block not in self.cuts:
            text, (k, m) = block.write(), self.world.config(block.context.epoch)
            rows = coding.codeword(text, k, m)
            levels = coding.levels_over(self.world.digest_of, rows)
            root = coding.root_of(self.world.digest_of, levels)
            self.cuts[block] = named(self.world.digest_of, block, root, k, m), [
                Chunk(row, place, k + m, coding.proof_at(levels, place))
                for place, row in enumerate(rows)
            ]
        return self.cuts[block]

    def sends(self, block, epoch, own):
        """Each chunk goes to the member at its place, that of the sender's place to all instead."""
        commitment, chunks = self.cut(block)
        return [
            (ALL if member == own else member, Shard(commitment, chunk))
            for member, chunk in zip(self.world.members(epoch), chunks)
        ]

    def takes(self, shard):
        """Whether the chunk stands under its commitment."""
        commitment, chunk = shard.commitment, shard.chunk
        total = commitment.k + commitment.m
        if (commitment.k, commitment.m) not in self.world.configs or chunk.index >= total:
            return False
        if not chunk.shard or len(chunk.shard) % 2 or chunk.count != total:
            return False
        path = (chunk.shard, chunk.index, chunk.count, chunk.siblings)
        return coding.leads_to(self.world.digest_of, *path, commitment.root)

    def shown(self, member, commitment):
        """The block that came whole, else the one that the first k chunks show."""
        block = member.came_whole(commitment)
        chunks = member.chunks_of(commitment)[:commitment.k]
        if block or len(chunks) < commitment.k:
            return block
        asked = commitment, tuple(chunks)
        if asked not in self.shows:
            self.shows[asked] = self.shown_in(*asked)
        return self.shows[asked]

    def shown_in(self, commitment, chunks):
        """The block of whose codeword these are rows, where it has the commitment."""
        rows = {chunk.index: chunk.shard for chunk in chunks}
        if len({len(row) for row in rows.values()}) > 1:
            return None
        laid = b"".join(coding.row_at(place, rows) for place in range(commitment.k))
        text = laid[4:4 + int.from_bytes(laid[:4], "big")]
        block = whole(text, Reader.block)
        if block is None or self.commit(block) != commitment:
            return None
        wanted = coding.codeword(text, commitment.k, commitment.m)
        return block if all(wanted[place] == row for place, row in rows.items()) else None

    def has_part(self, member, proposal):
        """Whether the member's own chunk of a payload came, which its vote to notarize asks for."""
        place = self.world.place(proposal.epoch, member.number)
        return any(chunk.index == place for chunk in member.chunks_of(proposal.payload))


class Uncut:
    """A block travels whole, in one message."""

    has_epochs = False

    def __init__(self, world):
        self.world = world

    def config(self, total):
        return 1, 1

    def commit(self, block):
        digest = self.world.digest_of(block.write())
        return named(self.world.digest_of, block, digest, 1, 1)

    def sends(self, block, epoch, own):
        """The block goes to all."""
        return [(ALL, Whole(block))]

    def takes(self, shard):
        """No chunk changes anything."""
        return False

    def shown(self, member, commitment):
        """The block that came whole; another than genesis may have its commitment, and isn't."""
        first = commitment == self.world.first_commitment
        return None if first else member.came_whole(commitment)

    def has_part(self, member, proposal):
        """Whether a payload is shown or held, which the member's vote to notarize asks for."""
        payload = proposal.payload
        return bool(self.shown(member, payload) or member.held(payload))


def named(digest_of, block, root, k, m):
    """What names a block by its root and numbers."""
    context = digest_of(block.context.write())
    return Commitment(digest_of(block.write()), root, context, k, m)
