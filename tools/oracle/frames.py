"""Notes read from bytes, and the frames of a member's file, as docs/FORMATS.md has them."""
from formats import END, Cert, Proposal, Reader, Refused, unless
from member import Ack, Certified, Entered, Floor, Noted, Prune, Verified


class Foreign(Exception):
    """The file isn't a member's: its frame at this byte is cut, or holds no notes."""


def later_epoch(reader):
    epoch = reader.number(8)
    unless(epoch == 0)
    return epoch


def verified(reader, epoch):
    return Verified(epoch, reader.number(8), reader.commitment())


def certified(reader, epoch):
    view, parent = reader.number(8), reader.number(8)
    commitment = reader.commitment()
    unless(not (1 <= view <= END - 2 and parent < view))
    return Certified(Proposal(epoch, view, parent, commitment))


def vote(reader):
    found = reader.vote()
    unless(not found.is_well_formed())
    return found


def cert(reader):
    found, count = vote(reader), reader.number(2)
    return Cert(found, tuple(reader.number(2) for _ in range(count)))


def height(reader):
    found = reader.number(8)
    unless(found == END - 1)
    return found


NOTES = [
    lambda reader: Noted(reader.commitment(), reader.block()),
    lambda reader: verified(reader, 0),
    lambda reader: certified(reader, 0),
    vote,
    cert,
    lambda reader: Ack(height(reader)),
    lambda reader: Floor(height(reader)),
    lambda reader: Prune(height(reader)),
    lambda reader: Entered(later_epoch(reader), reader.commitment()),
    lambda reader: certified(reader, later_epoch(reader)),
    lambda reader: verified(reader, later_epoch(reader)),
]


def notes_in(text):
    """The notes of a frame, at least one, or none where it isn't a list of notes to its end."""
    reader, notes = Reader(text), []
    try:
        while reader.place < len(text):
            tag = reader.number(1)
            unless(tag >= len(NOTES))
            notes.append(NOTES[tag](reader))
    except Refused:
        return []
    return notes


def frames_on(file):
    """The frames of notes on a file, and the place of the last gate."""
    texts, place = [], 0
    while len(file) >= 2 and file[place] == 1:
        front = place + 9
        end = front + int.from_bytes(file[place + 1:front], "big")
        if end >= len(file):
            raise Foreign(place)
        texts.append((place, file[front:end]))
        place = end
    frames = []
    for at, text in texts:
        frames.append(notes_in(text))
        if not frames[-1]:
            raise Foreign(at)
    return frames, place
