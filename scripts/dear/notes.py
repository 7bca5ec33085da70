"""Records with notes."""
from dear import SPREAD, kind
from trace_lines import EVERY, access, header


def noted(notes):
    """An access with each of these notes."""
    yield header(1)
    for note in notes:
        yield f"{access(0, 0x1000)} @{note}"


@kind(100000)
def notes_short(n):
    """n records with notes of 10 bytes, all different."""
    return noted(f"{i:010x}" for i in range(n))


@kind(200)
def notes_huge(n):
    """n records with notes of 100,000 bytes, all different."""
    return noted(f"{i:010x}" + "x" * 99990 for i in range(n))


@kind(10000)
def notes_alike(n):
    """n records with notes of 1,000 bytes that differ in the last ten."""
    return noted("x" * 990 + f"{i:010x}" for i in range(n))


def row(text):
    """The row in which the engine looks for a note, of 256, by whole words of the note."""
    mixed = 0
    for at in range(0, len(text), 8):
        mixed = (mixed << 5 & EVERY | mixed >> 59) ^ int.from_bytes(text[at:at + 8], "little")
        mixed = mixed * SPREAD & EVERY
    return (mixed * SPREAD & EVERY) >> 56


@kind(100000)
def notes_in_one_row(n):
    """n records with 65 notes of one row in turn: one more than are looked through, so that each is new."""
    notes, i = [], 0
    while len(notes) < 65:
        note = "x" * 56 + f"{i:08x}"
        if row(note.encode()) == 0:
            notes.append(note)
        i += 1
    return noted(notes[i % 65] for i in range(n))
