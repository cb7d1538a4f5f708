"""Damages of what is in order: places at which other pieces stand. The pieces of a message are its lines, those of a command its
members and what stands between them."""

from collections import namedtuple

# from one place up to another these pieces stand in place of the original ones
Edit = namedtuple("Edit", "start end pieces")

# its edits, and what must be told of it where it is of a known kind
Damage = namedtuple("Damage", "edits told", defaults=[None])

# What must be told: the number with what stands behind it, and the words, `%d` in place of a line or a column. Of two the one with
# the lower rank is told. The place of the piece at which it is (0: the first one, -1: the last one), and of the one that the words
# name; of what is no JSON, the edit. Of one group two damages in a request hide each other.
Told = namedtuple("Told", "rank refusal words place named group", defaults=[None, None])

# where a piece comes from: it is the original one of this number, or one of a damage's edit
Old = namedtuple("Old", "number")
New = namedtuple("New", "edit number")


def replaced(start, end, *pieces, told=None):
    return Damage([Edit(start, end, list(pieces))], told)


def stand_apart(damages):
    """Whether an original piece is left between any two of different damages."""
    spans = sorted((edit.start, edit.end, at) for at, damage in enumerate(damages) for edit in damage.edits)
    return all(one[2] == other[2] or one[1] < other[0] for one, other in zip(spans, spans[1:]))


def damaged(pieces, damages):
    """What stands there with these damages: pairs of where a piece comes from, and it."""
    edits = sorted((edit for damage in damages for edit in damage.edits), key=lambda it: (it.start, it.end))
    found, at = [], 0
    for edit in edits:
        found += [(Old(number), pieces[number]) for number in range(at, edit.start)]
        found += [(New(edit, number), piece) for number, piece in enumerate(edit.pieces)]
        at = edit.end
    return found + [(Old(number), pieces[number]) for number in range(at, len(pieces))]


def is_of(damage, origin):
    """Whether what comes from there is of a damage, or stood where it is."""
    if isinstance(origin, New):
        return any(origin.edit is edit for edit in damage.edits)
    return isinstance(origin, Old) and any(edit.start <= origin.number < edit.end for edit in damage.edits)


# damages of any kind

CHARACTERS = (
    (b"\t", b"\r", b"\x00", b"\x80", b"\xff", b"\x7f", b"\xc3\xa4", b"\xef\xbb\xbf", b" ", b".", b",", b"/", b":", b"-", b"+")
    + (b"a", b"Z", b"0", b"9", b"{", b"}", b'"', b"\\", b"#", b"'", b"[", b"\n", b"e", b"N")
)
ALIKE = {b",": b".", b".": b",", b"/": b"\\", b":": b";", b"0": b"O", b"1": b"l", b"-": b"_", b'"': b"'", b"{": b"[", b"}": b"]"}


def with_character(chance, piece):
    """A character changed, put in or left out, or the one that is there twice."""
    at = chance.below(len(piece) + 1)
    kind = chance.pick(("change", "insert", "delete", "double"))
    character = piece[at : at + 1] * 2 if kind == "double" else b"" if kind == "delete" else chance.pick(CHARACTERS)
    return piece[:at] + character + piece[at + (kind != "insert") :]


def in_other_case(chance, piece):
    """All of it in the other case, or a letter."""
    if chance.happens(30):
        return piece.swapcase()
    at = chance.below(len(piece) + 1)
    return piece[:at] + piece[at : at + 1].swapcase() + piece[at + 1 :]


def with_similar(chance, piece):
    """A character for one that looks like it, or a sign before a digit."""
    places = [at for at in range(len(piece)) if piece[at : at + 1] in ALIKE]
    digits = [at for at in range(len(piece)) if piece[at : at + 1].isdigit()]
    if digits and (not places or chance.happens(20)):
        at = chance.pick(digits)
        return piece[:at] + chance.pick((b"-", b"+", b" ")) + piece[at:]
    if not places:
        return piece + b"."
    at = chance.pick(places)
    return piece[:at] + ALIKE[piece[at : at + 1]] + piece[at + 1 :]


CHANGES = with_character, with_character, in_other_case, with_similar


def changed_piece(chance, pieces):
    at = chance.below(len(pieces))
    return replaced(at, at + 1, chance.pick(CHANGES)(chance, pieces[at]))


def left_out(chance, pieces):
    at = chance.below(len(pieces))
    return replaced(at, min(len(pieces), at + chance.weighted({1: 80, 2: 15, 5: 5})))


def doubled(chance, pieces):
    at = chance.below(len(pieces))
    return replaced(at, at + 1, pieces[at], pieces[at])


def swapped(chance, pieces):
    at = chance.below(len(pieces) - 1)
    return replaced(at, at + 2, pieces[at + 1], pieces[at])


def moved(chance, pieces):
    """A piece moved to another place."""
    at, to = chance.below(len(pieces)), chance.below(len(pieces) + 1)
    return Damage([Edit(at, at + 1, []), Edit(to, to, [pieces[at]])]) if not at <= to <= at + 1 else None


def joined(chance, pieces):
    """Two pieces in one, without what stands at the end of the first."""
    at = chance.below(len(pieces) - 1)
    return replaced(at, at + 2, pieces[at].rstrip() + pieces[at + 1])


def split(chance, pieces):
    at = chance.below(len(pieces))
    middle = chance.below(len(pieces[at]) + 1)
    return replaced(at, at + 1, pieces[at][:middle] + b"\n" + pieces[at][middle:])


def truncated(chance, pieces):
    at = chance.below(len(pieces))
    return replaced(at, len(pieces), pieces[at][: chance.below(len(pieces[at]) + 1)])


ANY = {changed_piece: 50, left_out: 10, doubled: 8, swapped: 8, moved: 8, joined: 5, split: 4, truncated: 4}


def any_damage(chance, pieces):
    """A damage of any kind; None where that of this kind is none."""
    damage = chance.weighted(ANY)(chance, pieces)
    return damage and damage._replace(edits=[it for it in damage.edits if list(pieces[it.start : it.end]) != it.pieces])
