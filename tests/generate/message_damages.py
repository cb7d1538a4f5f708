"""Damages of known kinds, each with the words that must tell it: tables that were made from what the desk is to say, not by asking
it."""

import re

from plain.blocks import read_block
from plain.codes import DECIMALS, expected_check_digit
from plain.messages import CASH, DATE, DEAG, FUNCTION, PREV, PSET, QUANTITY, REAG, SAFE, SECURITY, SEME, SETR, belongs
from plain.scripts import lines_with_ends

from .damages import Damage, Edit, New, Old, Told, any_damage, replaced

# the ranks of what is told of a text: it is too long; a line of it is wrong; the field of a row is
OF_LENGTH, OF_LINES, OF_ROWS = range(3)

# messages: the rows that are looked for, in their order

INSTRUCTED = FUNCTION, SEME, DATE, SECURITY, QUANTITY, SAFE, SETR, PSET
OF_TYPE = {540: (DEAG,), 541: (DEAG, CASH), 542: (REAG,), 543: (REAG, CASH)}
CANCELLED = FUNCTION, SEME, PREV

# Values that do not fit: the beginning of a field's line, what is found in the line, what stands there instead, and the words.
NUMBER = rb"(:36B::SETT//(?:UNIT|FAMT)/|:19A::SETT//[A-Z]{3})([0-9]+),([0-9]*)"
AMOUNT = rb"(:19A::SETT//)([A-Z]{3})([0-9]+,[0-9]*)"
COUNTED = rb"(:36B::SETT//)(UNIT|FAMT)/([0-9]+,[0-9]*)"
ISIN = rb"(:35B:)(ISIN )([A-Z]{2})([A-Z0-9]{9})([0-9])"
DAY = rb"(:98[AC]::SETT//)([0-9]{8})([0-9]{6})?"
PARTY = rb"(:95P::[A-Z]{4}//)([A-Z0-9]{4})([A-Z0-9]{4})([A-Z0-9]{3})?"
ACCOUNT = rb"(:97A::SAFE//)(.+)"
REFERENCE = rb"(:20C::(?:SEME|PREV)//)(.+)"
SETTLEMENT = rb"(:22F::SETR/)([^/]*)/([A-Z0-9]{4})"
WORD = rb"(:23G:)([A-Z]{4})(/.*)?"
SLASHES = rb"(:(?!22F).{3}::[A-Z]{4}/)/([^/].*)"
QUALIFIED = rb"(:(?!22F).{3}::[A-Z]{4}//)(.+)"


def lower(*numbers):
    """Has these parts of what was found in lower case."""
    return lambda found: b"".join(
        (it or b"").lower() if at in numbers else it or b"" for at, it in enumerate(found.groups(), 1)
    )


def wrong_digit(found):
    return found[0][:-1] + b"%d" % ((int(found[5]) + 3) % 10)


def most_decimals(found):
    return f"the number has too many decimals; the most are {DECIMALS[found[2]]}"


def due_digit(found):
    return f"the check digit of the ISIN should be {expected_check_digit(found[3] + found[4])}"


def digits_of_day(found):
    return "the day and the time are not fourteen digits" if found[3] else "the day is not eight digits"


VALUES = [
    (NUMBER, rb"\1\2.\3", "a point stands in the number, and no comma"),
    (NUMBER, rb"\g<1>1.\2,\3", "a point stands in the number, and a comma too"),
    (NUMBER, rb"\1\2", "the number has no comma"),
    (NUMBER, rb"\1\2,,\3", "the number has more than one comma"),
    (NUMBER, rb"\1,\3", "the number begins with a comma"),
    (NUMBER, rb"\1", "the number is missing"),
    (NUMBER, rb"\1-\2,\3", "the number has a sign"),
    (NUMBER, rb"\1+\2,\3", "the number has a sign"),
    (NUMBER, rb"\1 \2,\3", "a space stands in the number"),
    (NUMBER, rb"\1\2, ", "a space stands in the number"),
    (NUMBER, rb"\1O\2,\3", "a character of the number is neither digit nor comma"),
    (NUMBER, rb"\1\2,\3EUR", "a character of the number is neither digit nor comma"),
    (NUMBER, rb"\g<1>0,", "the number is 0"),
    (NUMBER, rb"\g<1>00,00", "the number is 0"),
    (NUMBER, rb"\g<1>123456789012345,", "the number is longer than 15 characters"),
    (NUMBER, rb"\g<1>12345678901,2345", "the number is longer than 15 characters"),
    (COUNTED, rb"\1\2/7,5", "the number has too many decimals; the most are 0"),
    (COUNTED, rb"\1\2\3", "no slash stands directly behind UNIT or FAMT"),
    (COUNTED, rb"\1\2 \3", "no slash stands directly behind UNIT or FAMT"),
    (COUNTED, rb"\1AMOR/\3", "the quantity begins with neither UNIT/ nor FAMT/"),
    (COUNTED, rb"\1\3", "the quantity begins with neither UNIT/ nor FAMT/"),
    (COUNTED, rb"\1unit/\3", "a letter in lower case stands where UNIT or FAMT must"),
    (COUNTED, rb"\1Famt/\3", "a letter in lower case stands where UNIT or FAMT must"),
    (AMOUNT, lower(2), "a letter in lower case stands where the currency must"),
    (AMOUNT, rb"\1N\2\3", "N, the sign of a negative amount, stands before the currency"),
    (AMOUNT, rb"\1SEK\3", "the currency is none of these: CHF EUR GBP JPY KWD USD"),
    (AMOUNT, rb"\1EU\3", "the amount does not begin with a currency of three letters"),
    (AMOUNT, rb"\1\3", "the amount does not begin with a currency of three letters"),
    (AMOUNT, rb"\1\g<2>7,0123456", most_decimals),
    (ISIN, wrong_digit, due_digit),
    (ISIN, rb"\1\2\3\4X", due_digit),
    (ISIN, lower(3, 4), "a letter in lower case stands in the first line behind ISIN and a space"),
    (ISIN, rb"\1\2\3\4", "not twelve characters stand in the first line behind ISIN and a space"),
    (ISIN, rb"\1\2\3\4\5 ", "not twelve characters stand in the first line behind ISIN and a space"),
    (ISIN, rb"\1\g<2>1E\4\5", "the ISIN does not begin with two letters"),
    (ISIN, rb"\1\2\3ABC-EFGHI\5", "the ISIN has a character that is no letter and no digit"),
    (ISIN, rb"\1\3\4\5", "the first line does not begin with ISIN and a space"),
    (ISIN, lower(2), "the first line does not begin with ISIN and a space"),
    (DAY, rb"\g<1>20240230\3", "the calendar has no such date"),
    (DAY, rb"\g<1>20230229\3", "the calendar has no such date"),
    (DAY, rb"\g<1>20241301\3", "the calendar has no such date"),
    (DAY, rb"\g<1>31122024\3", "the calendar has no such date"),
    (DAY, rb"\g<1>240229\3", digits_of_day),
    (DAY, rb"\g<1>2024-02-29\3", digits_of_day),
    (DAY, rb"\1\2\3Z", digits_of_day),
    (PARTY, lower(2, 3, 4), "a letter in lower case stands behind the two slashes"),
    (PARTY, rb"\1\2", "not 8 or 11 characters stand behind the two slashes"),
    (PARTY, rb"\1\2\3XX", "not 8 or 11 characters stand behind the two slashes"),
    (PARTY, rb"\g<1>\g<2>9FFF\4", "a character of the BIC may not stand in its place"),
    (PARTY, rb"\1ALP-\3\4", "a character of the BIC may not stand in its place"),
    (ACCOUNT, rb"\g<1>123456789012345678901234567890123456", "the account is longer than 35 characters"),
    (REFERENCE, rb"\g<1>12345678901234567", "the reference is longer than 16 characters"),
    (REFERENCE, rb"\1A REFERENCE OF MORE CHARACTERS THAN ANYONE IS TOLD", "the reference is longer than 16 characters"),
    (REFERENCE, rb"\1/A1", "the reference begins with a slash"),
    (REFERENCE, rb"\1A1/", "the reference ends with a slash"),
    (REFERENCE, rb"\1A//1", "two slashes stand together in the reference"),
    (SETTLEMENT, rb"\1\2/trad", "a letter in lower case stands behind SETR"),
    (SETTLEMENT, rb"\1\3", "one slash stands behind SETR, where two must"),
    (SETTLEMENT, rb"\1\2/TRA", "its form is neither //TRAD nor /ISSUER/TRAD, with one to eight capitals or digits for ISSUER and four for TRAD"),
    (SETTLEMENT, rb"\1\2/TRADE", "its form is neither //TRAD nor /ISSUER/TRAD, with one to eight capitals or digits for ISSUER and four for TRAD"),
    (SETTLEMENT, rb"\1", "the value is empty"),
    (WORD, lower(2), "a letter in lower case stands in the value"),
    (WORD, rb"\1NEW\3", "the function has not the form NEWM or NEWM/CODE"),
    (WORD, rb"\1\2/", "the function has not the form NEWM or NEWM/CODE"),
    (WORD, rb"\1\2 ", "the function has not the form NEWM or NEWM/CODE"),
    (WORD, rb"\1", "the value is empty"),
    (WORD, rb"\1PREA\3", "the function is neither NEWM nor CANC"),
    (SLASHES, rb"\1\2", "two slashes must stand behind the qualifier"),
    (QUALIFIED, rb"\1", "the value is empty"),
]


def content(piece):
    """A line without its end, and its end."""
    bare = piece.rstrip(b"\r\n")
    return bare, piece[len(bare) :]


class Message:
    """A message that is in order, by its lines."""

    def __init__(self, mt, lines):
        self.lines = self.pieces = lines
        self.fields = read_block(b"".join(lines))
        function = next(it for it in self.fields if belongs(it, FUNCTION)).lines[0]
        self.rows = CANCELLED if function.startswith(b"CANC") else (*INSTRUCTED, *OF_TYPE[mt])

    def field(self, row):
        return next(it for it in self.fields if belongs(it, row))

    def place(self, row):
        """Where the lines of a row's field begin and end."""
        field = self.field(row)
        return field.number - 1, field.number - 1 + len(field.lines)

    def first_of(self, word):
        """Where the line of the field of a row with this word stands."""
        return next((self.place(it)[0] for it in self.rows if it.word == word), None)

    def is_alone(self, row):
        """Whether no other field has the digits and the qualifier of a row's."""
        front = row.qualifier and b":%s/" % row.qualifier

        def is_like(field):
            return field.tag[:2] == row.tags[0][:2] and (front is None or field.lines[0].startswith(front))

        return sum(map(is_like, self.fields)) == 1

    def any_damage(self, chance):
        """A damage of any kind, each piece of which is a line; None where that is none."""
        damage = any_damage(chance, self.lines)
        return damage and Damage([self.by_lines(it) for it in damage.edits])

    def by_lines(self, edit):
        text, end = b"".join(edit.pieces), edit.end
        if text and not text.endswith(b"\n"):
            text, end = text + b"".join(self.lines[end : end + 1]), end + 1
        return Edit(edit.start, min(end, len(self.lines)), lines_with_ends(text))

    def told(self, row, words, number=b"7", **more):
        rank = OF_ROWS, self.rows.index(row)
        refusal = b"8" if words == "the function is neither NEWM nor CANC" else number + b" " + row.word
        return Told(rank, refusal, words, **more)

    def at_line(self, number, words, **more):
        return Told((OF_LINES,), b"%d" % number, words, **more)


def with_told(edit, told, at=0, **more):
    """The damage of one edit that is told at one of its pieces."""
    return Damage([edit], told._replace(place=New(edit, at), **more))


# how often a row's value does not fit, where that is not once, by how many ways it has
OFTEN = {QUANTITY: 4, CASH: 4, SECURITY: 2, DATE: 2}


def wrong_value(chance, message):
    row = chance.weighted({it: OFTEN.get(it, 1) for it in message.rows})
    at, _ = message.place(row)
    line, end = content(message.lines[at])
    kinds = [(found, *kind) for pattern, *kind in VALUES for found in [re.fullmatch(pattern, line)] if found]
    if not kinds:
        return None
    found, instead, words = chance.pick(kinds)
    changed = instead(found) if callable(instead) else found.expand(instead)
    told = message.told(row, words(found) if callable(words) else words, place=None)
    return with_told(Edit(at, at + 1, [changed + end]), told) if changed != line else None


def second_line(chance, message):
    row = chance.pick([it for it in message.rows if it is not SECURITY])
    _, end = message.place(row)
    more = chance.pick((b"MORE\n", b"\n", b" \n", b"SETT//\n"))
    return replaced(end, end, more, told=message.told(row, "the value has a second line", place=Old(end - 1)))


def missing(chance, message):
    """A field that is not where it should be, or not as it should be. Two of one tag are in one group, since a qualifier in lower
    case is told of whichever row of that tag has no field."""
    row = chance.pick(message.rows)
    if not message.is_alone(row):
        return None
    at, end = message.place(row)
    line, line_end = content(message.lines[at])
    told = message.told(row, "it stands nowhere", b"5", place=None, group=row.tags[0][:2])
    kind = chance.pick(("option", "colon", "case", "nowhere", "nowhere", "elsewhere", "elsewhere"))
    if kind == "nowhere":
        return replaced(at, end, told=told._replace(place=0))
    if kind == "elsewhere":
        opened = max(it for it in range(at) if is_opened_to(message.lines, it, at))
        there, gone = Edit(opened, opened, message.lines[at:end]), Edit(at, end, [])
        return Damage([there, gone], told._replace(words="it stands here, and not in its own sequence", place=New(there, 0)))
    letter = chance.pick([it for it in "BDEQRZ" if row.tags[0][:2] + it.encode() not in row.tags])
    changed, words = {
        "option": (line[:3] + letter.encode() + line[4:], f"it stands here with an option that is not read: {letter}"),
        "colon": (line[:5] + line[6:], "one colon stands before its qualifier, where two must"),
        "case": (line[:6] + line[6:10].lower() + line[10:], "its qualifier has a letter in lower case"),
    }[kind]
    if kind != "option" and row.qualifier is None:
        return None
    return with_told(Edit(at, at + 1, [changed + line_end]), told, words=words)


def is_opened_to(lines, opened, at):
    """Whether the sequence that a line opens holds that place, and none within it does but what is closed before."""
    if not lines[opened].startswith(b":16R:"):
        return False
    depth = 0
    for line in lines[opened:at]:
        depth += line.startswith(b":16R:") - line.startswith(b":16S:")
        if depth == 0:
            return False
    return True


def twice(chance, message):
    row = chance.pick(message.rows)
    at, end = message.place(row)
    told = message.told(row, "it stands here too, first in line %d", b"6", place=None, named=Old(at))
    return with_told(Edit(end, end, message.lines[at:end]), told)


BYTES = {
    b"\t": "a tab, the byte 0x09",
    b"\r": "a carriage return without line feed, the byte 0x0D",
    b"\x00": "the byte 0x00",
    b"\x80": "the byte 0x80",
    b"\xc3\xa4": "the byte 0xC3",
    b"\x7f": "the byte 0x7F",
    b"\x1b": "the byte 0x1B",
    b"\xef\xbb\xbf": "the byte 0xEF",
}


def odd_byte(chance, message):
    at = chance.between(1, len(message.lines) - 1)
    line, end = content(message.lines[at])
    if not line:
        return None
    column, byte = chance.below(len(line)), chance.pick(list(BYTES))
    told = message.at_line(2, f"here stands {BYTES[byte]}, in column {column + 1}", place=None)
    return with_told(Edit(at, at + 1, [line[:column] + byte + line[column:] + end]), told)


# lines that may not stand where they stand: what is found, what stands there instead, and the words
LINES = [
    (rb"(:|-\}).*", rb"-\g<0>", "the line begins with a hyphen"),
    (rb"(:[0-9]{2})([A-Z])(:.*)", lower(2), "the letter of the tag is in lower case"),
    (rb":([0-9]{2}[A-Z]:.*)", rb": \1", "no tag of two digits and a letter stands between the first two colons"),
    (rb":([0-9])[0-9]([A-Z]:.*)", rb":\1\2", "no tag of two digits and a letter stands between the first two colons"),
    (rb"(:16[RS]:)(.*)", lower(2), "the name of the sequence is not 1 to 16 capitals or digits"),
    (rb"(:16[RS]:)(.*)", rb"\1\2 ", "the name of the sequence is not 1 to 16 capitals or digits"),
    (rb"(:16[RS]:)(.*)", rb"\1", "the name of the sequence is not 1 to 16 capitals or digits"),
    (rb"(:16[RS]:)(.*)", rb"\g<1>ABCDEFGHIJKLMNOPQ", "the name of the sequence is not 1 to 16 capitals or digits"),
    (rb"-\}", rb"-} ", "something stands behind -}"),
    (rb"-\}", rb"-}{5:{CHK:123456789ABC}}", "a block 5 begins here"),
]


def wrong_line(chance, message):
    at = chance.between(1, len(message.lines) - 1)
    line, end = content(message.lines[at])
    kinds = [(found, *kind) for pattern, *kind in LINES for found in [re.fullmatch(pattern, line)] if found]
    if not kinds:
        return None
    found, instead, words = chance.pick(kinds)
    changed = instead(found) if callable(instead) else found.expand(instead)
    return with_told(Edit(at, at + 1, [changed + end]), message.at_line(2, words, place=None))


STRAY = {
    b"\n": "the line is empty, and no value goes on here",
    b"SECTION B\n": "no value goes on here",
    b"20C::SEME//A1\n": "no value goes on here",
}
BEHIND_END = {
    b"{5:{CHK:123456789ABC}}\n": "a block 5 begins here",
    b"-}\n": "something stands behind -}",
    b":20C::SEME//B1\n": "the line may not stand here",
    b":16R:GENL\n": "the line may not stand here",
    b"$\n": "no value goes on here",
}


def stray_line(chance, message):
    """A line more behind one that opens or closes a sequence, where no value goes on, or behind the end."""
    at = chance.between(1, len(message.lines))
    before = message.lines[at - 1]
    if not before.startswith((b"{4:", b":16", b"-}")):
        return None
    line, words = chance.pick(list((BEHIND_END if before.startswith(b"-}") else STRAY).items()))
    return with_told(Edit(at, at, [line]), message.at_line(2, words, place=None))


NOT_THAT, STILL_OPEN = "the sequence to be closed here is that of line %d, ", "a sequence is still open, that of line %d, "


def wrong_nesting(chance, message):
    """A line less that opens or closes a sequence, one that closes another, or too many that open."""
    lines = message.lines
    pairs = pairs_of(lines)
    opened, closed, around = chance.pick(pairs)
    told = message.at_line(3, "", place=None, group="nesting")
    name = lambda it: lines[it][5:].decode().strip()
    kind = chance.pick(("no opening", "no closing", "another", "too many"))
    if kind == "no opening":
        words = f"{NOT_THAT}{name(around[0])}" if around else "no sequence is open here"
        told = told._replace(words=words, place=Old(closed), named=Old(around[0]) if around else None)
        return replaced(opened, opened + 1, told=told)
    if kind == "no closing":
        still = f"{NOT_THAT if around else STILL_OPEN}{name(opened)}"
        told = told._replace(words=still, place=Old(around[1] if around else end_of(lines)), named=Old(opened))
        return replaced(closed, closed + 1, told=told)
    if kind == "another":
        told = told._replace(words=f"{NOT_THAT}{name(opened)}", named=Old(opened))
        return with_told(Edit(closed, closed + 1, [b":16S:OTHER\n"]), told)
    depth = sum(one < opened < other for one, other, _ in pairs)
    edit = Edit(opened, opened, [b":16R:S%d\n" % it for it in range(17)])
    return with_told(edit, told._replace(words="more than 16 sequences would be open"), 16 - depth)


def pairs_of(lines):
    """The lines that open and close each sequence, with those of the one around it."""
    opened, pairs = [], []
    for at, line in enumerate(lines):
        if line.startswith(b":16R:"):
            opened.append(at)
        elif line.startswith(b":16S:"):
            pairs.append((opened.pop(), at))
    around = lambda one, other: max(((a, b) for a, b in pairs if a < one and other < b), default=None)
    return [(one, other, around(one, other)) for one, other in pairs]


def end_of(lines):
    return next(at for at, line in enumerate(lines) if line.startswith(b"-}"))


FIRST = [
    (b"\xef\xbb\xbf{4:\n", "the text begins with a byte order mark"),
    (b"{1:F01ALPHDEFFAXXX0000000000}{2:I543DESKDEFFXXXXN}{4:\n", "the text begins with a block 1, 2 or 3"),
    (b"{2:I543DESKDEFFXXXXN}{4:\n", "the text begins with a block 1, 2 or 3"),
    (b" {4:\n", "the first line is not {4:"),
    (b"{4: \n", "the first line is not {4:"),
    (b"{5:\n", "the first line is not {4:"),
    (b"{4:\r\r\n", "a carriage return without line feed stands behind {4:"),
]


def no_block(chance, message):
    """Another first line, no last one, or nothing."""
    told = Told((OF_LINES,), b"1", "", place=None)
    kind = chance.weighted({"first": 60, "last": 30, "nothing": 10})
    if kind == "first":
        line, words = chance.pick(FIRST)
        return with_told(Edit(0, 1, [line]), told, words=words)
    if kind == "nothing":
        return replaced(0, len(message.lines), told=told._replace(words="the text is empty", place=0))
    end = end_of(message.lines)
    if end != len(message.lines) - 1:
        return None
    return replaced(end, end + 1, told=told._replace(words="the text ends before its -}", place=-1))


def too_long(chance, message):
    told = Told((OF_LENGTH,), b"4", "the text has more than 65,536 bytes", place=0)
    return replaced(1, 1, b":70E:" + b"x" * 65_536 + b"\n", told=told)


OF_MESSAGES = {wrong_value: 50, missing: 20, twice: 6, second_line: 5, odd_byte: 8, wrong_line: 8, stray_line: 4}
OF_MESSAGES |= {wrong_nesting: 8, no_block: 4}


def of_message(chance, message):
    if chance.below(1_000) < 4:
        return too_long(chance, message)
    return chance.weighted(OF_MESSAGES)(chance, message)
