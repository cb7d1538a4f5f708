"""Random operator's commands: valid ones in many spellings, and ones with a fault."""

import json

from .messages import BAD_ACCOUNTS, BAD_BICS, BAD_DAYS, BAD_ISINS, BAD_REFERENCES

BLANKS = (b"", b" ", b"\n", b"\t", b"\r\n", b"  ")


def escaped(chance, text):
    """A JSON text, some characters of which may be escaped."""
    plain = json.dumps(text).encode()
    if chance.happens(90) or not text.isascii():
        return plain
    parts = []
    for character in text:
        kinds = [b"\\u%04x" % ord(character), b"\\u%04X" % ord(character), json.dumps(character).encode()[1:-1]]
        kinds += [b"\\/"] if character == "/" else []
        parts.append(chance.pick(kinds))
    return b'"' + b"".join(parts) + b'"'


def written(chance, value):
    """A member's value as JSON; bytes stand for themselves."""
    if isinstance(value, bytes):
        return value
    return escaped(chance, value) if isinstance(value, str) else b"%d" % value


def object_of(chance, members):
    """A JSON object of a list of members."""
    members = chance.shuffled(members) if chance.happens(25) else members
    has_blanks = chance.happens(15)

    def blanks():
        return chance.pick(BLANKS) if has_blanks else b""

    parts = [
        blanks() + escaped(chance, name) + blanks() + b":" + blanks() + written(chance, value) + blanks()
        for name, value in members
    ]
    return blanks() + b"{" + b",".join(parts) + b"}" + blanks()


def texts_of(values):
    """Texts that bytes spell; where they are no UTF-8, a JSON text of them as they are."""
    return [value.decode() if value.isascii() else b'"' + value + b'"' for value in values]


BAD_WHOLE = (
    [b"0", b"-1", b"-0", b"1.0", b"1e3", b"1E0", b"01", b"+1", b"0x10", b'"5"', b"null", b"1.", b".5"]
    + [b"18446744073709551615", b"18446744073709551616", b"1" * 400, b"1e999", b"1_000", b"NaN", b"[1]"]
)

BAD_MEMBERS = {
    "op": ["", "Issue", "issue ", "redeem", "issue", "payin", "payout", "pay in", "status", b"1", b"null", b'["run"]'],
    "ref": [*texts_of(BAD_REFERENCES), b"1", b"null", b'"\\ud800"', b'"\\u00e4"', b'"a\tb"', b'"\\x41"', b'"\\u004"'],
    "bic": [*texts_of(BAD_BICS), b"null", b"{}"],
    "account": [*texts_of(BAD_ACCOUNTS), b"7", b"[]", b'"\\n"', b'"\\ud83d\\ude00"'],
    "isin": [*texts_of(BAD_ISINS), b"true"],
    "kind": ["unit", "AMOR", "", b"0", " UNIT"],
    "quantity": [*BAD_WHOLE, *[b"0", b"100000000000000"] * 4],
    "ccy": ["eur", "usd", "jpy", "Kwd", "EU", "EURO", "BHD", "", " EUR", b"978", b"null"],
    "amount": [*BAD_WHOLE, *[b"0", b"1000000000000000000"] * 4, "1,", b"100000000000000"],
    "day": [*texts_of(BAD_DAYS), b"20240229", b"null", "2024-02-29"],
}


def bad_member(chance, members):
    """One member, often the last, with a value that does not fit."""
    place = len(members) - 1 if chance.happens(50) else chance.below(len(members))
    name, _ = members[place]
    return object_of(chance, [*members[:place], (name, chance.pick(BAD_MEMBERS[name])), *members[place + 1 :]])


def missing_member(chance, members):
    place = chance.below(len(members))
    return object_of(chance, members[:place] + members[place + 1 :])


def further_member(chance, members):
    names = [name for name in BAD_MEMBERS if name not in dict(members)]
    name = chance.pick([*names, "", "Ref", "x"])
    return object_of(chance, [*members, (name, chance.pick(["A-1", 1, b"null", b"[[]]", b"{}"]))])


def cut_off(chance, members):
    text = object_of(chance, members)
    return text[: chance.below(len(text))]


CHARACTERS = (b"", b'"', b"{", b"}", b",", b":", b"\\", b"'", b"\x00", b"\x0c", b"\xff", b"\xc3\xa4", b"1")


def wrong_character(chance, members):
    text = object_of(chance, members)
    at = chance.below(len(text))
    character = chance.pick(CHARACTERS)
    return text[:at] + character + text[at + chance.below(2) :]


def wrong_surroundings(chance, members):
    text = object_of(chance, members)
    before, behind = chance.pick(
        ((b"\xef\xbb\xbf", b""), (b"[", b"]"), (b"", b"{}"), (b"", b","), (b"", b"\x00"), (b"//\n", b""), (b"", b" x"))
        + ((b"\xc2\xa0", b""), (b"\x0b", b""), (b"", b"\x1f"), (b'{"op":', b"}"))
    )
    return before + text + behind


def doubled_member(chance, members):
    """A name twice, where the value behind goes before the one in front."""
    name, value = chance.pick(members)
    first = chance.pick(["X", value, b"[{}]", b"null", b"1e308", b"1e309", b"-0.0"])
    if chance.happens(50):
        return object_of(chance, [(name, first), *members])
    return object_of(chance, [*members, (name, value)])


def trailing_comma(chance, members):
    return object_of(chance, members)[:-1].rstrip() + b",}"


def no_object(chance, members):
    deep = b"[" * 127 + b"]" * 127
    return chance.pick((b"", b"{}", b"[]", b"null", b"1", b'"op"', b"[" * 200, b"{" * 3, deep, b"\n\n"))


COMMAND_FAULTS = {
    bad_member: 45,
    missing_member: 10,
    further_member: 10,
    cut_off: 5,
    wrong_character: 12,
    wrong_surroundings: 8,
    trailing_comma: 4,
    doubled_member: 4,
    no_object: 6,
}


def faulty(chance, members):
    """A command with a fault, or with a change that may harm nothing."""
    return chance.weighted(COMMAND_FAULTS)(chance, members)


def padded(chance, members):
    """A command about as long as one may be, by blanks behind it."""
    text = object_of(chance, members)
    return text + b" " * (65_536 - len(text) - 3 + chance.below(5))
