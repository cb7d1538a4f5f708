"""Damages of commands and of lines of scripts of known kinds, each with the words that must tell it: tables that were made from
what the desk is to say, not by asking it."""

import json

from plain.commands import COMMANDS
from plain.entries import MOST_PAID, MOST_QUANTITY

from .damages import Damage, Edit, New, Old, Told, any_damage, replaced

# the ranks of what is told of a command: it is too long; it is no JSON; its op is none, or a member is wrong; it has others
OF_LENGTH, OF_JSON, OF_MEMBERS, OF_OTHERS = range(4)

# what stands around the members of an object, and between a name and its value
LAYOUTS = [
    (b"{", b",", b"}\n", b":"),
    (b"{", b", ", b"}\n", b": "),
    (b"{\n  ", b",\n  ", b"\n}\n", b": "),
    (b"{\r\n  ", b",\r\n  ", b"\r\n}\r\n", b": "),
    (b"\n {\t", b"\t,", b" }\n\n", b" : "),
]

BICS = "ALPHDEFF", "BETADEFF", "GAMMDEFFXXX", "ALPHDEFFABC", "ZZZZDEFF"
ISINS = "DE0007164600", "US0378331005", "AU0000XVGZA3"
RIGHT = {
    "bic": lambda chance: chance.pick(BICS),
    "account": lambda chance: chance.pick(("A-1", "B 1", "x" * 35, "//a")),
    "isin": lambda chance: chance.pick(ISINS),
    "kind": lambda chance: chance.pick(("UNIT", "FAMT")),
    "quantity": lambda chance: chance.pick((1, 400, MOST_QUANTITY)),
    "ccy": lambda chance: chance.pick(("CHF", "EUR", "GBP", "JPY", "KWD", "USD")),
    "amount": lambda chance: chance.pick((1, 100_050, MOST_PAID)),
    "day": lambda chance: chance.pick(("20240229", "20241231", "00000229")),
    "ref": lambda chance: f"C-{chance.below(1000)}",
}


class Command:
    """A command that is in order, by its members and what stands between them: `pieces`."""

    def __init__(self, chance):
        self.op = chance.pick(list(COMMANDS))
        self.names = COMMANDS[self.op][1]
        self.values = {"op": self.op, **{name: RIGHT[name](chance) for name in self.names}}
        self.order = chance.shuffled(self.values) if chance.happens(30) else list(self.values)
        first, between, last, self.colon = chance.pick(LAYOUTS)
        self.pieces = [first]
        for name in self.order:
            self.pieces += [self.member(name, json.dumps(self.values[name]).encode()), between]
        self.pieces[-1] = last

    def member(self, name, value):
        return b'"%b"%b%b' % (name.encode(), self.colon, value)

    def place(self, name):
        return 1 + 2 * self.order.index(name)

    def any_damage(self, chance):
        """A damage of any kind; None where that is none."""
        return any_damage(chance, self.pieces)

    def told(self, name, words, **more):
        rank = OF_MEMBERS, 0 if name == "op" else 1 + self.names.index(name)
        return Told(rank, b"30", words, 0, **more)


def texts(*values):
    return [json.dumps(it).encode() for it in values]


NO_TEXTS = b"7", b"null", b"true", b"[]", b"{}", b'["A"]', b"1.5"
NO_NUMBERS = b'"5"', b"1.0", b"1e3", b"-1", b"-0", b"null", b"[1]", b"18446744073709551616", b'"1,"'
NO_OP = "op is none of participant, account, security, issue, redeem, payin, payout, run"
NO_CODE = "has not as many characters as such a code: an ISIN 12, a BIC 8 or 11"
NO_BIC = "is not four letters or digits, two letters for the country, and letters or digits, all in capitals"
SLASHES = texts("/", "/A", "A/", "A//B", "//")
UNPRINTABLE = texts("\x7f", "A\tB", "A\n", "\x00", "Rü", "\u20ac")

# values that do not fit: the member, values and the words
VALUES = [
    *[(name, NO_TEXTS, f"{name} is no text in quotes") for name in RIGHT if name not in ("quantity", "amount")],
    *[(name, NO_NUMBERS, f"{name} is no whole number in digits alone") for name in ("quantity", "amount")],
    ("op", texts("", "Run", "run ", "settle", "pay in", "cancel"), NO_OP),
    ("op", NO_TEXTS, NO_OP),
    ("ref", texts(""), "ref is empty"),
    ("ref", texts("12345678901234567", "/" * 17, "x" * 41), "ref has more than 16 characters"),
    ("ref", SLASHES, "ref begins or ends with a slash, or has two together"),
    ("ref", UNPRINTABLE, "ref has a character other than printable ASCII"),
    ("account", texts(""), "account is empty"),
    ("account", texts("x" * 36), "account has more than 35 characters"),
    ("account", UNPRINTABLE, "account has a character other than printable ASCII"),
    ("bic", texts("", "ALPHDEF", "ALPHDEFFAB", "ALPHDEFF "), f"bic {NO_CODE}"),
    ("bic", texts("alphdeff", "ALPH9EFF", "ALPHD-FF", "ALPHDEFFab1"), f"bic {NO_BIC}"),
    ("isin", texts("", "DE000716460", "DE0007164600 ", "716460"), f"isin {NO_CODE}"),
    ("isin", texts("de0007164600", "1E0007164600", "  0007164600"), "isin does not begin with two capital letters"),
    ("isin", texts("DE00071646-0", "US037833l005"), "isin has a character other than A to Z and 0 to 9"),
    ("isin", texts("DE0007164601", "DE000716460X"), "isin does not end with its check digit, which is 0"),
    ("isin", texts("US0378331000"), "isin does not end with its check digit, which is 5"),
    ("kind", texts("", "unit", "UNITS", "AMOR"), "kind is neither UNIT nor FAMT"),
    ("quantity", [b"0", b"100000000000000", b"18446744073709551615"], "quantity is not from 1 to 99999999999999"),
    ("amount", [b"0", b"1000000000000000000"], "amount is not from 1 to 999999999999999999"),
    ("ccy", texts("eur", "Eur", "kWD"), "ccy is not in capital letters"),
    ("ccy", texts("", "SEK", "EU", "EURO", "978"), "ccy is none of CHF, EUR, GBP, JPY, KWD, USD"),
    ("day", texts("", "2024-02-29", "240229", "2024022 "), "day is not eight digits, as YYYYMMDD"),
    ("day", texts("20240230", "20230229", "20241301", "00000000"), "day is no date of the calendar"),
]


def wrong_member(chance, command):
    """A member with a value that does not fit, in its place, or behind the right one."""
    name, values, words = chance.pick([it for it in VALUES if it[0] in command.values])
    at, value = command.place(name), chance.pick(values)
    pieces = [command.member(name, value)]
    if chance.happens(10):
        pieces = [command.pieces[at], b",", *pieces]
    return replaced(at, at + 1, *pieces, told=command.told(name, words))


def missing_member(chance, command):
    """A member that is not there, or under another name."""
    name = chance.pick(command.order)
    at, told = command.place(name), command.told(name, f"{name} is missing")
    if chance.happens(40):
        other = chance.pick((name.upper(), name + " ", name[:-1], ""))
        return replaced(at, at + 1, command.member(other, b'"x"'), told=told)
    is_last = at == len(command.pieces) - 2
    return replaced(at - is_last, at + 2 - is_last, told=told)


def further_member(chance, command):
    at = command.place(chance.pick(command.order)) + 1
    name = chance.pick([it for it in (*RIGHT, "rule", "", "Ref", "OP") if it not in command.values])
    member = command.member(name, chance.pick((b'"A-1"', b"1", b"null", b"[[]]", b"{}")))
    return replaced(at, at, b",", member, told=Told((OF_OTHERS, name.encode()), b"30", f"a member is there that this op does not have: {name}", 0))


def no_json(at, end, *pieces, behind=0):
    """Pieces with which it is no JSON, which is seen in the last of them or so many behind."""
    edit = Edit(at, end, list(pieces))
    place = Old(end + behind - 1) if behind else New(edit, len(pieces) - 1)
    return Damage([edit], Told((OF_JSON,), b"30", "", place, edit, "JSON"))


# what is no JSON in place of a value
NO_VALUES = (
    (b"01", b"+1", b".5", b"-", b"1.", b"1e", b"0x10", b"True", b"nil", b"NaN", b"'A'", b'"A\tB"', b'"A\nB"', b'"A\\x41"')
    + (b'"\\u00g0"', b'"\\udc00"', b'"\xff"', b"1e999", b"[1,]", b"[1 2]", b"{1:2}", b'{"A":1,}', b'{"A"}', b"1_000", b"1 000")
    + (b"EUR", b"")
)


def broken(chance, command):
    """What is no JSON."""
    pieces, count = command.pieces, len(command.pieces)
    at = command.place(chance.pick(command.order))
    kind = chance.weighted({"value": 45, "comma": 12, "last comma": 8, "quote": 8, "colon": 8, "front": 8, "more": 8, "end": 8})
    front = command.member(command.order[at // 2], b"")
    if kind == "value":
        return no_json(at, at + 1, front + chance.pick(NO_VALUES), behind=1)
    if kind == "comma" and at + 2 < count:
        return no_json(at + 1, at + 2, pieces[at + 1].replace(b",", b" "), behind=1)
    if kind == "last comma":
        return no_json(count - 1, count, b"," + pieces[-1])
    if kind == "quote":
        return no_json(at, at + 1, pieces[at][1:])
    if kind == "colon":
        return no_json(at, at + 1, pieces[at].replace(b":", b"=", 1))
    if kind == "front":
        other = chance.pick((b"\xef\xbb\xbf", b"// a run\n", b"\xc2\xa0", b"%", b"'"))
        return no_json(0, 1, other + pieces[0])
    if kind == "more":
        other = chance.pick((b"{}", b"x", b",", b"]", b"\x00", b"1"))
        return no_json(count - 1, count, pieces[-1] + other)
    return no_json(count - 1, count, b"\n")


def other_value(chance, command):
    """JSON that is no object."""
    value = chance.pick((b"[]\n", b"null\n", b"1\n", b'"run"\n', b'["run"]\n'))
    return replaced(0, len(command.pieces), value, told=Told((OF_JSON,), b"30", "the body is no object in JSON", 0))


def too_long(chance, command):
    """White space behind it, more than a command may have."""
    told = Told((OF_LENGTH,), b"30", "the body has more than 65536 bytes", 0)
    count = len(command.pieces)
    return replaced(count, count, b" " * 65_536 + b"\n", told=told)


OF_COMMANDS = {wrong_member: 50, missing_member: 14, further_member: 8, broken: 25, other_value: 3}


def of_command(chance, command):
    if chance.below(1_000) < 4:
        return too_long(chance, command)
    return chance.weighted(OF_COMMANDS)(chance, command)


# lines of scripts that ask nothing, by the words that tell why
NO_WORD = "the first word is none of op, in, status, sent, holdings, sums"
NO_TYPE = "the message type is none of 540, 541, 542, 543"
NO_NUMBER = "the number of the message is not one to nine digits"
LINES = {
    NO_WORD: [b"SUMS", b" sums", b"sums\t", b"hello", b".", b"Status ALPHDEFF R1", b"\xff", b"stat ALPHDEFF R1", b"{4:", b"x" * 1_024],
    "the line has more than 1024 bytes": [b"x" * 1_025, b"status ALPHDEFF " + b"x" * 1_009, b"sums" + b" " * 1_021],
    "sums stands alone on its line": [b"sums ", b"sums now", b"sums" + b" " * 1_020],
    "a part is missing of status BIC REFERENCE": [b"status", b"status ", b"status ALPHDEFF"],
    "a part is missing of sent BIC K": [b"sent", b"sent ALPHDEFF"],
    "a part is missing of holdings BIC ACCOUNT": [b"holdings", b"holdings A-1", b"holdings ALPHDEFF\tA-1"],
    f"the BIC {NO_CODE}": [b"status ALPHDEF R1", b"sent  ALPHDEFF 1", b"holdings ALPHDEFFXX A-1", b"holdings  A"],
    f"the BIC {NO_BIC}": [b"status alphdeff R1", b"sent ALPH1EFF 1", b"holdings ALPHDE-F A-1"],
    NO_NUMBER: [b"sent ALPHDEFF ", b"sent ALPHDEFF x", b"sent ALPHDEFF 1234567890", b"sent ALPHDEFF +1", b"sent ALPHDEFF 1 "],
}
# the same of lines that have a body behind them all the same
HEADS = {
    "the line has more than 1024 bytes": [b"op " + b"x" * 1_100, b"in ALPHDEFF 540" + b" " * 1_010],
    "op stands alone on its line, and its body on the lines behind it": [b"op ", b"op {}", b'op {"op":"run"}'],
    "a part is missing of in BIC MT": [b"in", b"in ", b"in ALPHDEFF", b"in 540"],
    f"the BIC {NO_CODE}": [b"in ALPHDEF 540", b"in  ALPHDEFF 540", b"in 540 ALPHDEFF"],
    f"the BIC {NO_BIC}": [b"in alphdeff 540", b"in ALPH1EFF 540"],
    "in BIC MT stands alone on its line, and the body on the lines behind it": [b"in ALPHDEFF 540 {4:", b"in ALPHDEFF 543 "],
    NO_TYPE: [b"in ALPHDEFF 544", b"in ALPHDEFF MT540", b"in ALPHDEFF ", b"in ALPHDEFF  540", b"in ALPHDEFF 5400"],
}
# lines that ask something
ASKING = b"sums", b"status ALPHDEFF A1", b"sent BETADEFF 1", b"holdings ALPHDEFFXXX A-1", b"op", b"in ALPHDEFF 543"
