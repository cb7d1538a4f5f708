"""A plain reader of the operator's commands: JSON objects with exactly the named members (docs/RULES.md)."""

import math
import re

from .blocks import MOST_BYTES
from .codes import read_account, read_bic, read_currency, read_day, read_isin, read_reference
from .entries import (
    MOST_PAID,
    MOST_QUANTITY,
    Account,
    Issue,
    Participant,
    PayIn,
    PayOut,
    Redeem,
    Run,
    Security,
)

MOST_LEVELS = 127

NUMBER = re.compile(r"-?(?:0|[1-9][0-9]*)(?:\.[0-9]+)?(?:[eE][+-]?[0-9]+)?")
BLANKS = re.compile(r"[ \t\n\r]*")
ESCAPES = {'"': '"', "\\": "\\", "/": "/", "b": "\b", "f": "\f", "n": "\n", "r": "\r", "t": "\t"}


class NoCommand(Exception):
    """What is no command of the operator."""


def demand(condition):
    if not condition:
        raise NoCommand


class Reader:
    """A reader of one JSON text: texts are str, whole numbers without a sign int, all other numbers float."""

    def __init__(self, text):
        self.text, self.at = text, 0

    def skip_blanks(self):
        self.at = BLANKS.match(self.text, self.at).end()

    def meets(self, word):
        """Whether this word comes next; then it is behind us."""
        comes = self.text.startswith(word, self.at)
        self.at += len(word) if comes else 0
        return comes

    def meets_behind_blanks(self, word):
        self.skip_blanks()
        return self.meets(word)

    def unit(self):
        """The four hexadecimal digits of an escape."""
        digits = re.compile(r"[0-9a-fA-F]{4}").match(self.text, self.at)
        demand(digits)
        self.at += 4
        return int(digits[0], 16)

    def escape(self):
        """The character that an escape stands for, of which the backslash is behind us."""
        sign = self.text[self.at : self.at + 1]
        self.at += 1
        if sign != "u":
            demand(sign in ESCAPES and sign)
            return ESCAPES[sign]
        high = self.unit()
        if 0xD800 <= high < 0xDC00:
            demand(self.meets("\\u"))
            low = self.unit()
            demand(0xDC00 <= low < 0xE000)
            return chr(0x10000 + (high - 0xD800) * 0x400 + low - 0xDC00)
        demand(not 0xDC00 <= high < 0xE000)
        return chr(high)

    def string(self):
        """A text, of which the first quotation mark is behind us."""
        characters = []
        while not self.meets('"'):
            demand(self.at < len(self.text) and self.text[self.at] >= " ")
            if self.meets("\\"):
                characters.append(self.escape())
            else:
                characters.append(self.text[self.at])
                self.at += 1
        return "".join(characters)

    def number(self):
        match = NUMBER.match(self.text, self.at)
        demand(match)
        self.at = match.end()
        # what no floating-point number can be near is refused wherever it stands
        demand(math.isfinite(float(match[0])))
        is_whole = match[0].isdigit() and int(match[0]) < 2**64
        return int(match[0]) if is_whole else float(match[0])

    def array(self, levels):
        values = []
        if self.meets_behind_blanks("]"):
            return values
        while True:
            values.append(self.value(levels))
            if self.meets_behind_blanks("]"):
                return values
            demand(self.meets(","))

    def object(self, levels):
        members = {}
        if self.meets_behind_blanks("}"):
            return members
        while True:
            demand(self.meets_behind_blanks('"'))
            name = self.string()
            demand(self.meets_behind_blanks(":"))
            members[name] = self.value(levels)
            if self.meets_behind_blanks("}"):
                return members
            demand(self.meets(","))

    def value(self, levels):
        self.skip_blanks()
        for word, value in (("true", True), ("false", False), ("null", None)):
            if self.meets(word):
                return value
        if self.meets('"'):
            return self.string()
        if self.text[self.at : self.at + 1] in ("[", "{"):
            demand(levels < MOST_LEVELS)
            return self.array(levels + 1) if self.meets("[") else self.meets("{") and self.object(levels + 1)
        return self.number()


def read_json(text):
    """The value of a JSON text in UTF-8."""
    try:
        reader = Reader(text.decode("utf-8"))
    except UnicodeDecodeError:
        raise NoCommand from None
    value = reader.value(0)
    reader.skip_blanks()
    demand(reader.at == len(reader.text))
    return value


def coded(read):
    """A reader of a member that is a text of some code."""
    return lambda value: read(value.encode("utf-8")) if isinstance(value, str) else None


def whole(most):
    """A reader of a member that is a whole number from 1."""
    return lambda value: value if type(value) is int and 1 <= value <= most else None


def read_kind(text):
    return text if text in (b"UNIT", b"FAMT") else None


MEMBERS = {
    "ref": coded(read_reference),
    "bic": coded(read_bic),
    "account": coded(read_account),
    "isin": coded(read_isin),
    "kind": coded(read_kind),
    "quantity": whole(MOST_QUANTITY),
    "ccy": coded(read_currency),
    "amount": whole(MOST_PAID),
    "day": coded(read_day),
}

COMMANDS = {
    "participant": (Participant, ("ref", "bic")),
    "account": (Account, ("ref", "bic", "account")),
    "security": (Security, ("ref", "isin", "kind")),
    "issue": (Issue, ("ref", "account", "isin", "quantity")),
    "redeem": (Redeem, ("ref", "account", "isin", "quantity")),
    "payin": (PayIn, ("ref", "bic", "ccy", "amount")),
    "payout": (PayOut, ("ref", "bic", "ccy", "amount")),
    "run": (Run, ("ref", "day")),
}


def read_command(text):
    """The entry that a command asks for, or NoCommand."""
    demand(len(text) <= MOST_BYTES)
    members = read_json(text)
    demand(isinstance(members, dict))
    op = members.pop("op", None)
    demand(isinstance(op, str) and op in COMMANDS)
    make, names = COMMANDS[op]
    demand(sorted(members) == sorted(names))
    values = [MEMBERS[name](members[name]) for name in names]
    demand(None not in values)
    return make(*values)
