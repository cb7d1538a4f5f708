"""Why a text is no operator's command, and why a line of a script asks nothing, in plain words."""

import math
import re

from .blocks import MOST_BYTES
from .codes import expected_check_digit, isin_fault, read_bic, read_currency, read_day, read_reference
from .commands import COMMANDS, MOST_LEVELS, read_json
from .entries import MOST_PAID, MOST_QUANTITY

# so many bytes are told of a line, of what stands behind a number, of a reference, and of a member's name
MOST_TOLD = 40

# lines of scripts

FORMS = {b"in": "in BIC MT", b"status": "status BIC REFERENCE", b"sent": "sent BIC K", b"holdings": "holdings BIC ACCOUNT"}
MOST_LINE = 1_024
TYPES = b"540", b"541", b"542", b"543"
CODE_LENGTH = "has not as many characters as such a code: an ISIN 12, a BIC 8 or 11"
BIC_SHAPE = "is not four letters or digits, two letters for the country, and letters or digits, all in capitals"


def why_no_bic(text):
    if read_bic(text):
        return ""
    return BIC_SHAPE if len(text) in (8, 11) else CODE_LENGTH


def why_no_type(text):
    if text in TYPES:
        return ""
    if text.split(b" ")[0] in TYPES:
        return "in BIC MT stands alone on its line, and the body on the lines behind it"
    return "the message type is none of 540, 541, 542, 543"


def why_no_request(line):
    """Why a line asks nothing, with a body behind it or without one; '' of one that asks."""
    if len(line) > MOST_LINE:
        return "the line has more than 1024 bytes"
    word, space, rest = line.partition(b" ")
    if word == b"op":
        return space and "op stands alone on its line, and its body on the lines behind it"
    if word == b"sums":
        return space and "sums stands alone on its line"
    if word not in FORMS:
        return "the first word is none of op, in, status, sent, holdings, sums"
    bic, space, behind = rest.partition(b" ")
    if not space:
        return f"a part is missing of {FORMS[word]}"
    if why_no_bic(bic):
        return f"the BIC {why_no_bic(bic)}"
    if word == b"sent" and not re.fullmatch(rb"[0-9]{1,9}", behind):
        return "the number of the message is not one to nine digits"
    return why_no_type(behind) if word == b"in" else ""


# JSON


class Stop(Exception):
    """Behind how many bytes a text stops being JSON: the one that does not fit is the last of them."""


class Walker:
    """Walks through a text as a reader of JSON does, up to what does not fit."""

    def __init__(self, text):
        self.text, self.at = text, 0

    def next(self):
        """The byte that comes next; nothing at the end."""
        return self.text[self.at : self.at + 1]

    def stop_at_next(self):
        raise Stop(min(self.at + 1, len(self.text)))

    def stop_here(self):
        raise Stop(self.at)

    def take(self, most=1):
        self.at = min(self.at + most, len(self.text))
        return self.text[self.at - 1 : self.at]

    def after_blanks(self):
        while self.next() and self.next() in b" \t\n\r":
            self.at += 1
        return self.next()

    def word(self, word):
        for byte in word:
            if self.next() != bytes([byte]):
                self.stop_at_next()
            self.take()

    def hexadecimal(self):
        digits = self.text[self.at : self.at + 4]
        self.take(4)
        if not re.fullmatch(rb"[0-9a-fA-F]{4}", digits):
            self.stop_here()
        return int(digits, 16)

    def escape(self):
        sign = self.next()
        self.take()
        if sign != b"u":
            return None if sign and sign in b'"\\/bfnrt' else self.stop_here()
        high = self.hexadecimal()
        if 0xDC00 <= high < 0xE000:
            self.stop_here()
        if 0xD800 <= high < 0xDC00:
            self.word(b"\\u")
            if not 0xDC00 <= self.hexadecimal() < 0xE000:
                self.stop_here()
        return None

    def string(self):
        """A text with its quotation marks."""
        self.take()
        while self.next() != b'"':
            if self.next() < b" ":
                self.stop_at_next()
            if self.take() == b"\\":
                self.escape()
        self.take()

    def digits(self):
        if not re.match(rb"[0-9]", self.next()):
            self.stop_at_next()
        while re.match(rb"[0-9]", self.next()):
            self.take()

    def number(self):
        begin = self.at
        if self.next() == b"-":
            self.take()
        if self.next() == b"0":
            self.take()
            if re.match(rb"[0-9]", self.next()):
                self.stop_at_next()
        else:
            self.digits()
        if self.next() == b".":
            self.take()
            self.digits()
        if self.next() in (b"e", b"E"):
            self.take()
            if self.next() in (b"+", b"-"):
                self.take()
            self.digits()
        if not math.isfinite(float(self.text[begin : self.at])):
            self.stop_here()

    def values(self, close, read):
        """What stands between the brackets of an array or an object."""
        self.take()
        if self.after_blanks() == close:
            return self.take()
        while True:
            read()
            if self.after_blanks() == close:
                return self.take()
            if self.next() != b",":
                self.stop_at_next()
            self.take()

    def member(self, levels):
        if self.after_blanks() != b'"':
            self.stop_at_next()
        self.string()
        if self.after_blanks() != b":":
            self.stop_at_next()
        self.take()
        self.value(levels)

    def value(self, levels=0):
        first = self.after_blanks()
        words = {b"t": b"true", b"f": b"false", b"n": b"null"}
        if first in (b"[", b"{"):
            if levels == MOST_LEVELS:
                self.stop_at_next()
            read = {b"[": self.value, b"{": self.member}[first]
            self.values(b"]" if first == b"[" else b"}", lambda: read(levels + 1))
        elif first == b'"':
            self.string()
        elif first in words:
            self.word(words[first])
        elif first == b"-" or re.match(rb"[0-9]", first):
            self.number()
        else:
            self.stop_at_next()

    def whole(self):
        self.value()
        if self.after_blanks():
            self.stop_at_next()


def json_stop(text):
    """The line and the column at which a text stops being JSON, of one that is not UTF-8 where it is not; None where it is JSON."""
    try:
        text.decode("utf-8")
        Walker(text).whole()
    except (Stop, UnicodeDecodeError) as stop:
        front = text[: stop.args[0] if isinstance(stop, Stop) else stop.start + 1]
        return front.count(b"\n") + 1, max(len(front) - (front.rfind(b"\n") + 1), 1)
    return None


# commands

MOST = {"ref": 16, "account": 35, "quantity": MOST_QUANTITY, "amount": MOST_PAID}


def why_not_printable(text):
    return "" if re.fullmatch(rb"[\x20-\x7e]*", text) else "has a character other than printable ASCII"


def why_no_shape(name, text):
    if text == b"":
        return "is empty"
    return f"has more than {MOST[name]} characters" if len(text) > MOST[name] else ""


def why_no_isin(text):
    fault = isin_fault(text)
    if fault is None:
        return ""
    return {
        "length": CODE_LENGTH,
        "prefix": "does not begin with two capital letters",
        "body": "has a character other than A to Z and 0 to 9",
    }.get(fault) or f"does not end with its check digit, which is {expected_check_digit(text[:11])}"


def why_no_day(text):
    if not re.fullmatch(rb"[0-9]{8}", text):
        return "is not eight digits, as YYYYMMDD"
    return "" if read_day(text) else "is no date of the calendar"


def why_no_currency(text):
    if read_currency(text):
        return ""
    return "is not in capital letters" if read_currency(text.upper()) else "is none of CHF, EUR, GBP, JPY, KWD, USD"


def why_no_text(name, text):
    """Why a member's text does not fit; '' where it does."""
    if name in ("ref", "account", "bic", "isin") and why_not_printable(text):
        return why_not_printable(text)
    if name in ("ref", "account"):
        slash = name == "ref" and not read_reference(text) and "begins or ends with a slash, or has two together"
        return why_no_shape(name, text) or slash or ""
    if name == "kind":
        return "" if text in (b"UNIT", b"FAMT") else "is neither UNIT nor FAMT"
    return {"bic": why_no_bic, "isin": why_no_isin, "day": why_no_day, "ccy": why_no_currency}[name](text)


def why_no_member(name, members):
    if name not in members:
        return "is missing"
    value = members[name]
    if name in ("quantity", "amount"):
        if type(value) is not int:
            return "is no whole number in digits alone"
        return "" if 1 <= value <= MOST[name] else f"is not from 1 to {MOST[name]}"
    return why_no_text(name, value.encode("utf-8")) if isinstance(value, str) else "is no text in quotes"


def front(text):
    """So much of a text as is told, as it is shown."""
    return re.sub(rb"[^\x20-\x7e]", b"?", text[:MOST_TOLD])


def why_no_value(value):
    """Why a value of JSON is no command; '' where it is one."""
    if not isinstance(value, dict):
        return "the body is no object in JSON"
    if "op" not in value:
        return "op is missing"
    op = value["op"]
    if not isinstance(op, str) or op not in COMMANDS:
        return "op is none of participant, account, security, issue, redeem, payin, payout, run"
    names = COMMANDS[op][1]
    for name in names:
        if why_no_member(name, value):
            return f"{name} {why_no_member(name, value)}"
    others = sorted(it.encode("utf-8", "surrogatepass") for it in value if it not in (*names, "op"))
    return f"a member is there that this op does not have: {front(others[0]).decode()}" if others else ""


def why_no_command(text):
    """The line of the text that is told and the words; None of a text that is a command."""
    if len(text) > MOST_BYTES:
        return 1, "the body has more than 65536 bytes"
    stop = json_stop(text)
    if stop:
        return stop[0], "the body is no JSON, from its line %d, column %d on" % stop
    words = why_no_value(read_json(text))
    return (1, words) if words else None


def command_reference(text):
    """The reference that a text gives itself, whether it is a command or not; nothing where it gives none."""
    value = None if json_stop(text) else read_json(text)
    reference = value.get("ref") if isinstance(value, dict) else None
    return reference.encode("utf-8") if isinstance(reference, str) else b""
