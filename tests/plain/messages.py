"""A plain reader of settlement messages, and the lines that tell what one says (docs/RULES.md)."""

import re
from collections import namedtuple

from .blocks import Refused
from .codes import (
    DECIMALS,
    read_account,
    read_bic,
    read_currency,
    read_day,
    read_isin,
    read_number,
    read_reference,
    write_number,
)

RECEIPTS = (540, 541)
AGAINST_PAYMENT = (541, 543)

Instruction = namedtuple(
    "Instruction", "mt reference day isin kind quantity account settlement place counterparty cash"
)
Cancellation = namedtuple("Cancellation", "mt reference previous")

# a row of the profile: the word of its refusals, where its field stands, and how a value is read
Row = namedtuple("Row", "word path tags qualifier read")

SHORT_CODE = rb"[A-Z0-9]{4}"


def behind(form, read):
    """A reader of what a form, a regular expression, captures."""

    def read_behind(value):
        match = re.fullmatch(form, value, re.DOTALL)
        return read(*match.groups()) if match else None

    return read_behind


def read_dated(tag, value):
    """A settlement day, behind which the option C has six digits that are not looked at."""
    form = rb":SETT//(.{8})" if tag == b"98A" else rb":SETT//(.{8})[0-9]{6}"
    return behind(form, read_day)(value)


def read_quantity(kind, number):
    value = read_number(number, 0)
    return value and (kind, value)


def read_amount(currency, number):
    if read_currency(currency) is None:
        return None
    value = read_number(number, DECIMALS[currency])
    return value and (currency, value)


def same(value):
    return value


def row(word, path, tag, qualifier, form, read):
    """A row with one tag, of which only the first line of the value is read."""
    return Row(word, path, (tag,), qualifier, lambda _, value: behind(form, read)(value))


GENL, LINK, TRADDET, FIAC = (b"GENL",), (b"GENL", b"LINK"), (b"TRADDET",), (b"FIAC",)
SETDET, PARTY, AMOUNT = (b"SETDET",), (b"SETDET", b"SETPRTY"), (b"SETDET", b"AMT")

FUNCTION = row(b"23G", GENL, b"23G", None, b"(" + SHORT_CODE + b")(?:/" + SHORT_CODE + b")?", same)
SEME = row(b"SEME", GENL, b"20C", b"SEME", rb":SEME//(.*)", read_reference)
PREV = row(b"PREV", LINK, b"20C", b"PREV", rb":PREV//(.*)", read_reference)
DATE = Row(b"DATE", TRADDET, (b"98A", b"98C"), b"SETT", read_dated)
SECURITY = row(b"35B", TRADDET, b"35B", None, rb"ISIN (.*)", read_isin)
QUANTITY = row(b"36B", FIAC, b"36B", b"SETT", rb":SETT//(UNIT|FAMT)/(.*)", read_quantity)
SAFE = row(b"SAFE", FIAC, b"97A", b"SAFE", rb":SAFE//(.*)", read_account)
SETR = row(b"SETR", SETDET, b"22F", b"SETR", b":SETR/(?:[A-Z0-9]{1,8})?/(" + SHORT_CODE + b")", same)
PSET = row(b"PSET", PARTY, b"95P", b"PSET", rb":PSET//(.*)", read_bic)
DEAG = row(b"DEAG", PARTY, b"95P", b"DEAG", rb":DEAG//(.*)", read_bic)
REAG = row(b"REAG", PARTY, b"95P", b"REAG", rb":REAG//(.*)", read_bic)
CASH = row(b"19A", AMOUNT, b"19A", b"SETT", rb":SETT//([A-Z]{3})(.*)", read_amount)


def belongs(field, to):
    """Whether a field is one that a row speaks of."""
    qualified = to.qualifier is None or field.lines[0].startswith(b":" + to.qualifier + b"/")
    return field.path == to.path and field.tag in to.tags and qualified


def read_row(fields, wanted):
    """The value of the one field of a row, or Refused."""
    found = [field for field in fields if belongs(field, wanted)]
    if not found:
        raise Refused(b"5", wanted.word)
    if len(found) > 1:
        raise Refused(b"6", wanted.word)
    [field] = found
    value = wanted.read(field.tag, field.lines[0])
    if value is None or (len(field.lines) > 1 and wanted is not SECURITY):
        raise Refused(b"7", wanted.word)
    return value


def read_message(mt, fields):
    """The instruction or the cancellation that fields say, or Refused with what the first row that fails says."""
    function = read_row(fields, FUNCTION)
    if function not in (b"NEWM", b"CANC"):
        raise Refused(b"8")
    reference = read_row(fields, SEME)
    if function == b"CANC":
        return Cancellation(mt, reference, read_row(fields, PREV))
    day = read_row(fields, DATE)
    isin = read_row(fields, SECURITY)
    kind, quantity = read_row(fields, QUANTITY)
    account = read_row(fields, SAFE)
    settlement = read_row(fields, SETR)
    place = read_row(fields, PSET)
    counterparty = read_row(fields, DEAG if mt in RECEIPTS else REAG)
    cash = read_row(fields, CASH) if mt in AGAINST_PAYMENT else None
    return Instruction(mt, reference, day, isin, kind, quantity, account, settlement, place, counterparty, cash)


def fields_text(message):
    """The lines that tell what a message says, with line feeds between them."""
    if isinstance(message, Cancellation):
        lines = [b"function CANC", b"reference " + message.reference, b"previous " + message.previous]
        return b"\n".join(lines)
    lines = [
        b"function NEWM",
        b"reference " + message.reference,
        b"date " + message.day,
        b"isin " + message.isin,
        b"quantity %s %s" % (message.kind, write_number(message.quantity, 0)),
        b"account " + message.account,
        b"settlement " + message.settlement,
        b"place " + message.place,
        b"counterparty " + message.counterparty,
    ]
    if message.cash:
        currency, amount = message.cash
        lines.append(b"amount %s %s" % (currency, write_number(amount, DECIMALS[currency])))
    return b"\n".join(lines)
