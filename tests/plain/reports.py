"""The report of what stands, plainly (docs/PROGRAM.md, 'Subcommands'): its rows, and how they are written as text and as JSON.
A row has the members that it has as JSON, and bytes for texts."""

import json

from .books import (
    cash as cash_of,
    holdings,
    is_cancelled_pair,
    is_receipt,
    is_requested,
    numbers_of_sides,
    participants,
    position,
    reason_of,
    settlement_day,
    sides_of,
)
from .codes import DECIMALS, write_number
from .desk import sums as sums_of
from .entries import Account, Instruct, entries, numbered
from .written import FUTURE, LACK, MONEY

# rows


def terms(instruction):
    """What an instruction moves, and what is paid for it."""
    currency, amount = instruction.cash or (None, None)
    moved = {"day": instruction.day, "isin": instruction.isin, "kind": instruction.kind, "quantity": instruction.quantity}
    return {**moved, "ccy": currency, "amount": amount}


def lacking(books, pair, reason):
    """How much is there too little of now, of what the last try of a pair found short; None where no run tried it."""
    history, settled = books.history, books.settled
    delivery, receipt = sides_of(history, pair)
    if reason == FUTURE:
        return None
    if reason == LACK:
        given = delivery.message
        return max(0, given.quantity - position(history, settled, given.account, given.isin))
    currency, amount = receipt.message.cash
    return max(0, amount - cash_of(history, settled, receipt.sender, currency))


def side(books, number):
    """A side of a pair."""
    entry = books.history[number - 1]
    own = {"account": entry.message.account, "bic": entry.sender, "ref": entry.message.reference}
    return {**own, "cancel": is_requested(books.history, number), "number": number}


def pending_row(books, pair):
    reason = reason_of(books, pair)
    deliverer, receiver = (side(books, number) for number in numbers_of_sides(books.history, pair))
    waits = {"reason": reason, "lacking": lacking(books, pair, reason), "deliverer": deliverer, "receiver": receiver}
    return {**terms(books.history[pair.later - 1].message), **waits}


def pending(books):
    """Each pair that waits, in order of settlement day, then of number."""
    settled = [settlement.pair for settlement in books.settled]
    waiting = [pair for pair in books.pairs if pair not in settled and not is_cancelled_pair(books.history, pair)]
    waiting.sort(key=lambda pair: (settlement_day(books.history, pair), pair.later))
    return [pending_row(books, pair) for pair in waiting]


def comes_near(one, other):
    """Whether of two instructions one delivers, and one receives, the same security, and each names the other's sender."""
    names = (one.message.counterparty, other.message.counterparty) == (other.sender, one.sender)
    return names and is_receipt(one) != is_receipt(other) and one.message.isin == other.message.isin


def differences(one, other):
    """In what two instructions differ that come near each other."""
    currency, amount = one.cash or (None, None)
    its_currency, its_amount = other.cash or (None, None)
    are_paid = one.cash is not None and other.cash is not None
    differ = {
        "kind": one.kind != other.kind,
        "quantity": one.quantity != other.quantity,
        "day": one.day != other.day,
        "payment": (one.cash is None) != (other.cash is None),
        "currency": are_paid and currency != its_currency,
        "amount": are_paid and currency == its_currency and amount != its_amount,
    }
    return [name for name, is_so in differ.items() if is_so]


def nearest(unmatched_ones, entry):
    """The least-numbered one that comes near; None where none does."""
    near = [(number, other) for number, other in unmatched_ones if comes_near(entry, other)]
    if not near:
        return None
    number, other = near[0]
    return {"number": number, "ref": other.message.reference, "differs": differences(entry.message, other.message)}


def unmatched(books):
    """Each instruction in no pair that is not cancelled, in order of number."""
    paired = [number for pair in books.pairs for number in pair]
    instructed = numbered(books.history, Instruct)
    left = [it for it in instructed if it[0] not in paired and not is_requested(books.history, it[0])]
    rows = []
    for number, entry in left:
        said = entry.message
        own = {"mt": said.mt, "ref": said.reference, "account": said.account, "counterparty": said.counterparty}
        rows.append({**terms(said), **own, "bic": entry.sender, "number": number, "nearest": nearest(left, entry)})
    return rows


def accounts(books):
    """Each account as it was registered, with each security that it holds; one that holds nothing has a row too."""
    rows = []
    for entry in entries(books.history, Account):
        held = holdings(books.history, books.settled, entry.account) or [(None, None, None)]
        own = {"account": entry.account, "owner": entry.bic}
        rows += [{**own, "isin": isin, "kind": kind, "quantity": quantity} for isin, kind, quantity in held]
    return rows


def cash(books):
    """Each participant as it was registered, with each currency of which it has some, in order of the letters."""
    pairs = [(bic, currency) for bic in participants(books.history) for currency in sorted(DECIMALS)]
    rows = [(bic, currency, cash_of(books.history, books.settled, bic, currency)) for bic, currency in pairs]
    return [{"bic": bic, "ccy": currency, "amount": amount} for bic, currency, amount in rows if amount > 0]


def sums(books):
    return json.loads(sums_of(books).text)


# lines of text


def quantity_text(quantity):
    return write_number(quantity, 0)


def amount_text(currency, amount):
    return write_number(amount, DECIMALS[currency])


def paid_text(row):
    return b"%s %20s" % (row["ccy"], amount_text(row["ccy"], row["amount"]))


def terms_text(row):
    paid = b"free of payment" if row["ccy"] is None else paid_text(row)
    return b"%s  %s  %s %16s  %s" % (row["day"], row["isin"], row["kind"], quantity_text(row["quantity"]), paid)


def lacking_text(row):
    if row["lacking"] is None:
        return b""
    if row["lacking"] == 0:
        return b"  what it lacked has come"
    if row["reason"] == MONEY:
        return b"  lacks %s %s" % (row["ccy"], amount_text(row["ccy"], row["lacking"]))
    return b"  lacks %s %s" % (row["kind"], quantity_text(row["lacking"]))


def front_text(row, behind):
    """What a pair moves, as wide with no payment as with one where something stands behind it."""
    return terms_text(row).ljust(71) if behind else terms_text(row)


def side_text(does, row):
    asked = b"  cancellation asked" if row["cancel"] else b""
    return b"%10d  %s  %-11s  %-16s  %s%s" % (row["number"], does, row["bic"], row["ref"], row["account"], asked)


def pending_lines(row):
    lacks = lacking_text(row)
    yield b"%s  %s%s" % (row["reason"], front_text(row, lacks), lacks)
    yield side_text(b"delivers", row["deliverer"])
    yield side_text(b"receives", row["receiver"])


def nearest_text(row):
    if row is None:
        return b"none comes near"
    differs = "".join(" " + name for name in row["differs"]).encode()
    return b"nearest %d, %s, differs in%s" % (row["number"], row["ref"], differs)


def unmatched_lines(row):
    does = b"delivers to" if row["mt"] in (542, 543) else b"receives of"
    yield b"%10d  %-11s  %-16s  %s" % (row["number"], row["bic"], row["ref"], row["account"])
    yield b" " * 12 + b"%s %-11s  %s" % (does, row["counterparty"], terms_text(row))
    yield b" " * 12 + nearest_text(row["nearest"])


def account_lines(row):
    held = b"nothing"
    if row["isin"] is not None:
        held = b"%s  %s %16s" % (row["isin"], row["kind"], quantity_text(row["quantity"]))
    yield b"%-35s  %-11s  %s" % (row["account"], row["owner"], held)


def cash_lines(row):
    yield b"%-11s  %s" % (row["bic"], paid_text(row))


def lines_of_sums(totals):
    for row in totals["cash"]:
        currency = row["ccy"].encode()
        held, net = amount_text(currency, row["held"]), amount_text(currency, row["net"])
        yield b"%-12s  held %20s  paid in less paid out %20s" % (currency, held, net)
    for row in totals["securities"]:
        held, outstanding = quantity_text(row["held"]), quantity_text(row["outstanding"])
        yield b"%-12s  held %20s  issued less redeemed  %20s" % (row["isin"].encode(), held, outstanding)


def lines_of_rows(lines):
    return lambda rows: (line for row in rows for line in lines(row))


# each part in the order of the text: what is in it, and its lines
PARTS = {
    "pending": (pending, lines_of_rows(pending_lines)),
    "unmatched": (unmatched, lines_of_rows(unmatched_lines)),
    "accounts": (accounts, lines_of_rows(account_lines)),
    "cash": (cash, lines_of_rows(cash_lines)),
    "sums": (sums, lines_of_sums),
}


def report(books, words):
    """What is printed of books for the words of a report, which name its parts (none: all), and may have `--json`."""
    found = {part: rows(books) for part, (rows, _) in PARTS.items() if part in words or not set(words) & set(PARTS)}
    if "--json" in words:
        return json.dumps(found, default=bytes.decode, sort_keys=True, separators=(",", ":")).encode() + b"\n"
    parts = [[part.encode(), *PARTS[part][1](rows)] for part, rows in found.items()]
    return b"\n".join(b"".join(line + b"\n" for line in lines) for lines in parts)
