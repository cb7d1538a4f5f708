"""The journal of the accepted entries, plainly (docs/PROGRAM.md, 'Subcommands'): its rows, and how they are written as text and as
JSON. A row has the members that it has as JSON, and bytes for texts."""

import json
import re
from collections import Counter

from .books import is_cancelled, is_settled, pair_of, reason_of
from .commands import COMMANDS
from .desk import named_by
from .entries import Cancel, Instruct, Run, is_message, key_of
from .messages import RECEIPTS
from .reports import amount_text, quantity_text, terms

# the operation of each kind of command, and the names of its members
OPERATIONS = {kind: (op, names) for op, (kind, names) in COMMANDS.items()}

# rows


def command(entry):
    """What an entry was, but for its reference and its sender."""
    if isinstance(entry, Cancel):
        return {"op": "cancel", "mt": entry.message.mt, "previous": entry.message.previous}
    if isinstance(entry, Instruct):
        said = entry.message
        return {**terms(said), "op": "instruct", "mt": said.mt, "account": said.account, "counterparty": said.counterparty}
    op, names = OPERATIONS[type(entry)]
    # the reference comes first
    return {"op": op, **dict(zip(names[1:], entry[1:]))}


def run_of(books, pair):
    """The number of the run that settled a pair."""
    return next(settlement.run for settlement in books.settled if settlement.pair == pair)


def outcome_of_instruction(books, number):
    pair = pair_of(books.pairs, number)
    mate = next((it for it in pair or () if it != number), None)
    if is_settled(books, number):
        run = run_of(books, pair)
        return {"state": "settled", "mate": mate, "entry": run, "day": books.history[run - 1].day}
    if is_cancelled(books, number):
        return {"state": "cancelled", "mate": mate}
    return {"state": "matched", "mate": mate, "reason": reason_of(books, pair)} if pair else {"state": "unmatched"}


def outcome_of_cancellation(books, entry):
    named = named_by(books.history, entry)
    if is_cancelled(books, named):
        return {"state": "done", "instruction": named}
    return {"state": "late" if is_settled(books, named) else "waits", "instruction": named}


def outcome_of_run(reply):
    settled, waiting = re.fullmatch(rb"accepted \d+ settled (\d+) waiting (\d+)", reply.text).groups()
    return {"state": "ran", "settled": int(settled), "waiting": int(waiting)}


def outcome(books, number):
    """How an entry fares by now."""
    entry = books.history[number - 1]
    if isinstance(entry, Instruct):
        return outcome_of_instruction(books, number)
    if isinstance(entry, Cancel):
        return outcome_of_cancellation(books, entry)
    return outcome_of_run(books.replies[number - 1]) if isinstance(entry, Run) else {"state": "booked"}


def cause_of(books, message):
    """The number of the entry because of which a message was sent: the later one of a pair, or the run that settled it."""
    pair = pair_of(books.pairs, message.about)
    return pair.later if message.type == 548 else run_of(books, pair)


def messages(books):
    """Each message in the order in which they were sent, with the number of the entry because of which it was."""
    sent_to = Counter()
    for message in books.sent:
        sent_to[message.bic] += 1
        yield cause_of(books, message), {"bic": message.bic, "mt": message.type, "number": sent_to[message.bic]}


def rows(books, first):
    """Each entry from a number on."""
    sent = list(messages(books))
    found = []
    for number, entry in list(enumerate(books.history, 1))[first - 1 :]:
        _, reference = key_of(entry)
        own = {"number": number, "sender": entry.sender if is_message(entry) else None, "ref": reference}
        because = [message for cause, message in sent if cause == number]
        found.append({**own, "command": command(entry), "outcome": outcome(books, number), "messages": because})
    return found


# lines of text


def instruction_words(row):
    does, own, other = (b"receives", b"to", b"from") if row["mt"] in RECEIPTS else (b"delivers", b"from", b"to")
    paid = [b"free of payment"] if row["ccy"] is None else [b"for", row["ccy"], amount_text(row["ccy"], row["amount"])]
    moved = row["kind"], quantity_text(row["quantity"]), row["isin"]
    parties = own, row["account"], other, row["counterparty"]
    return [b"MT%d" % row["mt"], does, *moved, *parties, b"on", row["day"] + b",", *paid]


# what an entry was, in words
WHAT = {
    "participant": lambda row: [b"participant", row["bic"]],
    "account": lambda row: [b"account", row["account"], b"of", row["bic"]],
    "security": lambda row: [b"security", row["isin"], row["kind"]],
    "issue": lambda row: [b"issue", quantity_text(row["quantity"]), row["isin"], b"to", row["account"]],
    "redeem": lambda row: [b"redeem", quantity_text(row["quantity"]), row["isin"], b"from", row["account"]],
    "payin": lambda row: [b"pay in", row["ccy"], amount_text(row["ccy"], row["amount"]), b"to", row["bic"]],
    "payout": lambda row: [b"pay out", row["ccy"], amount_text(row["ccy"], row["amount"]), b"from", row["bic"]],
    "instruct": instruction_words,
    "cancel": lambda row: [b"MT%d" % row["mt"], b"cancels", row["previous"]],
    "run": lambda row: [b"settlement run", row["day"]],
}

# how it fares
FARED = {
    "booked": lambda row: b"booked",
    "unmatched": lambda row: b"unmatched",
    "matched": lambda row: b"matched with %d, %s" % (row["mate"], row["reason"]),
    "settled": lambda row: b"settled %s in entry %d, matched with %d" % (row["day"], row["entry"], row["mate"]),
    "cancelled": lambda row: b"cancelled, matched with %d" % row["mate"] if row["mate"] else b"cancelled",
    "done": lambda row: b"entry %d is cancelled" % row["instruction"],
    "waits": lambda row: b"waits for the other side of entry %d" % row["instruction"],
    "late": lambda row: b"entry %d was settled" % row["instruction"],
    "ran": lambda row: b"settled %d waiting %d" % (row["settled"], row["waiting"]),
}


def lines(row):
    """An entry, and the messages that were sent because of it."""
    said, fares = row["command"], row["outcome"]
    told = b" ".join(WHAT[said["op"]](said)), FARED[fares["state"]](fares)
    yield b"%10d  %-11s  %-16s  %s: %s" % (row["number"], row["sender"] or b"operator", row["ref"], *told)
    for message in row["messages"]:
        yield b" " * 12 + b"%d to %-11s  number %d" % (message["mt"], message["bic"], message["number"])


def journal(books, words):
    """What is printed of books for the words of a journal, `--json` and `--from` with the number of the first entry."""
    first = int(words[words.index("--from") + 1]) if "--from" in words else 1
    found = rows(books, first)
    if "--json" in words:
        return json.dumps({"journal": found}, default=bytes.decode, sort_keys=True, separators=(",", ":")).encode() + b"\n"
    return b"".join(line + b"\n" for row in found for line in lines(row))
