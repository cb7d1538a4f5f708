"""The messages that the desk writes, plainly: status advices and confirmations (docs/RULES.md)."""

from collections import namedtuple

from .codes import DECIMALS, write_number
from .messages import RECEIPTS, Cancellation

# one status of an advice: the processing, and where there is one the reason and its narrative
Status = namedtuple("Status", "processing reason narrative", defaults=(None, None))

FUTURE, LACK, MONEY = b"FUTU", b"LACK", b"MONY"

# where a message stands, as the statuses that say so
UNMATCHED = [Status(b"IPRC//PACK"), Status(b"MTCH//NMAT", b"NMAT//CMIS")]
CANCELLED = [Status(b"IPRC//CAND")]
CANCELLATION_DONE = [Status(b"CPRC//CAND")]
CANCELLATION_WAITS = [Status(b"CPRC//PACK")]


def matched(reason):
    return [Status(b"IPRC//PACK"), Status(b"MTCH//MACH"), Status(b"SETT//PEND", b"PEND//" + reason)]


def refused(message, number):
    processing = b"CPRC//REJT" if isinstance(message, Cancellation) else b"IPRC//REJT"
    return [Status(processing, b"REJT//NARR", b"DESK %d" % number)]


def own_of_answer(entries):
    return b"S%015d" % entries


def own_of_sent(number):
    return b"D%015d" % number


def sequence(name, *lines):
    return [b":16R:" + name, *lines, b":16S:" + name]


def block(lines):
    """The text of a block. No line end stands behind the last line."""
    return b"\r\n".join([b"{4:", *lines, b"-}"])


def status_lines(status):
    """The lines of the sequence of one status."""
    reasons = []
    if status.reason:
        narrative = [b":70D::REAS//" + status.narrative] if status.narrative else []
        reasons = sequence(b"REAS", b":24B::" + status.reason, *narrative)
    return sequence(b"STAT", b":25D::" + status.processing, *reasons)


def status_text(own, message, statuses):
    """The status advice about an instruction or a cancellation."""
    lines = [b":20C::SEME//" + own, b":23G:" + (b"CAST" if isinstance(message, Cancellation) else b"INST")]
    lines += sequence(b"LINK", b":13A::LINK//%d" % message.mt, b":20C::RELA//" + message.reference)
    for status in statuses:
        lines += status_lines(status)
    return block(sequence(b"GENL", *lines))


def confirming_type(mt):
    """The type of the message that confirms one of 540 to 543."""
    return mt + 4


def confirmation_text(own, instruction, day):
    """The confirmation that an instruction was settled by a run of this day."""
    related = sequence(b"LINK", b":20C::RELA//" + instruction.reference)
    general = sequence(b"GENL", b":20C::SEME//" + own, b":23G:NEWM", *related)
    trade = sequence(b"TRADDET", b":98A::ESET//" + day, b":35B:ISIN " + instruction.isin)
    quantity = b":36B::ESTT//%s/%s" % (instruction.kind, write_number(instruction.quantity, 0))
    account = sequence(b"FIAC", quantity, b":97A::SAFE//" + instruction.account)
    role = b"DEAG" if instruction.mt in RECEIPTS else b"REAG"
    parties = sequence(b"SETPRTY", b":95P::%s//%s" % (role, instruction.counterparty))
    parties += sequence(b"SETPRTY", b":95P::PSET//DESKDEFF")
    amount = []
    if instruction.cash:
        currency, value = instruction.cash
        amount = sequence(b"AMT", b":19A::ESTT//" + currency + write_number(value, DECIMALS[currency]))
    settling = sequence(b"SETDET", b":22F::SETR//" + instruction.settlement, *parties, *amount)
    return block(general + trade + account + settling)


def holdings_text(own, day, account, rows):
    """The statement of an account's holdings on a day; a row is a security, its kind and a quantity."""
    general = [b":28E:1/ONLY", b":20C::SEME//" + own, b":23G:NEWM", b":98A::STAT//" + day]
    general += [b":22F::SFRE//ADHO", b":22F::CODE//COMP", b":22F::STTY//CUST", b":22F::STBA//SETT"]
    general += [b":97A::SAFE//" + account, b":17B::ACTI//" + (b"Y" if rows else b"N"), b":17B::CONS//N"]
    securities = []
    for isin, kind, quantity in rows:
        balance = b":93B::AGGR//%s/%s" % (kind, write_number(quantity, 0))
        securities += sequence(b"FIN", b":35B:ISIN " + isin, balance)
    return block(sequence(b"GENL", *general) + (sequence(b"SUBSAFE", *securities) if rows else []))
