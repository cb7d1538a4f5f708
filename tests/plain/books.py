"""What follows from the accepted entries, plainly: pairs, cancellations, balances and settlements (docs/RULES.md,
'The desk'). The history alone is state: pairs and settlements are lists that grow with it, since no later entry
changes an earlier pair or settlement; all else is made anew from these whenever it is asked for."""

from collections import namedtuple

from .entries import (
    ONE_PASS,
    Account,
    Cancel,
    Instruct,
    Issue,
    Participant,
    PayIn,
    PayOut,
    Redeem,
    Run,
    Security,
    entries,
    numbered,
)
from .messages import RECEIPTS
from .written import FUTURE, LACK, MONEY

# a pair by the numbers of its two entries; a settlement by the number of its run and by its pair
Pair = namedtuple("Pair", "earlier later")
Settlement = namedtuple("Settlement", "run pair")

# a sent message: its addressee, its type, the number of the instruction that it is about, and its text
Sent = namedtuple("Sent", "bic type about text")

# the accepted entries, and what follows from each: the pairs, the settlements, the sent messages and the replies
Books = namedtuple("Books", "history pairs settled sent replies")

EMPTY = Books([], [], [], [], [])


# what is registered


def participants(history):
    return [entry.bic for entry in entries(history, Participant)]


def owner_of(history, account):
    return next((entry.bic for entry in entries(history, Account) if entry.account == account), None)


def kind_of(history, isin):
    return next((entry.kind for entry in entries(history, Security) if entry.isin == isin), None)


def last_day(history):
    """The day of the last run as a number; one before all days where there was none."""
    return max([int(entry.day) for entry in entries(history, Run)], default=-1)


# cancellations


def names(cancellation, instruct):
    """Whether a cancellation names an instruction: its sender's, of its type, by the reference of it."""
    order, instruction = cancellation.message, instruct.message
    mine = (cancellation.sender, order.mt, order.previous)
    return mine == (instruct.sender, instruction.mt, instruction.reference)


def is_requested(history, number):
    """Whether a cancellation names the instruction of this number."""
    later = history[number:]
    return any(names(cancellation, history[number - 1]) for cancellation in entries(later, Cancel))


def is_cancelled_pair(history, pair):
    """Whether cancellations name both sides of a pair."""
    return is_requested(history, pair.earlier) and is_requested(history, pair.later)


# pairs


def is_receipt(instruct):
    return instruct.message.mt in RECEIPTS


def are_opposite(one, other):
    """Whether one of two instructions delivers what the other receives."""
    mine, yours = one.message, other.message
    return (
        is_receipt(one) != is_receipt(other)
        and (mine.isin, mine.kind, mine.quantity) == (yours.isin, yours.kind, yours.quantity)
        and (mine.day, mine.cash) == (yours.day, yours.cash)
        and (mine.counterparty, yours.counterparty) == (other.sender, one.sender)
    )


def paired_by_last(history, pairs):
    """The pair that the last entry makes beside these pairs, in a list; an empty one where it makes none."""
    later, entry = len(history), history[-1]
    if not isinstance(entry, Instruct):
        return []
    paired = [number for pair in pairs for number in pair]
    candidates = [
        earlier
        for earlier, candidate in numbered(history[:-1], Instruct)
        if earlier not in paired and not is_requested(history, earlier) and are_opposite(candidate, entry)
    ]
    return [Pair(min(candidates), later)] if candidates else []


def pair_of(pairs, number):
    """The pair that an instruction is in; None where it is in none."""
    return next((pair for pair in pairs if number in pair), None)


def numbers_of_sides(history, pair):
    """The number of the instruction that delivers, and of the one that receives."""
    return sorted(pair, key=lambda number: is_receipt(history[number - 1]))


def sides_of(history, pair):
    """The instruction that delivers and the one that receives."""
    return [history[number - 1] for number in numbers_of_sides(history, pair)]


def settlement_day(history, pair):
    return int(history[pair.later - 1].message.day)


# balances


def position(history, settled, account, isin):
    """What an account holds of a security after these entries and settlements."""
    issued = [entry.quantity for entry in entries(history, Issue) if (entry.account, entry.isin) == (account, isin)]
    redeemed = [entry.quantity for entry in entries(history, Redeem) if (entry.account, entry.isin) == (account, isin)]
    received, delivered = [], []
    for settlement in settled:
        delivery, receipt = (side.message for side in sides_of(history, settlement.pair))
        if (receipt.account, receipt.isin) == (account, isin):
            received.append(receipt.quantity)
        if (delivery.account, delivery.isin) == (account, isin):
            delivered.append(delivery.quantity)
    return sum(issued) - sum(redeemed) + sum(received) - sum(delivered)


def cash(history, settled, bic, currency):
    """What a participant has of a currency after these entries and settlements."""
    paid_in = [entry.amount for entry in entries(history, PayIn) if (entry.bic, entry.currency) == (bic, currency)]
    paid_out = [entry.amount for entry in entries(history, PayOut) if (entry.bic, entry.currency) == (bic, currency)]
    earned, spent = [], []
    for settlement in settled:
        delivery, receipt = sides_of(history, settlement.pair)
        moved, amount = delivery.message.cash or (None, 0)
        if (delivery.sender, moved) == (bic, currency):
            earned.append(amount)
        if (receipt.sender, moved) == (bic, currency):
            spent.append(amount)
    return sum(paid_in) - sum(paid_out) + sum(earned) - sum(spent)


def holdings(history, settled, account):
    """What an account holds: each security of which it holds some, by its letters, its kind and how much."""
    registered = [(entry.isin, entry.kind) for entry in entries(history, Security)]
    rows = [(isin, kind, position(history, settled, account, isin)) for isin, kind in registered]
    return sorted(row for row in rows if row[2] > 0)


def outstanding(history, isin):
    issued = [entry.quantity for entry in entries(history, Issue) if entry.isin == isin]
    redeemed = [entry.quantity for entry in entries(history, Redeem) if entry.isin == isin]
    return sum(issued) - sum(redeemed)


def net_paid(history, currency):
    """What was paid in of a currency less what was paid out."""
    paid_in = [entry.amount for entry in entries(history, PayIn) if entry.currency == currency]
    paid_out = [entry.amount for entry in entries(history, PayOut) if entry.currency == currency]
    return sum(paid_in) - sum(paid_out)


def sum_of(balances):
    """The sum of balances, of which none may be below 0."""
    if min(balances, default=0) < 0:
        raise AssertionError("a balance is below 0")
    return sum(balances)


def held(history, settled, isin):
    """The sum of what all accounts hold of a security."""
    return sum_of([position(history, settled, entry.account, isin) for entry in entries(history, Account)])


def held_cash(history, settled, currency):
    """The sum of what all participants have of a currency."""
    return sum_of([cash(history, settled, bic, currency) for bic in participants(history)])


# settlement


def lack_of(history, settled, pair):
    """What a pair lacks: securities, whatever the cash, else money. None where it is covered."""
    delivery, receipt = sides_of(history, pair)
    given = delivery.message
    if position(history, settled, given.account, given.isin) < given.quantity:
        return LACK
    if receipt.message.cash:
        currency, amount = receipt.message.cash
        if cash(history, settled, receipt.sender, currency) < amount:
            return MONEY
    return None


def is_due(history, pair, number):
    """Whether a pair is due in the run of this number: made before it, of a day not after its own, not cancelled."""
    before, day = history[: number - 1], int(history[number - 1].day)
    is_there = pair.later < number and settlement_day(history, pair) <= day
    return is_there and not is_cancelled_pair(before, pair)


def waiting_pairs(history, pairs, settled, number):
    """The pairs that are due in the run of this number and not settled, by settlement day and then by number."""
    done = [settlement.pair for settlement in settled]
    due = [pair for pair in pairs if pair not in done and is_due(history, pair, number)]
    return sorted(due, key=lambda pair: (settlement_day(history, pair), pair.later))


def comes_before(history, pair, other):
    """Whether a pass tries a pair before another one."""
    return (settlement_day(history, pair), pair.later) < (settlement_day(history, other), other.later)


def settled_by_pass(history, pairs, settled):
    """What one pass of the run that is the last entry settles, after all that was settled before it."""
    number, before, in_it = len(history), history[:-1], []
    for pair in waiting_pairs(history, pairs, settled, number):
        if lack_of(before, settled + in_it, pair) is None:
            in_it.append(Settlement(number, pair))
    return in_it


def is_of_one_pass(entry):
    return isinstance(entry, Run) and entry.rule == ONE_PASS


def settled_by_last(history, pairs, settled):
    """What the last entry settles: a run makes passes until one settles nothing, but for one of one pass."""
    if is_of_one_pass(history[-1]):
        return settled_by_pass(history, pairs, settled)
    in_run = []
    if isinstance(history[-1], Run):
        while in_pass := settled_by_pass(history, pairs, settled + in_run):
            in_run += in_pass
    return in_run


# where an instruction stands


def is_settled(books, number):
    return any(number in settlement.pair for settlement in books.settled)


def is_cancelled(books, number):
    """Whether an instruction is cancelled: by a cancellation of it, in a pair by cancellations of both sides."""
    pair = pair_of(books.pairs, number)
    if pair:
        return not is_settled(books, number) and is_cancelled_pair(books.history, pair)
    return is_requested(books.history, number)


def reason_of(books, pair):
    """Why a pair is not settled: what the last pass that tried it found. Such a pass settles nothing, so all is
    settled before it that was settled by its run; but a run of one pass may have settled pairs behind it."""
    tried = [number for number, _ in numbered(books.history, Run) if is_due(books.history, pair, number)]
    if not tried:
        return FUTURE
    settled = [settlement for settlement in books.settled if settlement.run <= tried[-1]]
    if is_of_one_pass(books.history[tried[-1] - 1]):
        settled = [it for it in settled if it.run < tried[-1] or comes_before(books.history, it.pair, pair)]
    lack = lack_of(books.history[: tried[-1] - 1], settled, pair)
    if lack is None:
        raise AssertionError("a run left a pair that was covered")
    return lack
