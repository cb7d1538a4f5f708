"""The abstract desk, plainly: what it decides, answers and sends (docs/RULES.md, 'The desk')."""

from collections import namedtuple

from .books import (
    Books,
    Sent,
    cash,
    held,
    held_cash,
    holdings as holdings_of,
    is_cancelled,
    is_requested,
    is_settled,
    kind_of,
    last_day,
    net_paid,
    numbers_of_sides,
    outstanding,
    owner_of,
    pair_of,
    paired_by_last,
    participants,
    position,
    reason_of,
    settled_by_last,
    waiting_pairs,
)
from .entries import (
    MOST_PAID,
    MOST_QUANTITY,
    Account,
    Cancel,
    Instruct,
    Issue,
    Participant,
    PayIn,
    PayOut,
    Redeem,
    Run,
    Security,
    ask_the_same,
    entries,
    is_message,
    key_of,
    number_of_key,
)
from .written import (
    CANCELLATION_DONE,
    CANCELLATION_WAITS,
    CANCELLED,
    FUTURE,
    UNMATCHED,
    confirmation_text,
    confirming_type,
    holdings_text,
    matched,
    own_of_answer,
    own_of_sent,
    refused,
    status_text,
)

DEPOSITORY = b"DESKDEFF"

# the day of a statement before any run
NO_DAY = b"19700101"

Reply = namedtuple("Reply", "status type text")


# verdicts: None is accepted, else the number of the refusal


def first_that_fails(checks):
    """The number of the first check that fails."""
    return next((number for number, holds in checks if not holds), None)


def refusal_of_account(books, entry):
    return first_that_fails(
        [
            (32, owner_of(books.history, entry.account) is None),
            (33, entry.bic in participants(books.history)),
        ]
    )


def is_registered(books, entry):
    """The checks of an account and a security that must be there."""
    return [
        (34, owner_of(books.history, entry.account) is not None),
        (35, kind_of(books.history, entry.isin) is not None),
    ]


def refusal_of_issue(books, entry):
    after = outstanding(books.history, entry.isin) + entry.quantity
    return first_that_fails([*is_registered(books, entry), (36, after <= MOST_QUANTITY)])


def refusal_of_redemption(books, entry):
    holding = position(books.history, books.settled, entry.account, entry.isin)
    return first_that_fails([*is_registered(books, entry), (37, entry.quantity <= holding)])


def refusal_of_pay_in(books, entry):
    return first_that_fails(
        [
            (33, entry.bic in participants(books.history)),
            (36, net_paid(books.history, entry.currency) + entry.amount <= MOST_PAID),
        ]
    )


def refusal_of_pay_out(books, entry):
    return first_that_fails(
        [
            (33, entry.bic in participants(books.history)),
            (37, entry.amount <= cash(books.history, books.settled, entry.bic, entry.currency)),
        ]
    )


def refusal_of_instruction(books, entry):
    instruction = entry.message
    kind = kind_of(books.history, instruction.isin)
    return first_that_fails(
        [
            (12, instruction.place == DEPOSITORY),
            (13, kind is not None),
            (14, kind == instruction.kind),
            (15, owner_of(books.history, instruction.account) == entry.sender),
            (16, instruction.counterparty in participants(books.history)),
        ]
    )


def named_by(history, entry):
    """The number of the instruction that a cancellation names; None where it names none."""
    number = number_of_key(history, (entry.sender, entry.message.previous))
    if number is None or not isinstance(history[number - 1], Instruct):
        return None
    return number if history[number - 1].message.mt == entry.message.mt else None


def refusal_of_cancellation(books, entry):
    named = named_by(books.history, entry)
    if named is None:
        return 17
    return first_that_fails(
        [
            (18, not is_cancelled(books, named)),
            (19, not is_settled(books, named)),
            (22, not is_requested(books.history, named)),
        ]
    )


REFUSALS = {
    Participant: lambda books, entry: 32 if entry.bic in participants(books.history) else None,
    Account: refusal_of_account,
    Security: lambda books, entry: 32 if kind_of(books.history, entry.isin) is not None else None,
    Issue: refusal_of_issue,
    Redeem: refusal_of_redemption,
    PayIn: refusal_of_pay_in,
    PayOut: refusal_of_pay_out,
    Instruct: refusal_of_instruction,
    Cancel: refusal_of_cancellation,
    Run: lambda books, entry: 38 if int(entry.day) < last_day(books.history) else None,
}


# replies


def advice(books, entry, status, statuses):
    """A status advice as an answer, with the number of entries of these books."""
    return Reply(status, 548, status_text(own_of_answer(len(books.history)), entry.message, statuses))


def how_cancellation_stands(books, entry):
    """Done once its instruction is cancelled, refused once that is settled, else it waits for the other side's."""
    named = named_by(books.history, entry)
    if is_cancelled(books, named):
        return CANCELLATION_DONE
    return refused(entry.message, 19) if is_settled(books, named) else CANCELLATION_WAITS


def run_text(books):
    """How many pairs the run that is the last entry settled, and how many due ones wait."""
    number = len(books.history)
    in_it = [settlement for settlement in books.settled if settlement.run == number]
    waiting = waiting_pairs(books.history, books.pairs, books.settled, number)
    return b" settled %d waiting %d" % (len(in_it), len(waiting))


def accepted_reply(books):
    """The reply to the last entry."""
    entry, number = books.history[-1], len(books.history)
    if isinstance(entry, Instruct):
        return advice(books, entry, 200, matched(FUTURE) if pair_of(books.pairs, number) else UNMATCHED)
    if isinstance(entry, Cancel):
        return advice(books, entry, 200, how_cancellation_stands(books, entry))
    return Reply(200, None, b"accepted %d" % number + (run_text(books) if isinstance(entry, Run) else b""))


def refused_text(number):
    return Reply(422, None, b"refused %d" % number)


def refused_reply(books, entry, number):
    if is_message(entry):
        return advice(books, entry, 422, refused(entry.message, number))
    return refused_text(number)


# sent messages


def advised(history, number, about):
    """The advice that an instruction was paired, as the sent message of this number."""
    instruct = history[about - 1]
    text = status_text(own_of_sent(number), instruct.message, matched(FUTURE))
    return Sent(instruct.sender, 548, about, text)


def confirmed(history, number, about):
    """The confirmation that the last entry, a run, settled an instruction, as the sent message of this number."""
    instruct, day = history[about - 1], history[-1].day
    text = confirmation_text(own_of_sent(number), instruct.message, day)
    return Sent(instruct.sender, confirming_type(instruct.message.mt), about, text)


def told_by_last(books):
    """What the last entry sends: an advice to the earlier party of its pair; of each settlement a confirmation to the
    deliverer, then one to the receiver."""
    history, last, first = books.history, len(books.history), len(books.sent) + 1
    settled = [settlement.pair for settlement in books.settled if settlement.run == last]
    told = [(advised, pair.earlier) for pair in books.pairs if pair.later == last]
    told += [(confirmed, number) for pair in settled for number in numbers_of_sides(history, pair)]
    return [tell(history, number, about) for number, (tell, about) in enumerate(told, first)]


# what is asked


def with_entry(books, entry):
    """The books with one entry more, and what follows from it."""
    history = [*books.history, entry]
    pairs = books.pairs + paired_by_last(history, books.pairs)
    settled = books.settled + settled_by_last(history, pairs, books.settled)
    after = Books(history, pairs, settled, books.sent, books.replies)
    return after._replace(sent=books.sent + told_by_last(after), replies=[*books.replies, accepted_reply(after)])


def ask(books, entry):
    """The books after an entry was asked for, and the reply."""
    if is_message(entry) and entry.sender not in participants(books.history):
        return books, refused_reply(books, entry, 10)
    known = number_of_key(books.history, key_of(entry))
    if known is not None:
        if ask_the_same(books.history[known - 1], entry):
            return books, books.replies[known - 1]
        return books, refused_reply(books, entry, 11 if is_message(entry) else 31)
    refusal = REFUSALS[type(entry)](books, entry)
    if refusal is not None:
        return books, refused_reply(books, entry, refusal)
    books = with_entry(books, entry)
    return books, books.replies[-1]


def confirmation_of(books, number):
    """The one confirmation that was sent about an instruction."""
    about_it = [message for message in books.sent if message.about == number and message.type != 548]
    if len(about_it) != 1:
        raise AssertionError("a settled instruction is not confirmed once")
    return about_it[0]


def status_of_instruction(books, number):
    """How an instruction stands now; once it is settled, its confirmation as it was sent."""
    entry, pair = books.history[number - 1], pair_of(books.pairs, number)
    if is_settled(books, number):
        confirmation = confirmation_of(books, number)
        return Reply(200, confirmation.type, confirmation.text)
    if is_cancelled(books, number):
        return advice(books, entry, 200, CANCELLED)
    return advice(books, entry, 200, matched(reason_of(books, pair)) if pair else UNMATCHED)


def status(books, bic, reference):
    """How a participant's message of this reference stands."""
    if bic not in participants(books.history):
        return refused_text(10)
    number = number_of_key(books.history, (bic, reference))
    if number is None:
        return refused_text(17)
    entry = books.history[number - 1]
    if isinstance(entry, Cancel):
        return advice(books, entry, 200, how_cancellation_stands(books, entry))
    return status_of_instruction(books, number)


def sent(books, bic, place):
    """What was sent to a participant in this place, from 1."""
    if bic not in participants(books.history):
        return refused_text(10)
    to_it = [message for message in books.sent if message.bic == bic]
    if not 1 <= place <= len(to_it):
        return refused_text(42)
    message = to_it[place - 1]
    return Reply(200, message.type, message.text)


def holdings(books, bic, account):
    """The statement of what an account of a participant holds, on the day of the last run."""
    history = books.history
    if bic not in participants(history):
        return refused_text(10)
    if owner_of(history, account) != bic:
        return refused_text(15)
    runs = [entry.day for entry in entries(history, Run)]
    rows = holdings_of(history, books.settled, account)
    return Reply(200, 535, holdings_text(own_of_answer(len(history)), runs[-1] if runs else NO_DAY, account, rows))


def sums(books):
    """The totals of each currency in which something was paid in, and of each security, by their letters."""
    history, settled = books.history, books.settled
    currencies = [
        b'{"ccy":"%s","held":%d,"net":%d}' % (it, held_cash(history, settled, it), net_paid(history, it))
        for it in sorted({entry.currency for entry in entries(history, PayIn)})
    ]
    securities = [
        b'{"held":%d,"isin":"%s","outstanding":%d}' % (held(history, settled, it), it, outstanding(history, it))
        for it in sorted(entry.isin for entry in entries(history, Security))
    ]
    rows = b",".join(currencies), b",".join(securities)
    return Reply(200, None, b'{"cash":[%s],"securities":[%s]}' % rows)
