"""Days at a depository, request by request."""

import collections
from typing import NamedTuple

from codes import isin, reference
from scripts import SUMS, command, holdings, sent, status

from . import orders
from .draw import BASES, Draw
from .trades import Side, Trade, account_of


class Depository(NamedTuple):
    """How large a depository is, and what it is asked: so many securities are issued to each account at the opening, a run follows
    so many pairs, a day has so many requests, and questions among them or none."""

    participants: int
    accounts: int
    securities: int
    issued: int
    pairs_a_run: int
    requests: int
    is_asked: bool = True


# those of days that are played in memory, on a file, over the tables alone, which find most of what is asked by going over all
# their rows, and on a file that is opened again
SMALL = Depository(participants=20, accounts=40, securities=10, issued=10, pairs_a_run=50, requests=60_000)
LARGE = Depository(participants=500, accounts=2_000, securities=1_000, issued=3, pairs_a_run=2_000, requests=60_000)
OF_FILE = Depository(participants=100, accounts=200, securities=50, issued=3, pairs_a_run=50, requests=10_000)
OF_TABLES = Depository(participants=20, accounts=40, securities=20, issued=3, pairs_a_run=20, requests=1_500)
OF_REPLAY = Depository(
    participants=200, accounts=500, securities=100, issued=3, pairs_a_run=500, requests=50_000, is_asked=False
)

# so many requests has a script at most where a day is longer than a script may be
LONGEST = 30_000

# so many units are issued to an account at the opening, and so many euros paid in; and more units than any account has
UNITS, EUROS, TOO_MANY = 1_000_000, 2_000_000_000, 2_000_000_000

# so many pairs lack units before the first of them is cancelled, and so many trades at most wait for their other side
MOST_LACKING, MOST_WAITING = 30, 60

# so many runs has a settlement day
RUNS_A_DAY = 5


class Day:
    """What was asked so far, and what can be asked next."""

    def __init__(self, depository, draw):
        self.depository, self.draw = depository, draw
        self.base = draw.below(BASES)
        self.isins = [isin(7919 * number + self.base) for number in range(depository.securities)]
        # what is left of the opening; and how many commands there were
        self.opening = self.opened()
        self.commands = 0
        # sides of trades, each with its trade, whose other sides are still to come; the last side that was instructed
        self.waiting, self.last = collections.deque(), None
        # trades with too few units, and whether the deliverer asked to cancel the first of them
        self.lacking, self.is_half_cancelled = collections.deque(), False
        # whose the references are, by their numbers
        self.owners = []
        self.pairs = self.pairs_since_run = self.runs = 0

    def request(self):
        """The next request."""
        opening = next(self.opening, None)
        if opening is not None:
            return opening
        if self.pairs_since_run >= self.depository.pairs_a_run:
            return self.run()
        share = self.draw.below(1_000)
        if share < 400:
            return self.instruct()
        if share < 410:
            return self.repeat()
        if share < 430:
            return self.cancel()
        if share < 500:
            return self.order()
        return self.ask(share) if self.depository.is_asked else self.instruct()

    def opened(self):
        """The commands of the opening: participants, safekeeping accounts, securities, cash and units."""
        participants, accounts, securities, issued, *_ = self.depository
        for number in range(participants):
            yield self.command(orders.participant, self.account(number).owner)
        for number in range(accounts):
            yield self.command(orders.account, self.account(number))
        for number in range(securities):
            yield self.command(orders.security, self.isins[number])
        for number in range(participants):
            yield self.command(orders.pay_in, self.account(number).owner, EUROS)
        for number in range(accounts * issued):
            account, which = divmod(number, issued)
            yield self.command(orders.issue, self.account(account), self.held(account, which), UNITS)

    def command(self, order, *about):
        """A command under a reference of its own."""
        self.commands += 1
        return command(**order(self.commands - 1, *about))

    def account(self, number):
        """A safekeeping account. The participants have them by turns."""
        return account_of(self.base + number % self.depository.participants, self.base + number)

    def held(self, account, which):
        """A security of those that were issued to an account at the opening."""
        return self.isins[(account * self.depository.issued + which) % self.depository.securities]

    def drawn_holding(self):
        """An account's number, and a security of those that were issued to it."""
        account = self.draw.below(self.depository.accounts)
        return account, self.held(account, self.draw.below(self.depository.issued))

    def today(self):
        return self.runs // RUNS_A_DAY

    def run(self):
        request = self.command(orders.run, self.today())
        self.runs += 1
        self.pairs_since_run = 0
        return request

    def instruct(self):
        """The first side of a trade, or the other side of one that waits for it."""
        if (len(self.waiting) > MOST_WAITING or self.draw.is_one_in(2)) and self.waiting:
            return self.complete(*self.waiting.popleft())
        told = self.new_trade(), Side.DELIVERER if self.draw.is_one_in(2) else Side.RECEIVER
        self.waiting.append(told)
        return self.tell(*told)

    def complete(self, trade, side):
        """The other side of a trade of which this one was told."""
        self.pairs += 1
        self.pairs_since_run += 1
        if trade.quantity == TOO_MANY:
            self.lacking.append(trade)
        return self.tell(trade, side.other())

    def tell(self, trade, side):
        self.last = trade, side
        return trade.sent(side, trade.instruction(side))

    def new_trade(self):
        """A new trade: half of them against payment, one in 25 with more units than there are, one in 20 due later."""
        draw = self.draw
        delivering, receiving = draw.below(self.depository.accounts), draw.below(self.depository.accounts)
        security = self.held(delivering, draw.below(self.depository.issued))
        deliverer, receiver = self.account(delivering), self.account(receiving)
        return Trade(
            deliverer,
            receiver,
            security,
            quantity=TOO_MANY if draw.is_one_in(25) else draw.up_to(500),
            euros=0 if draw.is_one_in(2) else draw.up_to(90_000),
            day=self.today() + (3 if draw.is_one_in(20) else 0),
            delivery=self.new_reference(deliverer),
            receipt=self.new_reference(receiver),
        )

    def new_reference(self, account):
        """The number of a new reference of an account's owner."""
        self.owners.append(account.owner)
        return len(self.owners) - 1

    def repeat(self):
        """The last instruction once more."""
        return self.tell(*self.last) if self.last else self.instruct()

    def cancel(self):
        """A cancellation of a pair that lacks units, by its deliverer and next time by its receiver; or now and then of an
        instruction that waits for its other side."""
        if self.draw.is_one_in(8) and self.waiting:
            return self.cancel_side(*self.waiting.pop())
        if len(self.lacking) < MOST_LACKING:
            return self.instruct()
        self.is_half_cancelled = not self.is_half_cancelled
        if self.is_half_cancelled:
            return self.cancel_side(self.lacking[0], Side.DELIVERER)
        return self.cancel_side(self.lacking.popleft(), Side.RECEIVER)

    def cancel_side(self, trade, side):
        return trade.sent(side, trade.cancellation(side, self.new_reference(trade.account(side))))

    def order(self):
        """An operator's command: units issued or redeemed, cash paid in or out."""
        number, security = self.drawn_holding()
        account, amount = self.account(number), self.draw.up_to(900)
        order = (orders.issue, orders.redeem, orders.pay_in, orders.pay_out)[self.draw.below(4)]
        about = (account, security) if order in (orders.issue, orders.redeem) else (account.owner,)
        return self.command(order, *about, amount)

    def ask(self, share):
        """A question: of ten four about a message's status, three about one that was sent, and three about holdings, or now and
        then the totals."""
        account = self.account(self.draw.below(self.depository.accounts))
        if share < 700:
            return self.ask_status()
        if share < 850:
            most = self.pairs // self.depository.participants
            return sent(account.owner, self.draw.up_to(3 * most + 1))
        if share == 850 and self.draw.is_one_in(self.depository.securities):
            return SUMS
        return holdings(*account)

    def ask_status(self):
        if not self.owners:
            return SUMS
        number = self.draw.below(len(self.owners))
        return status(self.owners[number], reference(number))


def day_at(depository, seed, stream):
    """The requests of a day at a depository, and the totals behind them."""
    day = Day(depository, Draw(seed, stream))
    return [*(day.request() for _ in range(depository.requests)), SUMS]


def script_of(depository, seed, stream):
    return "".join(day_at(depository, seed, stream))


def scripts_of(depository, seed, stream):
    """A day in several scripts, to be played one after another."""
    requests = day_at(depository, seed, stream)
    return ["".join(requests[first : first + LONGEST]) for first in range(0, len(requests), LONGEST)]
