"""Settlement runs over much that waits, as scripts."""

import itertools

from codes import isin
from scripts import SUMS, command

from . import orders
from .draw import BASES, Draw
from .trades import Side, Trade, account_of

# so many pairs has each chain
CHAIN = 600

# so many pairs lack units, and as many cash; so many participants instruct them; and they are tried in so many runs
LACKING, PARTICIPANTS, RUNS = 2_500, 100, 100

# more units than are delivered
PLENTY = 2_000_000_000

TODAY = 0


class Market:
    """Participants, each with an account of its own number, and two securities."""

    def __init__(self, draw):
        self.isins = isin(draw.below(400_000_000)), isin(draw.below(400_000_000) + 400_000_000)
        self.numbers = itertools.count(1)
        self.requests = []

    def command(self, order, *about):
        self.requests.append(command(**order(next(self.numbers), *about)))

    def open(self, base, participants):
        self.accounts = [account_of(base + number, base + number) for number in range(participants)]
        for account in self.accounts:
            self.command(orders.participant, account.owner)
            self.command(orders.account, account)
        for security in self.isins:
            self.command(orders.security, security)

    def issue(self, number, security, quantity):
        self.command(orders.issue, self.accounts[number], security, quantity)

    def pay_in(self, number, euros):
        self.command(orders.pay_in, self.accounts[number].owner, euros)

    def deliver(self, giving, taking, security, quantity, euros=0):
        """Both sides of a delivery from an account to another."""
        deliverer, receiver = self.accounts[giving], self.accounts[taking]
        trade = Trade(deliverer, receiver, security, quantity, euros, TODAY, next(self.numbers), next(self.numbers))
        self.requests += [trade.sent(side, trade.instruction(side)) for side in Side]

    def run(self):
        self.command(orders.run, TODAY)

    def script(self):
        return "".join([*self.requests, SUMS])


def chains(draw):
    """Two chains of pairs in the wrong order, and a run. In the first each pair brings the units that the next lower one delivers,
    in the second the cash that the next lower one pays; only the last account of each has what its pair takes."""
    market = Market(draw)
    units, cash = market.isins
    quantity, euros = draw.up_to(1_000), draw.up_to(50_000)
    market.open(draw.below(BASES), CHAIN + 1)
    market.issue(CHAIN, units, quantity)
    market.pay_in(CHAIN, euros + 1)
    for number in range(CHAIN):
        market.issue(number, cash, quantity)
        market.deliver(number + 1, number, units, quantity)
        market.deliver(number, number + 1, cash, quantity, euros)
    market.run()
    return market.script()


def lacking(draw):
    """Pairs that lack units, and as many that lack cash. Before each run units come for one of them."""
    market = Market(draw)
    units, cash = market.isins
    market.open(draw.below(BASES), PARTICIPANTS)
    for number in range(PARTICIPANTS):
        market.issue(number, cash, PLENTY)
        market.pay_in(number, 1)
    for _ in range(LACKING):
        giving = draw.below(PARTICIPANTS)
        taking = (giving + 1) % PARTICIPANTS
        quantity = draw.below(100) + 1_000
        market.deliver(giving, taking, units, quantity)
        market.deliver(taking, giving, cash, quantity, draw.below(100) + 1_000)
    for _ in range(RUNS):
        market.issue(draw.below(PARTICIPANTS), units, 1_100)
        market.run()
    return market.script()


def scripts_of(seed, stream):
    """Two scripts, each for a new desk."""
    draw = Draw(seed, stream)
    return [chains(draw), lacking(draw)]
