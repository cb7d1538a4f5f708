"""Statements and totals of many securities, as a script."""

from codes import isin
from scripts import SUMS, command, holdings

from . import orders
from .draw import BASES, Draw
from .trades import account_of

# one account holds some of each security; so many others have so many issues each
SECURITIES, OTHERS, FEW = 8_000, 200, 20

# so often the statement of the large account is asked for and the totals are, and in between so many statements of others
ASKED, STATEMENTS = 12, 50

# the references of commands, by number: of the pay in, and the first ones of securities and of changes in between
PAY_IN, FIRST_SECURITY, FIRST_CHANGE = 500, 1_000, 900_000_000


def opening(draw, accounts, isins):
    """Registers and issues all. The large account is the first."""
    large, *others = accounts
    yield orders.participant(0, large.owner)
    for number, account in enumerate(accounts, 1):
        yield orders.account(number, account)
    yield orders.pay_in(PAY_IN, large.owner, 1_000_000)
    for number, security in enumerate(isins):
        own = FIRST_SECURITY + 2 * number
        yield orders.security(own, security)
        yield orders.issue(own + 1, large, security, draw.up_to(1_000_000))
    for number in range(OTHERS * FEW):
        security = isins[draw.below(len(isins))]
        yield orders.issue(FIRST_SECURITY + 2 * len(isins) + number, others[number % OTHERS], security, 1 + number)


def questions(draw, accounts, isins):
    """Statements of the large account and the totals, by turns with statements of others, and with a change before each."""
    large, *others = accounts
    for number in range(FIRST_CHANGE, FIRST_CHANGE + 2 * ASKED, 2):
        yield command(**orders.issue(number, large, isins[draw.below(len(isins))], 1))
        yield holdings(*large)
        first = draw.below(OTHERS)
        yield from (holdings(*others[(first + other) % OTHERS]) for other in range(STATEMENTS))
        yield command(**orders.redeem(number + 1, large, isins[draw.below(len(isins))], 1))
        yield SUMS


def script_of(seed, stream):
    draw = Draw(seed, stream)
    base = draw.below(BASES)
    isins = [isin(104_729 * number + base) for number in range(SECURITIES)]
    accounts = [account_of(base, base + number) for number in range(1 + OTHERS)]
    opened = [command(**it) for it in opening(draw, accounts, isins)]
    return "".join([*opened, *questions(draw, accounts, isins)])
