"""Operator's commands of all operations in the spellings that most users write, as a script."""

from codes import isin
from scripts import SUMS, by_name, compact, pretty, spaced

from . import orders
from .draw import BASES, Draw
from .trades import account_of

# so many commands of each operation a script has
EACH = 5_000

# so many units are issued, and one is redeemed; so many euros are paid in, and one is paid out
UNITS, EUROS = 1_000, 5_000

# each spelling, and how its lines end
SPELLINGS = (compact, "\n"), (spaced, "\n"), (by_name, "\n"), (pretty, "\n"), (compact, "\r\n")


def spelled(draw, members):
    """A command in a spelling that is drawn."""
    spell, end = SPELLINGS[draw.below(len(SPELLINGS))]
    return f"op{end}{spell(members)}{end}.{end}"


def commands(base, number):
    """The commands of a number, one of each operation."""
    own = range(8 * number, 8 * (number + 1))
    security, account = isin(base + number), account_of(base + number, number)
    owner = account.owner
    return [
        orders.participant(own[0], owner),
        orders.account(own[1], account),
        orders.security(own[2], security),
        orders.issue(own[3], account, security, UNITS),
        orders.redeem(own[4], account, security, 1),
        orders.pay_in(own[5], owner, EUROS),
        orders.pay_out(own[6], owner, 1),
        orders.run(own[7], 0),
    ]


def script_of(seed, stream):
    draw = Draw(seed, stream)
    base = draw.below(BASES)
    requests = [spelled(draw, members) for number in range(EACH) for members in commands(base, number)]
    return "".join([*requests, SUMS])
