"""Random input of a report or a journal: its words, and a script behind which more is left standing than behind others."""

from . import dealing, operating
from .script import DAYS
from .scripts import random_script

PARTS = ("pending", "unmatched", "accounts", "cash", "sums")

# forms of references, of which some have characters that JSON escapes
FORMS = {b"N%d": 80, b'"%d': 5, b"\\%d": 5, b'%d\\"': 5, b"</%d>": 5}


def random_words(chance):
    """The words of a report of all parts, of one, or of some in any order, of which some may be named twice."""
    words = [chance.pick(PARTS) for _ in range(chance.weighted({0: 60, 1: 20, 2: 12, 4: 8}))]
    if chance.happens(40):
        words.insert(chance.below(len(words) + 1), "--json")
    return ["report", *words]


def journal_words(chance):
    """The words of a journal of all entries, or of those from a number on, which may be behind the last one."""
    options = []
    if chance.happens(40):
        first = chance.weighted({1: 10, chance.between(2, 20): 50, chance.between(21, 60): 35, 999_999_999: 5})
        options.append(["--from", str(first)])
    if chance.happens(40):
        options.append(["--json"])
    return ["journal", *(word for option in chance.shuffled(options) for word in option)]


def near_misses(script):
    """An instruction, and some of the other side, each of which differs from its opposite."""
    chance = script.chance
    dealing.new_instruction(script)
    one = script.instructions[-1]
    for _ in range(chance.between(1, 3)):
        sender, other = dealing.opposite_of(script, *one)
        for _ in range(chance.weighted({1: 60, 2: 30, 3: 10})):
            other = dealing.nearly(script, other)
        dealing.instruct(script, sender, other)


def provide_some(script, delivery, receipt):
    """Some of what a deal needs: as much, less or more, of its securities or, where it is against payment, its cash."""
    chance = script.chance
    (_, given), (taker, taken) = delivery, receipt
    if taken.mt == 541 and chance.happens(60):
        currency, amount = taken.cash
        operating.pay_in(script, taker, currency, max(1, amount + chance.between(-1, 2) * script.minor_units))
    else:
        operating.issue(script, given.account, given.isin, max(1, given.quantity + chance.between(-1, 2)))


def take_some_out(script, delivery, receipt):
    """Some of the securities of who delivers, or of the cash of who receives."""
    (_, given), (taker, taken) = delivery, receipt
    if script.chance.happens(50):
        operating.pay(script, "payout", taker, taken.cash[0], script.minor_units)
    else:
        operating.move(script, "redeem", given.account, given.isin, 1)


def ask_of_one_side(script, *sides):
    dealing.cancel(script, *script.chance.pick(sides))


AFTERWARDS = {None: 30, provide_some: 35, take_some_out: 10, ask_of_one_side: 25}


def deals_left(script):
    """Deals of which not all are covered, most often with a run behind them; then some of what they need comes or goes, or one
    side of them asks to cancel."""
    chance = script.chance
    isin, deals = chance.pick(script.isins), []
    for _ in range(chance.between(1, 3)):
        giving, taking = chance.pick(script.accounts), chance.pick(script.accounts)
        of_day = chance.pick(DAYS[1:5]), chance.between(1, 5), dealing.cash_of_deal(script)
        sides = dealing.deal(script, isin, giving, taking, *of_day)
        for side in chance.shuffled(sides):
            dealing.instruct(script, *side)
        # the delivery first, each under its reference
        deals.append(sorted(script.instructions[-2:], key=lambda side: -side[1].mt))
        if chance.happens(40):
            # so that only money may be short
            operating.issue(script, giving, isin, of_day[1])
    if chance.happens(75):
        operating.late_runs(script)
    for sides in deals:
        happens = chance.weighted(AFTERWARDS)
        if happens:
            happens(script, *sides)


def left_standing(script):
    """What comes last in the script of a report or a journal."""
    script.forms = FORMS
    for _ in range(script.chance.below(4)):
        script.chance.pick((near_misses, deals_left))(script)


def report_script(chance):
    """The requests of a script, behind which is told what stands or what was accepted."""
    return random_script(chance, left_standing)
