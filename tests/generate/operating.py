"""What the operator asks for in a random script."""

from plain.entries import MOST_PAID, MOST_QUANTITY

from . import commands
from .messages import ISINS, spelled_bic
from .script import DAYS, OWNERS, PARTIES

CURRENCIES = (b"CHF", b"EUR", b"GBP", b"JPY", b"KWD", b"USD")


def reference(script):
    """A reference, now and then one that was used."""
    asked = len(script.commands)
    return "R%d" % (script.chance.below(asked + 1) if script.chance.happens(7) else asked)


def command(script, op, *members):
    members = [("op", op), ("ref", reference(script)), *members]
    script.commands.append(members)
    if script.chance.happens(4):
        script.add(b"op", commands.faulty(script.chance, members))
    script.add(b"op", commands.object_of(script.chance, members))


def participant(script, bic):
    command(script, "participant", ("bic", spelled_bic(script.chance, bic).decode()))


def account(script, name, owner):
    command(script, "account", ("bic", owner.decode()), ("account", name.decode()))


def security(script, isin):
    command(script, "security", ("isin", isin.decode()), ("kind", script.kinds[isin]))


def move(script, op, name, isin, quantity):
    """An issue or a redemption."""
    command(script, op, ("account", name.decode()), ("isin", isin.decode()), ("quantity", quantity))


def issue(script, name, isin, quantity):
    script.issues.append((name, isin, quantity))
    move(script, "issue", name, isin, quantity)


def pay(script, op, bic, currency, amount):
    """A pay in or a pay out."""
    bic = spelled_bic(script.chance, bic)
    command(script, op, ("bic", bic.decode()), ("ccy", currency.decode()), ("amount", amount))


def pay_in(script, bic, currency, amount):
    script.pay_ins.append((bic, currency, amount))
    pay(script, "payin", bic, currency, amount)


def about_all(script, most, movements, key):
    """As much of a security or a currency as a limit still allows beside these movements, or nearly so."""
    so_far = sum(amount for _, it, amount in movements if it == key)
    return max(1, min(most, most - so_far + script.chance.between(-1, 1)))


def take_out(script, movements, holder, key, unit):
    """Whose is taken out, of what, and how much: most often of what was put in there before."""
    chance = script.chance
    if movements and chance.happens(70):
        holder, key, _ = chance.pick(movements)
    return holder, key, unit * chance.weighted({1: 50, 2: 25, 3: 15, 6: 10})


def near_limit(script, name, isin, bic, currency):
    """About as much as a limit allows, some of it taken out, and some put in again; now and then for a holder who is
    not there."""
    chance = script.chance
    name, bic = (name, bic) if chance.happens(80) else (b"Z-9", b"ZZZZDEFF")
    less, more = chance.between(1, 2), chance.between(1, 2)
    if chance.happens(50):
        issue(script, name, isin, about_all(script, MOST_QUANTITY, script.issues, isin))
        move(script, "redeem", name, isin, less)
        issue(script, name, isin, more)
    else:
        pay_in(script, bic, currency, about_all(script, MOST_PAID, script.pay_ins, currency))
        pay(script, "payout", bic, currency, less)
        pay_in(script, bic, currency, more)


def opening(script):
    """Most of what instructions need."""
    chance = script.chance
    asked = [lambda bic=bic: participant(script, bic) for bic in script.owners]
    asked += [lambda name=name: account(script, name, OWNERS[name]) for name in script.accounts]
    asked += [lambda isin=isin: security(script, isin) for isin in script.isins]
    asked = chance.shuffled(asked) if chance.happens(10) else asked
    for ask in asked:
        if chance.happens(98):
            ask()
    for name in script.accounts:
        if chance.happens(70):
            issue(script, name, chance.pick(script.isins), chance.between(1, 6))
    for bic in script.owners:
        if chance.happens(script.against_payment):
            pay_in(script, bic, chance.pick(script.currencies), chance.between(1, 6) * script.minor_units)


def another_command(script):
    chance = script.chance
    kind = chance.weighted(
        {"limit": 5, "issue": 18, "large issue": 6, "redeem": 22, "pay in": 12, "large pay in": 8, "pay out": 20}
        | {"participant": 6, "account": 4, "security": 4}
    )
    name = chance.pick(script.accounts if chance.happens(90) else [*OWNERS, b"Z-9"])
    isin = chance.pick(script.isins if chance.happens(85) else ISINS)
    bic = chance.pick(script.owners if chance.happens(85) else PARTIES)
    currency = chance.pick(script.currencies if chance.happens(90) else CURRENCIES)
    if kind == "limit":
        near_limit(script, name, isin, bic, currency)
    elif kind == "issue":
        issue(script, name, isin, chance.between(1, 5))
    elif kind == "large issue":
        issue(script, name, isin, about_all(script, MOST_QUANTITY, script.issues, isin))
    elif kind == "redeem":
        move(script, "redeem", *take_out(script, script.issues, name, isin, 1))
    elif kind == "pay in":
        pay_in(script, bic, currency, chance.between(1, 5) * script.minor_units)
    elif kind == "large pay in":
        pay_in(script, bic, currency, about_all(script, MOST_PAID, script.pay_ins, currency))
    elif kind == "pay out":
        pay(script, "payout", *take_out(script, script.pay_ins, bic, currency, script.minor_units))
    elif kind == "participant":
        participant(script, chance.pick(PARTIES))
    elif kind == "account":
        account(script, name, chance.pick(PARTIES))
    else:
        security(script, chance.pick(ISINS))


def pass_through(script):
    """A pay in and a pay out of as much, now and then with something between them."""
    bic, currency = script.chance.pick(script.owners), script.chance.pick(CURRENCIES)
    amount = script.chance.between(1, 3)
    pay_in(script, bic, currency, amount)
    if script.chance.happens(30):
        another_command(script)
    pay(script, "payout", bic, currency, amount)
    script.add(b"sums")


def run_for(script, day):
    command(script, "run", ("day", day.decode()))


def run(script):
    """A run, most often for a day that is not before the last one."""
    chance = script.chance
    if chance.happens(88):
        script.day = min(script.day + chance.below(2), len(DAYS) - 1)
        run_for(script, DAYS[script.day])
    else:
        run_for(script, chance.pick(DAYS))


def late_runs(script):
    """A run or two for a day on which most is due."""
    for _ in range(script.chance.between(1, 2)):
        script.day = max(script.day, 3)
        run_for(script, DAYS[script.day])


def one_of(chance, members, op, percent):
    """One of these lists of a command's members, at times one of this operation."""
    of_op = [it for it in members if it[0] == ("op", op)]
    return chance.pick(of_op if of_op and chance.happens(percent) else members)


TWINS = {"issue": "redeem", "redeem": "issue", "payin": "payout", "payout": "payin"}


def changed(script, members):
    """A command with one member as another one has it, or as an operation of the same members."""
    (_, op), *others = members
    if op in TWINS and script.chance.happens(50):
        return [("op", TWINS[op]), *others]
    other = dict(script.chance.pick(script.commands))
    place = script.chance.below(len(members))
    name, value = members[place]
    return [*members[:place], (name, other.get(name, value)), *members[place + 1 :]]


def old_command(script):
    """A command that was asked before, as it was or changed."""
    if script.commands:
        members = one_of(script.chance, script.commands, "run", 30)
        members = changed(script, members) if script.chance.happens(40) else members
        script.add(b"op", commands.object_of(script.chance, members))


def faulty_command(script):
    if script.commands:
        members = one_of(script.chance, script.commands, script.chance.pick(("issue", "payin", "payin", "payout")), 60)
        make = commands.faulty if script.chance.happens(90) else commands.padded
        script.add(b"op", make(script.chance, members))
