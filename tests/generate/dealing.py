"""What participants send in a random script: instructions, alone and by days, and cancellations."""

from . import asking, operating
from .messages import ISINS, Cancellation, Instruction, joined, lines_of, spelled_bic, with_faults
from .script import DAYS, OWNERS, PARTIES

# by whether there is a payment: the type that delivers, and the one that receives
DELIVERY = {False: 542, True: 543}
RECEIPT = {False: 540, True: 541}
OPPOSITE = {540: 542, 542: 540, 541: 543, 543: 541}


def send(script, sender, message, faulty=5):
    """Sends a message; of a hundred so many with faults in the text."""
    lines = lines_of(script.chance, message)
    lines = with_faults(script.chance, lines) if script.chance.happens(faulty) else lines
    script.add(b"in %s %d" % (spelled_bic(script.chance, sender), message.mt), joined(script.chance, lines))


def changed_instruction(script, instruction):
    """An instruction with one thing changed."""
    chance = script.chance
    currency, amount = instruction.cash
    changes = {
        "place": chance.pick((b"OTHRDEFF", b"DESKDEFFABC")),
        "isin": chance.pick(ISINS),
        "kind": b"FAMT" if instruction.kind == b"UNIT" else b"UNIT",
        "account": chance.pick([*OWNERS, b"Z-9"]),
        "counterparty": chance.pick(PARTIES),
        "day": chance.pick(DAYS),
        "quantity": chance.pick((1, 2, 99_999_999_999_999)),
        "settlement": b"RPTO",
        "mt": chance.pick((540, 541, 542, 543)),
        "cash": chance.pick(
            ((currency, amount + 1), (currency, 99_999_999_999), (chance.pick(operating.CURRENCIES), amount))
        ),
    }
    name = chance.pick(list(changes))
    return instruction._replace(**{name: changes[name]})


def changed_cancellation(script, order):
    """A cancellation with one thing changed."""
    chance = script.chance
    changes = {
        "mt": chance.pick((540, 541, 542, 543)),
        "previous": chance.pick([b"ZZ", order.reference, *(message.reference for _, message in script.messages())]),
        "reference": chance.pick([message.reference for _, message in script.messages()] or [b"ZZ"]),
    }
    name = chance.pick(list(changes))
    return order._replace(**{name: changes[name]})


def changed(script, message):
    make = changed_cancellation if isinstance(message, Cancellation) else changed_instruction
    return make(script, message)


# instructions


def instruct(script, sender, instruction):
    """Sends an instruction under a new reference."""
    instruction = instruction._replace(reference=script.fresh_reference(sender))
    script.instructions.append((sender, instruction))
    send(script, sender, instruction)


def instruct_oddly(script, sender, instruction):
    """The same, now and then under an old reference, and now and then with one thing or two changed."""
    chance = script.chance
    if chance.happens(4) and script.messages():
        reference = chance.pick(script.messages())[1].reference
    else:
        reference = script.fresh_reference(sender)
    instruction = instruction._replace(reference=reference)
    for _ in range(chance.weighted({0: 88, 1: 8, 2: 4})):
        instruction = changed_instruction(script, instruction)
    script.instructions.append((sender, instruction))
    send(script, sender, instruction)


def some_cash(script, most=4):
    return script.chance.pick(script.currencies), script.chance.between(1, most) * script.minor_units


def new_instruction(script):
    chance = script.chance
    account, other = chance.pick(script.accounts), chance.pick(script.accounts)
    sender = OWNERS[account] if chance.happens(98) else chance.pick(PARTIES)
    isin = chance.pick(script.isins)
    kind = script.kinds[isin].encode()
    mt = chance.pick((DELIVERY, RECEIPT))[chance.happens(script.against_payment)]
    day, quantity, cash = chance.pick(DAYS[1:4]), chance.between(1, 4), some_cash(script)
    parties = account, OWNERS[other], b"DESKDEFF"
    instruct_oddly(script, sender, Instruction(mt, b"", day, isin, kind, quantity, *parties, b"TRAD", cash))


def opposite_of(script, sender, instruction):
    """The other side of an instruction, with its sender."""
    account = script.account_of(instruction.counterparty)
    other = instruction._replace(mt=OPPOSITE[instruction.mt], account=account, counterparty=sender)
    return instruction.counterparty, other


def opposite_instruction(script):
    """The other side of an instruction, most often of one of the last."""
    if not script.instructions:
        return new_instruction(script)
    one = script.one_of_the_last(script.instructions)
    instruct_oddly(script, *opposite_of(script, *one))
    return script.deals.append((one, script.instructions[-1]))


def twin_instruction(script):
    """One of the last instructions once more, of another account."""
    if script.instructions:
        sender, instruction = script.chance.pick(script.instructions[-4:])
        instruct_oddly(script, sender, instruction._replace(account=script.account_of(sender)))


def old_message(script):
    """A message that was sent before, in another spelling, and now and then with one thing changed."""
    if script.messages():
        some = script.cancellations if script.cancellations and script.chance.happens(30) else script.messages()
        sender, message = script.chance.pick(some)
        send(script, sender, changed(script, message) if script.chance.happens(40) else message)


def faulty_message(script):
    if script.messages():
        send(script, *script.chance.pick(script.messages()), faulty=100)


# deals and days


def deal(script, isin, giving, taking, day, quantity, cash):
    """A delivery and the receipt that is its opposite, each with its sender; without cash they are free."""
    giver, taker = OWNERS[giving], OWNERS[taking]
    kind = script.kinds[isin].encode()
    is_paid, code = cash is not None, script.chance.weighted({b"TRAD": 80, b"OWNI": 20})
    cash, parties = cash or some_cash(script), (giving, taker, b"DESKDEFF")
    delivery = Instruction(DELIVERY[is_paid], b"", day, isin, kind, quantity, *parties, code, cash)
    return (giver, delivery), (taker, delivery._replace(mt=RECEIPT[is_paid], account=taking, counterparty=giver))


def nearly(script, instruction):
    """An instruction that differs in one thing in which the two of a pair may not."""
    chance = script.chance
    currency, amount = instruction.cash
    changes = {
        "isin": chance.pick(script.isins),
        "quantity": instruction.quantity + 1,
        "day": chance.pick(DAYS[1:4]),
        "cash": chance.pick([(chance.pick(script.currencies), amount), (currency, amount + script.minor_units)]),
        "mt": {540: 541, 541: 540, 542: 543, 543: 542}[instruction.mt],
    }
    name = chance.pick(list(changes))
    return instruction._replace(**{name: changes[name]})


def with_twin(script, sides):
    """Both sides of a deal, now and then one of them twice, of any account of its sender, or nearly so, so that it
    matters which one is paired."""
    sender, instruction = script.chance.pick((sides[0], *sides))
    kind = script.chance.weighted({"none": 60, "twin": 25, "near": 15})
    if kind == "none":
        return list(sides)
    account = script.account_of(sender)
    twin = instruction._replace(account=account) if kind == "twin" else nearly(script, instruction)
    return [(sender, twin), *sides]


def cash_of_deal(script):
    return some_cash(script) if script.chance.happens(script.against_payment) else None


def settle(script, deals, in_any_order=False):
    """Deals, now and then with cancellations of one of them, runs for the last of their days, and now and then what
    may have been wanting, or questions."""
    chance = script.chance
    sides = [side for it in deals for side in with_twin(script, it)]
    at = len(script.instructions)
    for sender, instruction in chance.shuffled(sides) if in_any_order else sides:
        instruct(script, sender, instruction)
    new, cancelled = script.instructions[at:], []
    if new and chance.happens(25):
        one, *rest = chance.shuffled(new)
        others = [it for it in rest if it[1].mt == OPPOSITE[one[1].mt] and it[0] == one[1].counterparty]
        cancelled = [one, *others[: chance.below(3)]]
    for side in cancelled:
        cancel(script, *side)
    operating.late_runs(script)
    if cancelled and chance.happens(30):
        cancel(script, *chance.pick(cancelled))
    if new and chance.happens(35):
        provide(script, *chance.pick(new))
    if new and chance.happens(40):
        asking.about(script, [*new, *script.cancellations[-2:]])


def provide(script, sender, instruction):
    """What an instruction may have been short of, now and then runs, and how it stands."""
    chance = script.chance
    if instruction.mt in DELIVERY.values():
        operating.issue(script, instruction.account, instruction.isin, instruction.quantity)
    else:
        operating.pay_in(script, sender, *instruction.cash)
    if chance.happens(60):
        operating.late_runs(script)
    if chance.happens(60):
        asking.ask_status(script, sender, instruction.reference)


def busy_day(script):
    """Some deals in one security in any order, more than may be covered, and runs for the last of their days."""
    chance = script.chance
    isin = chance.pick(script.isins)
    deals = []
    for _ in range(chance.between(2, 5)):
        giving, taking = chance.pick(script.accounts), chance.pick(script.accounts)
        of_day = chance.pick(DAYS[1:4]), chance.between(1, 5), cash_of_deal(script)
        deals.append(deal(script, isin, giving, taking, *of_day))
    settle(script, deals, chance.happens(50))


def chain_day(script):
    """A chain of deliveries through accounts, each of what the one before brings, the last one most often first;
    now and then smaller ones from within the chain, so that it matters which is tried first; and runs."""
    chance = script.chance
    isin, quantity = chance.pick(script.isins), chance.between(5, 9)
    chain = chance.shuffled(script.accounts)[: chance.between(3, 6)]
    operating.issue(script, chain[0], isin, quantity)
    links = [(giving, taking, quantity) for giving, taking in zip(chain, chain[1:])]
    links = chance.shuffled(links) if chance.happens(30) else links[::-1]
    for _ in range(chance.weighted({0: 50, 1: 20, 2: 20, 3: 10})):
        less = (chance.pick(chain), chance.pick(script.accounts), chance.between(1, 4))
        links.insert(chance.below(len(links) + 1), less)
    same_day = chance.happens(80)
    deals = []
    for giving, taking, so_many in links:
        day = DAYS[1] if same_day else chance.pick(DAYS[1:4])
        cash = cash_of_deal(script) if chance.happens(30) else None
        deals.append(deal(script, isin, giving, taking, day, so_many, cash))
    settle(script, deals)


def payment_day(script):
    """A chain of deals in which each is paid with what the next one brings, and the last one out of a pay in that may
    be too little; now and then something else is to be paid too, or securities are short; and runs."""
    chance = script.chance
    isin, (currency, amount) = chance.pick(script.isins), some_cash(script, 9)
    chain = chance.shuffled(script.accounts)[: chance.between(2, 6)]
    for giving in chain[:-1]:
        if chance.happens(90):
            operating.issue(script, giving, isin, 1)
    paid_in = amount + chance.pick((0, 0, 0, 1, -1)) * script.minor_units
    operating.pay_in(script, OWNERS[chain[-1]], currency, max(1, paid_in))
    links = [(giving, taking, amount) for giving, taking in zip(chain, chain[1:])]
    links = links if chance.happens(70) else chance.shuffled(links)
    if chance.happens(40):
        less = (chance.pick(chain), chance.pick(chain), max(1, amount - chance.below(3) * script.minor_units))
        links.insert(chance.below(len(links) + 1), less)
    deals = [deal(script, isin, giving, taking, DAYS[1], 1, (currency, so_much)) for giving, taking, so_much in links]
    settle(script, deals)


# cancellations


def cancel(script, sender, instruction):
    """Requests that an instruction be cancelled; now and then another one, or none."""
    chance = script.chance
    sender = chance.pick(PARTIES) if chance.happens(4) else sender
    order = Cancellation(instruction.mt, script.fresh_reference(sender), instruction.reference)
    order = changed_cancellation(script, order) if chance.happens(12) else order
    script.cancellations.append((sender, order))
    send(script, sender, order)


def new_cancellation(script):
    """A cancellation of an instruction, most often of one of the last, and now and then one more of it; now and then
    one that names a cancellation."""
    if script.instructions:
        named = script.cancellations if script.cancellations and script.chance.happens(10) else script.instructions
        one = script.one_of_the_last(named)
        for _ in range(script.chance.weighted({1: 70, 2: 30})):
            cancel(script, *one)


def cancel_both_sides(script):
    """Cancellations of both sides of a deal, one behind the other or with something in between."""
    if not script.deals:
        return
    chance = script.chance
    sides = chance.shuffled(script.one_of_the_last(script.deals))
    between = chance.weighted({operating.run: 20, twin_instruction: 10, opposite_instruction: 10, None: 60})
    cancel(script, *sides[0])
    if between:
        between(script)
    if chance.happens(20):
        cancel(script, *sides[0])
    cancel(script, *sides[1])
    if chance.happens(30):
        chance.pick((operating.run, twin_instruction, new_cancellation))(script)
    if chance.happens(40):
        asking.about(script, [*sides, *script.cancellations[-2:]])


def cancel_unmatched(script):
    """An instruction, a cancellation of it, and then its other side, which must find another mate or none."""
    new_instruction(script)
    one = script.instructions[-1]
    if script.chance.happens(40):
        twin_instruction(script)
    cancel(script, *one)
    instruct(script, *opposite_of(script, *one))
    if script.chance.happens(50):
        operating.late_runs(script)
