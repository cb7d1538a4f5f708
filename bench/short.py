"""Counts what runs over pairs that lack something cost: short.py PROGRAM [WORD..], PROGRAM being the desk's.

Each script is played by `PROGRAM play`, whole and without what stands from its first run on (of calls that are told alone:
from that call on); the difference is what the rest costs. With words, only scripts are counted whose names have one of them. It
prints a row of a table for each; docs/PERF.md has some."""

import itertools
import sys

from counting import COST, UNIT
from scripts import instruction, message

DAY, ISIN = "20240314", "DE0007164600"
IN_WORDS = {1: "one run", 2: "two runs", 3: "three runs", 50: "fifty runs"}

# How much each pair moves, its amount in euros and in minor units, and what is issued where securities are not to lack.
QUANTITY, AMOUNT, MINOR_UNITS, PLENTY = 100, 100, 10_000, 100_000_000


class Script:
    """Requests, and from which one on they are counted."""

    def __init__(self):
        self.requests = []
        self.counted_from = None
        self.names = itertools.count(1)
        for bic in ("ALPHDEFF", "BETADEFF"):
            self.command("participant", f'"bic":"{bic}"')
        for account, bic in (("ALPHA-1", "ALPHDEFF"), ("ALPHA-2", "ALPHDEFF"), ("BETA-1", "BETADEFF")):
            self.account(account, bic)
        self.command("security", f'"isin":"{ISIN}","kind":"UNIT"')

    def command(self, op, members):
        self.requests.append(f'op\n{{"op":"{op}","ref":"C{next(self.names)}",{members}}}\n.\n')

    def account(self, account, bic):
        self.command("account", f'"bic":"{bic}","account":"{account}"')

    def moved(self, op, quantity, account="ALPHA-1"):
        self.command(op, f'"account":"{account}","isin":"{ISIN}","quantity":{quantity}')

    def pay_in(self, amount):
        self.command("payin", f'"bic":"BETADEFF","ccy":"EUR","amount":{amount}')

    def run(self):
        self.count()
        self.command("run", f'"day":"{DAY}"')

    def count(self):
        if self.counted_from is None:
            self.counted_from = len(self.requests)

    def pair(self, amount=None, given="ALPHA-1", taken="BETA-1", receiver="BETADEFF"):
        """A delivery by ALPHDEFF, against an amount or free of payment, and its receipt."""
        number = next(self.names)
        sides = (
            ("ALPHDEFF", 543 if amount else 542, "REAG", receiver, given, f"D{number}"),
            (receiver, 541 if amount else 540, "DEAG", "ALPHDEFF", taken, f"R{number}"),
        )
        for bic, kind, role, counterparty, account, reference in sides:
            paid = f"EUR{amount}," if amount else None
            text = instruction(reference, DAY, ISIN, QUANTITY, account, f"{role}//{counterparty}", paid)
            self.requests.append(message(bic, kind, text))


def lacking(what, pairs):
    """Pairs that lack units of one account, or one participant's money."""
    script = Script()
    if what == "money":
        script.moved("issue", PLENTY)
    for _ in range(pairs):
        script.pair(AMOUNT if what == "money" else None)
    return script


def bring(script, what, much):
    if what == "money":
        script.pay_in(much)
    else:
        script.moved("issue", much)


def runs_with(script, runs, between=lambda script: None):
    script.run()
    for _ in range(runs - 1):
        between(script)
        script.run()
    return script


def by_turns(pairs, runs, each):
    """Pairs against payment that lack units for so many runs, money for as many, and units again."""
    script = Script()
    for _ in range(pairs):
        script.pair(AMOUNT)
    for run in range(runs):
        if run and run % each == 0:
            script.moved("issue" if run // each % 2 else "redeem", PLENTY)
        script.run()
    return script


def noted_and_turned(what, pairs, runs):
    """As many runs as it takes until a pair is noted, and what turns money into units, or units into money, before the last."""
    script = Script()
    if what == "money":
        script.moved("issue", PLENTY)
    for _ in range(pairs):
        script.pair(AMOUNT)
    runs_with(script, runs - 1)
    script.moved("redeem" if what == "money" else "issue", PLENTY)
    script.run()
    return script


def later_runs(what, first, last):
    script = runs_with(lacking(what, 1_000), first - 1)
    script.counted_from = len(script.requests)
    for _ in range(first, last + 1):
        script.run()
    return script


def noisy_beside_quiet(noisy, quiet, runs, much):
    script = lacking("units", noisy)
    for _ in range(quiet):
        script.pair(given="ALPHA-2")
    return runs_with(script, runs, lambda script: script.moved("issue", much))


def brought_in_passes(passes, pairs):
    """A run of that many passes, each of which brings one unit to an account for which pairs wait."""
    script = lacking("units", pairs)
    runs_with(script, 12)
    for number in range(passes + 1):
        script.account(f"LINK-{number}", "ALPHDEFF")
    script.moved("issue", QUANTITY, f"LINK-{passes}")
    for number in range(passes):
        script.pair(given=f"LINK-{number + 1}", taken=f"LINK-{number}", receiver="ALPHDEFF")
    script.counted_from = len(script.requests)
    script.run()
    return script


def chain(length):
    """Each pair, in the order of their numbers, delivers what the next one brings: as many passes as pairs."""
    script = Script()
    for number in range(length + 1):
        script.account(f"LINK-{number}", "ALPHDEFF")
    script.moved("issue", QUANTITY, f"LINK-{length}")
    for number in range(length):
        script.pair(given=f"LINK-{number + 1}", taken=f"LINK-{number}", receiver="ALPHDEFF")
    script.run()
    return script


def alone(what, runs, call):
    """One call, behind so many runs over 16,000 pairs."""
    script = runs_with(lacking(what, 16_000), runs)
    script.counted_from = len(script.requests)
    call(script)
    return script


def scripts():
    """The names of the scripts, and what makes each."""
    for what, unit in (("units", "one unit"), ("money", "one minor unit")):
        for pairs in (1_000, 16_000):
            name = f"{pairs:,} pairs lack {what}"
            for runs in (1, 3, 50):
                yield f"{name}; {IN_WORDS[runs]}", lambda: runs_with(lacking(what, pairs), runs)
            for runs in (3, 50):
                yield f"{name}; {IN_WORDS[runs]}, {unit} before each", lambda: runs_with(
                    lacking(what, pairs), runs, lambda script: bring(script, what, 1)
                )
    for pairs in (1_000, 16_000):
        for runs in (2, 50):
            yield f"{pairs:,} pairs lack units and money by turns; {IN_WORDS[runs]}", lambda: by_turns(pairs, runs, 1)
    yield "1,000 pairs lack units and money by turns of ten; fifty runs", lambda: by_turns(1_000, 50, 10)
    for what in ("units", "money"):
        yield f"1,000 pairs lack {what}; ten runs, and what turns it before the last", lambda: noted_and_turned(what, 1_000, 10)
    for what in ("units", "money"):
        yield f"1,000 pairs lack {what}; the tenth run to the fiftieth", lambda: later_runs(what, 10, 50)
    for what, much in (("units", QUANTITY), ("money", MINOR_UNITS)):
        yield f"1,000 pairs lack {what}; fifty runs, and what lets one settle before each", lambda: runs_with(
            lacking(what, 1_000), 50, lambda script: bring(script, what, much)
        )
    for what, much in (("that get one unit", 1), ("of which one can settle", QUANTITY)):
        yield f"1,200 quiet pairs beside 200 {what} before each; fifty runs", lambda: noisy_beside_quiet(200, 1_200, 50, much)
    yield "a run of 301 passes, each of which brings one unit to 1,000 pairs", lambda: brought_in_passes(301, 1_000)
    yield "a chain of 600; one run", lambda: chain(600)
    for runs, after in ((1, "one run"), (12, "twelve runs")):
        yield f"an issue of one unit, behind {after} over 16,000 pairs", lambda: alone("units", runs, lambda script: bring(script, "units", 1))
        yield f"a pay in of one minor unit, behind {after} over 16,000 pairs", lambda: alone("money", runs, lambda script: bring(script, "money", 1))
        yield f"a redemption of one unit, behind {after} over 16,000 pairs", lambda: alone("money", runs, lambda script: script.moved("redeem", 1))


def main(program, words):
    print(f"| script | millions of {UNIT} |")
    print("|---|--:|", flush=True)
    for name, make in scripts():
        if words and not any(word in name for word in words):
            continue
        script = make()
        whole, opening = (
            COST(program, "".join(requests).encode()) for requests in (script.requests, script.requests[: script.counted_from])
        )
        print(f"| {name} | {(whole - opening) / 1e6:,.2f} |", flush=True)


main(sys.argv[1], sys.argv[2:])
