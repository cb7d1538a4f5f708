"""Counts what commands cost in each spelling that users write: spellings.py PROGRAM, PROGRAM being the desk's.

The same 5,000 commands, as many of each operation, are played by `PROGRAM play` in each spelling; an empty script's cost is
taken off. It prints a row of a table for each spelling: the cost of one command, and how many times the first row's it is."""

import json
import sys

from codes import account, bic, isin
from counting import COST, UNIT
from scripts import by_name, compact, pretty, spaced

EACH = 625


def commands():
    """The members of each command, the operation and the reference first."""
    for number in range(EACH):
        name, holder, security = bic(number), account(number), isin(number)
        moved = {"account": holder, "isin": security}
        paid = {"bic": name, "ccy": "EUR"}
        yield from (
            {"op": "participant", "ref": f"P{number}", "bic": name},
            {"op": "account", "ref": f"A{number}", "bic": name, "account": holder},
            {"op": "security", "ref": f"S{number}", "isin": security, "kind": "UNIT"},
            {"op": "issue", "ref": f"I{number}", **moved, "quantity": 1000 + number},
            {"op": "redeem", "ref": f"R{number}", **moved, "quantity": 1 + number},
            {"op": "payin", "ref": f"C{number}", **paid, "amount": 100_000 + number},
            {"op": "payout", "ref": f"O{number}", **paid, "amount": 1 + number},
            {"op": "run", "ref": f"D{number}", "day": "20240314"},
        )


SPELLINGS = {
    "compact": compact,
    "with spaces": spaced,
    "sorted": by_name,
    "sorted, with spaces": lambda members: json.dumps(members, sort_keys=True),
    "pretty-printed": pretty,
    "with CR LF": lambda members: compact(members) + "\r",
    "pretty-printed, with CR LF": lambda members: pretty(members).replace("\n", "\r\n") + "\r",
}


def script(spell):
    return "".join(f"op\n{spell(members)}\n.\n" for members in commands()).encode()


def main(program):
    print(f"| spelling | {UNIT} a command | of compact |")
    print("|---|--:|--:|", flush=True)
    nothing = COST(program, b"")
    first = None
    for name, spell in SPELLINGS.items():
        cost = (COST(program, script(spell)) - nothing) / (8 * EACH)
        first = first or cost
        print(f"| {name} | {cost:,.0f} | {cost / first:.2f} |", flush=True)


main(sys.argv[1])
