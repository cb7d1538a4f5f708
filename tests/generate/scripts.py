"""Random scripts: what is asked in them, and how often."""

from . import asking, dealing, operating
from .script import Script

NEXT = {
    dealing.new_instruction: 16,
    dealing.opposite_instruction: 30,
    dealing.twin_instruction: 5,
    dealing.busy_day: 4,
    dealing.chain_day: 3,
    dealing.payment_day: 4,
    dealing.new_cancellation: 6,
    dealing.cancel_both_sides: 6,
    dealing.cancel_unmatched: 2,
    dealing.old_message: 6,
    dealing.faulty_message: 5,
    operating.run: 13,
    operating.another_command: 18,
    operating.pass_through: 2,
    operating.old_command: 8,
    operating.faulty_command: 4,
    asking.status: 12,
    asking.sent: 8,
    asking.holdings: 8,
    asking.sums: 4,
    asking.same_request: 2,
    asking.bad_line: 2,
    asking.bad_head: 2,
    asking.without_body: 1,
    asking.no_request: 2,
}


def random_script(chance, closing=asking.closing):
    """The requests of a script, of which the last one may be cut off; `closing` asks for what comes last."""
    script = Script(chance)
    if chance.happens(95):
        operating.opening(script)
    for _ in range(chance.below(chance.weighted({40: 97, 120: 3}))):
        chance.weighted(NEXT)(script)
    closing(script)
    return script.parts()
