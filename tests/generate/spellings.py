"""Operator's commands in the spellings that most users write, as they are and with one byte changed."""

import json

from . import operating
from .script import DAYS, Script

# so many commands of each spelling are in a script
EACH = 20


def compact(members):
    return json.dumps(dict(members), separators=(",", ":"))


def with_spaces(members):
    return json.dumps(dict(members))


def sorted_by_name(members):
    return json.dumps(dict(members), sort_keys=True, separators=(",", ":"))


def pretty_printed(members):
    return json.dumps(dict(members), indent=2)


def with_returns(members):
    return pretty_printed(members).replace("\n", "\r\n") + "\r\n"


SPELLINGS = compact, with_spaces, sorted_by_name, pretty_printed, with_returns


def changed(chance, text):
    """A text with one byte replaced, by one that JSON has a use for or by any."""
    at = chance.below(len(text))
    other = chance.pick(b' \t\r\n",:{}[]\\0159eE+-.unlf') if chance.happens(60) else chance.below(256)
    return text[:at] + bytes([other]) + text[at + 1 :]


def request(text):
    return b"op\n" + text + (b"" if text.endswith(b"\n") else b"\n") + b".\n"


def spelled_commands(chance):
    """The requests of a script: each command with a byte changed, and as it is."""
    script = Script(chance)
    operating.opening(script)
    while len(script.commands) < EACH * len(SPELLINGS):
        operating.another_command(script)
        if chance.happens(10):
            operating.run_for(script, chance.pick(DAYS))
    requests = []
    for number, members in enumerate(script.commands[: EACH * len(SPELLINGS)]):
        text = SPELLINGS[number % len(SPELLINGS)](members).encode()
        requests += [request(changed(chance, text)), request(text)]
    return [*requests, b"sums\n"]
