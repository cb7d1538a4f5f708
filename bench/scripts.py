"""The requests of the scripts that are played: operator's commands, messages with their block 4, and questions."""

import json

# spellings of the members of a command
compact = json.JSONEncoder(separators=(",", ":")).encode
spaced = json.JSONEncoder().encode
by_name = json.JSONEncoder(separators=(",", ":"), sort_keys=True).encode
pretty = json.JSONEncoder(indent=2).encode

# the question for the totals
SUMS = "sums\n"


def command(**members):
    return f"op\n{compact(members)}\n.\n"


def message(sender, mt, text):
    return f"in {sender} {mt}\n{text}.\n"


def status(sender, reference):
    return f"status {sender} {reference}\n"


def sent(receiver, number):
    return f"sent {receiver} {number}\n"


def holdings(owner, account):
    return f"holdings {owner} {account}\n"


def instruction(reference, day, isin, quantity, account, counterparty, amount=None, details=(), narrative=()):
    """An instruction, free of payment where there is no amount. The counterparty is its qualifier, slashes and its BIC. Details of
    the trade, and a narrative of the safekeeping account, are lines that the desk does not use."""
    lines = ["{4:", ":16R:GENL", f":20C::SEME//{reference}", ":23G:NEWM", ":16S:GENL"]
    lines += [":16R:TRADDET", f":98A::SETT//{day}", *details, f":35B:ISIN {isin}", ":16S:TRADDET"]
    lines += [":16R:FIAC", f":36B::SETT//UNIT/{quantity},", f":97A::SAFE//{account}", *narrative, ":16S:FIAC"]
    lines += [":16R:SETDET", ":22F::SETR//TRAD", ":16R:SETPRTY", f":95P::{counterparty}", ":16S:SETPRTY"]
    lines += [":16R:SETPRTY", ":95P::PSET//DESKDEFF", ":16S:SETPRTY"]
    lines += [":16R:AMT", f":19A::SETT//{amount}", ":16S:AMT"] if amount else []
    return "\n".join([*lines, ":16S:SETDET", "-}", ""])


def cancellation(reference, previous):
    """A request to cancel the instruction of the previous reference."""
    lines = ["{4:", ":16R:GENL", f":20C::SEME//{reference}", ":23G:CANC", ":16R:LINK", f":20C::PREV//{previous}"]
    return "\n".join([*lines, ":16S:LINK", ":16S:GENL", "-}", ""])
