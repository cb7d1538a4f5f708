"""The kinds of entries of a history, and what tells them apart (docs/RULES.md, 'History')."""

from collections import namedtuple

MOST_QUANTITY = 99_999_999_999_999
MOST_PAID = 999_999_999_999_999_999

# the rules of a run: one pass, as histories of earlier versions have it; or passes, as each command asks
ONE_PASS, PASSES = 1, 2

# the operator's
Participant = namedtuple("Participant", "reference bic")
Account = namedtuple("Account", "reference bic account")
Security = namedtuple("Security", "reference isin kind")
Issue = namedtuple("Issue", "reference account isin quantity")
Redeem = namedtuple("Redeem", "reference account isin quantity")
PayIn = namedtuple("PayIn", "reference bic currency amount")
PayOut = namedtuple("PayOut", "reference bic currency amount")
Run = namedtuple("Run", "reference day rule", defaults=[PASSES])

# the participants', of which the message is an instruction or a cancellation
Instruct = namedtuple("Instruct", "sender message")
Cancel = namedtuple("Cancel", "sender message")


def is_message(entry):
    return isinstance(entry, (Instruct, Cancel))


def key_of(entry):
    """The sender and the reference of an entry. All commands of the operator have one sender."""
    return (entry.sender, entry.message.reference) if is_message(entry) else ("operator", entry.reference)


def asked(entry):
    """What an entry asks for: its rule a run does not."""
    return entry._replace(rule=PASSES) if isinstance(entry, Run) else entry


def ask_the_same(one, other):
    """Whether two entries ask for the same."""
    one, other = asked(one), asked(other)
    return type(one) is type(other) and one == other


def number_of_key(history, key):
    """The number of the entry with this key; None where there is none."""
    return next((number for number, entry in enumerate(history, 1) if key_of(entry) == key), None)


def numbered(history, kind):
    """The entries of one kind, each with its number."""
    return [(number, entry) for number, entry in enumerate(history, 1) if isinstance(entry, kind)]


def entries(history, kind):
    return [entry for _, entry in numbered(history, kind)]
