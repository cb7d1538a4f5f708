"""Trades, and what both sides instruct of them."""

import enum
from typing import NamedTuple

import codes
import scripts

# what one instruction in four has of the trade besides, its date and price, and one in eight as a narrative
DETAILS = ":98A::TRAD//20240102", ":90B::DEAL//ACTU/EUR101,25"
NARRATIVE = ":70D::DENC//ON BEHALF OF CLIENT ACCOUNT", "PLEASE QUOTE OUR REFERENCE IN ALL", "CORRESPONDENCE"


class Side(enum.Enum):
    """A side of a trade, as the qualifier of its counterparty."""

    DELIVERER = "REAG"
    RECEIVER = "DEAG"

    def other(self):
        return Side.RECEIVER if self is Side.DELIVERER else Side.DELIVERER


class Account(NamedTuple):
    """A safekeeping account, and the BIC of the participant whose it is."""

    owner: str
    code: str


def account_of(participant, number):
    """The safekeeping account of a number, and of the number of a participant."""
    return Account(codes.bic(participant), codes.account(number))


class Trade(NamedTuple):
    """So many units of a security that are delivered, against so many euros (0: free of payment). The numbers of a day, and of the
    references of the delivery and the receipt."""

    deliverer: Account
    receiver: Account
    isin: str
    quantity: int
    euros: int
    day: int
    delivery: int
    receipt: int

    def account(self, side):
        return self.deliverer if side is Side.DELIVERER else self.receiver

    def number(self, side):
        return self.delivery if side is Side.DELIVERER else self.receipt

    def mt(self, side):
        return (542 if side is Side.DELIVERER else 540) + (self.euros > 0)

    def counterparty(self, side):
        return f"{side.value}//{self.account(side.other()).owner}"

    def amount(self):
        """What is paid, in every second one with cents; None free of payment."""
        cents = "25" if self.euros % 2 else ""
        return f"EUR{self.euros},{cents}" if self.euros else None

    def instruction(self, side):
        """What a side instructs."""
        number = self.number(side)
        return scripts.instruction(
            codes.reference(number),
            codes.day(self.day),
            self.isin,
            self.quantity,
            self.account(side).code,
            self.counterparty(side),
            self.amount(),
            details=DETAILS if number % 4 == 0 else (),
            narrative=NARRATIVE if number % 8 == 3 else (),
        )

    def cancellation(self, side, number):
        """A side's request to cancel what it instructed, under the reference of a number."""
        return scripts.cancellation(codes.reference(number), codes.reference(self.number(side)))

    def sent(self, side, text):
        """A side's message, as a request of a script."""
        return scripts.message(self.account(side).owner, self.mt(side), text)
