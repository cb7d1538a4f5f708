"""Messages alone, short ones and long ones."""

import codes
import scripts

from .trades import Side, Trade, account_of

# so many messages there are, and of so many one is damaged; their parties are some of so many participants
SHORT, LONG, DAMAGED, PARTICIPANTS = 20_000, 100, 5, 500

# the reference of the first short message is drawn below this number
REFERENCES = 900_000_000

# a long message has so many bytes before its last parties, and fields of these in each further party
LONG_BYTES = 60_000
FURTHER = [
    ":70E::SPRO//SETTLEMENT INSTRUCTION PROCESSING NARRATIVE OF A\nCLIENT WHO TELLS MUCH\n",
    ":95P::BUYR//CLNTDEFFXXX\n",
    ":70D::DENC//FIRST LINE OF A LONG DESCRIPTION\nSECOND LINE OF IT\nTHIRD LINE OF IT\nFOURTH LINE OF IT\n",
    ":97A::CASH//0532013000\n",
]


def drawn_trade(draw, base, participants, number):
    """A trade of any two of so many participants, from a first one on, in any of 50 securities. Its references follow a number."""
    giving, taking = base + draw.below(participants), base + draw.below(participants)
    return Trade(
        account_of(giving, giving),
        account_of(taking, taking),
        codes.isin(base + draw.below(50)),
        quantity=draw.up_to(5_000),
        euros=0 if draw.is_one_in(2) else draw.up_to(90_000),
        day=draw.below(300),
        delivery=number,
        receipt=number + 1,
    )


def drawn_side(draw):
    return Side.DELIVERER if draw.is_one_in(2) else Side.RECEIVER


def damaged(draw, text):
    """A text of which now and then a byte is overwritten."""
    if not draw.is_one_in(DAMAGED):
        return text
    place = draw.below(len(text))
    return text[:place] + chr(32 + draw.below(95)) + text[place + 1 :]


def further_party(draw):
    fields = [FURTHER[draw.below(len(FURTHER))] for _ in range(draw.up_to(6))]
    return "".join([":16R:SETPRTY\n", *fields, ":16S:SETPRTY\n"])


def long_instruction(draw, trade, side):
    """An instruction with many parties and narratives, of which the desk uses none."""
    about = codes.reference(trade.number(side)), codes.day(trade.day), trade.isin, 7, trade.account(side).code
    text = scripts.instruction(*about, trade.counterparty(side), "EUR1000,5")
    place = text.index(":22F::SETR")
    parts, length = [text[:place]], place
    while length < LONG_BYTES:
        parts.append(further_party(draw))
        length += len(parts[-1])
    return "".join([*parts, text[place:]])


def short_messages(draw):
    """Instructions, and one cancellation in ten."""
    first = draw.below(REFERENCES)
    for number in range(first, first + 2 * SHORT, 2):
        trade, side = drawn_trade(draw, 0, PARTICIPANTS, number), drawn_side(draw)
        text = trade.cancellation(side, number) if draw.is_one_in(10) else trade.instruction(side)
        yield trade, side, damaged(draw, text)


def long_messages(draw):
    for number in range(0, 2 * LONG, 2):
        trade, side = drawn_trade(draw, 0, PARTICIPANTS, number), drawn_side(draw)
        yield trade, side, damaged(draw, long_instruction(draw, trade, side))


def script_of(draw):
    """All messages as a script. One whose last line end is damaged gets another."""
    messages = [*short_messages(draw), *long_messages(draw)]
    return "".join(trade.sent(side, text if text.endswith("\n") else f"{text}\n") for trade, side, text in messages)
