"""Connections that bring messages, commands and questions: the bytes that each sends."""

from codes import bic, isin, reference
from scripts import compact

from . import orders
from .draw import BASES
from .messages import drawn_side, drawn_trade
from .trades import account_of

# so many connections there are, from so many participants
CONNECTIONS, PARTICIPANTS = 10_000, 50

# what stands in a head behind the method and the target
HEAD = "\r\n".join(
    [
        " HTTP/1.1",
        "Host: 127.0.0.1:8080",
        "User-Agent: curl/8.5.0",
        "Accept: */*",
        "Content-Type: text/plain; charset=us-ascii",
        "Connection: close",
        "Content-Length: ",
    ]
)


def sent(method, target, body=""):
    return f"{method} {target}{HEAD}{len(body)}\r\n\r\n{body}".encode()


def ordered(members):
    return sent("POST", "/ops", compact(members))


def opening(base):
    """Registers who is there, and what is traded."""
    for number in range(PARTICIPANTS):
        account, security = account_of(base + number, base + number), isin(base + number)
        yield orders.participant(number, account.owner)
        yield orders.account(100 + number, account)
        yield orders.security(200 + number, security)
        yield orders.issue(300 + number, account, security, 1_000_000)
        yield orders.pay_in(400 + number, account.owner, 2_000_000_000)


def request(draw, base, number):
    """What the connection of a number sends: of ten six instruct, two ask for a message's status, one asks for one that was sent,
    and one pays in."""
    owner, kind = bic(base + draw.below(PARTICIPANTS)), draw.below(10)
    if kind < 6:
        trade, side = drawn_trade(draw, base, PARTICIPANTS, 2 * number), drawn_side(draw)
        return sent("POST", f"/in/{trade.account(side).owner}/{trade.mt(side)}", trade.instruction(side))
    if kind < 8:
        return sent("POST", f"/status/{owner}", reference(draw.below(max(2 * number, 1))))
    if kind == 8:
        return sent("GET", f"/out/{owner}/{draw.up_to(20)}")
    return ordered(orders.pay_in(number, owner, 1))


def sent_of(draw):
    """What each connection sends, those of the opening first."""
    base = draw.below(BASES)
    return [*map(ordered, opening(base)), *(request(draw, base, number) for number in range(CONNECTIONS))]
