"""Questions in a random script, and lines that ask for nothing."""

from .messages import BAD_BICS, spelled_bic
from .script import OWNERS, PARTIES, STRANGERS

BAD_LINES = (
    (b"hello", b"sums ", b" sums", b"SUMS", b"sums\t", b"sums x", b"hold ALPHDEFF A-1", b".", b"..")
    + (b"holdings", b"holdings ", b"holdings ALPHDEFF", b"holdings  ALPHDEFF A-1", b"holdings ALPHDEF A-1")
    + (b"holdings\tALPHDEFF A-1", b" holdings ALPHDEFF A-1", b"Holdings ALPHDEFF A-1", b"holdings ALPHDEFF\tA-1")
    + (b"status", b"status ", b"status ALPHDEFF", b"status ALPHDEF R1", b"status  ALPHDEFF R1", b"Status ALPHDEFF R1")
    + (b"status\tALPHDEFF R1", b" status ALPHDEFF R1", b"status ALPHDEFF\tR1", b"status alphdeff R1")
    + (b"stat ALPHDEFF R1", b"sent", b"sent ", b"sent ALPHDEFF", b"sent ALPHDEFF ", b"sent ALPHDEFF 1 ")
    + (b"sent ALPHDEFF  1", b"sent  ALPHDEFF 1", b"sent ALPHDEFF +1", b"sent ALPHDEFF -1", b"sent ALPHDEFF 1,")
    + (b"sent ALPHDEFF x", b"sent ALPHDEFF 1 1", b"sent ALPHDEFF 1234567890", b"sent ALPHDEFF 0000000001")
    + (b"sent ALPHDE 1", b"SENT ALPHDEFF 1", b"sent ALPHDEFF\t1")
    + (b" ", b"\t", b" # no comment", b"opx", b"inn", b"OP", b" op", b" in ALPHDEFF 540", b"in\tALPHDEFF 540", b"op\t")
    + (b"\xff\x00", b"{4:", b"sums\r", b"\r", b"x" * 1_024, b"x" * 1_025, b"sums" + b" " * 1_020)
    + (b"sums" + b" " * 1_021, b"sent ALPHDEFF " + b"0" * 1_010)
    + (b"status ALPHDEFF " + b"x" * 1_008, b"status ALPHDEFF " + b"x" * 1_009)
    + (b"holdings ALPHDEFF " + b"x" * 1_006, b"holdings ALPHDEFF " + b"x" * 1_007)
)
BAD_HEADS = (
    (b"in", b"in ", b"in ALPHDEFF", b"in ALPHDEFF ", b"in ALPHDEFF 999", b"in ALPHDEFF 539", b"in ALPHDEFF 544")
    + (b"in BETADEFF 544", b"in ALPHDEFF 548", b"in ALPHDEFF 0540", b"in ALPHDEFF 54", b"in  ALPHDEFF 540")
    + (b"in ALPHDEFF  540", b"op ")
    + (b"in ALPHDEFF 540 ", b"in ALPHDEFF 540 x", b"op x", b"op op", b"in ALPHDEFF\t540", b"in ALPHDEFF 540\r", b"op\r")
    + (b"in " + b"x" * 1_100, b"op " + b" " * 1_100, *(b"in %s 540" % bic for bic in BAD_BICS))
)
COMMENTS = (b"", b"", b"#", b"# a note", b"#op", b"# " + b"x" * 1_100, b"# \xff\r\x00")
ODD_REFERENCES = (b"", b"", b" ", b"R", b"R0 ", b" R0", b"r0", b"/R0", b"R999", b"\xff", b"R0\tR1", b"x" * 17, b"R0 R1")
# lines as long as one may be, or nearly so
ODD_REFERENCES += tuple(b"x" * (1_024 - len(b"status ALPHDEFF ") + more) for more in (-1, 0, 1))
ODD_ACCOUNTS = (b"", b"", b" ", b"A", b"A-1 ", b" A-1", b"a-1", b"Z-9", b"\xff", b"A-1\tA-2", b"A-1 B-1")
ODD_ACCOUNTS += b"x" * 35, b"x" * 36


def participant(script):
    """One who asks, most often a participant with an account."""
    chance = script.chance
    kind = chance.weighted({"owner": 90, "party": 6, "stranger": 4})
    return chance.pick({"owner": script.owners, "party": PARTIES, "stranger": STRANGERS}[kind])


def ask_status(script, bic, reference):
    script.add(b"status %s %s" % (spelled_bic(script.chance, bic), reference))


def about(script, messages):
    """How one or some of these messages, each with its sender, stand, or what was sent to their senders."""
    chance = script.chance
    for sender, message in chance.shuffled(messages)[: chance.between(1, 4)]:
        if chance.happens(70):
            ask_status(script, sender, message.reference)
        else:
            script.add(b"sent %s %d" % (sender, chance.between(1, 4)))


def status(script):
    """How a message stands: most often one of the last of who asks, now and then another's or none."""
    chance = script.chance
    if not script.messages():
        return ask_status(script, participant(script), b"R0")
    some = script.cancellations if script.cancellations and chance.happens(25) else script.instructions
    sender, message = script.one_of_the_last(some or script.messages())
    kind = chance.weighted({"own": 82, "any participant": 8, "odd reference": 6, "operator's reference": 4})
    if kind == "own":
        return ask_status(script, sender, message.reference)
    if kind == "any participant":
        return ask_status(script, participant(script), message.reference)
    odd = chance.pick(ODD_REFERENCES) if kind == "odd reference" else b"R%d" % chance.below(len(script.commands) + 1)
    return ask_status(script, participant(script), odd)


def sent(script):
    """What was sent to a participant, most often early enough that there is such a message."""
    chance = script.chance
    kind = chance.weighted({"early": 66, "later": 14, "none": 8, "far": 4, "zeros": 8})
    place = {
        "early": b"%d" % chance.weighted({1: 60, 2: 25, 3: 15}),
        "later": b"%d" % chance.between(1, 12),
        "none": chance.pick((b"0", b"000000000")),
        "far": chance.pick((b"999999999", b"1000", b"4294967297"[:9])),
        "zeros": b"0" * chance.between(1, 9) + b"%d" % chance.between(1, 3),
    }
    script.add(b"sent %s %s" % (spelled_bic(chance, participant(script)), place[kind]))


def holdings(script, account=None):
    """What an account holds; it is most often one of who asks."""
    chance = script.chance
    account = account or chance.pick(script.accounts or list(OWNERS))
    kind = chance.weighted({"own": 80, "any account": 8, "any participant": 6, "odd account": 6})
    bic = OWNERS[account] if kind == "own" else participant(script)
    named = {"any account": chance.pick(list(OWNERS)), "odd account": chance.pick(ODD_ACCOUNTS)}
    script.add(b"holdings %s %s" % (spelled_bic(chance, bic), named.get(kind, account)))


def sums(script):
    script.add(b"sums")


def closing(script):
    """At the end the sums, and now and then all that was sent to someone and how the last messages stand."""
    chance = script.chance
    if chance.happens(40):
        for bic in script.owners:
            for place in range(1, chance.between(1, 8)):
                script.add(b"sent %s %d" % (bic, place))
    if chance.happens(40):
        about(script, script.messages()[-8:])
    if chance.happens(40):
        for account in script.accounts:
            holdings(script, account)
    if chance.happens(70):
        sums(script)


def same_request(script):
    """An earlier request byte by byte."""
    if script.requests:
        script.requests.append(script.chance.pick(script.requests))


def bad_line(script):
    script.add(script.chance.pick(BAD_LINES))


def bad_head(script):
    """A line that swallows a body and is not asked."""
    lines = script.chance.shuffled((b"sums", b"op", b"", b"..", b". ", b"#"))[:3]
    body = b"".join(line + script.end() for line in lines)
    script.add(script.chance.pick(BAD_HEADS), body if script.chance.happens(90) else None)


def without_body(script):
    """A request that takes the next one for its body."""
    heads = b"op", b"in ALPHDEFF 540", b"in BETADEFF 542", b"in ALPHDEFF 541", b"in GAMMDEFF 543"
    script.add(script.chance.pick(heads))


def no_request(script):
    script.add(script.chance.pick(COMMENTS))
