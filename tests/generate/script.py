"""A random script in the making: of few parties, accounts, securities, currencies and days, so that they meet again
and again."""

from plain.codes import DECIMALS

from .messages import ISINS

OWNERS = {
    b"A-1": b"ALPHDEFF",
    b"A-2": b"ALPHDEFF",
    b"B-1": b"BETADEFF",
    b"B-2": b"BETADEFF",
    b"C-1": b"GAMMDEFF",
    b"a//b": b"ALPHDEFFABC",
}
PARTIES = (b"ALPHDEFF", b"BETADEFF", b"GAMMDEFF", b"ALPHDEFFABC", b"DESKDEFF")
STRANGERS = (b"ZZZZDEFF", b"ALPHDEFFABD", b"ZZZZDEFFXXX")
DAYS = (b"20231231", b"20240228", b"20240229", b"20240301", b"20240302", b"20250101")


class Script:
    """The requests of a script, and what was asked in them."""

    def __init__(self, chance):
        self.chance = chance
        self.requests = []
        # the members of each command; each instruction and each cancellation with its sender
        self.commands, self.instructions, self.cancellations = [], [], []
        # whose account or cash, which security or currency, and how much of it
        self.issues, self.pay_ins = [], []
        # the two sides of deals, each with its sender
        self.deals = []
        self.day = 1
        self.ends = chance.weighted({(b"\n",): 70, (b"\r\n",): 15, (b"\n", b"\r\n"): 15})
        self.isins = chance.shuffled(ISINS)[: chance.between(1, 2)]
        self.kinds = {isin: chance.pick(("UNIT", "UNIT", "FAMT")) for isin in ISINS}
        self.accounts = chance.shuffled(OWNERS)[: chance.between(1, 6)]
        self.owners = [bic for bic in PARTIES if bic in [OWNERS[account] for account in self.accounts]]
        self.currencies = chance.shuffled(DECIMALS)[: chance.between(1, 2)]
        # amounts are some of these minor units
        self.minor_units = chance.pick((1, 1, 10, 100))
        # of a hundred deals so many are against payment
        self.against_payment = chance.pick((0, 30, 60, 100))
        # how the references of messages are made of a number, and how often so
        self.forms = {b"R%d": 92, b"R %d": 2, b"R/%d": 2, b"R%d ": 2, b" R%d": 2}

    def end(self):
        return self.chance.pick(self.ends)

    def add(self, head, body=None):
        """Adds a request; its body ends with a line of its own."""
        request = head + self.end()
        if body is not None:
            has_end = body == b"" or body.endswith(b"\n")
            request += body + (b"" if has_end else b"\n") + b"." + self.end()
        self.requests.append(request)

    def messages(self):
        """The instructions and cancellations, each with its sender."""
        return [*self.instructions, *self.cancellations]

    def fresh_reference(self, sender):
        """A reference that its sender has most likely not used; others use it too."""
        form = self.chance.weighted(self.forms)
        return form % len([it for it in self.messages() if it[0] == sender])

    def one_of_the_last(self, things):
        """One of these, most often one of the last."""
        return self.chance.pick(things[-self.chance.weighted({1: 50, 4: 35, 1_000: 15}) :])

    def account_of(self, bic):
        own = [account for account in self.accounts if OWNERS[account] == bic]
        return self.chance.pick(own or list(OWNERS))

    def parts(self):
        """The requests, of which the last one may now and then be cut off."""
        if self.chance.happens(85) or not self.requests:
            return self.requests or [b""]
        *others, last = self.requests
        is_whole = self.chance.happens(50)
        return [*others, last.rstrip(b"\r\n") if is_whole else last[: len(last) - self.chance.below(len(last) + 1)]]
