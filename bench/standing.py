"""Prints a script after which much stands, in parts that are no longer than a script may be: standing.py ENTRIES PART PARTS. 500
participants have 2,000 accounts in 1,000 securities; of the entries a fifth are issues and pay ins, the others instructions, of
which most are settled in runs, some wait for units that are lacking, and some have no mate. bench/RESULTS.md has its figures."""

import random
import sys

import codes
import scripts

DAY = "20240314"
PARTICIPANTS, ACCOUNTS, SECURITIES = 500, 2_000, 1_000
# so many pairs are settled by a run; of a hundred pairs so many lack units, and of a hundred instructions so many have no mate
PAIRS_A_RUN, LACKING, ALONE = 2_500, 10, 5

BICS = [codes.bic(it) for it in range(PARTICIPANTS)]
ISINS = [codes.isin(it) for it in range(SECURITIES)]
HOMES = [(f"ACCOUNT-{number}", BICS[number % PARTICIPANTS]) for number in range(ACCOUNTS)]


class Script:
    """Counts the entries, and prints those of a part."""

    def __init__(self, before, last):
        self.count, self.before, self.last = 0, before, last

    def ask(self, request):
        if self.before < self.count <= self.last:
            print(request, end="")

    def command(self, op, **members):
        self.count += 1
        self.ask(scripts.command(op=op, ref=f"C{self.count}", **members))

    def instruct(self, home, other, kind, role, isin, quantity):
        self.count += 1
        account, bic = home
        text = scripts.instruction(f"M{self.count}", DAY, isin, quantity, account, f"{role}//{other[1]}")
        self.ask(scripts.message(bic, kind, text))


def main(entries, part, parts):
    chance, script = random.Random(1), Script(entries * (part - 1) // parts, entries * part // parts)
    for bic in BICS:
        script.command("participant", bic=bic)
    for account, bic in HOMES:
        script.command("account", bic=bic, account=account)
    for isin in ISINS:
        script.command("security", isin=isin, kind="UNIT")
    for number in range(entries // 5):
        account, bic = HOMES[number % ACCOUNTS]
        if number % 5:
            script.command("issue", account=account, isin=ISINS[(7 * number) % SECURITIES], quantity=1_000_000)
        else:
            script.command("payin", bic=bic, ccy=("EUR", "USD", "CHF")[number % 3], amount=100_000)
    pairs = 0
    while script.count < entries - 1:
        number = chance.randrange(ACCOUNTS // 5) * 5 + 1
        giving, taking = HOMES[number], HOMES[chance.randrange(ACCOUNTS // 5) * 5]
        # one that the account was given
        isin = ISINS[7 * (number + ACCOUNTS * chance.randrange(entries // 5 // ACCOUNTS)) % SECURITIES]
        quantity = chance.randint(1, 50) if chance.randrange(100) >= LACKING else 900_000_000
        script.instruct(giving, taking, 542, "REAG", isin, quantity)
        if chance.randrange(100) >= ALONE:
            script.instruct(taking, giving, 540, "DEAG", isin, quantity)
            pairs += 1
            if pairs % PAIRS_A_RUN == 0:
                script.command("run", day=DAY)
    script.command("run", day=DAY)


main(*map(int, sys.argv[1:]))
