"""The statements that the desk of a file asks as it plays a mixed day of bench/measure.py, in their order, for Python's SQLite to
run: memory answers what is asked, so they are those that change the tables, with what these look up for that. They are found by a
desk of the barest kind over a database in memory: it knows the requests of such a day alone, takes each as accepted, and writes a
text of the same length for each reply and message. The texts of the statements are those of the desk's sources, where macros make
those of the tables, which a case has."""

import bisect
import collections
import functools
import glob
import json
import re
import sqlite3

# the texts that make the tables, and where the other statements stand
TABLES = "cases/tables/texts.sql"
FOLDERS = ["sql_tables/src", "sql_entries/src", "sql_rows/src/standings", "sql_rows/src/amounts", "sql_rows/src/sent"]
STATEMENT = re.compile(r'"((?:SELECT|INSERT|UPDATE|DELETE|BEGIN|COMMIT|SAVEPOINT|RELEASE|ROLLBACK)\b[^"]*)"')

KINDS = {"participant": 1, "account": 2, "security": 3, "issue": 4, "redeem": 5, "payin": 6, "payout": 7, "run": 10}
MATCHED, CANCELLED, SETTLED = 2, 3, 4
LACKS_SECURITIES, LACKS_MONEY = 2, 3

# the column of an amount, and the first one of its key
COLUMN = {"balance": "quantity", "cash": "amount", "total": "amount"}
KEY = {"balance": "account", "cash": "bic", "total": "subject"}

# how much greater the type of a confirmation is than that of its instruction
CONFIRMS = 4

# what one side instructs, free of payment with no currency and an amount of 0
Instruction = collections.namedtuple("Instruction", "sender mt day isin unit quantity account counterparty currency amount")

# how long the texts of messages are: of an instruction that is unmatched, of one that is matched, of a cancellation, and of a
# confirmation free of payment and against it
UNMATCHED, PAIRED, CANCELS, FREE, PAID = 246, 286, 167, 385, 424


@functools.cache
def texts():
    """The texts of the statements, as the case and the sources have them."""
    with open(TABLES, encoding="utf-8") as file:
        found = [it.removesuffix(";") for it in file.read().splitlines()]
    for folder in FOLDERS:
        for name in sorted(glob.glob(f"crates/{folder}/*.rt")):
            with open(name, encoding="utf-8") as file:
                found += STATEMENT.findall(file.read())
    return found


@functools.cache
def text_of(beginning):
    """The one text that begins so."""
    [text] = [it for it in texts() if it.startswith(beginning)]
    return text


class Desk:
    """A desk. `asked` has the statements that it asked, each with its parameters, and `settled` says how many pairs it settled.
    What its memory answers is no statement: what is registered, which instruction is opposite, which pairs are due, what a pair
    lacks, and every question."""

    def __init__(self):
        self.connection = sqlite3.connect(":memory:", isolation_level=None)
        self.asked, self.settled = [], 0
        # entries by sender and reference, instructions by number, and how each stands; those without a mate by what opposite ones
        # have in common; pairs that wait, each its day and its later number; what is held, by table and key
        self.numbers, self.instructions, self.standings = {}, {}, {}
        self.unmatched, self.due, self.amounts = {}, [], collections.Counter()
        self.ask("BEGIN")
        for text in texts():
            if text.startswith("CREATE "):
                self.ask(text)
        self.ask("INSERT INTO version", 3)
        self.ask("COMMIT")

    def ask(self, beginning, *parameters):
        """Asks a statement. Gives the first row of a query, and of another how many rows it changed."""
        text = text_of(beginning)
        self.asked.append((text, parameters))
        done = self.connection.execute(text, parameters)
        return done.fetchone() if done.description else done.rowcount

    def next_number(self, table):
        (number,) = self.ask(f"SELECT number FROM {table} ORDER") or (0,)
        return number + 1

    def add_row(self, sender, reference, kind, reply, **columns):
        """Adds an entry of which these columns are used, and gives its number."""
        number = self.next_number("register")
        names = "bic account isin unit quantity currency amount day rule mt settlement place previous".split()
        numbers = "quantity amount rule mt".split()
        used = [columns.get(it, 0 if it in numbers else "") for it in names]
        about = columns[["bic", "account", "isin"][kind - 1]] if kind <= 3 else ""
        told = (548, "-" * reply) if sender else (None, "-" * (len("accepted ") + len(str(number)) + reply))
        self.ask("INSERT INTO register", number, sender, reference, kind, about, *used, 200, *told)
        self.numbers[sender, reference] = number
        return number

    def take(self, table, *key_and_amount):
        *key, amount = key_and_amount
        self.amounts[table, *key] -= amount
        self.ask(f"UPDATE {table} SET {COLUMN[table]} = {COLUMN[table]} -", *key_and_amount)

    def put(self, table, *key_and_amount):
        *key, amount = key_and_amount
        self.amounts[table, *key] += amount
        column = COLUMN[table]
        is_there = self.ask(f"SELECT {column} FROM {table} WHERE {KEY[table]}", *key)
        self.ask(f"UPDATE {table} SET {column} = {column} +" if is_there else f"INSERT INTO {table}", *key_and_amount)

    def set_pair(self, later, mate, state, reason):
        for one, other in ((mate, later), (later, mate)):
            self.standings[one].update(mate=other, state=state, reason=reason)
            self.ask("UPDATE state SET mate", one, other, state, reason)

    def send(self, mt, about, length):
        number = self.next_number("sent")
        self.ask("INSERT INTO sent", number, self.instructions[about].sender, mt, about, "-" * length)

    def lack_of(self, delivery, receipt):
        """What a pair lacks; None where it is covered."""
        if self.amounts["balance", delivery.account, delivery.isin] < delivery.quantity:
            return LACKS_SECURITIES
        if self.amounts["cash", receipt.sender, receipt.currency] < receipt.amount:
            return LACKS_MONEY
        return None

    def settle(self, later):
        """Settles a pair, if it is covered. The tables are told nothing where it lacks what it lacked. Gives whether it settled."""
        mate = self.standings[later]["mate"]
        delivering, receiving = sorted((later, mate), key=lambda number: self.instructions[number].mt, reverse=True)
        delivery, receipt = self.instructions[delivering], self.instructions[receiving]
        lack = self.lack_of(delivery, receipt)
        if lack:
            if self.standings[later]["reason"] != lack:
                self.set_pair(later, mate, MATCHED, lack)
            return False
        self.ask("SAVEPOINT")
        self.take("balance", delivery.account, delivery.isin, delivery.quantity)
        if delivery.amount:
            self.take("cash", receipt.sender, receipt.currency, receipt.amount)
        self.put("balance", receipt.account, receipt.isin, receipt.quantity)
        if delivery.amount:
            self.put("cash", delivery.sender, delivery.currency, delivery.amount)
        self.set_pair(later, mate, SETTLED, 0)
        self.ask("RELEASE")
        length = PAID if delivery.amount else FREE
        for number in (delivering, receiving):
            self.send(self.instructions[number].mt + CONFIRMS, number, length)
        self.settled += 1
        return True

    def settle_all(self, day):
        """A run in passes, while one settles a pair. Gives the length of what is said of it, of one that leaves a pair."""
        before, latest = self.settled, None
        while latest != self.settled:
            latest = self.settled
            due = [it for it in self.due if it[0] <= day]
            settled = {it for it in due if self.settle(it[1])}
            self.due = [it for it in self.due if it not in settled]
        return len(f" settled {self.settled - before} waiting 1")

    def move(self, op, it):
        """What a command books."""
        amount = it.get("quantity", it.get("amount"))
        book = self.put if op in ("issue", "payin") else self.take
        if op in ("issue", "redeem"):
            book("balance", it["account"], it["isin"], amount)
            book("total", "security", it["isin"], amount)
        elif op in ("payin", "payout"):
            book("cash", it["bic"], it["ccy"], amount)
            book("total", "currency", it["ccy"], amount)

    def command(self, op, ref, **it):
        if ("", ref) in self.numbers:
            return
        self.ask("BEGIN")
        told = self.settle_all(it["day"]) if op == "run" else 0
        columns = {"currency" if name == "ccy" else "unit" if name == "kind" else name: value for name, value in it.items()}
        self.add_row("", ref, KINDS[op], told, **columns, **({"rule": 2} if op == "run" else {}))
        self.move(op, it)
        self.ask("COMMIT")

    def instruct(self, reference, it):
        key = it.isin, it.day, it.quantity, it.unit, it.currency, it.amount
        waiting = self.unmatched.setdefault((*key, it.counterparty, it.sender, it.mt - 2 if it.mt >= 542 else it.mt + 2), [])
        self.ask("BEGIN")
        columns = {"currency": it.currency, "amount": it.amount, "settlement": "TRAD", "place": "DESKDEFF", "mt": it.mt}
        columns |= {"bic": it.counterparty, "account": it.account, "isin": it.isin, "unit": it.unit}
        columns |= {"quantity": it.quantity, "day": it.day}
        number = self.add_row(it.sender, reference, 8, PAIRED if waiting else UNMATCHED, **columns)
        self.instructions[number], self.standings[number] = it, {"mate": 0, "reason": 0, "asked": 0}
        self.ask("INSERT INTO state", number)
        if waiting:
            self.pair(number, waiting.pop(0), it.day)
        else:
            self.unmatched.setdefault((*key, it.sender, it.counterparty, it.mt), []).append(number)
        self.ask("COMMIT")

    def pair(self, number, mate, day):
        self.set_pair(number, mate, MATCHED, 1)
        bisect.insort(self.due, (day, number))
        self.send(548, mate, PAIRED)

    def cancel(self, sender, mt, reference, previous):
        """A request to cancel one side of a pair."""
        self.ask("BEGIN")
        (number,) = self.ask("SELECT number FROM register WHERE sender = ?1", sender, previous)
        self.add_row(sender, reference, 9, CANCELS, mt=mt, previous=previous)
        self.ask("UPDATE state SET asked", number)
        self.standings[number]["asked"] = 1
        mate = self.standings[number]["mate"]
        if self.standings[mate]["asked"]:
            later, earlier = max(number, mate), min(number, mate)
            self.set_pair(later, earlier, CANCELLED, 0)
            self.due.remove((self.instructions[later].day, later))
        self.ask("COMMIT")

    def play(self, request):
        """A request, as the text that stands for it in a script."""
        head, _, body = request.partition("\n")
        words = head.split()
        if words[0] == "op":
            self.command(**json.loads(body.removesuffix("\n.\n")))
        elif words[0] == "in":
            self.message(words[1], int(words[2]), body)

    def message(self, sender, mt, body):
        said = {tag: value for tag, value in re.findall(r"^:([0-9A-Z]+:(?::[A-Z]+//|ISIN )?)(.*)$", body, re.MULTILINE)}
        reference = said["20C::SEME//"]
        if "20C::PREV//" in said:
            self.cancel(sender, mt, reference, said["20C::PREV//"])
            return
        unit, _, units = said["36B::SETT//"].partition("/")
        counterparty = said["95P::DEAG//"] if "95P::DEAG//" in said else said["95P::REAG//"]
        paid = said.get("19A::SETT//")
        cash = ("EUR", int(paid.removeprefix("EUR").removesuffix(",")) * 100) if paid else ("", 0)
        told = said["98A::SETT//"], said["35B:ISIN "], unit, int(units.removesuffix(",")), said["97A::SAFE//"], counterparty
        self.instruct(reference, Instruction(sender, mt, *told, *cash))
