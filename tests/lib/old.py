"""Files of each version of the desk's tables (docs/STORE.md, 'Tables' and 'Files of earlier versions'), made of the plain program's
books: which rows they have, and histories of which some runs are of one pass."""

import contextlib
import sqlite3

from plain.books import EMPTY, cash, is_cancelled, is_requested, is_settled, net_paid, outstanding, pair_of, position
from plain.books import reason_of, sides_of
from plain.desk import with_entry
from plain.entries import ONE_PASS, Account, Cancel, Instruct, Issue, Participant, PayIn, PayOut, Redeem, Run, Security
from plain.entries import entries, is_message, key_of
from plain.scripts import ask_item, items_of
from plain.written import FUTURE, LACK, MONEY

from .files import looked_at
from .odd import texts, texts_of_first

FIRST, SECOND, THIRD = 1, 2, 3

KINDS = {
    kind: number
    for number, kind in enumerate(
        [Participant, Account, Security, Issue, Redeem, PayIn, PayOut, Instruct, Cancel, Run],
        1,
    )
}

# of a run in passes in versions 1 and 2, of which the first has none
OLD_PASSES = 11

UNMATCHED, MATCHED, CANCELLED, SETTLED = 1, 2, 3, 4
REASONS = {FUTURE: 1, LACK: 2, MONEY: 3}

# the columns of the register behind `about`, up to the reply; one that an entry does not use is empty
COLUMNS = "bic account isin unit quantity currency amount day rule mt settlement place previous".split()
NUMBERS = "quantity", "amount", "rule", "mt"
ABOUT = {Participant: "bic", Account: "account", Security: "isin"}


# ---- histories


def books_of(script, is_of_one_pass):
    """The plain program's books behind a script, where the next run that is accepted is of one pass if this says so."""
    books = EMPTY
    for item in items_of(script):
        after, _ = ask_item(books, *item)
        is_new_run = len(after.history) > len(books.history) and isinstance(after.history[-1], Run)
        if is_new_run and is_of_one_pass():
            after = with_entry(books, after.history[-1]._replace(rule=ONE_PASS))
        books = after
    return books


# ---- rows


def columns_of(entry):
    """What the columns say that an entry uses."""
    if isinstance(entry, Cancel):
        return {"mt": entry.message.mt, "previous": entry.message.previous}
    if isinstance(entry, Instruct):
        said = entry.message
        currency, amount = said.cash or (b"", 0)
        terms = {"isin": said.isin, "unit": said.kind, "quantity": said.quantity, "currency": currency, "amount": amount}
        parties = {"bic": said.counterparty, "account": said.account, "settlement": said.settlement, "place": said.place}
        return {**terms, **parties, "day": said.day, "mt": said.mt}
    said = entry._asdict()
    said.pop("reference")
    if "kind" in said:
        said["unit"] = said.pop("kind")
    return said


def kind_and_rule(entry, version):
    """The number of an entry's kind, and of its rule, in this version."""
    kind, rule = KINDS[type(entry)], getattr(entry, "rule", 0)
    if version == THIRD:
        return kind, rule
    return OLD_PASSES if isinstance(entry, Run) and rule != ONE_PASS else kind, 0


def register_row(number, entry, reply, version):
    sender, reference = key_of(entry)
    kind, rule = kind_and_rule(entry, version)
    said = {**columns_of(entry), "rule": rule}
    columns = [said.get(it, 0 if it in NUMBERS else b"") for it in COLUMNS]
    about = said[ABOUT[type(entry)]] if type(entry) in ABOUT else b""
    return number, sender if is_message(entry) else b"", reference, kind, about, *columns, *reply


def state_row(books, number, version):
    """Where an instruction stands."""
    pair, asked = pair_of(books.pairs, number), is_requested(books.history, number)
    mate = sum(pair) - number if pair else 0
    if is_settled(books, number):
        stands = SETTLED, 0
    elif is_cancelled(books, number):
        stands = CANCELLED, 0
    else:
        stands = (MATCHED, REASONS[reason_of(books, pair)]) if pair else (UNMATCHED, 0)
    return number, mate, *stands, int(asked) if version == THIRD else 0


def put_on(books):
    """The account and the security of each amount that came onto an account, and the participant and the currency of each that
    came in cash."""
    history = books.history
    securities = {(entry.account, entry.isin) for entry in entries(history, Issue)}
    money = {(entry.bic, entry.currency) for entry in entries(history, PayIn)}
    for settlement in books.settled:
        delivery, receipt = sides_of(history, settlement.pair)
        securities.add((receipt.message.account, receipt.message.isin))
        if receipt.message.cash:
            money.add((delivery.sender, receipt.message.cash[0]))
    return securities, money


def rows_of(books, version=THIRD):
    """The rows that each table of a file of this version has whose desk has these books, in order. An amount that came to be 0
    has its row."""
    history, settled = books.history, books.settled
    kept = enumerate(zip(history, books.replies), 1)
    rows = {"register": [register_row(number, *it, version) for number, it in kept], "version": [(version,)]}
    if version != FIRST:
        securities, money = put_on(books)
        totals = [(b"security", isin, outstanding(history, isin)) for isin in {isin for _, isin in securities}]
        totals += [(b"currency", it, net_paid(history, it)) for it in {entry.currency for entry in entries(history, PayIn)}]
        rows["balance"] = sorted((*it, position(history, settled, *it)) for it in securities)
        rows["cash"] = sorted((*it, cash(history, settled, *it)) for it in money)
        rows["total"] = sorted(totals)
        rows["state"] = [state_row(books, it, version) for it, entry in enumerate(history, 1) if isinstance(entry, Instruct)]
        rows["sent"] = [(number, *it) for number, it in enumerate(books.sent, 1)]
    return rows


def rows_in(path):
    """Those that a file with its log has. SQLite must find it sound."""
    with looked_at(path) as connection:
        connection.text_factory = bytes
        sound = connection.execute("PRAGMA integrity_check").fetchall()
        if sound != [(b"ok",)]:
            raise sqlite3.DatabaseError(sound[:3])
        names = [name.decode() for (name,) in connection.execute("SELECT name FROM sqlite_schema WHERE type = 'table'")]
        return {name: sorted(connection.execute(f"SELECT * FROM {name}")) for name in names}


def other_row(rows, wanted):
    """The first row, or table, in which a file is another than is wanted; '' where it is the same."""
    for table in sorted({*rows, *wanted}):
        if table not in rows or table not in wanted:
            return f"there is {'no' if table in wanted else 'a'} table {table}"
        found = sorted({*rows[table]} ^ {*wanted[table]})
        if found:
            return f"one has this row of {table}, and the other has not: {found[0]!r}"
    return ""


# ---- files


def made(path, books, version):
    """Makes a file of this version, in a rollback journal's mode, whose desk has these books. Gives its path."""
    with contextlib.closing(sqlite3.connect(path)) as connection, connection:
        for text in texts_of_first() if version == FIRST else texts():
            connection.execute(text)
        for table, rows in rows_of(books, version).items():
            for row in rows:
                said = [it.decode() if isinstance(it, bytes) else it for it in row]
                connection.execute(f"INSERT INTO {table} VALUES ({', '.join('?' * len(row))})", said)
    return path
