"""Files that are opened, or not: those of a day, damaged ones, and those of others, each with what is told of it."""

import contextlib
import json
import os
import re
import shutil
import sqlite3
import subprocess
import sys
from collections import namedtuple

from .files import changed, written
from .part import TOP
from .play import read

TEXTS = os.path.join(TOP, "cases/tables/texts.sql")
DAY = os.path.join(TOP, "cases/play/play_day_of_every_request.stdin")

# What the opening of a file comes to: the number of its fault (0: none), and of such why it is one, as standard error tells; of
# a file that is opened, whether it holds the day or nothing.
Due = namedtuple("Due", "fault why")
A_DAY, NOTHING = Due(0, "a day"), Due(0, "nothing")

NO_DATABASE = Due(50, "it is no database, or a damaged one")
OTHER_TABLES = Due(50, "it has other tables than the desk's, or others beside")
IN_USE = Due(61, "another program has it open, or its log")
DEVICE = Due(61, "its device failed as it was read, or written: an error there, or no room left")
JOURNAL = Due(61, "a journal stands beside it, with changes of another program that came to no end")
UNMADE = Due(61, "it is not there, and cannot be made: nothing may be written in its folder, no room is left, or the name is one as :memory: or file:NAME")
IS_FOLDER = Due(61, "it cannot be read and written: Is a directory (os error 21)")
NO_FOLDER = Due(61, "its folder: No such file or directory (os error 2)")
DENIED = Due(61, "it cannot be read and written: Permission denied (os error 13)")

# A file with a name. One that is held by a connection of the test loses its lock where it is closed elsewhere in that.
Odd = namedtuple("Odd", "name path due is_held", defaults=(False,))


def of_version(number):
    behind = "; desk migrate brings over a desk's of 1 and 2" if number in (1, 2) else ""
    return Due(51, f"its tables are of version {number}, those of this program of 3{behind}")


def other_entry(number):
    return Due(50, f"entry {number}, in the table register, is not one that was accepted there with this reply")


def other_in(table):
    name = "balance, cash or total" if table in ("balance", "cash", "total") else table
    return Due(50, f"the table {name} does not say what the entries come to")


def command(op, reference, **members):
    """The request of an operator's command."""
    said = json.dumps({"op": op, "ref": reference, **members}, separators=(",", ":"))
    return f"op\n{said}\n.\n".encode()


def instruction(sender, mt, reference, quantity, day):
    """The request of a side that delivers, or receives, so many units of a day."""
    account, counterparty, qualifier = ("A-1", "BETADEFF", "REAG") if mt == 542 else ("B-1", "ALPHDEFF", "DEAG")
    lines = ["{4:", ":16R:GENL", f":20C::SEME//{reference}", ":23G:NEWM", ":16S:GENL"]
    lines += [":16R:TRADDET", f":98A::SETT//{day}", ":35B:ISIN DE0007164600", ":16S:TRADDET"]
    lines += [":16R:FIAC", f":36B::SETT//UNIT/{quantity},", f":97A::SAFE//{account}", ":16S:FIAC"]
    lines += [":16R:SETDET", ":22F::SETR//TRAD", ":16R:SETPRTY", f":95P::{qualifier}//{counterparty}", ":16S:SETPRTY"]
    lines += [":16R:SETPRTY", ":95P::PSET//DESKDEFF", ":16S:SETPRTY", ":16S:SETDET", "-}"]
    return f"in {sender} {mt}\n{chr(10).join(lines)}\n.\n".encode()


def cancellation(sender, mt, reference, previous):
    """The request that an instruction be cancelled."""
    lines = ["{4:", ":16R:GENL", f":20C::SEME//{reference}", ":23G:CANC"]
    lines += [":16R:LINK", f":20C::PREV//{previous}", ":16S:LINK", ":16S:GENL", "-}"]
    return f"in {sender} {mt}\n{chr(10).join(lines)}\n.\n".encode()


# What is paid in behind the day of a currency, and paid out again, so that all of it is 0.
SPENT = [
    command("payin", "M3", bic="ALPHDEFF", ccy="USD", amount=700),
    command("payout", "M4", bic="ALPHDEFF", ccy="USD", amount=700),
]

# What still waits behind it: two pairs of a later day, and two instructions that are unmatched.
WAITING = [
    instruction("ALPHDEFF", 542, "W1", 5, "20990102"),
    instruction("BETADEFF", 540, "W1", 5, "20990102"),
    instruction("ALPHDEFF", 542, "W2", 6, "20990101"),
    instruction("BETADEFF", 540, "W2", 6, "20990101"),
    instruction("ALPHDEFF", 542, "W3", 8, "20990101"),
    instruction("BETADEFF", 540, "W3", 7, "20990101"),
]


def script_of_day():
    """A day of every request, a currency that is spent behind it, and what still waits."""
    return read(DAY) + b"".join([*SPENT, *WAITING])


def texts():
    """The texts that make the tables, in their order."""
    return read(TEXTS).decode().removesuffix(";\n").split(";\n")


def texts_of_first():
    """Those of version 1, which has two tables."""
    return [it for it in texts() if re.match(r"CREATE TABLE (register|version) ", it)]


@contextlib.contextmanager
def held_by_another(path, mode):
    """A file that another connection holds."""
    connection = sqlite3.connect(path, isolation_level=None)
    connection.execute(mode)
    connection.execute("SELECT COUNT(*) FROM register").fetchall()
    yield path
    connection.close()


# A program that has read a file and begun nothing, and has it open, with its log, until its input ends.
IDLE = """import sqlite3, sys
connection = sqlite3.connect(sys.argv[1])
connection.execute("SELECT COUNT(*) FROM register").fetchall()
print("read", flush=True)
sys.stdin.read()"""


@contextlib.contextmanager
def open_elsewhere(path):
    """A file that another program has open, idle."""
    with subprocess.Popen([sys.executable, "-c", IDLE, path], stdin=subprocess.PIPE, stdout=subprocess.PIPE) as program:
        program.stdout.readline()
        yield path
        program.stdin.close()


def left_by_kill(path, end, *statements):
    """What a program that is killed behind these statements leaves: a copy of a file, and of the one beside it of this end."""
    left = path + "_left"
    with contextlib.closing(sqlite3.connect(path, isolation_level=None)) as connection:
        for statement in statements:
            connection.execute(statement)
        for it in "", end:
            shutil.copy(path + it, left + it)
    return left


# What changes all entries in a rollback journal's mode, and does not end. As there is room for few pages, some are written.
UNENDED = "PRAGMA journal_mode = DELETE", "PRAGMA cache_size = 1", "BEGIN", "UPDATE register SET place = 'X'"


def odd_files(room, day):
    """Odd files, made one behind the other; `day` is the file of a day."""

    def path(name):
        return os.path.join(room, name.replace(" ", "_"))

    def of_day(name, *statements):
        return changed(shutil.copy(day, path(name)), *statements)

    yield Odd("a new path", path("new"), NOTHING)
    yield Odd("the file that was made there", path("new"), NOTHING)
    yield Odd("an empty file", written(path("empty"), b""), NOTHING)
    yield Odd("a file of one byte", written(path("byte"), b"S"), NOTHING)
    yield Odd("a text", written(path("text"), b"no database\n" * 1000), NO_DATABASE)
    yield Odd("a database with no table", changed(path("none"), "PRAGMA user_version = 7"), NOTHING)
    yield Odd("a day", shutil.copy(day, path("day again")), A_DAY)
    yield Odd("a day in one file, vacuumed", of_day("vacuum", "VACUUM"), A_DAY)
    yield Odd("a day in a rollback journal's mode", of_day("delete", "PRAGMA journal_mode = DELETE"), A_DAY)
    further = "CREATE TABLE further (number INTEGER PRIMARY KEY) STRICT"
    yield Odd("a table too many", of_day("many", further), OTHER_TABLES)
    yield Odd("a table too few", of_day("few", "DROP TABLE sent"), OTHER_TABLES)
    yield Odd("an index", of_day("index", "CREATE INDEX further ON register (kind, about)"), OTHER_TABLES)
    yield Odd("a view", of_day("view", "CREATE VIEW further AS SELECT bic FROM cash"), OTHER_TABLES)
    trigger = "CREATE TRIGGER further AFTER INSERT ON cash BEGIN DELETE FROM sent; END"
    yield Odd("a trigger", of_day("trigger", trigger), OTHER_TABLES)
    yield Odd("an analysis", of_day("analysis", "ANALYZE"), OTHER_TABLES)
    yield Odd("the tables of another", changed(path("another"), "CREATE TABLE note (title TEXT)"), OTHER_TABLES)
    yield Odd("another's table of the name", changed(path("register"), "CREATE TABLE register (a TEXT)"), OTHER_TABLES)
    yield Odd("the tables, and no version", changed(path("unversioned"), *texts()), OTHER_TABLES)
    yield Odd("the tables, and their version", changed(path("versioned"), *texts(), "INSERT INTO version VALUES (3)"), NOTHING)
    first = *texts_of_first(), "INSERT INTO version VALUES (1)"
    yield Odd("version 1", changed(path("version 1"), *first), of_version(1))
    yield Odd("version 2", of_day("version 2", "UPDATE version SET number = 2"), of_version(2))
    yield Odd("version 4", of_day("version 4", "UPDATE version SET number = 4"), of_version(4))
    yield Odd("two versions", of_day("two versions", "INSERT INTO version VALUES (4)"), OTHER_TABLES)
    yield Odd("no version", of_day("no version", "DELETE FROM version"), OTHER_TABLES)
    version_4 = "UPDATE version SET number = 4", "DROP TABLE sent"
    yield Odd("other tables of version 4", of_day("of version 4", *version_4), of_version(4))
    versions = "CREATE TABLE version (number INTEGER)", "INSERT INTO version VALUES (1)"
    yield Odd("another's table of versions", changed(path("versions"), *versions), of_version(1))
    view = "CREATE TABLE note (number INTEGER)", "INSERT INTO note VALUES (4)", "CREATE VIEW version AS SELECT number FROM note"
    yield Odd("a view of versions", changed(path("view of versions"), *view), OTHER_TABLES)
    words = "CREATE TABLE version (name TEXT)", "INSERT INTO version VALUES ('1')"
    yield Odd("a table of versions that are words", changed(path("words"), *words), OTHER_TABLES)
    last = "DELETE FROM {0} WHERE rowid = (SELECT MAX(rowid) FROM {0})"
    yield Odd("an entry too few", of_day("entry", last.format("register")), other_in("state"))
    yield Odd("a gap among the entries", of_day("gap", "DELETE FROM register WHERE number = 2"), other_entry(2))
    yield Odd("an entry below the first", of_day("below", "UPDATE register SET number = 0 WHERE number = 1"), other_entry(1))
    for table in "balance", "cash", "total":
        yield Odd(f"no first row in {table}", of_day(f"less {table}", f"DELETE FROM {table} WHERE rowid = 1"), other_in(table))
    for table in "state", "sent":
        yield Odd(f"no last row in {table}", of_day(f"less {table}", last.format(table)), other_in(table))
    yield Odd("no first row in sent", of_day("first sent", "DELETE FROM sent WHERE number = 1"), other_in("sent"))
    yield Odd("a balance of nothing", of_day("nothing", "INSERT INTO balance VALUES ('A-9', 'DE0007164600', 0)"), A_DAY)
    somebody = "INSERT INTO balance VALUES ('A-9', 'DE0007164600', 1)"
    yield Odd("a balance of somebody", of_day("somebody", somebody), other_in("balance"))
    yield Odd("no cash where it is spent", of_day("spent", "DELETE FROM cash WHERE amount = 0"), A_DAY)
    yield Odd("a total of nothing", of_day("total", "INSERT INTO total VALUES ('security', 'DE000BASF111', 0)"), A_DAY)
    subject = of_day("subject", "INSERT INTO total VALUES ('other', 'EUR', 1)")
    yield Odd("a total of another subject", subject, other_in("total"))
    unpaid = of_day("unpaid", "INSERT INTO total VALUES ('currency', 'CHF', 0)")
    yield Odd("a total of 0 of a currency that was never paid in", unpaid, other_in("total"))
    paid = of_day("paid", "DELETE FROM total WHERE subject = 'currency' AND amount = 0")
    yield Odd("no total of a currency that was paid in and out again", paid, other_in("total"))
    negative = of_day("negative", "PRAGMA ignore_check_constraints = ON", "UPDATE balance SET quantity = -1 WHERE rowid = 1")
    yield Odd("a negative balance", negative, NO_DATABASE)
    content = read(day)
    yield Odd("half a day's file", written(path("half"), content[: len(content) // 2]), NO_DATABASE)
    yield Odd("auto-vacuum", changed(path("auto"), "PRAGMA auto_vacuum = FULL", "CREATE TABLE note (title TEXT)"), NO_DATABASE)
    yield Odd("UTF-16", changed(path("utf"), "PRAGMA encoding = 'UTF-16'", "CREATE TABLE note (title TEXT)"), NO_DATABASE)
    yield Odd("a folder", room, IS_FOLDER)
    yield Odd("no such folder", path("none such/file"), NO_FOLDER)
    yield Odd("memory", ":memory:", UNMADE)
    yield Odd("a URI", "file:" + path("uri"), NO_FOLDER)
    yield Odd("a rollback journal beside it", left_by_kill(of_day("unended"), "-journal", *UNENDED), JOURNAL)
    with open_elsewhere(of_day("idle")) as idle:
        yield Odd("a file that another program has open, idle", idle, IN_USE)
    logged = left_by_kill(of_day("logged"), "-wal", "UPDATE version SET number = 3")
    with open(logged + "-wal", "rb"):
        yield Odd("a log beside it, which another program has open", logged, A_DAY)
    for name, mode in ("shared", "BEGIN"), ("exclusive", "BEGIN EXCLUSIVE"):
        journal = of_day(name, "PRAGMA journal_mode = DELETE")
        with held_by_another(journal, mode):
            yield Odd(f"a file with a lock, {name}", journal, IN_USE, True)


def damaged_files(room, day):
    """Files of a day in which a value is another, or a row lacks, each with what is told."""

    def of_day(name, *statements):
        return changed(shutil.copy(day, os.path.join(room, name)), *statements)

    changes = [
        ("register", "quantity = 11 WHERE number = 6", other_in("balance")),
        ("register", "reply = 'accepted 10' WHERE number = 9", other_entry(9)),
        ("register", "about = 'BETADEFF' WHERE number = 12", other_entry(12)),
        ("register", "number = 99 WHERE number = 28", other_entry(28)),
        ("state", "state = 3 WHERE number = 10", other_in("state")),
        ("state", "mate = 28, state = 2, reason = 1 WHERE number = 27", other_in("state")),
        ("state", "mate = 0, state = 1, reason = 0 WHERE number IN (25, 26)", other_in("state")),
        ("sent", "text = 'MATCHED' WHERE number = 1", other_in("sent")),
        ("balance", "quantity = 4 WHERE account = 'A-1'", other_in("balance")),
        ("cash", "amount = 401 WHERE bic = 'BETADEFF'", other_in("cash")),
        ("total", "amount = 901 WHERE subject = 'currency'", other_in("total")),
        ("version", "number = 2", of_version(2)),
    ]
    for number, (table, change, due) in enumerate(changes):
        yield Odd(f"{table} where {change}", of_day(f"{table}_{number}", f"UPDATE {table} SET {change}"), due)
    for number in 1, 13:
        removed = of_day(f"without_{number}", f"DELETE FROM register WHERE number = {number}")
        yield Odd(f"entry {number} removed", removed, other_entry(number))
    yield Odd("no entry", of_day("no_entry", "DELETE FROM register"), other_in("state"))
    last = written(os.path.join(room, "last_page"), read(day)[:-4096] + b"\xff" * 4096)
    yield Odd("a last page of other bytes", last, NO_DATABASE)
