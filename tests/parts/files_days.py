"""What `tests/parts/files days` tries: whether the desk of a file is opened as it was left, and no other.

So many random scripts are each played on a new file in parts, over a register in memory beside the tables or over the tables
alone. Between two parts the file stays as a killed process leaves it, or is opened and closed. The answers must be those of
the plain program, tests/plain, to the whole script, and `BENCH open FILE` must tell as many entries as the table has, and the
plain program's sums and count. Some more scripts are played by `BENCH adopt` on tables in memory, which are taken over with a
change under way in them: it must print the plain program's answers, sums and count.

Then the file of a day is changed by Python's SQLite, one value at a time, in each row and column of each table. The opening
must be `fault 50`, but where nothing repeats the value: those values stand in UNREPEATED, and a file with another one there
must be opened at least once. It tells the sums and the count of the day; and the entry that was changed is the one that it
shows. Asked it as it is now, which is a repeat, and as it was, the desk answers as the plain program does behind the script
with that change.

Then a desk is asked that has as many entries as it may have, by `BENCH play FILE LIMIT`: what it would accept it refuses, with
21, all else is answered as ever, and the file stays as it was. At last odd files are opened, which stand in tests/lib/odd.py, each
with what is told of it."""

import contextlib
import itertools
import os
import re
import shutil
import sqlite3
import sys
import tempfile

from generate.chance import Chance
from generate.comparing import DEFAULT_SEED
from generate.parts import parts_of
from lib.files import books_after, changed, dumped, entries_in, looked_at, removed, told_of
from lib.odd import A_DAY, NOTHING, cancellation, command, instruction, odd_files, script_of_day
from lib.play import ran, unlike
from plain.books import EMPTY
from plain.desk import refused_reply
from plain.program import answer
from plain.scripts import ask_item, items_of, shown

# how many random scripts are played on tables that are adopted
ADOPTED = 20

# What neither a reply nor another row repeats, by table and column: in which rows that is so, as SQL says it. With another
# value there it may be the file of another history, or of the same.
UNREPEATED = {
    # the reference of an operator's command
    ("register", "reference"): "sender = ''",
    # how many passes a run has
    ("register", "rule"): "kind = 10",
    # the kind of settlement of an instruction that no confirmation repeats
    ("register", "settlement"): "kind = 8 AND number NOT IN (SELECT number FROM state WHERE state = 4)",
    # of one that has no counterpart how much it is about
    ("register", "quantity"): "number IN (SELECT number FROM state WHERE mate = 0)",
    # of cash that is spent whose it was, and of which currency
    ("cash", "bic"): "amount = 0",
    ("cash", "currency"): "amount = 0",
}

# how a request says a value of the register; that of a rule it does not say
SAID = {"reference": b'"ref":"%s"', "settlement": b":22F::SETR//%s", "quantity": b":36B::SETT//UNIT/%s,", "rule": b""}

# A request of each kind, which is accepted behind the day where the desk may have more entries, and one that is not.
FURTHER = [
    command("participant", "N1", bic="GAMMDEFF"),
    command("account", "N2", bic="ALPHDEFF", account="A-2"),
    command("security", "N3", isin="US0378331005", kind="UNIT"),
    command("issue", "N4", account="A-1", isin="DE0007164600", quantity=1),
    command("redeem", "N5", account="A-1", isin="DE0007164600", quantity=1),
    command("payin", "N6", bic="BETADEFF", ccy="EUR", amount=1),
    command("payout", "N7", bic="BETADEFF", ccy="EUR", amount=1),
    command("run", "N8", day="20990102"),
    instruction("BETADEFF", 540, "N9", 8, "20990101"),
    cancellation("BETADEFF", 540, "N10", "W3"),
    command("payout", "N11", bic="BETADEFF", ccy="USD", amount=1),
]


class Bench:
    """The program that opens files."""

    def __init__(self, program):
        self.program = os.path.abspath(program)

    def ended(self, *words, given=b""):
        return ran(self.program, *words, given=given)[:2]

    def opened(self, path, *limit):
        """What is told of a file that is opened, and closed."""
        return self.ended("open", path, *limit)


# ---- random scripts


def plays_on(bench, chance, path):
    """Whether a random script is answered as the plain program answers it, though its file is opened anew between its parts."""
    parts = parts_of(chance)
    printed = b""
    for part in parts:
        status, told = bench.ended(chance.pick(("play", "tables")), path, given=part)
        if status != 0:
            return f"a part ends with status {status}, {told[-200:]!r}"
        printed += told
        if chance.happens(50) and bench.opened(path)[0] != 0:
            return "the file is not opened between two parts"
    whole = b"".join(parts)
    if (0, printed) != answer(["play"], whole):
        return "the answers are others"
    before, books = dumped(path), books_after(whole)
    told = bench.opened(path)
    if dumped(path) != before:
        return "an opening changed the file"
    return unlike((*told, entries_in(path)), (0, told_of(books), len(books.history)))


def is_adopted(bench, chance):
    """Whether a random script is answered as the plain program answers it, and so are its tables as they are adopted."""
    script = b"".join(parts_of(chance))
    status, answers = answer(["play"], script)
    return unlike(bench.ended("adopt", given=script), (status, answers + told_of(books_after(script))))


def random_scripts(bench, room, count, seed):
    for number in range(count):
        path = os.path.join(room, f"random_{number}")
        yield f"script {number} of seed {seed}", plays_on(bench, Chance(seed, number), path)
        removed(path)
    for number in range(count, count + ADOPTED):
        yield f"script {number} of seed {seed}, adopted", is_adopted(bench, Chance(seed, number))


# ---- one value changed


def other_values(value):
    """Values that may stand in the place of one."""
    if value is None:
        return [1]
    if isinstance(value, int):
        return [value + 1, value - 1]
    return [it for it in dict.fromkeys([value + "X", "X" + value[1:], value[:-1]]) if it != value]


def values_changed(day, path):
    """Each table, column and row of which the value is changed in a copy of a file, with the two values. What SQLite refuses is
    left out."""
    with looked_at(day) as connection:
        names = [name for (name,) in connection.execute("SELECT name FROM sqlite_schema WHERE type = 'table'")]
        tables = {name: [it[1] for it in connection.execute(f"PRAGMA table_info({name})")] for name in names}
        rows = {name: list(connection.execute(f"SELECT rowid, * FROM {name}")) for name in names}
    for table, columns in tables.items():
        for rowid, *values in rows[table]:
            for column, value in zip(columns, values):
                for other in other_values(value):
                    shutil.copy(day, path)
                    with contextlib.suppress(sqlite3.IntegrityError):
                        changed(path, (f"UPDATE {table} SET {column} = ? WHERE rowid = ?", (other, rowid)))
                        yield (table, column, rowid), value, other


def unrepeated(day):
    """The tables, columns and rows of a file whose value stands in UNREPEATED."""
    with looked_at(day) as connection:
        return {
            (*place, rowid)
            for place, which in UNREPEATED.items()
            for (rowid,) in connection.execute(f"SELECT rowid FROM {place[0]} WHERE {which}")
        }


def accepted_in(script):
    """The requests of a script that are accepted, and are no repeats, in the order of their entries."""
    books, accepted = EMPTY, []
    for line, body in items_of(script):
        before, (books, _) = books, ask_item(books, line, body)
        if len(books.history) > len(before.history):
            accepted.append(line + b"\n" + body + b".\n")
    return accepted


def with_other(request, column, value, other):
    """A request that says another value."""
    said = SAID[column]
    return request.replace(said % str(value).encode(), said % str(other).encode()) if said else request


class Changes:
    """The file of a day, of which a copy is changed."""

    def __init__(self, bench, room, day):
        self.bench, self.path, self.script = bench, os.path.join(room, "changed"), script_of_day()
        self.requests, self.as_it_was = accepted_in(self.script), bench.opened(day)
        self.may_open, self.opened = unrepeated(day), set()

    def asked_again(self, place, value, other):
        """How the desk of the copy, asked an entry as it is now and then as it was, does not answer as the plain program
        behind the script with that change."""
        _, column, number = place
        request = self.requests[number - 1]
        changed_one = with_other(request, column, value, other)
        script, asked = self.script.replace(request, changed_one), changed_one + request
        (_, before), (_, printed) = answer(["play"], script), answer(["play"], script + asked)
        again = shutil.copy(self.path, self.path + "_again")
        answered = self.bench.ended("play", again, given=asked)
        removed(again)
        return unlike(answered, (0, printed[len(before) :]))

    def differences(self, place, value, other):
        """In what the copy, with another value in a place, is opened otherwise than is due."""
        before, told = dumped(self.path), self.bench.opened(self.path)
        if dumped(self.path) != before:
            yield "an opening changed the file"
        if told[0] != 0 or place not in self.may_open:
            yield unlike(told, (3, b"fault 51\n" if place[0] == "version" else b"fault 50\n"))
            return
        self.opened.add(place)
        yield unlike(told, self.as_it_was)
        if place[0] == "register":
            yield self.asked_again(place, value, other)


def day_changed(bench, room, day):
    changes = Changes(bench, room, day)
    for place, value, other in values_changed(day, changes.path):
        name = "{}.{} of row {} is {!r}".format(*place, other)
        yield name, "; ".join(filter(None, changes.differences(place, value, other)))
    for place in sorted(changes.may_open):
        name = "{}.{} of row {} is another".format(*place)
        yield name, "" if place in changes.opened else "no such file is opened"


# ---- a desk that is full


def answers_of_full(books, script):
    """What a desk answers that may have no entry more: what it would accept it refuses, with 21."""
    for line, body in items_of(script):
        after, reply = ask_item(books, line, body)
        is_new = len(after.history) > len(books.history)
        yield shown(refused_reply(books, after.history[-1], 21) if is_new else reply)


def full(bench, room):
    """The file of a day that may have no entry more."""
    path, script, further = os.path.join(room, "full"), script_of_day(), b"".join(FURTHER)
    books = books_after(script)
    limit = str(len(books.history))
    yield "as many entries as may be", unlike(bench.ended("play", path, limit, given=script), answer(["play"], script))
    as_it_was = dumped(path)
    for name, asked in ("what is new", further), ("what was asked", script), ("both", script + further):
        wanted = 0, b"".join(answers_of_full(books, asked))
        yield f"asked of a full desk: {name}", unlike(bench.ended("play", path, limit, given=asked), wanted)
    yield "the file of a full desk", "" if dumped(path) == as_it_was else "it is another"
    yield "it is opened", unlike(bench.opened(path, limit), (0, told_of(books)))


# ---- odd files


def odd(bench, room, day):
    as_day = bench.opened(day)
    for name, file, due, is_held in odd_files(room, day):
        wanted = {A_DAY: as_day, NOTHING: (0, told_of(EMPTY))}.get(due, (3, b"fault %d\n" % due.fault))
        is_kept = os.path.isfile(file) and due.fault and not is_held
        before = dumped(file) if is_kept else []
        told = bench.opened(file)
        is_another = is_kept and dumped(file) != before
        yield name, unlike(told, wanted) or ("the file is another" if is_another else "")
    count = entries_in(day)
    for limit, wanted in ((count, as_day), (count + 1, as_day), (count - 1, (3, b"fault 50\n"))):
        yield f"a limit of {limit}", unlike(bench.opened(day, str(limit)), wanted)


def try_days(bench, count="100", seed=DEFAULT_SEED):
    """Opens the files of random scripts, changed ones of a day, one that is full, and odd ones."""
    bench = Bench(bench)
    with tempfile.TemporaryDirectory() as room:
        day = os.path.join(room, "day")
        bench.ended("play", day, given=script_of_day())
        told = bench.opened(day)
        if told[0] != 0 or not re.search(rb"entries [1-9][0-9]*\n\Z", told[1]):
            sys.exit(f"the file of a day is not opened: {told!r}")
        scripts, changes = random_scripts(bench, room, int(count), int(seed)), day_changed(bench, room, day)
        yield from itertools.chain(scripts, changes, full(bench, room), odd(bench, room, day))
