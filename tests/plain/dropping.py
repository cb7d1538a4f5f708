"""Takes a folder plainly: what tests/plain/desk does for `drop`, and for `sums`, `report` and `journal` behind it. What was
accepted is kept between the runs in a file of SQLite, each entry in a row of its table register; without a file the desk is a
new one."""

import collections
import contextlib
import os
import pickle
import sqlite3
import sys

from .blocks import MOST_BYTES
from .books import EMPTY
from .desk import sums, with_entry
from .folders import take
from .program import tell

UNFINISHED = b".desk-drop-unfinished"
REGISTER = "CREATE TABLE IF NOT EXISTS register (number INTEGER PRIMARY KEY, entry BLOB)"


def kept(path):
    """The books of the entries that are kept in a file, which is made where there is none."""
    books = EMPTY
    with contextlib.closing(sqlite3.connect(path)) as connection, connection:
        connection.execute(REGISTER)
        for (entry,) in connection.execute("SELECT entry FROM register ORDER BY number"):
            books = with_entry(books, pickle.loads(entry))
    return books


def keep(path, books):
    """Keeps the entries of books in a file, which may have the first ones already."""
    rows = [(number, pickle.dumps(entry)) for number, entry in enumerate(books.history, 1)]
    with contextlib.closing(sqlite3.connect(path)) as connection, connection:
        connection.execute(REGISTER)
        connection.executemany("INSERT OR IGNORE INTO register VALUES (?, ?)", rows)


def files_in(folder):
    """The files of a folder, each a name and what it holds, but for what lies behind the first bytes of a longer one than any
    that is asked. Folders in it are passed over, and an answer that was not finished."""
    files = []
    with os.scandir(os.fsencode(folder)) as entries:
        for it in entries:
            if it.name != UNFINISHED and not it.is_dir():
                with open(it.path, "rb") as file:
                    files.append((it.name, file.read(MOST_BYTES + 1)))
    return files


def tally(answers):
    """How many answers there are, in words."""
    kinds = collections.Counter({b"2": "accepted", b"4": "refused"}.get(answer[:1], "failed") for _, answer in answers)
    counts = len(answers), kinds["accepted"], kinds["refused"], kinds["failed"]
    return "%d files are taken: %d accepted, %d refused, %d not answered for a fault" % counts


def drop(source, target, db=":memory:"):
    """Takes the files of a folder, writes the answers to another, and tells how many there are. Gives the status."""
    books, answers = take(kept(db), files_in(source))
    keep(db, books)
    for name, answer in answers:
        with open(os.path.join(os.fsencode(target), name), "wb") as file:
            file.write(answer)
    print(f"desk: {db}: {tally(answers)}", file=sys.stderr)
    return 0


def print_sums(db):
    """Prints the sums of the desk whose entries are kept in a file. Gives the status."""
    sys.stdout.buffer.write(sums(kept(db)).text + b"\n")
    return 0


def print_told(db, words):
    """Prints the report or the journal of the desk whose entries are kept in a file, for these words. Gives the status."""
    sys.stdout.buffer.write(tell(kept(db), words))
    return 0
