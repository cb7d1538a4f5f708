"""Files of desks, as Python's SQLite sees them, and what a program that played on them must have left."""

import contextlib
import os
import shutil
import sqlite3
import tempfile

from plain.books import EMPTY
from plain.desk import sums
from plain.program import tell
from plain.scripts import ask_item, bare, items_of, lines_with_ends

from .play import ran, read, unlike


def books_after(script):
    """The books that the plain program has behind a script."""
    books = EMPTY
    for line, body in items_of(script):
        books, _ = ask_item(books, line, body)
    return books


def told_of(books):
    """What the program of the bench tells of a file whose desk has these books."""
    return sums(books).text + b"entries %d\n" % len(books.history)


def sums_after(script):
    """The sums that the plain program has behind a script, in a line."""
    return sums(books_after(script)).text + b"\n"


def cuts_in(script):
    """The places at which a request of a script begins."""
    places, at, has_body = [], 0, False
    for line in lines_with_ends(script):
        said = bare(line)
        if has_body:
            has_body = said != b"."
        elif said and not said.startswith(b"#"):
            places.append(at)
            has_body = said.split(b" ")[0] in (b"in", b"op")
        at += len(line)
    return places


def removed(path):
    """A file goes, and its log, where it has one."""
    for end in "", "-wal":
        if os.path.exists(path + end):
            os.remove(path + end)


def copied(path, copy):
    """Copies a file, and the log that a program which did not close it has left beside it, in the place of another."""
    removed(copy)
    for end in "", "-wal":
        if os.path.exists(path + end):
            shutil.copy(path + end, copy + end)
    return copy


def bytes_of(path):
    """The bytes of a file, and of its log where that has some."""
    found = [read(path + end) for end in ("", "-wal") if os.path.exists(path + end)]
    return found if any(found[1:]) else found[:1]


@contextlib.contextmanager
def looked_at(path):
    """A connection to a copy of a file and its log, which stay as they are."""
    with tempfile.TemporaryDirectory() as folder:
        with contextlib.closing(sqlite3.connect(copied(path, os.path.join(folder, "copy")))) as connection:
            yield connection


def dumped(path):
    """What a file holds, as statements; of one that is no database, why it is none."""
    with looked_at(path) as connection:
        try:
            return list(connection.iterdump())
        except sqlite3.Error as error:
            return [str(error)]


def entries_in(path):
    with looked_at(path) as connection:
        [(count,)] = connection.execute("SELECT COUNT(*) FROM register")
    return count


def is_sound(path):
    with looked_at(path) as connection:
        return list(connection.execute("PRAGMA integrity_check")) == [("ok",)]


def changed(path, *statements):
    """A file, after these statements."""
    with contextlib.closing(sqlite3.connect(path, isolation_level=None)) as connection:
        for statement in statements:
            connection.execute(*statement) if isinstance(statement, tuple) else connection.execute(statement)
    return path


def written(path, content):
    with open(path, "wb") as file:
        file.write(content)
    return path


@contextlib.contextmanager
def new_path():
    """A path at which there is no file, in a folder that holds nothing and goes with it."""
    with tempfile.TemporaryDirectory() as folder:
        # as the system names an open file
        yield os.path.join(os.path.realpath(folder), "desk.db")


def differences(program, path, script, told):
    """In what the file that a run has left, with `told` on standard error, is another than it must be by the script that was
    played on it."""
    if told:
        yield f"standard error has {told[-300:]!r}"
    yield from left_otherwise(program, path, (0, sums_after(script), b""))
    yield from told_otherwise(program, path, books_after(script))


def told_otherwise(program, path, books):
    """In what a report or a journal of the desk of a file is another than it must be by these books, or changes the file."""
    held = read(path)
    # of a journal also the second half
    second = ["--from", str(len(books.history) // 2 + 1)]
    for words in ["report"], ["report", "--json"], ["journal"], ["journal", "--json"], ["journal", "--json", *second]:
        ended, wanted = ran(program, *words, "--db", path), (0, tell(books, words), b"")
        if ended != wanted:
            yield f"{words} prints {unlike(ended, wanted)}"
    if read(path) != held:
        yield "a report or a journal has changed the file"


def left_otherwise(program, path, wanted):
    """In what a file that a run has left is another than it must be, where a run that is asked for the sums must end so."""
    folder, alone = os.path.dirname(path), [os.path.basename(path)]
    if os.listdir(folder) != alone:
        yield f"there are {sorted(os.listdir(folder))}"
    elif not is_sound(path):
        yield "the file is not sound"
    ended = ran(program, "sums", "--db", path)
    if ended != wanted:
        yield f"the sums are {unlike(ended, wanted)}"
    if os.listdir(folder) != alone:
        yield f"once the sums were asked for, there are {sorted(os.listdir(folder))}"
