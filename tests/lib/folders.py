"""Folders whose files are taken, and those of the answers."""

import contextlib
import os
import re
import sqlite3
import tempfile

from plain.books import EMPTY
from plain.desk import sums
from plain.dropping import tally
from plain.folders import take

from .files import entries_in
from .play import SHARED_MEMORY, ran, read

# what stands in a room's folder of answers: an older answer to the first file, and something else
OLDER, ASIDE = b"an older answer\n", b"something else\n"


def held_in(folder):
    """What the files of a folder and of those in it hold, each by its path there; of a link where it leads, and of any other
    thing that it is no file."""
    held, top = {}, os.fsencode(folder)
    for path, folders, names in os.walk(top):
        for name in [*names, *(it for it in folders if os.path.islink(os.path.join(path, it)))]:
            place = os.path.join(path, name)
            held[os.path.relpath(place, top)] = content_of(place)
    return held


def content_of(place):
    if os.path.islink(place):
        return b"a link to " + os.readlink(place)
    if not os.path.isfile(place):
        return b"no file"
    return read(place)


def made(folder, files=()):
    """A new folder with these files."""
    os.mkdir(folder)
    for name, content in files:
        with open(os.path.join(os.fsencode(folder), name), "wb") as file:
            file.write(content)
    return folder


def told_of(db, answers):
    """What is told of answers, each by its name, on standard error."""
    return f"desk: {db}: {tally(list(answers.items()))}\n".encode()


def fails_in(db, told):
    """Whether one line tells, on standard error, of which folder or file something failed, and why."""
    return re.fullmatch(rb'desk: %s: "[^\n]*": [^\n]+\n' % re.escape(db.encode()), told) is not None


def drop(program, db, source, target, surroundings=None):
    """How a folder is taken: the status, and what is printed and told."""
    return ran(program, "drop", "--db", db, "--in", source, "--out", target, surroundings=surroundings)


def taken(program, db, files, times=1, surroundings=None):
    """How a new folder of these files is taken over a file, so many times: each time how that ended, and the answers that stand in
    the other folder then."""
    with tempfile.TemporaryDirectory(dir=SHARED_MEMORY) as room:
        source, target = made(os.path.join(room, "in"), files), made(os.path.join(room, "out"))
        return [(drop(program, db, source, target, surroundings), held_in(target)) for _ in range(times)]


def others(got, wanted):
    """The names at which two folders are not the same, in words."""
    names = sorted(it for it in {*got, *wanted} if got.get(it) != wanted.get(it))
    return ", ".join(os.fsdecode(it) for it in names[:5]) + (f" and {len(names) - 5} more" if len(names) > 5 else "")


class Room:
    """The file of a desk in a folder of its own, where there may be none, and a folder with the one that is taken and the one of
    the answers."""

    def __init__(self, top, files):
        self.top, self.db = top, os.path.join(made(os.path.join(top, "desk")), "desk.db")
        self.folders = made(os.path.join(top, "folders"))
        self.source = made(os.path.join(self.folders, "in"), files)
        self.before = {b"aside.txt": ASIDE, min(files)[0] + b".out": OLDER}
        self.target = made(os.path.join(self.folders, "out"), self.before.items())

    def path(self, name):
        """The path of a name, in bytes too, in the folder that holds the two."""
        return os.path.join(os.fsencode(self.folders), os.fsencode(name))

    def take_from(self, name):
        """Lets another folder be taken."""
        self.source = os.fsdecode(self.path(name))

    def answer_to(self, name):
        """Lets the answers go to another folder."""
        self.target = os.fsdecode(self.path(name))

    def drop(self, program, surroundings=None):
        return drop(program, self.db, self.source, self.target, surroundings)

    def entries(self):
        """How many entries the file has; none where it is no desk's yet."""
        try:
            return entries_in(self.db)
        except sqlite3.Error:
            return 0


@contextlib.contextmanager
def new_room(files, within=None):
    """A room that goes behind its use, within a folder, or where the system has its files of a time."""
    with tempfile.TemporaryDirectory(dir=within) as top:
        # as the system names an open file
        yield Room(os.path.realpath(top), files)


class PlainDesk:
    """What the plain program, tests/plain, answers to folders that are taken one behind the other."""

    def __init__(self):
        self.books = EMPTY

    def take(self, files):
        """Its answers to the files of a folder, each by its name."""
        self.books, answers = take(self.books, files)
        return dict(answers)

    def entries(self):
        return len(self.books.history)

    def sums(self):
        """How it ends where it is asked for the sums."""
        return 0, sums(self.books).text + b"\n", b""
