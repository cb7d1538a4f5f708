"""What `tests/parts/files migrated` tries: whether `PROGRAM migrate OLD NEW` brings files of earlier versions over.

Files of versions 1 and 2 are made of histories of the plain program, tests/plain, by tests/lib/old.py. So many are random ones,
of which some runs, or all, are of one pass; they lie in a rollback journal's mode or in write-ahead mode, closed, or with a log
that holds something. Of each `migrated N` must be told, N being the plain program's count, and nothing else; OLD must stay as
it was, byte for byte, and so must what stands beside it, but that a log which holds something may be longer by the mark of an
opening; NEW must stand alone, be sound to Python's SQLite, and have the plain program's rows in each table. Its report and its
journal are the plain program's, and what is asked again gets its first reply. Brought over once more, it is `fault 50`, and NEW
stays as it was.

So are worked days: examples/earlier.db, which is examples/day up to its first run; the folder of cases/drop/a_day, which then is
taken again with the same answers and sums; and a chain of deliveries, of which a run of one pass left one that the next settles.

Then files that are none of version 1 or 2, or of which one value is another, must be `fault 50` or `fault 51`, with a line on
standard error that names the file, and a NEW that is there must be `fault 50`; each file stays as it was, and none is made.

At last one run after another is disturbed: a growth is refused, or a call on a file or its name fails, each so many-th in turn, or
the program is killed at such a call, or at a random moment, so many times. Behind it OLD must be as it was, and NEW whole or not
there; what was told must be so, or `fault 60` or `fault 61`; and where there is no NEW another run must make it, and leave nothing
beside (but a log of the old file, which a killed run leaves and which holds nothing). Each history, file and run counts."""

import contextlib
import functools
import os
import shutil
import signal
import sqlite3
import subprocess
import tempfile
import time

from generate.chance import Chance
from generate.comparing import DEFAULT_SEED
from generate.parts import parts_of
from lib.files import changed, told_otherwise, written
from lib.folders import held_in, made as folder_made
from lib.odd import left_by_kill, script_of_day, texts
from lib.old import FIRST, SECOND, THIRD, books_of, made, other_row, rows_in, rows_of
from lib.part import TOP
from lib.play import PATIENCE, SHARED_MEMORY, ran, read, unlike
from lib.preload import build, failed, refused
from lib.refusing import in_turn
from plain.books import EMPTY
from plain.desk import sums
from plain.dropping import files_in
from plain.folders import ask_file
from plain.scripts import ask_item, items_of, shown

CHAIN = os.path.join(TOP, "cases/play/play_chain_in_two_passes.stdin")
FOLDER = os.path.join(TOP, "cases/drop/a_day")
DAY, LINES_TO_RUN = os.path.join(TOP, "examples/day/day.script"), 588
EXAMPLE = os.path.join(TOP, "examples/earlier.db")

# how a file of an earlier version lies there
ROLLBACK, CLOSED, LOGGED = "in a rollback journal's mode", "in write-ahead mode", "with a log that holds something"
LYING = ROLLBACK, CLOSED, LOGGED

# a log's head, and less than that of a page behind it
MOST_NEW_LOG = 32 + 23

# a number that no version has
NO_VERSION = 9

NOT_OURS, OTHER_VERSION, NO_MEMORY, NOT_OPENED = 50, 51, 60, 61


def fault(number):
    """How a run ends with a fault: its status, and what it prints."""
    return 3, b"fault %d\n" % number


class Room:
    """A folder with a file of an earlier version, where that is made, and a path for the new one."""

    def __init__(self, top):
        # as the system names an open file
        self.top = os.path.realpath(top)
        self.old, self.new = (os.path.join(self.top, it) for it in ("old.db", "new.db"))

    def make(self, books, version, lies=ROLLBACK):
        """Makes the file of these books, as it lies there. Gives what the folder holds then."""
        if lies == LOGGED:
            changed(made(self.old, books, version), "PRAGMA journal_mode = WAL", f"UPDATE version SET number = {NO_VERSION}")
            left = left_by_kill(self.old, "-wal", f"UPDATE version SET number = {version}")
            for end in "", "-wal":
                shutil.move(left + end, self.old + end)
        else:
            changed(made(self.old, books, version), *(["PRAGMA journal_mode = WAL"] if lies == CLOSED else []))
        return self.held()

    def held(self):
        """What each file of the folder holds, but for those of the new desk and its making."""
        return {name: content for name, content in held_in(self.top).items() if not name.startswith(b"new.db")}

    def is_kept(self, before, most=0):
        """Whether these are as they were before, but for the log of the old file: one that held something may be longer, since an
        opening is noted in it, and where there was none one of at most so many bytes may stand."""
        after, stood = self.held(), dict(before)
        log, begun = after.pop(b"old.db-wal", b""), stood.pop(b"old.db-wal", b"")
        is_same_log = log.startswith(begun) and len(log) <= len(begun) + MOST_NEW_LOG if begun else len(log) <= most
        return after == stood and is_same_log

    def news(self):
        """The names of those."""
        return sorted(name for name in os.listdir(self.top) if name.startswith("new.db"))

    def clear(self):
        """Removes them."""
        for name in self.news():
            os.remove(os.path.join(self.top, name))

    def migrate(self, program, surroundings=None):
        """How the file is brought over: the status, what is printed, and what is told."""
        return ran(program, "migrate", self.old, self.new, surroundings=surroundings)

    def differences(self, before, books):
        """In what the folder holds something else than before, and a new file that stands alone and has these books."""
        if not self.is_kept(before):
            yield "the old file is another, or what stands beside it"
        if self.news() != ["new.db"]:
            yield f"of the new file there are {self.news()}"
        else:
            yield from filter(None, [other_row(rows_in(self.new), rows_of(books))])


@contextlib.contextmanager
def new_room(within=None):
    with tempfile.TemporaryDirectory(dir=within) as top:
        yield Room(top)


def why(found):
    """What was found wrong, or what could not be tried."""
    try:
        return "; ".join(found)
    except (OSError, sqlite3.Error, subprocess.TimeoutExpired) as error:
        return repr(error)


# ---- histories


def migrated(books):
    """How a run ends that brings these books over."""
    return 0, b"migrated %d\n" % len(books.history), b""


def goes_on(program, path, books, script):
    """In what the desk of a file with these books answers a script otherwise than the plain program."""
    answers = []
    for item in items_of(script):
        books, reply = ask_item(books, *item)
        answers.append(shown(reply))
    ended = ran(program, "play", "--db", path, given=script)
    if ended != (0, b"".join(answers), b""):
        yield f"asked again it ends with {unlike(ended, (0, b''.join(answers), b''))}"


def history_differences(program, room, books, script, version, lies):
    """In what a history is brought over otherwise than it must be."""
    before = room.make(books, version, lies)
    ended = room.migrate(program)
    if ended != migrated(books):
        yield f"it ends with {unlike(ended, migrated(books))}"
        return
    yield from room.differences(before, books)
    yield from told_otherwise(program, room.new, books)
    held, again = read(room.new), room.migrate(program)
    if again[:2] != fault(NOT_OURS) or read(room.new) != held:
        yield f"brought over once more it ends with {again}, or changes the new file"
    yield from goes_on(program, room.new, books, script)


def random_histories(program, count, seed):
    for number in range(count):
        chance = Chance(seed, number)
        script, version = b"".join(parts_of(chance)), (FIRST, SECOND)[number % 2]
        books = books_of(script, lambda: version == FIRST or chance.happens(50))
        lies = LYING[number // 2 % len(LYING)]
        with new_room(SHARED_MEMORY if number // 6 % 2 else None) as room:
            found = history_differences(program, room, books, script, version, lies)
            yield f"history {number} of seed {seed}, version {version} {lies}", why(found)


# ---- worked days


def folder_again(program, room, version):
    """In what a folder that was taken before is answered otherwise when it is taken again behind the migration."""
    files, books = sorted(files_in(os.path.join(FOLDER, "in"))), EMPTY
    for file in files:
        books, _ = ask_file(books, *file)
    room.make(books, version)
    ended = room.migrate(program)
    if ended != (0, b"migrated 9\n", b""):
        yield f"it ends with {ended}"
        return
    target = folder_made(os.path.join(room.top, "answers"))
    taken = ran(program, "drop", "--db", room.new, "--in", os.path.join(FOLDER, "in"), "--out", target)
    if taken[:2] != (0, b"") or held_in(target) != held_in(os.path.join(FOLDER, "out")):
        yield f"the folder is taken with {taken}, or gets other answers"
    ended = ran(program, "sums", "--db", room.new)
    if ended != (0, sums(books).text + b"\n", b""):
        yield f"the sums are {ended}"


def chain_goes_on(program, room):
    """In what a chain goes on otherwise, of which a run of one pass left one delivery."""
    script = read(CHAIN)
    [*_, (line, body), _] = items_of(script)
    room.make(books_of(script.partition(b'"ref":"R2"')[0], lambda: True), SECOND)
    ended = room.migrate(program)
    if ended != (0, b"migrated 13\n", b""):
        yield f"it ends with {ended}"
        return
    again = line + b"\n" + body + b".\n"
    asked = again + again.replace(b'"R1"', b'"R9"')
    ended = ran(program, "play", "--db", room.new, given=asked)
    wanted = b"200\naccepted 13 settled 1 waiting 1\n.\n200\naccepted 14 settled 1 waiting 0\n.\n"
    if ended != (0, wanted, b""):
        yield f"its runs are answered {unlike(ended, (0, wanted, b''))}"


def example(program, room):
    """In what the file of the examples is another than it must be, or is brought over otherwise: a day up to its first run."""
    script = b"".join(read(DAY).splitlines(keepends=True)[:LINES_TO_RUN])
    books = books_of(script, lambda: True)
    yield from filter(None, [other_row(rows_in(EXAMPLE), rows_of(books, FIRST))])
    shutil.copy(EXAMPLE, room.old)
    ended = room.migrate(program)
    yield from filter(None, [unlike(ended, migrated(books)) or other_row(rows_in(room.new), rows_of(books))])


def worked_days(program):
    with new_room() as room:
        yield "the example", why(example(program, room))
    for version in FIRST, SECOND:
        with new_room() as room:
            yield f"a folder, version {version}", why(folder_again(program, room, version))
    with new_room() as room:
        yield "a chain, version 2", why(chain_goes_on(program, room))


# ---- files that are refused

# of a day in version 2: a table, what is another in it, and the number of the fault
CHANGES = [
    ("balance", "quantity = quantity + 1 WHERE rowid = 1", NOT_OURS),
    ("cash", "amount = amount + 1 WHERE rowid = 1", NOT_OURS),
    ("total", "amount = amount + 1 WHERE rowid = 1", NOT_OURS),
    ("sent", "text = 'MATCHED' WHERE number = 1", NOT_OURS),
    ("register", "reply = 'accepted 10' WHERE number = 9", NOT_OURS),
    ("register", "quantity = 11 WHERE number = 6", NOT_OURS),
    ("register", "kind = 12 WHERE kind = 11", NOT_OURS),
    ("register", "rule = 2 WHERE kind = 11", NOT_OURS),
    ("register", "number = 99 WHERE number = 28", NOT_OURS),
    ("state", "asked = 1 WHERE number = 10", NOT_OURS),
    ("state", "asked = 1 WHERE state = 3", NOT_OURS),
    ("state", "state = 3 WHERE number = 10", NOT_OURS),
    ("state", "reason = 2 WHERE number = 25", NOT_OURS),
    ("version", "number = 1", NOT_OURS),
    ("version", "number = 3", OTHER_VERSION),
    ("version", "number = 4", OTHER_VERSION),
]

# the same in version 1
CHANGES_OF_FIRST = [
    ("register", "reply = 'accepted 10' WHERE number = 9", NOT_OURS),
    ("register", "kind = 11 WHERE kind = 10", NOT_OURS),
    ("register", "rule = 1 WHERE kind = 10", NOT_OURS),
    ("version", "number = 2", NOT_OURS),
    ("version", "number = 3", OTHER_VERSION),
]

# what else a file is not: what is done to one of version 2, and the number of the fault
STATEMENTS = [
    ("DROP TABLE sent", NOT_OURS),
    ("CREATE TABLE further (number INTEGER PRIMARY KEY) STRICT", NOT_OURS),
    ("CREATE INDEX further ON cash (amount)", NOT_OURS),
    ("INSERT INTO version VALUES (1)", NOT_OURS),
    ("DELETE FROM version", NOT_OURS),
    ("DELETE FROM register WHERE number = 2", NOT_OURS),
    ("DELETE FROM sent WHERE number = 1", NOT_OURS),
]


def refusal_differences(program, room, number, named):
    """In what files are not refused with this number, a line that names one of them, and both as they were."""
    before = held_in(room.top)
    status, printed, told = room.migrate(program)
    lines = told.decode().splitlines()
    if (status, printed) != fault(number):
        yield f"it ends with {(status, printed)}"
    if len(lines) != 1 or not lines[0].startswith(f"desk: {named}: fault {number}: "):
        yield f"standard error has {told!r}"
    if held_in(room.top) != before:
        yield f"there are {sorted(os.listdir(room.top))}, or a file is another"


def old_ones(room):
    """What is done to make each old file that is refused, with a name and the number of its fault."""
    day = script_of_day()
    in_passes, first = books_of(day, lambda: False), books_of(day, lambda: True)
    for table, change, number in CHANGES:
        made(room.old, in_passes, SECOND)
        changed(room.old, f"UPDATE {table} SET {change}")
        yield f"version 2, {table} where {change}", number
    for table, change, number in CHANGES_OF_FIRST:
        made(room.old, first, FIRST)
        changed(room.old, f"UPDATE {table} SET {change}")
        yield f"version 1, {table} where {change}", number
    for statement, number in STATEMENTS:
        made(room.old, in_passes, SECOND)
        changed(room.old, statement)
        yield statement, number
    made(room.old, first, FIRST)
    changed(room.old, [it for it in texts() if it.startswith("CREATE TABLE state ")][0])
    yield "version 1 with a table more", NOT_OURS
    made(room.old, in_passes, THIRD)
    yield "version 3", OTHER_VERSION
    changed(room.old, "CREATE TABLE note (title TEXT)")
    yield "another's table", NOT_OURS
    written(room.old, b"")
    yield "no bytes", NOT_OURS
    written(room.old, b"")
    written(room.old + "-wal", b"a log" * 1000)
    yield "no bytes, and a log", NOT_OURS
    os.remove(room.old + "-wal")
    written(room.old, b"no database\n" * 1000)
    yield "a text", NOT_OURS
    made(room.old, in_passes, SECOND)
    content = read(room.old)
    written(room.old, content[: len(content) // 2])
    yield "half of a file", NOT_OURS
    yield "no file", NOT_OURS
    os.mkdir(room.old)
    yield "a folder", NOT_OPENED


def refused_old_ones(program):
    with new_room() as room:
        for name, number in old_ones(room):
            yield name, why(refusal_differences(program, room, number, room.old))
            if os.path.isfile(room.old):
                os.remove(room.old)


def refused_new_ones(program):
    """New files that are there already, and such as are taken."""
    books = books_of(script_of_day(), lambda: True)
    with new_room() as room:
        before = room.make(books, SECOND)
        for name, end in ("a text", ""), ("a log", "-wal"), ("a desk", ""):
            path = room.new + end
            made(path, books, THIRD) if name == "a desk" else written(path, b"text")
            yield f"a new file that is there: {name}", why(refusal_differences(program, room, NOT_OURS, room.new))
            room.clear()
        written(room.new, b"")
        ended = room.migrate(program)
        yield "a new file of no bytes", unlike(ended, migrated(books)) or why(room.differences(before, books))
        room.clear()
        room.new = os.path.join(room.top, "none/new.db")
        yield "a new file in no folder", why(refusal_differences(program, room, NOT_OPENED, room.new + "-unfinished"))
        room.new = room.old
        yield "one file twice", why(refusal_differences(program, room, NOT_OURS, room.new))
    for end in "-unfinished", "-unfinished-wal":
        with new_room() as room:
            room.old = made(room.new + end, books, SECOND)
            yield f"an old file that is NEW{end}", why(refusal_differences(program, room, NOT_OURS, room.new))


# ---- what is disturbed


class Disturbed:
    """A history that is brought over again and again while something fails."""

    def __init__(self, program, room):
        self.program, self.room = program, room
        self.books = books_of(read(CHAIN), lambda: True)
        self.before = room.make(self.books, SECOND, LOGGED)
        begun = time.perf_counter()
        self.calm = room.migrate(program)
        self.seconds = time.perf_counter() - begun

    def begin(self):
        """The room as it was before any run."""
        for name in os.listdir(self.room.top):
            os.remove(os.path.join(self.room.top, name))
        for name, content in self.before.items():
            written(os.path.join(self.room.top, os.fsdecode(name)), content)
        return self.room

    def is_calm(self):
        """In what it goes wrong where nothing fails."""
        if self.calm != migrated(self.books):
            yield f"it ends with {self.calm}"
        yield from self.room.differences(self.before, self.books)

    def behind(self, ended, faults):
        """In what a run that ended so, or was killed, left something else than it may."""
        if ended is not None and ended != self.calm[:2] and ended not in faults:
            yield f"it ends with {ended}"
        if not self.room.is_kept(self.before, MOST_NEW_LOG):
            yield "the old file is another, or what stands beside it"
        is_there = "new.db" in self.room.news()
        if ended == self.calm[:2] and not is_there:
            yield "there is no new file"
        if is_there:
            yield from filter(None, [other_row(rows_in(self.room.new), rows_of(self.books))])
            return
        again = self.room.migrate(self.program)
        if again != self.calm:
            yield f"run again it ends with {again}"
        yield from self.room.differences(self.before, self.books)

    def fail(self, name, surroundings, faults, step):
        """Has one thing after another fail, or each step-th; one of the faults must be told in some run."""
        endings = []

        def run(number):
            status, printed, told = self.begin().migrate(self.program, surroundings(number))
            has_failed = b"failed " in told or b"refused\n" in told
            return (None if status == -signal.SIGKILL else (status, printed)), has_failed

        for number, ended, _ in in_turn(run, step):
            endings.append(ended)
            yield f"{name} {number}", why(self.behind(ended, faults))
        if all(it == self.calm[:2] for it in endings):
            yield name, "no failure is told"

    def kill(self, chance, number):
        """Kills it at a random moment of its run."""
        moment = self.seconds * chance.below(1_000_000) / 1_000_000
        self.begin()
        words = self.program, "migrate", self.room.old, self.room.new
        with subprocess.Popen(words, stdout=subprocess.PIPE, stderr=subprocess.PIPE) as process:
            time.sleep(moment)
            process.kill()
            process.communicate(timeout=PATIENCE)
        yield f"kill {number}", why(self.behind(None, []))


def disturbed(program, count, seed, step, stride):
    with tempfile.TemporaryDirectory() as libraries, new_room(SHARED_MEMORY) as room:
        growths, failing, it = build(libraries, "growths"), build(libraries, "failing"), Disturbed(program, room)
        yield "with nothing disturbed", why(it.is_calm())
        if step:
            yield from it.fail("growth", functools.partial(refused, growths), [fault(NO_MEMORY)], step)
        for way in ("unmade", "half", "made", "killed") if stride else ():
            surroundings = lambda number, way=way: {**failed(failing, room.top, way, number), "FAILED_NAMES": "yes"}  # noqa: E731
            yield from it.fail(f"call {way}", surroundings, [fault(NOT_OPENED)], stride)
        for number in range(count):
            yield from it.kill(Chance(seed, number), number)


def try_migrated(program, count="24", kills="60", step="23", stride="2", seed=DEFAULT_SEED):
    """Brings so many random histories over, worked days, refused files, and one that is disturbed: by so many kills, by each step-th
    growth and each stride-th call (0: none)."""
    program = os.path.abspath(program)
    yield from random_histories(program, int(count), int(seed))
    yield from worked_days(program)
    yield from refused_old_ones(program)
    yield from refused_new_ones(program)
    yield from disturbed(program, int(kills), int(seed), int(step), int(stride))
