"""What `tests/parts/files killed` tries: whether the desk of a file goes on behind a kill at any moment.

Each try has a random script, or that of a day, its requests over HTTP, or a folder of such. By turns a run over a file plays,
serves or takes it, and is sent SIGKILL meanwhile, or as it opens the file, before it asks anything, or as it closes it, behind
its last answer. Before it there was no file, or one that an earlier part of the script was played on, closed, or with the log
that a killed run left beside it; it lies where the system has its files of a time, or in memory. The moment is drawn: behind so
many of the things that a run tells which goes to its end, and before the next one. A kill that comes behind the end, or behind
the opening of a file, or before all is answered of a run that is to close it, is tried again at another moment.

Then a copy of the file and its log must be sound to Python's SQLite, and hold the entries, their replies and the sent messages
that the plain program, tests/plain, has behind some first ones of the requests: behind those of whose answers anything was told,
where they were served behind one more at most, behind none as the file is opened and behind all as it is closed. (A new file is
none to SQLite until its first byte is written. The desk takes it, with its log, for a new one; here it is not shown to SQLite,
and has no entry.) What was told is the plain program's; in the folder of the answers those to the first files stand whole, and
nothing else is changed. The journal of another copy is the plain program's. A new run over the file that is asked all again,
from the first request of the script on, must answer as the plain program does behind those requests, and end well: the file
stands alone and is sound, and its rows, its sums, its report and its journal are the plain program's.

Each kill counts, and, where there are enough, that one each hit a script, requests and a folder of which a part was done. What is
found wrong is written out, with the file as the kill left it."""

import bisect
import contextlib
import functools
import itertools
import os
import select
import signal
import socket
import sqlite3
import subprocess
import time
from collections import namedtuple
from pathlib import Path

from generate.chance import Chance
from generate.comparing import DEFAULT_SEED, with_files, write_files
from generate.folders import random_folder
from generate.parts import parts_of
from generate.streams import dressed, request_of, written
from lib.files import copied, cuts_in, left_otherwise, looked_at, told_otherwise
from lib.folders import held_in, new_room, told_of
from lib.odd import script_of_day
from lib.part import TOP
from lib.play import CUT_OFF, PATIENCE, SHARED_MEMORY, ran, read, unlike, without_found
from lib.server import HOST, free_port, over, received
from plain.books import EMPTY
from plain.connections import served
from plain.desk import sums
from plain.dropping import UNFINISHED, files_in
from plain.entries import is_message, key_of
from plain.folders import ask_file
from plain.program import tell
from plain.scripts import ask_item, items_of, shown

# what a run does as it is killed
KINDS = "play", "serve", "drop", "open", "close"

# how it finds the file
FOUND = NO_FILE, CLOSED, LEFT = "no file", "a closed file", "a file with its log"

# of so many kills of a run that plays, serves or takes a folder one must come as a part is done
ENOUGH = 12

# so many characters are shown of a difference
MOST_SHOWN = 1_500

# so many kills, one behind the other, may miss what they are to hit
MOST_MISSED = 200

# what stands in the folder where none is taken, and the folder of a day
NO_FOLDER = [(b"notes.txt", b"")]
DAY = Path(TOP, "cases/drop/a_day/in")

# what a file begins with that is made, until its first byte is written
HALF_MADE = b"\0QLite format 3\0"

ENTRIES = "SELECT number, sender, reference, status, reply_mt, reply FROM register ORDER BY number"
SENT = "SELECT number, bic, mt, about, text FROM sent ORDER BY number"

# in which of its spans a run is killed
SPANS = {"play": slice(-1), "serve": slice(1, -1), "drop": slice(-1), "open": slice(1), "close": slice(-1, None)}

# so many seconds lie between two looks at a folder; and the piece that stands for its first answer
LOOK, ANSWERED = 0.0002, b"answered"

# when a run is killed: it has told so many pieces, and was asked for the next one so many seconds ago
Moment = namedtuple("Moment", "pieces seconds")


def wait_until(moment):
    while (left := moment - time.perf_counter()) > 0:
        # a sleep may take somewhat longer
        if left > 0.001:
            time.sleep(left - 0.001)


# ---- runs, and what they are asked


class Run:
    """A run over the file of a room, which is asked something. What it tells is read in pieces: `spans` has how many seconds behind
    its asking each came, and the end behind the last one; `rest` is what stood on its other stream."""

    # how many seconds it takes to open its file, where that is known
    opening = 0

    def __init__(self, room, asked, *words):
        self.room, self.asked, self.pieces, self.spans = room, asked, [], []
        streams = dict.fromkeys(("stdin", "stdout", "stderr"), subprocess.PIPE)
        self.process = subprocess.Popen(words, bufsize=0, **streams)

    def go(self, moment=None):
        """Goes up to its end, or to the moment at which it is killed. Gives itself."""
        with self.process:
            try:
                while len(self.spans) == len(self.pieces):
                    self.step(moment)
                self.rest = without_found(b"".join(self.process.communicate(timeout=PATIENCE)))
            finally:
                self.process.kill()
        self.status = self.process.returncode
        if self.is_killed():
            self.rest = CUT_OFF.sub(b"", self.rest)
        return self

    def step(self, moment):
        """Asks for the next piece, and reads it; nothing behind the last one. Behind the kill nothing is asked."""
        if moment is None or len(self.pieces) <= moment.pieces:
            self.ask()
        asked = time.perf_counter()
        if moment is not None and len(self.pieces) == moment.pieces:
            wait_until(asked + moment.seconds)
            self.process.kill()
        piece = self.piece()
        self.spans.append(time.perf_counter() - asked)
        if piece:
            self.pieces.append(piece)

    def ask(self):
        """Asks for the next piece, where that must be asked for."""

    def read(self, stream, is_line=False):
        """What comes next on a stream, or the line that does; nothing at its end."""
        if not select.select([stream], [], [], PATIENCE)[0]:
            raise subprocess.TimeoutExpired(self.process.args, PATIENCE)
        return stream.readline() if is_line else stream.read(65_536)

    def is_killed(self):
        return self.status == -signal.SIGKILL


class Play(Run):
    """A script that is played, given as its requests."""

    def __init__(self, program, room, requests):
        super().__init__(room, requests, program, "play", "--db", room.db)

    def ask(self):
        """Gives the script once the file is open, even if that takes somewhat longer."""
        if not self.pieces:
            time.sleep(1.5 * self.opening)
            with contextlib.suppress(BrokenPipeError), self.process.stdin as script:
                script.write(b"".join(self.asked))
            self.process.stdin = None

    @staticmethod
    def plainly(books, request):
        """The plain program's books behind a request, and its answer."""
        [item] = items_of(request)
        books, reply = ask_item(books, *item)
        return books, shown(reply)

    def piece(self):
        return self.read(self.process.stdout)

    def told(self, answers):
        """Of how many of these answers something is told; None where something else is told too."""
        printed, places = b"".join(self.pieces), [0]
        for answer in answers:
            places.append(places[-1] + len(answer))
        is_front = b"".join(answers).startswith(printed) and self.rest == b""
        return bisect.bisect_left(places, len(printed)) if is_front else None

    def is_answered(self, answers):
        """Whether it ended well, and told these answers and nothing else."""
        return (self.status, b"".join(self.pieces), self.rest) == (0, b"".join(answers), b"")


class Serve(Run):
    """Connections that are served, one behind the other, given as what they send; it may wait for more than these."""

    def __init__(self, program, room, streams, more=0):
        self.port, self.connection = free_port(), None
        count = str(len(streams) + more)
        super().__init__(room, streams, program, "serve", *over(room.db), "--port", str(self.port), "--count", count)

    @staticmethod
    def plainly(books, stream):
        books, [response] = served(books, stream)
        return books, response

    def ask(self):
        if 1 <= len(self.pieces) <= len(self.asked):
            self.connection = socket.create_connection((HOST, self.port), timeout=PATIENCE)
            try:
                self.connection.sendall(self.asked[len(self.pieces) - 1])
                self.connection.shutdown(socket.SHUT_WR)
            except OSError:
                # answered and closed before all was read
                pass

    def piece(self):
        """The line by which it tells that it listens, and then each response."""
        connection, self.connection = self.connection, None
        if connection is None:
            return self.read(self.process.stdout, is_line=True)
        with connection:
            return received(connection)

    def wanted(self, responses):
        return [b"listening %d\n" % self.port, *responses]

    def told(self, responses):
        *whole, last = [b"", *self.pieces]
        wanted = [b"", *self.wanted(responses), b""]
        is_front = whole == wanted[: len(whole)] and wanted[len(whole)].startswith(last) and self.rest == b""
        return max(len(whole) - 1, 0) if is_front else None

    def is_answered(self, responses):
        return (self.status, self.pieces, self.rest) == (0, self.wanted(responses), b"")


class Drop(Run):
    """A folder that is taken, given as its files in order."""

    def __init__(self, program, room, files):
        self.first = os.path.join(os.fsencode(room.target), files[0][0] + b".out")
        self.older = os.stat(self.first)
        super().__init__(room, files, program, "drop", "--db", room.db, "--in", room.source, "--out", room.target)

    def ask(self):
        """It asks by itself once the file is open, which may take less time than is known."""
        if not self.pieces:
            time.sleep(self.opening / 2)

    @staticmethod
    def plainly(books, file):
        books, reply = ask_file(books, *file)
        return books, shown(reply)

    def piece(self):
        """That the first answer stands, and then the line by which it tells people how many files are taken."""
        until = time.monotonic() + PATIENCE
        while not self.pieces and time.monotonic() < until:
            if select.select([self.process.stderr], [], [], LOOK)[0]:
                # what the opening found comes first
                told = self.read(self.process.stderr, is_line=True)
                if without_found(told) or not told:
                    return without_found(told)
            if not os.path.samestat(os.stat(self.first), self.older):
                return ANSWERED
        return self.read(self.process.stderr)

    def line(self):
        """What is told to people."""
        return b"".join(self.pieces).removeprefix(ANSWERED)

    def named(self, answers):
        """These answers to the first files, each by its name."""
        return {name + b".out": answer for (name, _), answer in zip(self.asked, answers)}

    def told(self, answers):
        held = {name: content for name, content in held_in(self.room.target).items() if name != UNFINISHED}
        count = sum(held.get(name) not in (None, self.room.before.get(name)) for name in self.named(answers))
        is_whole = held == {**self.room.before, **self.named(answers[:count])} and held_in(self.room.source) == dict(self.asked)
        is_front = told_of(self.room.db, self.named(answers)).startswith(self.line()) and self.rest == b""
        return count if is_whole and is_front else None

    def is_answered(self, answers):
        named = self.named(answers)
        is_told = (self.status, self.line(), self.rest) == (0, told_of(self.room.db, named), b"")
        return is_told and held_in(self.room.target) == {**self.room.before, **named}


WAYS = Play, Serve, Drop
OF_KINDS = {"play": Play, "serve": Serve, "drop": Drop, "open": Serve}


def cut(script):
    """The requests of a script."""
    places = cuts_in(script)
    return [script[begin:end] for begin, end in zip(places, [*places[1:], len(script)])]


def streams_of(chance, requests):
    """What connections send that ask these requests."""
    return [written(chance, dressed(chance, request_of(*item))) for it in requests for item in items_of(it)]


def plainly(way, books, asked):
    """The plain program's books before all that is asked in this way and behind each of it, and its answers."""
    fronts, answers = [books], []
    for one in asked:
        books, answer = way.plainly(books, one)
        fronts.append(books)
        answers.append(answer)
    return fronts, answers


# ---- what a file holds


def rows_of(books):
    """The rows that a file has of the entries, and of what was sent, where its desk has these books."""
    entries = []
    for number, (entry, reply) in enumerate(zip(books.history, books.replies), 1):
        sender, reference = key_of(entry)
        entries.append((number, sender if is_message(entry) else b"", reference, *reply))
    return entries, [(number, *it) for number, it in enumerate(books.sent, 1)]


def rows_in(path):
    """Those that a file with its log has, by SQLite, which must find it sound; none where it has no table."""
    with looked_at(path) as connection:
        connection.text_factory = bytes
        sound = list(connection.execute("PRAGMA integrity_check"))
        if sound != [(b"ok",)]:
            raise sqlite3.DatabaseError(sound[:3])
        is_made = list(connection.execute("SELECT name FROM sqlite_schema")) != []
        return tuple(list(connection.execute(it)) if is_made else [] for it in (ENTRIES, SENT))


def is_half_made(path):
    return os.path.exists(path) and read(path).startswith(HALF_MADE)


def found_in(path, due, is_new=False):
    """Those of the books that are due which a file with its log holds, and why it holds none. A new one may be half made."""
    try:
        rows = ([], []) if is_new and is_half_made(path) else rows_in(path)
    except sqlite3.Error as error:
        return None, f"to SQLite the file is not sound: {error}"
    counts = [len(books.history) for books in due]
    if len(rows[0]) not in counts:
        return None, f"the file has {len(rows[0])} entries, where {counts[0]} to {counts[-1]} are due"
    books = due[counts.index(len(rows[0]))]
    pairs = itertools.zip_longest(itertools.chain(*rows), itertools.chain(*rows_of(books)))
    return books, next((f"a row of the file is {unlike(row, wanted)}" for row, wanted in pairs if row != wanted), "")


# ---- kills


class Kill:
    """A run that is killed: what it does then, how it finds the file, what that was asked before, what the run is asked, and what
    is asked again behind it."""

    def __init__(self, program, seed, number):
        turn, kind = divmod(number, len(KINDS))
        self.program, self.chance = program, Chance(seed, number)
        self.kind, self.found = KINDS[kind], FOUND[turn % len(FOUND)]
        self.way = OF_KINDS.get(self.kind) or WAYS[turn // len(FOUND) % len(WAYS)]
        self.within = SHARED_MEMORY if number % 2 else None
        is_of_a_day = turn % 4 == 3
        self.before, self.asked = self.requests(is_of_a_day)
        self.again = self.before + self.asked
        if self.way is Serve:
            self.again = streams_of(self.chance, self.again)
            self.asked = self.again[len(self.before) :]
        elif self.way is Drop:
            self.again = self.asked = sorted(files_in(DAY) if is_of_a_day else random_folder(Chance(seed, number)) or NO_FOLDER)
        # when it was hit, and whether it had done a part of what it was asked
        self.moment, self.is_part_done = None, False

    def requests(self, is_of_a_day):
        """The requests before it, and its own."""
        before, *parts = map(cut, parts_of(self.chance))
        own = [it for part in parts for it in part]
        if is_of_a_day or not own:
            day = cut(script_of_day())
            at = self.chance.below(len(day))
            before, own = day[:at], day[at:]
        if self.found == NO_FILE:
            return [], before + own
        # what is opened is as long as may be
        return (before + own, own[:1]) if self.kind == "open" else (before, own)

    def room(self):
        return new_room(self.asked if self.way is Drop else NO_FOLDER, self.within)

    def make(self, room):
        """Makes the file as the run finds it. Gives the plain program's books of it."""
        if self.found == NO_FILE:
            return EMPTY
        if self.found == CLOSED:
            run = Play(self.program, room, self.before).go()
        else:
            streams = streams_of(self.chance, self.before)
            # it waits for one connection more as it is killed
            run = Serve(self.program, room, streams, 1).go(Moment(1 + len(streams), 0))
        return plainly(type(run), EMPTY, run.asked)[0][-1]

    def opens(self, kept):
        """How many seconds it takes to open the file that is kept in a room, by a server that is killed as soon as it listens."""
        with self.room() as room:
            copied(kept.db, room.db)
            return Serve(self.program, room, [], 1).go(Moment(1, 0)).spans[0]

    def run(self, room, kept, opening, moment=None):
        """Runs over a copy of that file, which it takes so many seconds to open."""
        copied(kept.db, room.db)
        run = self.way(self.program, room, self.asked)
        run.opening = opening
        return run.go(moment)

    def any_moment(self, spans):
        """A moment in one of the spans of a run that went to its end."""
        place = self.chance.pick(range(len(spans))[SPANS[self.kind]])
        return Moment(place, spans[place] * self.chance.below(1_000_000) / 1_000_000)

    def is_hit(self, run, answers):
        """Whether a kill hit the run as it did what it is to do."""
        is_meant = {"open": run.pieces == [], "close": run.told(answers) in (None, len(answers))}
        return run.is_killed() and is_meant.get(self.kind, True)

    def due(self, fronts, told):
        """The books of which the file must hold one behind the kill, where something was told of so many answers."""
        ends = {"open": slice(1), "serve": slice(told, told + 2), "close": slice(len(fronts) - 1, None)}
        return fronts[ends.get(self.kind, slice(told, None))]

    def differences(self, kept):
        """In what the desk of a file does not go on as it must behind the kill. The file is kept in this room, as the run finds it,
        and then as the kill leaves it."""
        fronts, answers = plainly(self.way, self.make(kept), self.asked)
        opening = self.opens(kept)
        with self.room() as room:
            calm = self.run(room, kept, opening)
            if not calm.is_answered(answers):
                yield f"with no kill it ends with {calm.status}, and tells {calm.pieces!r} {calm.rest!r}"
                return
        for _ in range(MOST_MISSED):
            moment = self.any_moment(calm.spans)
            with self.room() as room:
                run = self.run(room, kept, opening, moment)
                if self.is_hit(run, answers):
                    copied(room.db, kept.db)
                    self.moment = moment
                    yield from self.behind(room, run, fronts, answers)
                    return
        yield f"{MOST_MISSED} kills do not hit it"

    def behind(self, room, run, fronts, answers):
        """In what the kill left something else than it may, or another run does not go on."""
        told = run.told(answers)
        if told is None:
            yield f"it told {run.pieces!r} {run.rest!r}, or changed what is in the folders"
            return
        books, why = found_in(room.db, self.due(fronts, told), self.found == NO_FILE)
        if why:
            yield f"something was told of {told} answers, and {why}"
            return
        is_within = len(fronts[0].history) < len(books.history) < len(fronts[-1].history)
        self.is_part_done = is_within or self.kind == "drop" and 0 < told < len(answers)
        if os.path.exists(room.db):
            copy = copied(room.db, os.path.join(room.top, "copy"))
            journal, wanted = ran(self.program, "journal", "--db", copy), (0, tell(books, ["journal"]), b"")
            if journal != wanted:
                yield f"the journal is {unlike(journal, wanted)}"
        yield from self.goes_on(room, books)

    def goes_on(self, room, books):
        """In what a run that is asked all again over the file, which holds these books, goes another way than it must."""
        (*_, books), answers = plainly(self.way, books, self.again)
        run = self.way(self.program, room, self.again).go()
        if not run.is_answered(answers):
            yield f"asked again it ends with {run.status}, and tells {run.pieces!r} {run.rest!r}"
        _, why = found_in(room.db, [books])
        if why:
            yield f"once all was asked again {why}"
        yield from left_otherwise(self.program, room.db, (0, sums(books).text + b"\n", b""))
        yield from told_otherwise(self.program, room.db, books)

    def why(self, kept):
        """The same in words, with what is killed."""
        try:
            found = [it[:MOST_SHOWN] for it in self.differences(kept)]
        except (OSError, sqlite3.Error, subprocess.TimeoutExpired) as error:
            found = [str(error)]
        return f"{self.kind}, {self.way.__name__} over {self.found}, {self.moment}: {'; '.join(found)}" if found else ""

    def write_out(self, kept, folder, name):
        """Writes the file as the kill left it, with its log, and what is asked again."""
        files = {end: read(kept.db + end) for end in ("", "-wal") if os.path.exists(kept.db + end)}
        write_files(folder, name, {**{f"db{end}": it for end, it in files.items()}, "asked": repr(self.again).encode()})


def kills(program, count, seed, part_done):
    """So many kills of a seed; the kinds of those behind which a part is done are noted."""
    for number in range(count):
        kill = Kill(program, seed, number)
        with kill.room() as kept:
            yield f"kill_{seed}_{number}", kill.why(kept), functools.partial(kill.write_out, kept)
        if kill.is_part_done:
            part_done.add(kill.kind)


def try_killed(program, count="60", seed=DEFAULT_SEED):
    """Kills so many runs of a program."""
    part_done = set()
    yield from with_files(kills(os.path.abspath(program), int(count), int(seed), part_done))
    for kind in "play", "serve", "drop":
        if int(count) >= ENOUGH * len(KINDS):
            yield f"{kind}, with a part done", "" if kind in part_done else "no kill left that"
