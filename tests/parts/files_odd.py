"""What `tests/parts/files odd` tries: a program that is let at odd and damaged files, and at good ones.

The files stand in tests/lib/odd.py, each with what is due; beside them are a path with no file, a file that a desk serves, and,
where the test is not run by root, one that may not be read. At each file are let `play --db FILE`, `serve --db FILE --port N
--count 1`, `holdings --db FILE BIC ACCOUNT`, `sums --db FILE`, `drop --db FILE --in .. --out ..`, `report --db FILE`,
`journal --db FILE`, `play --db FILE --dry-run` and `check --db FILE`, one behind the other, or so many of these as is asked,
others at each file. Of one that is not opened standard output must be `fault N` alone, with status 3 (so `serve` tells of no
port, and `drop` writes no answer), and standard error one line, with the file's name, the number and why. The file must hold the
same bytes, and none may stand beside it; where there is none, none is made, but by `play` that keeps its answers, `serve` and
`drop`. Of one that is opened the answers, and what the other words print, must be those of the plain program, tests/plain, and
what the file holds, as Python's SQLite tells, what it held, also where commands are tried; standard error tells how many
entries that are, with the day of the last run, or that the file is new.

A file of many entries is made by `play --db`, in two parts, and `sums --db` opens it. Where standard error is a terminal, it
must say behind 20,000 entries, and behind each 5,000 more, that so many are read, and nothing of a file of one entry fewer;
elsewhere nothing. Each file and word counts."""

import contextlib
import functools
import itertools
import os
import pty
import shutil
import subprocess
import sys
import tempfile

from lib.files import books_after, dumped
from lib.folders import taken, told_of
from lib.odd import A_DAY, DENIED, IN_USE, NOTHING, OTHER_TABLES, Due, Odd, damaged_files, held_by_another
from lib.odd import command, left_by_kill, odd_files, script_of_day
from lib.play import PATIENCE, SHARED_MEMORY, answers_in, found_in, ran, ran_whole, unlike
from lib.server import Server
from plain.books import last_day
from plain.program import answer

MISSING = Due(61, "there is no such file, and none is made")
# the words that make no file
ASKING = ["holdings", "sums", "report", "journal", "trial", "check"]
# the words of which it is left out what the opening found
LEFT_OUT = ["serve", "drop"]
HOLDER = "ALPHDEFF", "A-1"
ASKED = b"holdings %s %s\nsums\n" % tuple(it.encode() for it in HOLDER)
# what is tried: a command that any desk accepts, one that it refuses then, and what it holds
TRIED = command("participant", "TRIED-1", bic="ZETADEFF") + command("participant", "TRIED-2", bic="ZETADEFF") + ASKED
# a log's head, and less than that of a page behind it
MOST_NEW_LOG = 32 + 23
GET_SUMS = b"GET /sums HTTP/1.1\r\n\r\n"
# how many entries are read before a terminal is told of that, and how many more each time
UNTOLD, TOLD_EACH = 20_000, 5_000


def answers_of_plain(script):
    """What each word must print of a desk after a script, with its status."""
    _, before = answer(["play"], script)
    _, printed = answer(["play"], script + ASKED)
    holding, sums = (it.split(b"\n", 1) for it in printed[len(before) :].removesuffix(b"\n.\n").split(b"\n.\n"))
    told = holding[1] + b"\n", sums[1] + b"\n"
    asked = {"play": (0, printed[len(before) :]), "serve": (0, sums[1]), "drop": (0, b"422\nrefused 40\n.\n")}
    stands = {word: answer([word], script) for word in ("report", "journal")}
    tried = answer(["play"], script + TRIED)[1][len(before) :]
    refused = sum(not it.startswith(b"200") for it in answers_in(tried))
    checked = refused != 0, b"%d requests, %d refused\n" % (len(answers_in(tried)), refused)
    asked |= {"trial": (0, tried), "check": checked}
    return {**asked, "holdings": (holding[0][:3] != b"200", told[0]), "sums": (0, told[1]), **stands}


def dropped(program, path):
    """How a folder is taken over a file: it has one file, whose name says nothing. Its answer stands behind what was printed,
    and the line that tells how many are taken is left out."""
    [((status, printed, told), answers)] = taken(program, path, [(b"notes.txt", b"sums\n")])
    return status, printed + b"".join(answers.values()), told.replace(told_of(path, answers), b"")


def asked(program, word, path):
    """How a word ends over a file: status, what was printed, and what was told. Of one that serves it is what a client gets, of one
    that checks the last line."""
    if word == "play":
        return ran_whole(program, "play", "--db", path, given=ASKED)
    if word == "trial":
        return ran_whole(program, "play", "--db", path, "--dry-run", given=TRIED)
    if word == "check":
        status, printed, told = ran_whole(program, "check", "--db", path, given=TRIED)
        return status, b"".join(printed.splitlines(keepends=True)[-1:]), told
    if word == "drop":
        return dropped(program, path)
    if word != "serve":
        return ran_whole(program, word, "--db", path, *(HOLDER if word == "holdings" else ()))
    with Server(program, 1, dict(os.environ), path) as server:
        got = server.response([GET_SUMS]) if server.listens() else server.said
        status, printed, told = server.end()
        head, _, body = got.partition(b"\r\n\r\n")
        return status, (body if head.startswith(b"HTTP/1.1 200 ") else got) + printed, told


@functools.cache
def opened(path):
    """A file that is read here. It is not closed: a connection of this process would lose its lock with that."""
    return os.open(path, os.O_RDONLY)


def content_of(path):
    """The bytes of a file; None where there is none."""
    return os.pread(opened(path), os.path.getsize(path), 0) if os.path.isfile(path) else None


def beside(path):
    """What stands beside a file and belongs to it: the ends of the names, each with its length."""
    return {end: os.path.getsize(path + end) for end in ("-wal", "-shm", "-journal") if os.path.exists(path + end)}


def is_as_it_was(path, stood):
    """Whether beside a file that is not opened stands what did, but for a log: one that is made is too short for a row, and one
    that stood may be longer."""
    stands = beside(path)
    log = stands.pop("-wal", 0)
    stood = dict(stood)
    return (stood.pop("-wal") <= log if "-wal" in stood else log <= MOST_NEW_LOG) and stands == stood


class Files:
    """A program that is let at files, and what the plain program answers."""

    def __init__(self, program, words):
        self.program, self.count, self.tried = program, words, 0
        self.answers = {A_DAY: answers_of_plain(script_of_day()), NOTHING: answers_of_plain(b"")}
        day = books_after(script_of_day())
        self.found = {A_DAY: (len(day.history), f"{last_day(day.history):08}"), NOTHING: (0, None)}

    def words(self):
        """The words that are let at the next file."""
        at, self.tried = self.tried, self.tried + 1
        names = list(self.answers[A_DAY])
        return [names[(at + it) % len(names)] for it in range(self.count)]

    def differences(self, word, odd):
        """In what a word goes another way over a file than is due."""
        path, is_there = odd.path, os.path.exists(odd.path)
        due = MISSING if not is_there and word in ASKING else odd.due
        before, stood = content_of(path), beside(path)
        held = dumped(path) if before and not due.fault else []
        if due.fault:
            wanted = 3, b"fault %d\n" % due.fault, f"desk: {path}: fault {due.fault}: {due.why}\n".encode()
        else:
            found = b"" if word in LEFT_OUT else found_in(path, *self.found[due], is_there)
            wanted = *self.answers[due][word], found
        try:
            ended = asked(self.program, word, path)
        except (OSError, subprocess.TimeoutExpired) as error:
            ended = error
        if ended != wanted:
            yield unlike(ended, wanted)
        if due.fault and (os.path.exists(path), content_of(path)) != (is_there, before):
            yield "the file is another"
        # a file without tables gets them
        if any(it.startswith("CREATE") for it in held) and dumped(path) != held:
            yield "the file holds something else"
        if not (is_as_it_was(path, stood) if due.fault else beside(path) == {}):
            yield f"beside it stand {beside(path)}, where {stood} stood"

    def over(self, odd, words=None):
        for word in words or self.words():
            yield f"{word} over {odd.name}", "; ".join(self.differences(word, odd))


def served(files, room, day):
    """A file that a desk serves meanwhile; it is served on, and whole then."""
    path = shutil.copy(day, os.path.join(room, "served"))
    with Server(files.program, 1, db=path) as server:
        yield from files.over(Odd("a file that is served", path, IN_USE))
        got = server.response([GET_SUMS])
        well = got.endswith(b"\r\n\r\n" + files.answers[A_DAY]["serve"][1]) and server.has_ended()
    yield "the one that serves it", "" if well else f"{got!r}"
    yield from files.over(Odd("the file that was served", path, A_DAY), ["sums"])


def more_files(room, day):
    """A database that another program left with its log, a file of which another connection holds the log, and one that may not
    be read; to root all may."""
    note = "PRAGMA journal_mode = WAL", "CREATE TABLE note (title TEXT)", "INSERT INTO note VALUES ('kept')"
    left = left_by_kill(os.path.join(room, "of_another"), "-wal", *note)
    held = dumped(left)
    yield Odd("a database that another left", left, OTHER_TABLES)
    yield Odd("the same, which holds its rows", left, OTHER_TABLES if dumped(left) == held else A_DAY)
    with held_by_another(shutil.copy(day, os.path.join(room, "log")), "BEGIN IMMEDIATE") as path:
        yield Odd("a file with a log that is held", path, IN_USE)
    if os.geteuid() != 0:
        path = shutil.copy(day, os.path.join(room, "closed"))
        opened(path)
        os.chmod(path, 0)
        yield Odd("a file that may not be read", path, DENIED)


def entries_from(first, last):
    """A script by which the entries of these numbers come into a file: a participant's, and those by which it is paid in 1."""
    entry = lambda number: command("payin", f"M{number}", bic="ALPHDEFF", ccy="EUR", amount=1)  # noqa: E731
    begun = [command("participant", "P1", bic="ALPHDEFF")] if first == 1 else []
    return b"".join([*begun, *(entry(number) for number in range(max(first, 2), last + 1))])


def sums_behind(last):
    """What `sums` prints of such a file."""
    return b'{"cash":[{"ccy":"EUR","held":%d,"net":%d}],"securities":[]}\n' % (last - 1, last - 1)


def ran_at_terminal(*words):
    """How words end where standard error is a terminal: the status, and what is printed and told."""
    terminal, device = pty.openpty()
    try:
        with os.fdopen(device, "wb") as told_at:
            how = {"stdin": subprocess.DEVNULL, "stdout": subprocess.PIPE, "stderr": told_at, "timeout": PATIENCE}
            ended = subprocess.run(words, **how)
        told = b""
        with contextlib.suppress(OSError):
            # once nobody can write there, a read fails
            while piece := os.read(terminal, 65_536):
                told += piece
        return ended.returncode, ended.stdout, told.replace(b"\r\n", b"\n")
    finally:
        os.close(terminal)


def end_of(run, *words, **given):
    """How a run ends, or why it comes to no end."""
    try:
        return run(*words, **given)
    except (OSError, subprocess.TimeoutExpired) as error:
        return error


def told_of_many(program):
    """What was tried of files of many entries, each with the difference."""
    with tempfile.TemporaryDirectory(dir=SHARED_MEMORY) as folder:
        path, first = os.path.join(folder, "many"), 1
        for last in UNTOLD - 1, UNTOLD + TOLD_EACH:
            played = end_of(ran, program, "play", "--db", path, given=entries_from(first, last))
            due = "".join(f"desk: {path}: {it} entries are read\n" for it in range(UNTOLD, last + 1, TOLD_EACH)).encode()
            found = found_in(path, last)
            for name, run, told in ("a terminal", ran_at_terminal, due + found), ("a pipe", ran_whole, found):
                ended, wanted = end_of(run, program, "sums", "--db", path), (0, sums_behind(last), told)
                # of what was played the answers are long, and the sums tell whether they are as they must be
                is_well = ended == wanted and isinstance(played, tuple) and played[::2] == (0, b"")
                yield f"{last} entries, told to {name}", "" if is_well else f"{ended!r} where {wanted!r} is wanted"
            first = last + 1


def all_tried(files, room, day):
    """What was tried, each with the differences."""
    yield from files.over(Odd("a path with no file", os.path.join(room, "missing"), MISSING), ASKING)
    for odd in itertools.chain(odd_files(room, day), damaged_files(room, day), more_files(room, day)):
        yield from files.over(odd)
    yield from served(files, room, day)
    yield from told_of_many(files.program)


def try_odd(program, words="7"):
    """Lets so many words at each of odd and damaged files, and of good ones."""
    program = os.path.abspath(program)
    with tempfile.TemporaryDirectory() as room:
        day = os.path.join(room, "day")
        status, _, told = ran(program, "play", "--db", day, given=script_of_day())
        if (status, told) != (0, b"") or beside(day):
            sys.exit(f"the file of a day is not made: status {status}, {told!r}, beside it {beside(day)}")
        yield from all_tried(Files(program, int(words)), room, day)
