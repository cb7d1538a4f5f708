"""What `tests/parts/refuse disk` tries: scripts played on new files while calls on these fail.

`PROGRAM WORDS FILE` plays a script on a new file (WORDS: `play`, or `play --db` of the desk's own program). Of the calls that
open, read, write, cut or settle a file below the folder of FILE each fails in turn, in each of three ways: nothing is done;
half of a write is done; all is done and told as failed. Then two calls fail in a run, each and the next one, and each and the
next but one, with nothing done. A run must end in one of three ways. It prints `fault 61` alone, with status 3, and the next
run takes the file as a new one, or the file holds what a new desk's does. Or the requests that met a failure, no more than
calls failed, are answered 500 and `fault 61`, and every other answer, and what the file holds at the end, is that of the script
with these left out. Or from a request on all are answered 500 and `fault 62`, those before it as said, and the file holds what
it held before this request or after it; and opened again, it answers this request and those behind it as if none had failed.
Each request that changes the file must be answered each fault in some run of one failure, 62 only from some call on, by which
it is settled. So it goes on until a run meets no failure. What a file holds is read by Python's SQLite, which must find it
sound.

The desk's own program closes the file behind the last answer, so that it stands alone. A call that fails then does no harm, or
`fault 61` stands behind the answers, with status 3: the log is left, the file holds all, and is opened again. So it is behind
62 too. Standard error has a line of a file that is not opened, of 62, and of one that is not closed, each once, before these
what the call met that failed, and nothing else. With a step only each so many-th call fails, and of all requests one must be answered each fault."""

import contextlib
import functools
import os
import sqlite3
import sys

from lib.files import copied, new_path
from lib.play import answers_in, playing, ran, read, requests_in
from lib.preload import failed
from lib.refusing import CLOSED, TELLS_BROKEN, TELLS_CLOSED, TELLS_FULL, TELLS_UNCLOSED, UNDONE, in_turn, new_library, unmet

# in which runs calls fail: how, as tests/lib/failing.c says, and the second one so many calls behind the first (0: no second)
RUNS = [("unmade", 0), ("half", 0), ("made", 0), ("unmade", 1), ("unmade", 2)]

NOT_OPENED = 3, b"fault 61\n"
# what stands behind the answers where the file is not closed
UNCLOSED = b"fault 61\n"

# what standard error tells too of a file by the desk's own program
# standard error tells why a file is not opened as far as the system does
TELLS_NOT_OPENED = "fault 61: "
# of the calls that fail those that may find no room, where they are told so
TAKES_ROOM = "pwrite", "write", "ftruncate", "fsync", "fdatasync"


def held_in(path):
    """What a file holds, as SQLite tells it: whether it is sound, and its tables with their rows, as statements."""
    if not os.path.exists(path):
        return ["ok"]
    try:
        with contextlib.closing(sqlite3.connect(path)) as connection:
            sound = [it for (it,) in connection.execute("PRAGMA integrity_check")]
            return sound + [it for it in connection.iterdump() if it not in ("BEGIN TRANSACTION;", "COMMIT;")]
    except sqlite3.Error as error:
        return [str(error)]


class Player:
    """Plays requests on new files, and remembers what is answered where no call fails."""

    def __init__(self, program, library):
        self.words, self.library, self.told_of = playing(program), library, {}
        # whether it closes the file, and tells of it on standard error
        self.closes = "--db" in self.words

    def play(self, path, script, way="unmade", number=0, behind=0):
        """Plays a script on a file while this call fails (0: none), and one so many calls behind it (0: none). Gives status
        and printed bytes, and what was told of the failures."""
        surroundings = failed(self.library, os.path.dirname(path), way, number, behind)
        status, printed, told = ran(*self.words, path, given=script, surroundings=surroundings)
        return (status, printed), told.decode()

    def told(self, requests):
        """The answers to requests when no call fails, and what the file holds then."""
        script = b"".join(requests)
        if script not in self.told_of:
            with new_path() as path:
                (status, printed), failure = self.play(path, script)
                held = held_in(path)
            answers = answers_in(printed)
            if status != 0 or failure or answers is None or len(answers) != len(requests):
                sys.exit(f"{len(requests)} requests are answered: status {status}, {printed!r} {failure}")
            self.told_of[script] = answers, held
        return self.told_of[script]


class FailedScript:
    """A script whose calls on a file fail."""

    def __init__(self, player, script, step):
        self.player, self.script, self.requests, self.step = player, script, requests_in(script), step
        fronts = [player.told(self.requests[:count])[1] for count in range(len(self.requests) + 1)]
        self.held_by_new = fronts[0]
        # the faults that some run must tell, each with the place of its request; -1 where the file is not opened
        changing = [place for place in range(len(self.requests)) if fronts[place] != fronts[place + 1]]
        needed = {(-1, NOT_OPENED[1])} | {(place, fault) for place in changing for fault in (UNDONE, CLOSED)}
        needed |= {(len(self.requests), UNCLOSED)} if player.closes else set()
        self.needed = {self.event(*it) for it in needed}

    def event(self, place, fault):
        """What is told where a request is answered a fault: where calls are passed over, that of any other one is the same."""
        return (0 if self.step != 1 and 0 <= place < len(self.requests) else place), fault

    def faults(self, ended, path, failures, told, met):
        """The places of the requests that met a failure, each with its fault, and that behind the last one where the file was
        not closed; none where the run did not end as it must. `told` is what was told of the file, and `met` what is told of a
        call that failed."""
        status, printed = ended
        is_unclosed = self.player.closes and status == 3 and printed.endswith(b"\n.\n" + UNCLOSED)
        if is_unclosed:
            status, printed = 0, printed.removesuffix(UNCLOSED)
        is_closed = CLOSED in printed
        if ended == NOT_OPENED and self.player.closes:
            is_told = len(told) == 1 and told[0].startswith(f"desk: {path}: {TELLS_NOT_OPENED}")
        else:
            due = [TELLS_CLOSED] * is_closed + [TELLS_UNCLOSED] * is_unclosed
            rest = [it for it in told if it != f"desk: {path}: {met}"]
            is_met = UNDONE in printed or bool(due)
            is_told = rest == [f"desk: {path}: {it}" for it in due if self.player.closes]
            is_told = is_told and (len(rest) < len(told) <= len(rest) + failures) == (is_met and self.player.closes)
        if not is_told:
            return None
        if self.player.closes and ended != NOT_OPENED and os.path.exists(path + "-wal") != is_unclosed:
            return None
        if ended == NOT_OPENED and failures > 0:
            answers, held = self.player.told(self.requests)
            is_taken = self.player.play(path, self.script) == ((0, b"".join(answers)), "") and held_in(path) == held
            return [(-1, printed)] if is_taken or held_in(path) == self.held_by_new else None
        answers = answers_in(printed)
        if status != 0 or answers is None or len(answers) != len(self.requests):
            return None
        closed = answers.index(CLOSED) if CLOSED in answers else len(answers)
        undone = [place for place in range(closed) if answers[place] == UNDONE]
        done = [place for place in range(closed) if answers[place] != UNDONE]
        wanted, held = self.player.told([self.requests[place] for place in done])
        if [answers[place] for place in done] != wanted or any(answer != CLOSED for answer in answers[closed:]):
            return None
        may_hold, faults = [held], [(place, UNDONE) for place in undone]
        if closed < len(answers):
            may_hold.append(self.player.told([self.requests[place] for place in [*done, closed]])[1])
            faults.append((closed, CLOSED))
            if not self.goes_on(path, done, closed) or is_unclosed != self.player.closes:
                return None
        elif is_unclosed:
            faults.append((closed, UNCLOSED))
            if not self.goes_on(path, done, closed):
                return None
        # a failure of the closing may do no harm
        is_told = bool(faults) == bool(failures) or self.player.closes and failures > 0
        is_as_told = len(faults) <= failures and is_told and held_in(path) in may_hold
        return faults if is_as_told else None

    def goes_on(self, path, done, closed):
        """Whether a copy of a file that was left closed, opened again, answers the requests from one on as a new desk does that
        answered these before."""
        wanted, _ = self.player.told([*(self.requests[place] for place in done), *self.requests[closed:]])
        with new_path() as copy:
            copied(path, copy)
            return self.player.play(copy, b"".join(self.requests[closed:])) == ((0, b"".join(wanted[len(done) :])), "")

    def fail_once(self, way, behind, number):
        """Plays the script while these calls fail. Gives the faults, as above, with how it ended, and what was told of the
        failures."""
        with new_path() as path:
            ended, told = self.player.play(path, self.script, way, number, behind)
            lines = [line for line in told.splitlines() if not line.startswith("failed ")]
            failed_calls = [line.removeprefix("failed ") for line in told.splitlines() if line not in lines]
            failures = len(failed_calls)
            is_full = way == "half" and failed_calls[:1] != [] and failed_calls[0] in TAKES_ROOM
            met = TELLS_FULL if is_full else TELLS_BROKEN
            faults = self.faults(ended, path, failures, lines, met) if failures <= 1 + bool(behind) else None
            return (faults, ended), told

    def fail_in_turn(self, name):
        """Has calls fail in turn, in each way."""
        met = set()
        for way, behind in RUNS:
            latest = -1, b""
            for number, (faults, ended), told in in_turn(functools.partial(self.fail_once, way, behind), self.step):
                first = faults[0] if faults else (len(self.requests), UNCLOSED)
                # what is asked for later is met later, and what may be settled stays so
                is_well = faults is not None and latest <= first
                if is_well:
                    latest = first
                    met |= set() if behind else {self.event(*it) for it in faults}
                why = "" if is_well else f"{told.strip()}, status {ended[0]}, {ended[1][:2000]!r}"
                yield f"{name}, call {number} {way} {behind}", why
        yield from unmet(name, sorted(self.needed), met)


def refuse_disk(program, *scripts):
    """Plays scripts on new files while calls on these fail; a number behind them is the step."""
    step = int(scripts[-1]) if scripts and scripts[-1].isdecimal() else 1
    with new_library("failing") as library:
        for script in scripts:
            if not script.isdecimal():
                yield from FailedScript(Player(program, library), read(script), step).fail_in_turn(script)
