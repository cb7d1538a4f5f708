"""What `tests/parts/refuse stops` tries: a machine that stops at any call on either of the two files of a desk.

`BENCH stopped LOG DB` plays a script on a desk that is adopted in two new files in memory, its log and its database, which take
so many calls each and fail every later one; it closes them. Then the machine comes back with what was synced alone, and the desk
is told of, plays the script once more, and is told of again. The script is played with a stop at each call of the log in turn,
until a run meets no stop, then at each of the database, and then at both in one commit.

The answers before the stop must be those of the plain program, tests/plain, to what was asked by then. A request that meets it is
answered 500 and `fault 61`, or `fault 62`, and so are all behind the latter; or the desk is not adopted, or the files are not
opened. The desk of the machine that comes back must hold what was answered, and of a request that was answered 62 all or nothing;
play the script as the plain program does behind that; and hold what that program holds at the end. Each request that changes the
file must meet a stop in some run, and so must the closing."""

import functools
import os
import re
import sys

from lib.files import books_after, told_of
from lib.play import answers_in, ran, read, requests_in
from lib.refusing import CLOSED, MOST, UNDONE, unmet
from plain.program import answer

# more calls than any run makes
NEVER = 4_000_000_000

# how a part of what is printed ends
END = re.compile(rb"^(closed|unclosed|unopened)\n", re.MULTILINE)

# in place of a request's, the places at which the files are opened, and closed
OPENING, CLOSING = -1, 1_000_000


@functools.cache
def after(script):
    """The answers of the plain program to a script, and what it tells of its books then."""
    return answer(["play"], script)[1], told_of(books_after(script))


class StoppedScript:
    """A script that is played until the machine stops."""

    def __init__(self, bench, script):
        self.bench, self.script, self.requests = os.path.abspath(bench), script, requests_in(script)
        self.changing = [at for at in range(len(self.requests)) if self.told(self.requests[:at]) != self.told(self.requests[: at + 1])]

    def told(self, requests):
        return after(b"".join(requests))[1]

    def parts(self, log, db):
        """What is printed of a run with such stops, in its parts, each with how it ends; None where it does not end so."""
        status, printed, told = ran(self.bench, "stopped", str(log), str(db), given=self.script)
        *parts, rest = END.split(printed)
        parts = list(zip(parts[::2], parts[1::2]))
        return None if status != 0 or told or rest or len(parts) != 4 else parts

    def asked(self, answers):
        """Which requests were answered so before the desk was closed, and the place of the one that closed it; None where answers
        are others than those of the plain program to these requests."""
        closed = answers.index(CLOSED) if CLOSED in answers else len(answers)
        done = [place for place in range(closed) if answers[place] != UNDONE]
        wanted = after(b"".join(self.requests[place] for place in done))[0]
        is_well = b"".join(answers[place] for place in done) == wanted and all(it == CLOSED for it in answers[closed:])
        return (done, closed) if is_well and len(answers) == len(self.requests) else None

    def stopped(self, log, db):
        """Where a run with such stops met one, None where it met none; and what is wrong in it."""
        parts = self.parts(log, db)
        if parts is None:
            return OPENING, "it does not come to its end"
        (printed, end), *behind = parts
        if end == b"unopened" or printed == b"fault 61\n":
            return OPENING, self.wrong(behind, [b""])
        answers = answers_in(printed)
        asked = None if answers is None else self.asked(answers)
        if asked is None:
            return OPENING, f"it answers {printed!r}"
        done, closed = asked
        front = b"".join(self.requests[place] for place in done)
        fronts = [front] if closed == len(answers) else [front, front + self.requests[closed]]
        faulted = [place for place, it in enumerate(answers) if it in (UNDONE, CLOSED)]
        place = faulted[0] if faulted else CLOSING if end == b"unclosed" else None
        return place, self.wrong(behind, fronts)

    def wrong(self, behind, fronts):
        """What is wrong in what the machine tells that comes back, where it may hold what one of these scripts leaves."""
        (held, _), (answers, _), (last, _) = behind
        if any(end != b"closed" for _, end in behind):
            return "what was left is not opened, or not closed"
        for front in fronts:
            before, _ = after(front)
            whole, wanted = after(front + self.script)
            if (held, answers, last) == (after(front)[1], whole[len(before) :], wanted):
                return ""
        return f"it holds {held!r}, answers {answers[-300:]!r}, and holds {last!r} then"

    def stop_at_each(self, name, stops):
        """Stops at each call of a file in turn. Gives what was tried, and keeps in `self.places` which stops each place met."""
        self.places = {}
        for number in range(MOST):
            place, why = self.stopped(*stops(number))
            yield f"{name} {number}", why
            if place is None:
                return
            self.places.setdefault(place, []).append(number)
        sys.exit("the stops do not end")

    def stop(self, name):
        """Has the machine stop everywhere, where it comes to its end undisturbed."""
        place, why = self.stopped(NEVER, NEVER)
        if place is not None or why:
            yield f"{name}, undisturbed", why or "it tells a stop"
            return
        yield from self.stop_at_each(f"{name}, call of the log", lambda it: (it, NEVER))
        logs, needed = self.places, [OPENING, *self.changing, CLOSING]
        yield from unmet(f"{name}, the log", needed, logs)
        yield from self.stop_at_each(f"{name}, call of the database", lambda it: (NEVER, it))
        yield from unmet(f"{name}, the database", [OPENING, CLOSING], self.places)
        for place in sorted(logs.keys() & self.places.keys()):
            for log, db in zip(logs[place], self.places[place]):
                yield f"{name}, calls {log} of the log and {db} of the database", self.stopped(log, db)[1]


def refuse_stops(bench, *scripts):
    """Plays scripts on files that stop."""
    for script in scripts:
        yield from StoppedScript(bench, read(script)).stop(script)
