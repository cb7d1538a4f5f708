"""Trials of `tests/parts/refuse disk`, with a made-up program that plays requests on a file: as it must, and with one thing broken."""

import sys

from .room import TESTS, fails, part, passes, write, write_script

# keeps each request as a line, behind a call by which it is as if not asked and before one by which nobody can say
PLAYS = """
import errno, os, sys
sys.dont_write_bytecode = True
sys.path.insert(0, TESTS)
from lib.refusing import CLOSED, TELLS_BROKEN, TELLS_CLOSED, TELLS_FULL, TELLS_UNCLOSED, UNDONE
from lib.play import requests_in
db = sys.argv[3]
log, answers, is_closed = db + "-wal", [], False

def tell(text):
    print(f"desk: {db}: {text}", file=sys.stderr)

def tell_met(error):
    if TELLS:
        tell(TELLS_FULL if error.errno == errno.ENOSPC else TELLS_BROKEN)

try:
    file = os.open(db, os.O_RDWR | os.O_CREAT, 0o600)
    kept = os.pread(file, 1000000, 0).split(b"\\n")[:-1]
    os.close(os.open(log, os.O_RDWR | os.O_CREAT, 0o600))
except OSError:
    print("fault 61")
    tell("fault 61: another program has it open, or its log, or the device failed as it was opened")
    sys.exit(3)

def answer(line):
    global is_closed
    if is_closed:
        return CLOSED
    if line not in kept:
        at = sum(len(it) + 1 for it in kept)
        try:
            os.fsync(file)
        except OSError as error:
            tell_met(error)
            return UNDONE
        try:
            os.pwrite(file, line + b"\\n", at)
            os.fsync(file)
        except OSError as error:
            tell_met(error)
            if not CLOSES:
                os.ftruncate(file, at)
                return UNDONE
            is_closed = STAYS_CLOSED
            tell(TELLS_CLOSED)
            return CLOSED
        kept.append(line)
    return b"200\\naccepted %d\\n.\\n" % (kept.index(line) + 1)

answers = [answer(b" ".join(it.split())) for it in requests_in(sys.stdin.buffer.read())]
is_left = CLOSED in answers
try:
    os.fsync(file)
except OSError as error:
    is_left = is_left or LOOKS
    if is_left:
        tell_met(error)
if is_left:
    answers.append(b"fault 61\\n")
    tell(TELLS_UNCLOSED)
else:
    os.remove(log)
sys.stdout.buffer.write(b"".join(answers))
sys.exit(3 if is_left else 0)
"""
RIGHT = {"CLOSES": True, "STAYS_CLOSED": True, "LOOKS": True, "TELLS": True}

SCRIPT = "".join(f"op\n{number}\n.\n" for number in range(3))

# a step that meets each fault at some of the 13 calls, and one that meets none by which a request is as if not asked
FIT, UNFIT = "2", "4"


def refused(room, step, **broken):
    """How that ends, with this step, on a program of which this is broken."""
    names = "\n".join(f"{name} = {value!r}" for name, value in {"TESTS": TESTS, **RIGHT, **broken}.items())
    write(f"{room}/plays.py", names + PLAYS)
    # nothing but the library that fails calls is in its surroundings
    write_script(f"{room}/desk", f'exec {sys.executable} -S {room}/plays.py "$@"')
    return part(room, "refuse disk", f"{room}/desk:play --db", f"{room}/script", step)


def trials(room):
    write(f"{room}/script", SCRIPT)
    yield passes("calls fail", refused(room, FIT), "\n40 passed, 0 failed\n")
    why = "no failure led to this: ({}, {!r})\n"
    yield fails("a program that never tells 62", refused(room, FIT, CLOSES=False), why.format(0, b"500\nfault 62\n.\n"))
    yield fails("one that never tells of a close", refused(room, FIT, LOOKS=False), why.format(3, b"fault 61\n"))
    yield fails("one that goes on behind 62", refused(room, FIT, STAYS_CLOSED=False), "fault 62\\n.\\n200\\naccepted ")
    yield fails("one that does not tell what failed", refused(room, FIT, TELLS=False), "500\\nfault 61\\n.\\n")
    yield fails("a step that passes over a fault", refused(room, UNFIT), why.format(0, b"500\nfault 61\n.\n"))
