"""What `tests/parts/refuse reports` tries: reports on the desk of a file, and its journal, while memory is refused, or a write.

A script is played on a new file first. Over that file `report` and `journal` run, each as text and as JSON,

- while each growth of memory behind the opening of the file is refused in turn, from the last one back, and each 97th up to
  there. What is printed is whole, or a front with `fault 60` in a line of its own behind, or that alone, with status 3.
  Standard error has a line of a file that is not opened, and else none. Each of these must come in some run;
- while each write fails in turn, with nothing of it done, with half, and with all. Nothing is written behind it, the status is 3,
  and standard error tells why.

The file stays as it was, to the byte. Then they run after the script without a file, into one that has room for so many bytes
alone, from none to all of them. These are written, the status is 3, and standard error tells why, or it is 0 where there is room
for all. With a step it is each so many-th growth behind the opening, write and room."""

import bisect
import errno
import functools
import os
import resource
import signal
import subprocess
import sys
import tempfile

from lib.play import PATIENCE, SHARED_MEMORY, read, without_found
from lib.preload import build, failed, refused
from lib.refusing import MOST, in_turn, unmet

FAULT = b"fault 60\n"
TOLD = ["report"], ["report", "--json"], ["journal"], ["journal", "--json"]
# how a run may end in which a growth is refused
KINDS = {"whole", "unopened", "alone", "broken"}
# of the growths up to the opening each so many-th is refused; `tests/parts/refuse opening` has those of the opening
BEFORE = 97
# how writes fail, as tests/lib/failing.c says, and what the system tells then
WAYS = {"unmade": errno.EIO, "half": errno.ENOSPC, "made": errno.EIO}


def unwritten(error):
    """What standard error tells where a write to standard output has failed so."""
    return f"desk: standard output: {os.strerror(error)} (os error {error})\n".encode()


def limit(room):
    """Lets files take so many bytes, of a program that is told where they take no more."""
    signal.signal(signal.SIGXFSZ, signal.SIG_IGN)
    resource.setrlimit(resource.RLIMIT_FSIZE, (room, room))


class Desk:
    """A program, and the file of a desk on which it played a script."""

    def __init__(self, program, script, room):
        self.program, self.script = program, script
        self.path, self.output = os.path.join(room, "desk.db"), os.path.join(room, "printed")
        self.growths, self.failing = build(room, "growths"), build(room, "failing")
        if self.ran(["play", "--db", self.path])[0] != 0 or not os.path.exists(self.path):
            sys.exit("the program has made no file")
        self.held = read(self.path)

    def ran(self, words, **how):
        """How words end that are given the script: the status, and what is printed and told."""
        with open(self.script, "rb") as given, open(self.output, "wb") as printed:
            how = {"stdin": given, "stdout": printed, "stderr": subprocess.PIPE, "timeout": PATIENCE, **how}
            ended = subprocess.run([self.program, *words], **how)
        return ended.returncode, read(self.output), without_found(ended.stderr)

    def ran_over(self, words, **how):
        """How they end over the file, and whether it is as it was."""
        return *self.ran([*words, "--db", self.path], **how), read(self.path) == self.held

    def refused(self, words, number):
        """How they end so with this growth refused (0: none), and whether it was."""
        status, printed, told, is_kept = self.ran_over(words, env=refused(self.growths, number))
        return (status, printed, told.replace(b"refused\n", b""), is_kept), b"refused\n" in told

    def failed(self, words, way, number):
        """How they end so while this write fails, and whether it did."""
        status, printed, told, is_kept = self.ran_over(words, env=failed(self.failing, self.output, way, number))
        return (status, printed, told.replace(b"failed write\n", b""), is_kept), b"failed write\n" in told

    def limited(self, words, room):
        """How they end without a file where there is room for so many bytes."""
        return self.ran(words, preexec_fn=functools.partial(limit, room))

    def kind_of(self, ended, whole, is_json):
        """How a run has ended in which a growth was refused, None where it may not end so."""
        status, printed, told, _ = ended
        if ended == (0, whole, b"", True):
            return "whole"
        if ended == (3, FAULT, f"desk: {self.path}: fault 60: memory is wanting\n".encode(), True):
            return "unopened"
        if ended != (3, printed, b"", True) or not printed.endswith(FAULT):
            return None
        front = printed.removesuffix(FAULT)
        # the line of a JSON object is ended where it is broken off
        is_front = front.endswith(b"\n") and whole.startswith(front[:-1] if is_json else front)
        return "broken" if is_front else None if front else "alone"


def refuse_growths(desk, words, whole, step):
    """Refuses growths. Gives of each what was tried, and how it ended where it may not end so."""
    count = bisect.bisect(range(1, MOST), False, key=lambda it: not desk.refused(words, it)[1])
    kinds = {}

    def tried(number):
        ended, _ = desk.refused(words, number)
        kinds[number] = desk.kind_of(ended, whole, "--json" in words)
        return f"growth {number} of {count} refused", "" if kinds[number] else ended

    # the first of these is one more than there are
    for number in range(count + 1, 0, -step):
        yield tried(number)
        if kinds[number] == "unopened":
            break
    for number in range(1, min(kinds), BEFORE):
        yield tried(number)
    yield from unmet("growths refused", sorted(KINDS), kinds.values())


def fail_writes(desk, words, whole, step):
    """The same of writes."""
    for way, error in WAYS.items():
        for number, ended, has_failed in in_turn(functools.partial(desk.failed, words, way), step):
            status, printed, *kept = ended
            is_front = whole.startswith(printed) and (way == "made" or printed != whole)
            is_well = (status, kept) == (3, [unwritten(error), True]) and is_front if has_failed else ended == (0, whole, b"", True)
            yield f"write {number} {way}", "" if is_well else ended
        if number == 1:
            yield f"writes {way}", "none failed"


def leave_room(desk, words, whole, step):
    """The same of output that takes so many bytes alone."""
    for room in [*range(0, len(whole), step), len(whole)]:
        ended = desk.limited(words, room)
        status, told = (0, b"") if room == len(whole) else (3, unwritten(errno.EFBIG))
        yield f"room for {room} bytes", "" if ended == (status, whole[:room], told) else ended


def refuse_reports(program, script, step="1"):
    """Refuses memory, writes and room to reports and journals."""
    with tempfile.TemporaryDirectory(dir=SHARED_MEMORY) as room:
        # as the system names an open file
        desk = Desk(os.path.abspath(program), script, os.path.realpath(room))
        for words in TOLD:
            whole = desk.refused(words, 0)[0][1]
            for tries in refuse_growths, fail_writes, leave_room:
                for what, why in tries(desk, words, whole, int(step)):
                    yield f"{' '.join(words)}, {what}", str(why)[:2000]
