"""How a program is run, what it must print, and the scripts that it plays: their requests, the words that play them and the answers
that are printed to them."""

import functools
import os
import re
import subprocess
import tempfile

# the most seconds that a run may take
PATIENCE = 120

# the word that stands for a path at which there is no file
NEW = "NEW"

# the line by which standard error tells what the opening of a file found, and one that is cut off
FOUND = re.compile(rb"desk: [^\n]*: it (?:is new: a desk without entries is made in it|holds (?:no entries|(?:1 entry|\d+ entries)(?:, and no run|; the last run is of \d{8})))\n")
CUT_OFF = re.compile(rb"desk: [^\n]*\Z")

# where files lie in memory, and nothing waits for a device; None where there is no such folder
SHARED_MEMORY = "/dev/shm" if os.access("/dev/shm", os.W_OK) else None


def read(path):
    with open(path, "rb") as file:
        return file.read()


def ran_whole(program, *words, given=b"", surroundings=None):
    """How a program ended: its status, and what it printed and told."""
    ended = subprocess.run([program, *words], input=given, capture_output=True, env=surroundings, timeout=PATIENCE)
    return ended.returncode, ended.stdout, ended.stderr


def ran(program, *words, given=b"", surroundings=None):
    """The same without the line that tells what the opening of a file found."""
    status, printed, told = ran_whole(program, *words, given=given, surroundings=surroundings)
    return status, printed, without_found(told)


def without_found(told):
    """What is told on standard error but for what the opening of a file found."""
    return FOUND.sub(b"", told, count=1)


def found_in(path, entries, last_run=None, was_there=True):
    """What the opening of a file tells that has so many entries, and of which the last run is of that day."""
    behind = f"; the last run is of {last_run}" if last_run else ", and no run"
    words = {0: "it holds no entries", 1: "it holds 1 entry" + behind}.get(entries, f"it holds {entries} entries" + behind)
    return f"desk: {path}: {words if was_there else 'it is new: a desk without entries is made in it'}\n".encode()


def ran_with(streams, *words, given=b""):
    """How words ended whose standard streams are given as a shell is told."""
    return ran("sh", "-c", f'exec "$@" {streams}', "sh", *words, given=given)


def unlike(got, wanted):
    """How something is not what is wanted; '' where it is."""
    return "" if got == wanted else f"{got!r} where {wanted!r} is wanted"


def other_lines(printed, wanted):
    """In what printed lines are others than those that are wanted; '' where they are none."""
    for number, (line, other) in enumerate(zip(printed, wanted), 1):
        if line != other:
            return f"line {number} of what it prints is {line!r}"
    return "" if len(printed) == len(wanted) else f"it prints {len(printed)} lines, and {len(wanted)} are wanted"


def difference(program, words, given, wanted):
    """In what a run on this input ends otherwise than with this status and these printed bytes; '' where it does not."""
    try:
        status, printed, _ = ran(program, *words, given=given)
    except (OSError, subprocess.TimeoutExpired) as error:
        return str(error)
    due, text = wanted
    if status != due:
        return f"status {status} where {due} is wanted, printed {printed[-300:]!r}"
    return other_lines(printed.split(b"\n"), text.split(b"\n"))


@functools.cache
def folder_of_files():
    return tempfile.TemporaryDirectory(dir=SHARED_MEMORY)


def unused_path():
    """A path at which there is no file; what stood at the last one goes."""
    path = os.path.join(folder_of_files().name, "desk.db")
    for end in ("", "-wal"):
        if os.path.exists(path + end):
            os.remove(path + end)
    return path


def playing(program):
    """The words that play a script on a program: `PROGRAM play`, or `PROGRAM WORDS` where it is given as PROGRAM:WORDS, one of
    which may be NEW: the path of a file that is not there."""
    path, colon, words = program.rpartition(":")
    if not colon:
        return [os.path.abspath(program), "play"]
    return [os.path.abspath(path), *(unused_path() if it == NEW else it for it in words.split())]


def requests_in(script):
    """The requests of a script, each as its lines."""
    requests, has_body = [], False
    for line in script.splitlines(keepends=True):
        if has_body:
            requests[-1] += line
            has_body = line != b".\n"
        elif line.strip() and not line.startswith(b"#"):
            requests.append(line)
            has_body = line.split()[0] in (b"in", b"op")
    return requests


def answers_in(printed):
    """The answers that were printed, each to its last line; none where the last one is not whole."""
    *answers, behind = printed.split(b"\n.\n")
    return [answer + b"\n.\n" for answer in answers] if behind == b"" else None
