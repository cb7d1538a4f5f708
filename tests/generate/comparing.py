"""Compares a program with the plain one, tests/plain, on random input."""

import functools
import os
import subprocess
import tempfile
import time

from lib.play import playing
from plain.program import answer

from .chance import Chance

DEFAULT_SEED = 20240229
MOST_SHOWN = 5
MOST_SECONDS = 60
MOST_SHRINKING = 30


def with_files(found):
    """What was compared, each its name, the difference ('' for none) and what writes that out in a folder, under a name: gives
    names and differences, the first of which are written out."""
    folder, shown = None, 0
    for name, difference, write_out in found:
        if difference and shown < MOST_SHOWN:
            shown += 1
            folder = folder or tempfile.mkdtemp(prefix="wattlepeg_differences_")
            write_out(folder, name)
            difference += f"; see {folder}/{name}.*"
        yield name, difference


def write_files(folder, name, ends):
    """Writes files of one name, each by its end."""
    for end, content in ends.items():
        with open(os.path.join(folder, f"{name}.{end}"), "wb") as file:
            file.write(content)


def shrunk(parts, differs):
    """Parts that still differ, and of which none can be left out, unless that takes too long."""
    parts, at, began = list(parts), 0, time.monotonic()
    while at < len(parts) and time.monotonic() - began < MOST_SHRINKING:
        fewer = parts[:at] + parts[at + 1 :]
        if differs(fewer):
            parts, at = fewer, 0
        else:
            at += 1
    return parts


def ended(program, words, given):
    """The exit status and what was printed; a program that does not end in time has no status. Of PROGRAM:WORDS it is these
    words that play a script."""
    path, *play = playing(program)
    own = [it for word in words for it in (play if word == "play" else [word])]
    try:
        ran = subprocess.run([path, *own], input=given, capture_output=True, timeout=MOST_SECONDS)
    except subprocess.TimeoutExpired:
        return None, b""
    return ran.returncode, ran.stdout


def differs(program, words, parts):
    given = b"".join(parts)
    return ended(program, words, given) != answer(words, given)


def write_out(program, words, parts, folder, name):
    """Writes a difference as a case is written, shrunk, and beside it what came."""
    given = b"".join(shrunk(parts, functools.partial(differs, program, words)))
    wanted, got = answer(words, given), ended(program, words, given)
    ends = {"args": "".join(word + "\n" for word in words).encode(), "stdin": given, "stdout": wanted[1]}
    ends |= {"status": b"%d\n" % wanted[0], "got": got[1], "got_status": f"{got[0]}\n".encode()}
    write_files(folder, name, ends)


def compared(program, what, make, count, seed):
    """Compares so many inputs of a seed, each made as words and parts of the standard input."""

    def found():
        for number in range(count):
            words, parts = make(Chance(seed, number))
            difference = "it answers otherwise" if differs(program, words, parts) else ""
            yield f"{what}_{seed}_{number}", difference, functools.partial(write_out, program, words, parts)

    return with_files(found())
