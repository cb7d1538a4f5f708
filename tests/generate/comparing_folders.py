"""Compares a program's `drop` with the plain program, tests/plain, on random folders."""

import functools
import os

from lib.files import left_otherwise, new_path
from lib.folders import PlainDesk, made, others, taken, told_of

from .chance import Chance
from .comparing import shrunk, with_files
from .folders import random_folder

TIMES = ("out", "again")


def differences(program, files):
    """In what a program takes a folder another way than the plain program."""
    plain = PlainDesk()
    with new_path() as db:
        for when, (ended, answers) in zip(TIMES, taken(program, db, files, len(TIMES))):
            wanted = plain.take(files)
            if ended != (0, b"", told_of(db, wanted)):
                yield f"{when}: it ends with {ended!r} where {told_of(db, wanted)!r} is to be told"
            if answers != wanted:
                yield f"{when}: the answers are others: {others(answers, wanted)}"
        yield from left_otherwise(program, db, plain.sums())


def write_out(program, files, room, name):
    """Writes a difference as a case is written, shrunk, and beside it what came."""
    files = shrunk(files, lambda fewer: any(differences(program, fewer)))
    plain, folder = PlainDesk(), made(os.path.join(room, f"{name}.case"))
    made(os.path.join(folder, "in"), files)
    with new_path() as db:
        for when, (_, answers) in zip(TIMES, taken(program, db, files, len(TIMES))):
            made(os.path.join(folder, when), plain.take(files).items())
            made(os.path.join(folder, f"{when}.got"), answers.items())


def compared_folders(program, count, seed):
    """Compares so many folders of a seed."""

    def found():
        for number in range(count):
            files = random_folder(Chance(seed, number))
            difference = "; ".join(differences(program, files))[:1000]
            yield f"folder_{seed}_{number}", difference, functools.partial(write_out, program, files)

    return with_files(found())
