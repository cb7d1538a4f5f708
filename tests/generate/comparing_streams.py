"""Compares a program's `serve` with the plain program, tests/plain, on random streams."""

import functools

from lib.server import Server
from plain.books import EMPTY
from plain.connections import NotServed, Unfinished, asked_by, responses, served

from .chance import Chance
from .comparing import with_files, write_files
from .streams import random_streams, sent_by


def days_of(count, seed):
    """Days of connections, so many of these in all: for each day its number, and the streams that they send."""
    number = 0
    while count > 0:
        streams = random_streams(Chance(seed, number))[:count]
        yield number, streams
        count -= len(streams)
        number += 1


def is_heard_out(stream):
    """Whether what a stream sends decides, without its end, what it is answered."""
    return served(EMPTY, sent_by(stream), has_ended=False) is not None


def answers_of(program, streams):
    """What a program answers to connections that send these streams; None to those that could not be asked, and to the
    last one where the program does not end behind it."""
    got = []
    try:
        with Server(program, len(streams)) as server:
            for stream in streams:
                got.append(server.response(stream.pieces, stream.stays_open and is_heard_out(stream)))
            if not server.has_ended():
                got[-1] = None
    except (ConnectionError, TimeoutError):
        pass
    return got + [None] * (len(streams) - len(got))


def setup_of(streams):
    """A script that asks the desk for what these streams ask it to take in."""
    script = b""
    for stream in streams:
        try:
            asked = asked_by(sent_by(stream))
        except (NotServed, Unfinished):
            continue
        if asked.word in (b"in", b"op"):
            head = b"in %s %s" % (asked.bic, asked.part) if asked.word == b"in" else b"op"
            script += head + b"\n" + asked.body + b"\n.\n"
    return script


def write_out(streams, wanted, got, folder, name):
    """Writes a difference, at the last of these streams, as a case is written, and beside it what came."""
    ends = {"setup": setup_of(streams[:-1]), "stdin": sent_by(streams[-1]), "stdout": wanted, "got": got or b""}
    write_files(folder, name, ends)


def compared_streams(program, count, seed):
    """Compares so many streams of a seed, in days of connections to one desk."""

    def found():
        for number, streams in days_of(count, seed):
            wanted, got = responses(map(sent_by, streams)), answers_of(program, streams)
            for at, (some, one) in enumerate(zip(wanted, got)):
                difference = "" if one in some else "it answers otherwise"
                yield f"stream_{seed}_{number}_{at}", difference, functools.partial(write_out, streams[: at + 1], some[0], one)

    return with_files(found())
