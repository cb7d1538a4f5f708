"""Runs in which one thing after another fails, until a run meets no failure: what the words of tests/parts/refuse share, and how
failures are told."""

import contextlib
import functools
import subprocess
import sys
import tempfile

from .play import PATIENCE, without_found
from .preload import build, refused

# no run here takes memory so often, or makes so many calls; failures that never end are a failure
MOST = 100_000

# how requests are answered that met a failure of their file: as if not asked, and by a desk that is closed
UNDONE, CLOSED = b"500\nfault 61\n.\n", b"500\nfault 62\n.\n"

# what standard error tells of a file, behind its name: a call on it that failed, as one that found no room or as any other; that
# the desk is closed, and that it is not closed itself
TELLS_FULL = "a call on it failed: no room is left on its device"
TELLS_BROKEN = "a call on it failed: its device failed as it was read, or written"
TELLS_CLOSED = "fault 62: the file failed, and the desk is closed: it answers nothing more; run it anew over the file"
TELLS_UNCLOSED = "fault 61: it could not be closed: its log stays beside it, and belongs to it"

# how a request that met a refusal is answered, and how a program ends that had no room to begin: status, and what it printed
FAULT = b"503\nfault 60\n.\n"
NO_ROOM = 3, b"fault 60\n"


def in_turn(run, step=1):
    """Has one thing after another fail, or each step-th: `run(number)` gives how a run ended in which the thing of that number
    fails, and whether it met that. Gives each number with both, up to a run that meets no failure."""
    for number in range(1, MOST, step):
        ended, has_failed = run(number)
        yield number, ended, has_failed
        if not has_failed:
            return
    sys.exit("the failures do not end")


def unmet(name, wanted, met):
    """Each ending to which some failure must have led, and none did."""
    for it in wanted:
        if it not in met:
            yield name, f"no failure led to this: {it!r}"[:2000]


@contextlib.contextmanager
def new_library(name):
    """A library of tests/lib that is loaded before the C library, in a folder that goes with it."""
    with tempfile.TemporaryDirectory() as folder:
        yield build(folder, name)


def run_refused(words, library, number, text=b""):
    """Runs words on a text with this growth refused (0: none). Gives status and printed bytes, and whether it was refused."""
    ran = subprocess.run(words, input=text, capture_output=True, env=refused(library, number), timeout=PATIENCE)
    told = without_found(ran.stderr)
    if told not in (b"", b"refused\n"):
        return (ran.returncode, ran.stdout + told), True
    return (ran.returncode, ran.stdout), told != b""


def undisturbed(ask, requests):
    """The answers to requests where no growth is refused: one each, none of them the fault."""
    (status, answers), _ = ask(requests, 0)
    if status != 0 or len(answers) != len(requests) or FAULT in answers:
        sys.exit(f"with no growth refused {len(requests)} requests are answered: status {status}, {answers!r}")
    return answers


def ways_left_out(ask, requests):
    """How some runs must end in which a growth is refused: with no room to begin, and with each request answered the fault,
    the others as if that one had been left out."""
    yield NO_ROOM[0], [NO_ROOM[1]]
    for at in range(len(requests)):
        answers = undisturbed(ask, requests[:at] + requests[at + 1 :])
        yield 0, [*answers[:at], FAULT, *answers[at:]]


def ways_asked_again(ask, requests):
    """How some runs must end in which a growth is refused: with no room to begin, and with each request answered the fault,
    the others as if nothing had been."""
    answers = undisturbed(ask, requests)
    yield NO_ROOM[0], [NO_ROOM[1]]
    yield from ((0, [*answers[:at], FAULT, *answers[at + 1 :]]) for at in range(len(answers)))


def requests_refused(name, ask, requests, ways):
    """Refuses each growth to a program that is asked requests. Each of the ways must be met, those of later requests later."""
    calm, wanted, places = (0, undisturbed(ask, requests)), list(ways(ask, requests)), [-1]
    for number, ended, was_refused in in_turn(functools.partial(ask, requests)):
        # what is asked for later is met later
        place = wanted.index(ended) if was_refused and ended in wanted else -1
        is_well = ended == calm or 0 <= place and max(places) <= place
        places.append(place)
        yield f"{name}, growth {number} refused", "" if is_well else f"status {ended[0]}, {b''.join(ended[1])[:2000]!r}"
    yield from unmet(name, wanted, [wanted[place] for place in places if place >= 0])


def once_and_twice(name, ask, requests):
    """Refuses each growth in turn to a program that is asked these requests, once each, and twice each, one behind the
    other. `ask(requests, number)` gives how it ended, as status and answers, and whether it met the refusal of the growth of
    that number (0: none is refused)."""
    yield from requests_refused(f"{name}, asked once", ask, requests, ways_left_out)
    twice = [request for request in requests for _ in range(2)]
    yield from requests_refused(f"{name}, asked twice", ask, twice, ways_asked_again)
