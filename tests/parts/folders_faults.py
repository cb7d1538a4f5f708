"""What `tests/parts/folders faults` tries: folders in which something is odd, taken by `PROGRAM drop` over a file that has an entry.

Where a folder is none, cannot be read or cannot be written, or where a name or a kind of file is not to be read, `fault io` alone
must be printed, with status 3, and one line tells what failed, and why. Nothing is asked then: the file has as many entries as
before, as Python's SQLite counts them, and the two folders are as they were. Where an answer cannot get its name, `fault io` is
told too, but what was accepted stands, and each answer that is there is whole; taken again, once that is put right, the folder gets
all. What is odd and does no harm, as folders among the files, links, an unfinished answer that was left, or one folder for both,
changes nothing: the answers are those of the plain program, tests/plain, one line tells how many they are, and nothing else is
changed. Behind each the file stands alone and is sound, and `PROGRAM sums --db FILE` prints the plain program's sums."""

import os
import shutil
import stat
import subprocess
import sys

from lib.files import left_otherwise
from lib.folders import PlainDesk, fails_in, held_in, made, new_room, others, told_of
from lib.play import ran, ran_with, unlike
from plain.dropping import UNFINISHED

ENTRY = b'{"op":"participant","ref":"P0","bic":"GAMMDEFF"}\n'
FILES = [
    (b"1.json", b'{"op":"participant","ref":"P1","bic":"ALPHDEFF"}\n'),
    (b"2.json", b'{"op":"account","ref":"C1","bic":"ALPHDEFF","account":"A-1"}\n'),
    (b"notes.txt", b"x\n"),
]
MORE = b'{"op":"participant","ref":"P2","bic":"BETADEFF"}\n'
# of a name of so many bytes the answer has one of 255
LONGEST_NAME = 251
NOT_DONE = 3, b"fault io\n"


def put(room, name, content=MORE):
    """A file more in the folder that is taken."""
    with open(room.path(b"in/" + name), "wb") as file:
        file.write(content)
    return [(name, content)]


def link(room, to, name):
    os.symlink(os.fsencode(to), room.path(name))


# what makes a room such that nothing is asked
NOTHING_ASKED = {
    "an --in that is not there": lambda room: room.take_from("none"),
    "an --in that is a file": lambda room: room.take_from("in/1.json"),
    "an --in below a file": lambda room: room.take_from("in/1.json/below"),
    "an --in that is a link to nothing": lambda room: (link(room, "none", "linked"), room.take_from("linked")),
    "an --out that is not there": lambda room: room.answer_to("none"),
    "an --out that is a file": lambda room: room.answer_to("out/aside.txt"),
    "an --out where nothing can be made": lambda room: room.answer_to("/proc"),
    "a folder in place of an unfinished answer": lambda room: made(room.path(b"out/" + UNFINISHED)),
    "a name that is not UTF-8": lambda room: put(room, b"\xff.json"),
    "a name that is cut off within a character": lambda room: put(room, b"3.json\xc3"),
    "a surrogate in a name": lambda room: put(room, b"\xed\xa0\x80.json"),
    "a name that is too long": lambda room: put(room, b"x" * (LONGEST_NAME - 4) + b".json"),
    "a name that has few letters and too many bytes": lambda room: put(room, "ä".encode() * 124 + b".json"),
    "a name as long as the system lets one be": lambda room: put(room, b"x" * 255),
    "a named pipe": lambda room: os.mkfifo(room.path("in/3.json")),
    "a named pipe whose name says nothing": lambda room: os.mkfifo(room.path("in/pipe")),
    "a socket": lambda room: os.mknod(room.path("in/3.json"), stat.S_IFSOCK | 0o600),
    "a link to a device without end": lambda room: link(room, "/dev/zero", "in/3.json"),
    "a link to a device without bytes": lambda room: link(room, os.devnull, "in/3.json"),
    "a link to a named pipe": lambda room: (os.mkfifo(room.path("pipe")), link(room, "../pipe", "in/3.json")),
    "a link to nothing": lambda room: link(room, "none", "in/3.json"),
    "a link to itself": lambda room: link(room, "3.json", "in/3.json"),
}

# what is closed then, where the test is not run by root, to whom all may be read and written
DENIED = {
    "a file that may not be read": "in/2.json",
    "an --in that may not be read": "in",
    "an --out that may not be written": "out",
}


def all_folders(room):
    """Folders among the files, under names of files, and one that is too long for a file; one may not be read."""
    for name in b"3.json", b"ALPHDEFF.540.a.fin", b"x" * 255, b"shut":
        made(room.path(b"in/" + name), [(b"3.json", MORE)])
    os.chmod(room.path("in/shut"), 0)


def odd_names(room):
    """Files under names with bytes of which others make something, each with a command of its own or none."""
    names = [b"-n.json", b"--.json", b"a\nb.json", b"'\".json", b"\\.json", b"*.json", b"%s.json", "ä.json".encode(), b"\x01.json"]
    names += [b"~", b" ", b"...", b"{}", b"$HOME"]
    return [it for number, name in enumerate(names, 2) for it in put(room, name, MORE.replace(b"P2", b"P%d" % number))]


def elsewhere(room):
    """A link to a file that stands elsewhere."""
    shutil.copy(room.path("in/1.json"), room.path("elsewhere"))
    link(room, "../elsewhere", "in/3.json")
    return [(b"3.json", FILES[0][1])]


def left(room):
    """Gives the path of an unfinished answer that a run has left, which was killed."""
    return shutil.copy(room.path("in/1.json"), room.path(b"out/" + UNFINISHED))


def unfinished_file(room):
    put(room, UNFINISHED)


def linked_folders(room):
    for name in "in", "out":
        link(room, name, f"linked_{name}")
    room.take_from("linked_in")
    room.answer_to("linked_out")


def slashed_folders(room):
    room.source, room.target = room.source + "//", room.target + "//"


def relative_folders(room):
    room.source, room.target = os.path.relpath(room.source), os.path.relpath(room.target)


def linked_answer(room):
    """A link under the name of an answer."""
    os.remove(room.path("out/1.json.out"))
    link(room, "aside.txt", "out/1.json.out")


# what does no harm; where it is a file more, that is given
NO_HARM = {
    "nothing odd": lambda room: None,
    "folders among the files": all_folders,
    "odd names": odd_names,
    "a name as long as one may be": lambda room: put(room, b"x" * (LONGEST_NAME - 5) + b".json"),
    "a name of two bytes a letter, as long as one may be": lambda room: put(room, "ä".encode() * 123 + b".json"),
    "a link to a file": elsewhere,
    "a link to a folder": lambda room: link(room, "..", "in/3.json"),
    "folders that are links": linked_folders,
    "folders with slashes behind them": slashed_folders,
    "folders that are told from the present one": relative_folders,
    "an unfinished answer among the files": unfinished_file,
    "a named pipe that is called as one": lambda room: os.mkfifo(room.path(b"in/" + UNFINISHED)),
    "a link to nothing that is called as one": lambda room: link(room, "none", b"in/" + UNFINISHED),
    "an unfinished answer that was left": lambda room: left(room) and None,
    "one that may not be written": lambda room: os.chmod(left(room), 0o400),
    "a link in place of an unfinished answer": lambda room: link(room, "aside.txt", b"out/" + UNFINISHED),
    "a named pipe in place of an unfinished answer": lambda room: os.mkfifo(room.path(b"out/" + UNFINISHED)),
    "an older answer that may not be written": lambda room: os.chmod(room.path("out/1.json.out"), 0o400),
    "a link in place of an older answer": linked_answer,
}


def is_failure(room, ended):
    """Whether a run tells that a folder or a file failed, and on standard error, in one line, which and why."""
    return ended[:2] == NOT_DONE and fails_in(room.db, ended[2])


def nothing_asked(program, room, plain):
    """In what a run goes another way than one that asks nothing."""
    entries, before = room.entries(), held_in(room.folders)
    ended = room.drop(program)
    if not is_failure(room, ended):
        yield f"it ends with {ended!r}"
    if room.entries() != entries:
        yield f"there are {room.entries()} entries, where there were {entries}"
    if held_in(room.folders) != before:
        yield f"something is changed: {others(held_in(room.folders), before)}"
    yield from left_otherwise(program, room.db, plain.sums())


def answers_in(room, answers):
    """Answers, each by its path in the folder of both."""
    place = os.path.relpath(os.path.realpath(room.target), room.folders)
    return {os.path.join(os.fsencode(place), name): answer for name, answer in answers.items()}


def taken(program, room, files, plain):
    """In what a run that takes these files goes another way than the plain program."""
    before, answers = held_in(room.folders), plain.take(files)
    before.pop(b"out/" + UNFINISHED, None)
    ended, due = room.drop(program), (0, b"", told_of(room.db, answers))
    if ended != due:
        yield f"it ends with {unlike(ended, due)}"
    got, wanted = held_in(room.folders), {**before, **answers_in(room, answers)}
    if got != wanted:
        yield f"something is another: {others(got, wanted)}"
    yield from left_otherwise(program, room.db, plain.sums())


def no_file(program, room, plain):
    for name, _ in FILES:
        os.remove(room.path(b"in/" + name))
    yield from taken(program, room, [], plain)


def one_folder_for_both(program, room, plain):
    """Of the files of the next time the answers are some."""
    room.target = room.source
    files = dict(FILES)
    for _ in range(3):
        yield from taken(program, room, files.items(), plain)
        files = held_in(room.source)


def unnamed_answer(program, room, plain):
    """An answer whose name a folder has, which is put aside then."""
    made(room.path("out/2.json.out"), [(b"within", b"x")])
    before, answers = held_in(room.target), plain.take(FILES)
    ended, got = room.drop(program), held_in(room.target)
    if not is_failure(room, ended):
        yield f"it ends with {ended!r}"
    if room.entries() != plain.entries():
        yield f"what was accepted does not stand: there are {room.entries()} entries"
    half = [name for name in {*got, *answers} - {UNFINISHED} if got.get(name) not in (answers.get(name), before.get(name))]
    if half or got.get(b"2.json.out/within") != b"x":
        yield f"answers are others: {half}"
    shutil.rmtree(room.path("out/2.json.out"))
    yield from taken(program, room, FILES, plain)


def file_among_the_files(program, room, plain):
    """The desk's file, and its log, where there is one, stand among the files."""
    room.db = shutil.move(room.db, os.path.join(room.source, "desk.db"))
    answers = plain.take([*FILES, (b"desk.db", b"")])
    ended, got = room.drop(program), held_in(room.target)
    of_log = {name: answer for name, answer in got.items() if name.startswith(b"desk.db-")}
    answers.update((name, answers[b"desk.db.out"]) for name in of_log)
    if ended != (0, b"", told_of(room.db, answers)):
        yield f"it ends with {ended!r}"
    if got != {**room.before, **answers}:
        yield f"answers are others: {others(got, {**room.before, **answers})}"
    if ran(program, "sums", "--db", room.db) != plain.sums():
        yield "the sums are others"


def streams(program, room, plain, given, is_told=True):
    """A run with streams that are given as a shell is told; whether it can tell people how many files it took."""
    answers = plain.take(FILES)
    ended = ran_with(given, program, "drop", "--db", room.db, "--in", room.source, "--out", room.target)
    if ended != (0, b"", told_of(room.db, answers) if is_told else b""):
        yield f"it ends with {ended!r}"
    if held_in(room.target) != {**room.before, **answers}:
        yield f"answers are others: {others(held_in(room.target), {**room.before, **answers})}"
    yield from left_otherwise(program, room.db, plain.sums())


# each a function of its own
OTHERS = {
    "no file": no_file,
    "one folder for both": one_folder_for_both,
    "an answer whose name a folder has": unnamed_answer,
    "the desk's file among the files": file_among_the_files,
    "standard input that does not end": lambda *it: streams(*it, "</dev/zero"),
    "standard output that is full": lambda *it: streams(*it, ">/dev/full"),
    "standard error that is full": lambda *it: streams(*it, "2>/dev/full", False),
    "standard streams that are closed": lambda *it: streams(*it, "<&- >&- 2>&-", False),
}


def denied(name):
    """A run where a file or a folder is closed to it."""

    def tried(program, room, plain):
        mode = os.stat(room.path(name)).st_mode
        os.chmod(room.path(name), 0)
        ended = room.drop(program)
        os.chmod(room.path(name), mode)
        if not is_failure(room, ended) or room.entries() != plain.entries():
            yield f"it ends with {ended!r}, and there are {room.entries()} entries"
        yield from taken(program, room, FILES, plain)

    return tried


def asks_nothing(make):
    def tried(program, room, plain):
        make(room)
        yield from nothing_asked(program, room, plain)

    return tried


def does_no_harm(make):
    def tried(program, room, plain):
        yield from taken(program, room, [*FILES, *(make(room) or [])], plain)

    return tried


def all_tried():
    """What is tried, by its name."""
    yield from ((name, asks_nothing(make)) for name, make in NOTHING_ASKED.items())
    yield from ((name, denied(place)) for name, place in DENIED.items() if os.geteuid() != 0)
    yield from ((name, does_no_harm(make)) for name, make in NO_HARM.items())
    yield from OTHERS.items()


def differences(program, day, tried):
    """In what a room goes another way than it must, over a copy of the file of a day."""
    plain = PlainDesk()
    plain.take([(b"0.json", ENTRY)])
    with new_room(FILES) as room:
        shutil.copy(day, room.db)
        try:
            yield from tried(program, room, plain)
        except subprocess.TimeoutExpired:
            yield "it does not end"


def try_faults(program, *names):
    """Takes folders in which something is odd; with names those alone in whose names one of these stands."""
    program = os.path.abspath(program)
    with new_room([(b"0.json", ENTRY)]) as first:
        status, _, told = first.drop(program)
        if status != 0 or first.entries() != 1:
            sys.exit(f"no entry is made: status {status}, {told!r}")
        for name, tried in all_tried():
            if not names or any(it in name for it in names):
                yield name, "; ".join(it[-1000:] for it in differences(program, first.db, tried))
