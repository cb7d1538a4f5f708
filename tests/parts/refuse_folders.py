"""What `tests/parts/refuse folders` tries: a folder that is taken while calls on files fail, while memory is refused, and with the
program killed.

The case is one of cases/drop. `PROGRAM drop` takes its files on a new file, and something fails in a run:

- each call in turn that opens, reads, writes, settles, lists, looks at, names or removes what is below the two folders: with
  nothing done, told in three ways; with half of a write done; with all done and told as failed; and with the program killed
  there, behind half of a write;
- each such call on the desk's file;
- each growth of memory.

With numbers as words each so many-th growth, call on the file, and call below the folders, fails alone, and with 0 none. A run
must end in one of these ways. The file is not opened, or the folders cannot be read or written: `fault 61`, `fault io` or
`fault 60` alone, with status 3, nothing is asked, and no answer is written. Or an answer cannot be written: `fault io` or
`fault 60`, with status 3, and what was accepted stands. Or a file is answered by a fault, or all from one on by 62, and every
other answer is that of the plain program, tests/plain, with these left out. Or the desk's file is not closed: `fault 61` with
status 3, where all is answered. Or it was killed. Below the folders each failure of a call must be told. An answer stands under
its name whole, or an older one does, and standard error has the lines that are due. Taken again, with nothing that fails, the
folder gets the plain program's answers, to what was accepted the same ones; nothing is left of an unfinished one, the file stands
alone and is sound, and its sums are the plain program's. Where each read and each write is of a byte at most, all is as ever.

Where none is passed over, each way to end must be met, with each number of answers; of calls on the file each way is always to
be met."""

import os
import signal
import tempfile
from pathlib import Path

from lib.files import left_otherwise
from lib.folders import PlainDesk, held_in, new_room, others, told_of
from lib.preload import build, failed, refused
from lib.refusing import CLOSED, FAULT, TELLS_BROKEN, TELLS_CLOSED, TELLS_FULL, TELLS_UNCLOSED, UNDONE, in_turn, unmet
from plain.dropping import UNFINISHED, files_in

IO, MEMORY, STORAGE = b"fault io\n", b"fault 60\n", b"fault 61\n"

# how calls fail, as tests/lib/failing.c says
OF_FOLDERS = "unmade", "denied", "gone", "half", "made", "killed"
OF_THE_FILE = "unmade", "half", "made", "killed"


class Wrong(Exception):
    """In what a run has not ended as it must."""


def demand(condition, why):
    if not condition:
        raise Wrong(why)


class Folder:
    """The files of a case, and what the plain program answers to them."""

    def __init__(self, files):
        self.files = sorted(files)
        self.answers = PlainDesk().take(self.files)

    def after(self, left_out=()):
        """The desk behind these files, but for some answers."""
        desk = PlainDesk()
        return desk, desk.take([it for it in self.files if it[0] + b".out" not in left_out])

    def fronts(self, entries):
        """The desks behind the first files, by which there are so many entries."""
        desks = []
        for count in range(len(self.files) + 1):
            desk = PlainDesk()
            desk.take(self.files[:count])
            desks += [desk] if desk.entries() == entries else []
        return desks[:1]


class Ending:
    """How a run over a room has ended: `fault` is what may be printed where it failed."""

    def __init__(self, folder, room, ended, fault):
        self.folder, self.room, self.fault = folder, room, fault
        self.status, self.printed, told = ended
        lines = told.decode().splitlines()
        # what the library tells that fails, and what the program tells of its file
        self.met = [it for it in lines if it.startswith("failed ") or it == "refused"]
        told = [it.removeprefix(f"desk: {room.db}: ") for it in lines if it not in self.met]
        self.told = [it for it in told if it not in (TELLS_FULL, TELLS_BROKEN)]
        # whether what a call on the file met is told of
        self.is_met = self.told != told
        held = held_in(room.target)
        names = sorted(held.keys() - {UNFINISHED}, key=lambda name: name.removesuffix(b".out"))
        # what stands there and did not before
        self.answers = {name: held[name] for name in names if held[name] != room.before.get(name)}

    def tally(self):
        return told_of(self.room.db, self.answers).decode().strip().removeprefix(f"desk: {self.room.db}: ")

    def kind(self):
        """The kind of the ending, and the desks of which the run may have left one."""
        demand(held_in(self.room.source) == dict(self.folder.files), "what is taken is changed")
        if self.status == -signal.SIGKILL:
            return self.killed()
        if self.status == 3:
            demand(self.printed in self.fault, "the fault is another")
            is_unclosed = self.printed == STORAGE and self.told[-1:] == [TELLS_UNCLOSED]
            return self.answered("unclosed", [TELLS_UNCLOSED]) if is_unclosed else self.faulted()
        demand((self.status, self.printed) == (0, b""), "the ending is another")
        return self.answered("answered", [])

    def demand_first(self):
        """Demands that the answers are those to the first files, each of them whole."""
        first = dict(list(self.folder.answers.items())[: len(self.answers)])
        demand(self.answers == first, f"answers are others: {others(self.answers, first)}")

    def killed(self):
        """A run that was killed, with some of the files asked; with all of them where an answer is written."""
        self.demand_first()
        entries, (desk, _) = self.room.entries(), self.folder.after()
        fronts = self.folder.fronts(entries)
        demand(fronts and (entries == desk.entries() or not self.answers), f"there are {entries} entries")
        return f"killed behind {len(self.answers)} answers", fronts

    def faulted(self):
        """A run that told a fault, with no file asked, or with all of them."""
        self.demand_first()
        demand(not self.is_met, "other lines are told")
        fault = self.printed.decode().strip()
        is_unopened = self.told != [] and self.told[0].startswith(f"{fault}: ")
        told = self.told[is_unopened:]
        # of which folder or file something failed; where memory is wanting, it may be wanting for that too
        names_it = len(told) == 1 and told[0].startswith('"') and not is_unopened
        demand(names_it or (told == [] and self.printed != IO), "other lines are told")
        demand(is_unopened or self.printed != STORAGE, "other lines are told")
        entries, (desk, _) = self.room.entries(), self.folder.after()
        if entries == desk.entries() and not is_unopened:
            return f"{fault}, {len(self.answers)} answers", [desk]
        demand(not entries and not self.answers, f"there are {entries} entries, and {len(self.answers)} answers")
        return f"{fault}, {'not opened' if is_unopened else 'nothing asked'}", [PlainDesk()]

    def answered(self, kind, behind):
        """A run that has written each answer, some of which may tell faults."""
        demand(self.answers.keys() == self.folder.answers.keys(), f"there are {len(self.answers)} answers")
        undone = [it for it, answer in self.answers.items() if answer in (FAULT, UNDONE)]
        closed = [it for it, answer in self.answers.items() if answer == CLOSED]
        demand(len(undone) + bool(closed) <= len(self.met), "more faults are told than there were")
        demand(not closed or max(undone, default=b"") < closed[0], "a closed desk tells another fault")
        demand(self.told == [TELLS_CLOSED] * bool(closed) + [self.tally()] + behind, "other lines are told")
        is_failed = UNDONE in self.answers.values() or closed != [] or behind != []
        demand(self.is_met == is_failed, "what failed is not told, or nothing failed")
        desk, wanted = self.folder.after({*undone, *closed})
        got = {it: answer for it, answer in self.answers.items() if it not in undone + closed}
        demand(got == wanted, f"answers are others: {others(got, wanted)}")
        # the file at which the desk was closed stands, or not
        desks = [desk, self.folder.after({*undone, *closed[1:]})[0]] if closed else [desk]
        told = {", 503": FAULT, ", 61": UNDONE, ", 62": CLOSED}
        return kind + "".join(text for text, fault in told.items() if fault in self.answers.values()), desks


def taken_again(program, room, folder, desks):
    """In what a folder, taken again, gets other answers than each of these desks gives."""
    ended, got = room.drop(program), held_in(room.target)
    for desk in desks:
        answers = desk.take(folder.files)
        wanted = {**room.before, **answers}
        if got == wanted and ended == (0, b"", told_of(room.db, answers)):
            yield from left_otherwise(program, room.db, desk.sums())
            return
    yield f"taken again it ends with {ended!r}, and the answers are others: {others(got, wanted)}"


class Failing:
    """A program that takes a folder while something fails."""

    def __init__(self, program, folder, libraries):
        self.program, self.folder = os.path.abspath(program), folder
        self.failing, self.growths = build(libraries, "failing"), build(libraries, "growths")

    def once(self, surroundings, fault, is_told=False):
        """Takes the folder in the surroundings of a room, and again in none: `fault` is what may be printed where it fails, and
        `is_told` says whether a failure must be told. Gives the kind of the ending with in what it is wrong, and what failed."""
        with new_room(self.folder.files) as room:
            ended = room.drop(self.program, surroundings(room))
            ending = Ending(self.folder, room, ended, fault)
            try:
                kind, desks = ending.kind()
                # what cannot be looked at may not be there
                demand(not is_told or kind != "answered" or ending.met in ([], ["failed look"]), "the failure is not told")
                found = list(taken_again(self.program, room, self.folder, desks))
            except Wrong as why:
                kind, found = "wrong", [f"{why}: {ended!r}, {others(ending.answers, self.folder.answers)}"]
        return (kind, found), ending.met

    def each(self, name, surroundings, fault, step, is_told=False):
        """Has one thing after another fail, or each so many-th; what is met is kept."""
        self.kinds = set()
        run = lambda number: self.once(lambda room: surroundings(room, number), fault, is_told)  # noqa: E731
        for number, (kind, found), met in in_turn(run, step):
            if met:
                self.kinds.add(kind)
            yield f"{name} {number}, {', '.join(met)}", "; ".join(found)

    def calls(self, below, way, number):
        """The surroundings in which a call fails below a folder."""
        return {**failed(self.failing, below, way, number), "FAILED_NAMES": "yes"}

    def of_folders(self, step):
        """Calls below the folders fail."""
        for way in OF_FOLDERS:
            below = lambda room, number: self.calls(room.folders, way, number)  # noqa: E731
            yield from self.each(f"a folder, {way}", below, [IO], step, is_told=True)
            told = "killed behind" if way == "killed" else "fault io,"
            if step == 1:
                yield from unmet(f"a folder, {way}", [f"{told} {it} answers" for it in range(len(self.folder.files))], self.kinds)
        (_, found), _ = self.once(lambda room: self.calls(room.folders, "short", 1), [])
        yield "a folder, byte by byte", "; ".join(found)

    def of_the_file(self, step):
        """Calls on the desk's file fail."""
        for way in OF_THE_FILE:
            below = lambda room, number: self.calls(os.path.dirname(room.db), way, number)  # noqa: E731
            yield from self.each(f"the file, {way}", below, [STORAGE], step)
            if way == "unmade":
                # a desk that is closed does not close its file
                ends = ["fault 61, not opened", "answered, 61", "unclosed, 62", "unclosed"]
                yield from unmet(f"the file, {way}", ends, self.kinds)

    def of_memory(self, step):
        """Growths are refused."""
        yield from self.each("growth", lambda _, number: refused(self.growths, number), [MEMORY], step)
        if step == 1:
            ends = [f"fault 60, {it} answers" for it in range(len(self.folder.files))]
            yield from unmet("growth", [*ends, "fault 60, not opened", "fault 60, nothing asked", "answered, 503"], self.kinds)


def refuse_folders(program, case, growths="1", calls="1", calls_of_folders="1"):
    """Takes the folder of a case while calls below the folders fail, while calls on the file do, and while growths are refused."""
    folder = Folder(files_in(Path(case, "in")))
    with tempfile.TemporaryDirectory() as libraries:
        failing = Failing(program, folder, libraries)
        for part, step in (failing.of_folders, calls_of_folders), (failing.of_the_file, calls), (failing.of_memory, growths):
            if int(step) > 0:
                yield from part(int(step))
