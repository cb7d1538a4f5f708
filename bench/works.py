"""The works of the workloads that bench/compare.py times: their inputs, and how a checkout's programs work through them. Of each
work `done` gives what was answered, and the processor seconds that the programs took.

works.py NAME FOLDER SEED writes the scripts of a workload into a folder, to be played by hand."""

import hashlib
import os
import sys

sys.dont_write_bytecode = True
sys.path.insert(0, os.path.join(os.path.dirname(os.path.abspath(__file__)), "..", "tests"))

from lib.server import Server  # noqa: E402
from running import ended, new_path, processor_seconds, ran  # noqa: E402
from workloads import commands, connections, days, messages, reports, runs  # noqa: E402
from workloads.draw import Draw  # noqa: E402

PROGRAMS = "desk", "desk_bench"


def new_name(folder, kind):
    """A path in a folder, of the next number there."""
    return os.path.join(folder, f"{len(os.listdir(folder)):03d}.{kind}")


def program(checkout, crate):
    return os.path.join(checkout, "crates", crate, "out", crate)


def played(checkout, path, *words, crate="desk"):
    """What a program answers to a script, and its seconds."""
    printed, used = ran([program(checkout, crate), *words], path)
    return printed, processor_seconds(used)


class Script:
    """A script that a new desk plays in memory."""

    def __init__(self, folder, text):
        self.path = new_name(folder, "script")
        with open(self.path, "w", encoding="ascii", newline="") as file:
            file.write(text)

    def done(self, checkout):
        return played(checkout, self.path, "play")


class ScriptOverFile(Script):
    """One that is played on a new file."""

    def done(self, checkout):
        with new_path() as path:
            return played(checkout, self.path, "play", "--db", path)


class ScriptOverTables(Script):
    """One that is played over the tables alone."""

    def done(self, checkout):
        return played(checkout, self.path, "tables", crate="desk_bench")


class Reopening:
    """A file in which the desk of each checkout keeps the same scripts. It is opened once more, for its sums."""

    def __init__(self, folder, texts):
        self.folder = folder
        self.scripts = [Script(folder, text) for text in texts]
        # the path of each checkout's file, and a digest of what was answered as it was made
        self.files = {}

    def done(self, checkout):
        if checkout not in self.files:
            self.files[checkout] = self.made(checkout)
        path, answers = self.files[checkout]
        printed, taken = played(checkout, os.devnull, "sums", "--db", path)
        return answers + printed, taken

    def made(self, checkout):
        path, answers = new_name(self.folder, "db"), hashlib.sha256()
        for script in self.scripts:
            printed, _ = played(checkout, script.path, "play", "--db", path)
            answers.update(printed)
        return path, answers.digest()


class Connections:
    """Connections that a new desk serves in memory, one after another."""

    def __init__(self, sent):
        self.sent = sent

    def done(self, checkout):
        with Server(program(checkout, "desk"), len(self.sent)) as server:
            answers = b"".join(server.response([it]) for it in self.sent)
            return answers, processor_seconds(ended(server.process))


def of_day(folder, seed, number):
    return [Script(folder, days.script_of(it, seed, number)) for it in (days.SMALL, days.LARGE)]


def of_tables(folder, seed, number):
    return [ScriptOverTables(folder, days.script_of(days.OF_TABLES, seed, number))]


def of_file(folder, seed, number):
    return [ScriptOverFile(folder, days.script_of(days.OF_FILE, seed, number))]


def of_runs(folder, seed, number):
    return [Script(folder, it) for it in runs.scripts_of(seed, number)]


def of_reports(folder, seed, number):
    return [Script(folder, reports.script_of(seed, number))]


def of_messages(folder, seed, number):
    draw = Draw(seed, number)
    script = Script(folder, messages.script_of(draw))
    return [script, Connections(connections.sent_of(draw))]


def of_replay(folder, seed, number):
    return [Reopening(folder, days.scripts_of(days.OF_REPLAY, seed, number))]


def of_commands(folder, seed, number):
    return [Script(folder, commands.script_of(seed, number))]


# of each workload how many rounds it has, and what gives the works of a round by its number
WORKLOADS = {
    "day": (4, of_day),
    "tables": (2, of_tables),
    "file": (3, of_file),
    "runs": (4, of_runs),
    "reports": (8, of_reports),
    "messages": (16, of_messages),
    "replay": (3, of_replay),
    "commands": (8, of_commands),
}


def works_of(name, folder, seed):
    """The works of a workload. Their scripts are written into a folder, in their order."""
    rounds, of_round = WORKLOADS[name]
    return [work for number in range(rounds) for work in of_round(folder, seed, number)]


if __name__ == "__main__":
    works_of(sys.argv[1], sys.argv[2], int(sys.argv[3]))
