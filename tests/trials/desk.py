"""Trials of ./desk, in checkouts of their own with made-up programs and a made-up rt."""

import functools
import os
import re
import shutil
import signal
import subprocess
import time

from .room import copy, fails, run, write, write_script

CRATES = """\
desk_codes jobs=1:
desk_text: desk_codes smallvec
desk_tests: desk_text
# a note: desk_codes
desk: desk_text clap
desk_bench: desk_text
"""
# the lines of what the program is made of, the crates below those that it names among them
OWN_CRATES = "desk_codes jobs=1:\ndesk_text: desk_codes smallvec\ndesk: desk_text clap\n"
SOURCES = [
    "crates.txt",
    "crates/desk/src/main.rt",
    "crates/desk/specs/run.antt",
    "crates/desk/proofs/run.antt",
    "crates/desk_text/src/of_tests/lib.rt",
    "crates/desk_codes/src/lib.rt",
]
NO_SOURCES = ["crates/desk_tests/src/lib.rt", "crates/desk_bench/src/main.rt", "crates/desk/stdout", "HANDLES"]
NO_SOURCES += ["crates/desk_text/must-fail/one.edit", "crates/desk_text/out/rlib/stamp"]
# what rt ci is to find, and nothing else
COPIED = sorted(["HANDLES", "crates/desk/stdout", *SOURCES])
# a checkout may lie anywhere, also below folders that are named as those of a repository
PLACES = ["clone", "x_tests/clone", "desk_bench/clone"]
PROGRAM = 'echo "{}: $*"; exit 7'
MADE = ["mkdir -p crates/desk/out", "cat >crates/desk/out/desk <<'PROGRAM'", PROGRAM.format("new"), "PROGRAM"]
MADE += ["chmod +x crates/desk/out/desk"]
KEPT = "rt: {} is kept: an earlier run on this machine proved the same files over the same libraries"
# what is told of the crates below the program, which come first, and then of all
BELOW = [KEPT.format("desk_codes"), "== desk_text", "fn desk_text::a: proved", "rt: desk_text proved", "2 passed, 0 failed"]
TOLD = [KEPT.format("desk_codes"), KEPT.format("desk_text"), "== desk", "rt: desk proved", "rt: desk: its tests are proved"]
TOLD += ["rt: desk ran, and wrote what its file stdout has", "4 passed, 0 failed"]
NAMED = '[ "$*" = ci ] || exit 2'
RUNS = [NAMED, "if ! grep -q ^desk: crates.txt; then", "cat <<'TOLD'", *BELOW, "TOLD", "exit", "fi"]
RUNS += [*MADE, "cat <<'TOLD'", *TOLD, "TOLD"]
# what is told of a build that goes well
BEGUN = """\
desk: the program is proved and built first, 3 crates; .*
desk: to try it at once, unproved: cd .* && rt try -- WORDS
desk:   \\(it runs in another folder, .* whole path\\)
desk: \\d+ processors, \\d+ GB of memory, \\d+ GB free; checks side by side: .*
"""
STEPS = f"""{BEGUN}\
desk: desk_codes was proved before, 2 left
desk: proved desk_text in \\d+ seconds, 1 left
desk: proved desk in \\d+ seconds, 0 left
desk: built in \\d+ seconds
"""
# what rt ci tells of a failed proof, and how ./desk ends then
UNPROVED = """\
== desk_codes
fn desk_codes::c: proved
rt: desk_codes proved
== desk_text
so far: 1 of 2 functions checked
./proofs/b/Answers.antt:1:2: error: `returns-clause-said`: not so
  a note
fn desk_text::a: proved
fn desk_text::b: not proved
logic=not-proved
rt: desk_text NOT PROVED
rt: desk NOT PROVED: its library desk_text failed
rt: FAILED: desk_text desk
1 passed, 2 failed
"""
OPEN = """\
./proofs/b/Answers.antt:1:2: error: `returns-clause-said`: not so
fn desk_text::b: not proved
desk: the program could not be proved, so it is not built
"""
TOOLS = ["bash", "readlink", "sed", "find", "mktemp", "rm", "touch"]


def set_age(path, seconds):
    then = time.time() - seconds
    os.utime(path, (then, then))


def checkout(folder):
    """A checkout anew, with a program that is newer than each file and folder. Gives the path of its script."""
    shutil.rmtree(folder, ignore_errors=True)
    for path in [*SOURCES, *NO_SOURCES]:
        write(f"{folder}/{path}")
    write(f"{folder}/crates.txt", CRATES)
    copy("tests/lib/rt_ci", folder)
    script = copy("desk", folder)
    write_script(f"{folder}/crates/desk/out/desk", PROGRAM.format("old"))
    for at, folders, files in os.walk(folder):
        for name in [*folders, *files]:
            set_age(f"{at}/{name}", 3600)
    set_age(f"{folder}/crates/desk/out/desk", 1800)
    return script


def runs(name, ran, told):
    """A trial in which the program that is there is to run: what it tells is all that is told."""
    return name, ran == (7, told), ran


def builds(name, ran, told):
    """A trial in which the program is to be built first and then run."""
    return name, ran[0] == 7 and bool(re.fullmatch(f"{STEPS}{re.escape(told)}", ran[1])), ran


def trials_of_age(room, place):
    script = checkout(f"{room}/{place}")
    yield runs(f"{place}: nothing newer", run(room, script, "a", "b  c"), "old: a b  c\n")
    for path in NO_SOURCES:
        set_age(f"{room}/{place}/{path}", 60)
        yield runs(f"{place}: a newer {path}", run(room, script), "old: \n")
    for source in SOURCES:
        script = checkout(f"{room}/{place}")
        set_age(f"{room}/{place}/{source}", 60)
        yield builds(f"{place}: a newer {source}", run(room, script, "a"), "new: a\n")
        yield runs(f"{place}: built once", run(room, script, "a"), "new: a\n")


def trials_of_links(room):
    script = checkout(f"{room}/clone")
    os.remove(checkout(f"{room}/other"))
    write_script(f"{room}/other/crates/desk/out/desk", PROGRAM.format("other"))
    for link, target in ((f"{room}/other/desk", script), (f"{room}/link", "other/desk")):
        os.symlink(target, link)
        yield runs(f"by a link to {target}", run(room, link, "a"), "old: a\n")


def kept_in(room):
    """What a run left in the folder for files of a time."""
    return [name for name in os.listdir(room) if name.startswith("tmp.")]


def trials_of_builds(room):
    script, rt = checkout(f"{room}/clone"), f"{room}/bin/rt"
    source, program = f"{room}/clone/{SOURCES[1]}", f"{room}/clone/crates/desk/out/desk"
    set_age(source, 60)
    why = "desk: the program could not be proved, so it is not built\n"
    for name, lines in (("fails", [*RUNS, "exit 1"]), ("is not there", ["exit 127"]), ("builds nothing", [NAMED])):
        write_script(rt, *lines)
        yield fails(f"a build that {name}", run(room, script), why)
        yield f"a build that {name} leaves the program", run(room, program) == (7, "old: \n"), (0, "")
    write_script(rt, "echo it is not to be, >&2", "echo 0 passed, 1 failed", "exit 1")
    status, told = run(room, script)
    is_told = re.search(r"it is not to be,\n *\d+:\d\d 0 passed, 1 failed\n", told)
    yield "a build that fails and says why", status == 3 and bool(is_told) and told.endswith(why), (status, told)
    write_script(rt, f"find . -type f -printf '%P\\n' | LC_ALL=C sort >{room}/found; cp crates.txt {room}/listed", *RUNS)
    yield builds("a build in a copy", run(room, script), "new: \n")
    with open(f"{room}/found", encoding="utf-8") as file:
        found = file.read().split()
    yield "the copy has what the program is made of", found == COPIED, (0, str(found))
    with open(f"{room}/listed", encoding="utf-8") as file:
        listed = file.read()
    yield "and their lines of crates.txt", listed == OWN_CRATES, (0, listed)
    yield "no file is left", not kept_in(room), (0, str(kept_in(room)))
    yield runs("what is built is not built again", run(room, script), "new: \n")
    set_age(program, 1800)
    write_script(rt, *RUNS, f"sleep 0.05; touch {source}")
    yield builds("a source that changes while it is built", run(room, script), "new: \n")
    yield builds("and is built in then", run(room, script), "new: \n")
    os.remove(f"{room}/clone/{SOURCES[0]}")
    write_script(rt, *RUNS)
    yield fails("no crates.txt", run(room, script), why)


def trials_of_proofs(room):
    script, rt = checkout(f"{room}/clone"), f"{room}/bin/rt"
    set_age(f"{room}/clone/{SOURCES[1]}", 60)
    write_script(rt, "cat <<'TOLD'", f"{UNPROVED}TOLD", "exit 1")
    status, told = run(room, script)
    wanted = f"{BEGUN}desk: proved desk_codes in \\d+ seconds, 2 left\ndesk: desk_text NOT PROVED\n"
    wanted += "desk: desk NOT PROVED: its library desk_text failed\n"
    wanted += re.escape(f"""\
./proofs/b/Answers.antt:1:2: error: `returns-clause-said`: not so
  a note
fn desk_text::b: not proved
desk: what is not proved, the goals (the clauses are in their names) and then the functions:
{OPEN}""")
    yield "a failed proof", status == 3 and bool(re.fullmatch(wanted, told)), (status, told)
    yield "no file is left of it", not kept_in(room), (status, str(kept_in(room)))
    for tool in TOOLS:
        os.makedirs(f"{room}/tools", exist_ok=True)
        os.symlink(shutil.which(tool), f"{room}/tools/{tool}")
    told = "desk: there is no rt, the Rattle toolchain, in PATH: README.md names it under 'Two commands'\n"
    ran = run(room, script, path=f"{room}/tools")
    yield "no toolchain", ran == (3, told), ran


def trials_of_interrupts(room):
    script, rt = checkout(f"{room}/clone"), f"{room}/bin/rt"
    set_age(f"{room}/clone/{SOURCES[1]}", 60)
    surroundings = {**os.environ, "PATH": f"{room}/bin:{os.environ['PATH']}", "TMPDIR": room}
    for number in (signal.SIGINT, signal.SIGTERM, signal.SIGHUP):
        write_script(rt, f"mktemp >/dev/null; echo $$ >{room}/began.new; mv {room}/began.new {room}/began; sleep 60")
        how = {"env": surroundings, "stdin": subprocess.DEVNULL, "stderr": subprocess.PIPE, "start_new_session": True}
        # (what a gate in the background ignores would be ignored by what it starts)
        default = functools.partial(signal.signal, number, signal.SIG_DFL)
        desk = subprocess.Popen([script], preexec_fn=default, **how)
        while not os.path.exists(f"{room}/began"):
            time.sleep(0.01)
        with open(f"{room}/began", encoding="utf-8") as file:
            proof = int(file.read())
        os.remove(f"{room}/began")
        desk.send_signal(number)
        _, told = desk.communicate(timeout=60)
        ran = desk.returncode, told.decode()
        yield f"{number.name} ends it", ran[0] == 128 + number, ran
        yield f"{number.name} leaves no file", not kept_in(room), (desk.returncode, str(kept_in(room)))
        yield f"{number.name} ends what it started", not os.path.exists(f"/proc/{proof}"), ran


def trials(room):
    write_script(f"{room}/bin/rt", *RUNS)
    for place in PLACES:
        yield from trials_of_age(room, place)
    yield from trials_of_links(room)
    yield from trials_of_builds(room)
    yield from trials_of_proofs(room)
    yield from trials_of_interrupts(room)
