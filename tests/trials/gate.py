"""Trials of ./test, which is tests/gate, with made-up parts."""

import os
import re

from .room import BASH, TESTS, copy, fails, passes, run, write, write_script

TOOLS = ["rt", "python3", "gcc", "git"]
WELL = "echo '99999 passed, 0 failed'"
# what the gate runs on the program over tables in SQL too
SHARED = ["random scripts", "refuse disk", "refuse memory", "cases run"]
TABLES = "crates/desk_bench/out/desk_bench"

# each way in which a part goes wrong: how its script is changed, and what ./test says of it
FAULTS = {
    "runs nothing": (("99999", "0"), "test: {} passed 0, and its least count is "),
    "says nothing": (("echo", ": "), "test: {} did not come to its end: status 0\n"),
    "goes on behind its counts": (("failed'", "failed' 'and more'"), "test: {} did not come to its end: status 0\n"),
    "dies behind its counts": ((WELL, f"{WELL}; exit 7"), "test: {} tells no failure and ended with status 7\n"),
    "fails once": (("0 failed", "1 failed"), "9 passed, 1 failed\n"),
}


def parts(room):
    """The parts of which the gate is made, each with its word, as each tells its words."""
    for kind in sorted(it for it in os.listdir(f"{TESTS}/parts") if os.access(f"{TESTS}/parts/{it}", os.X_OK)):
        _, told = run(room, f"{TESTS}/parts/{kind}")
        yield from (f"{kind} {word}" for word in told.partition(": the first word is one of: ")[2].strip().split(", "))


def made(room, part):
    """The path of what a made-up part does for a word."""
    return f"{room}/made/{part.replace(' ', '_')}"


def proofs(programs):
    """The lines of a part that makes these programs; a file's time is kept to some milliseconds."""
    made = " ".join(programs)
    return "sleep 0.05", f"for it in {made}; do mkdir -p ${{it%/*}}; >$it; chmod +x $it; done", WELL


def change(room, names, old, new):
    """Changes what made-up parts do. Gives what they did."""
    were = {}
    for part in names:
        path = made(room, part)
        with open(path, encoding="utf-8") as file:
            were[path] = file.read()
        write(path, were[path].replace(old, new))
    return were


def trials_of_parts(room):
    """Each part fails once alone; in each other way one goes wrong alone, and then all at once, so that each is told."""
    names = list(parts(room))
    alone = [(fault, [part]) for fault in FAULTS for part in (names if fault == "fails once" else names[:1])]
    for fault, changed in alone + [(fault, names) for fault in FAULTS if fault != "fails once"]:
        change_of_text, why = FAULTS[fault]
        were = change(room, changed, *change_of_text)
        ran = run(room, "./test")
        for part in changed:
            yield fails(f"{part} {fault}", ran, why.format(part))
        for path, text in were.items():
            write(path, text)


def trials_of_tables(room):
    for part in SHARED:
        lines = f"[[ $1 != {TABLES}* ]] || echo '0 passed, 0 failed'", f"[[ $1 = {TABLES}* ]] || {WELL}"
        write_script(made(room, part), *lines)
        yield fails(f"{part} runs nothing over SQL", run(room, "./test"), f"test: {part} passed 0, and its least count is ")
        write_script(made(room, part), WELL)


def trials_of_groups(room):
    """Groups of parts that run beside others and are killed in the middle."""
    for part, group in (("gate edits", "beside_the_proofs"), ("files damaged", "beside_the_desk")):
        path = made(room, part)
        write_script(path, "kill -9 $PPID", WELL)
        yield fails(f"{group} is killed", run(room, "./test"), f"test: {group} did not come to its end\n")
        write_script(path, WELL)


def trials_of_times(room):
    """The gate tells how long it took, and whether that is too long; its clock begins where it is told to."""
    took = r"test: \d+ minutes by the clock, \d+ of the processors\n"
    long = f"{took}test: 150 minutes are the most that it is to take\n"
    for name, seconds, wanted in (("short", 0, took), ("of 150 minutes", 9000, took), ("of 151 minutes", 9060, long)):
        status, told = run(room, "env", f"SECONDS={seconds}", "./test")
        # (a busy machine takes a minute no sooner)
        yield f"a gate that is {name}", status == 0 and bool(re.search(f"\n{wanted}\\d+ passed, 0 failed\n$", told)), (status, told)
    write_script(made(room, "cases helps"), "sleep 1.1", WELL)
    status, told = run(room, "./test")
    took = r"test: cases helps took [12] seconds, and \d+ of the processors\n"
    yield "a part of a second", bool(re.search(took, told)), (status, told)
    write_script(made(room, "cases helps"), WELL)


def trials_of_programs(room, programs):
    for program in programs:
        write_script(made(room, "gate proofs"), *proofs(it for it in programs if it != program))
        yield fails("a program of an earlier run", run(room, "./test"), f"this run built no {program}")
        os.remove(f"{room}/{program}")
        yield fails("no program", run(room, "./test"), f"this run built no {program}")


def trials_of_tools(room):
    for missing in TOOLS:
        tools = f"{room}/without_{missing}"
        write_script(f"{tools}/dirname", "echo .")
        for tool in TOOLS:
            if tool != missing:
                write_script(f"{tools}/{tool}")
        told = re.escape(f"test: {missing} is missing; install ") + ".*\n0 passed, 1 failed\n"
        status, text = run(room, BASH, "tests/gate", path=tools)
        yield f"no {missing}", status != 0 and bool(re.fullmatch(told, text)), (status, text)


def trials(room):
    copy("test", room)
    with open(copy("tests/gate", room), encoding="utf-8") as file:
        programs = sorted(set(re.findall(r"crates/\w+/out/\w+", file.read())))
    for part in parts(room):
        write_script(f"{room}/tests/parts/{part.split()[0]}", "word=$1", "shift", f'exec {made(room, "${0##*/} $word")} "$@"')
        write_script(made(room, part), WELL)
    write_script(made(room, "gate proofs"), *proofs(programs))
    write_script(f"{room}/bin/rt")
    yield passes("a sound gate", run(room, "./test"), "9 passed, 0 failed\n")
    yield from trials_of_parts(room)
    yield from trials_of_tables(room)
    yield from trials_of_groups(room)
    yield from trials_of_times(room)
    yield from trials_of_programs(room, programs)
    yield from trials_of_tools(room)
