"""Trials of tests/lib/rt_ci: on made-up machines, with an rt that tells how many checks it is to run side by side."""

import os
import re
import shutil

from .room import copy, run, write, write_script

KILLED = "rt: the check was killed, most likely for memory: once more"
# what a machine has (processors, millions of KiB that are free, files of its control group), and how many checks it runs
MACHINES = [
    ((4, 23, {}), "3"),
    ((4, 64, {}), "4"),
    ((2, 64, {}), "2"),
    ((8, 10, {}), "2"),
    ((8, 9, {}), "as rt ci plans"),
    ((4, 2, {}), "as rt ci plans"),
    ((8, 64, {"cpu.max": "300000 100000"}), "3"),
    ((8, 64, {"cpu.max": "max 100000"}), "8"),
    ((4, 64, {"cpu/cpu.cfs_quota_us": "200000", "cpu/cpu.cfs_period_us": "100000"}), "2"),
    ((4, 64, {"cpu/cpu.cfs_quota_us": "-1", "cpu/cpu.cfs_period_us": "100000"}), "4"),
    ((4, 64, {"memory.max": "20000000000", "memory.stat": "file 5\nanon 1000000000"}), "3"),
    ((4, 64, {"memory.max": "20000000000", "memory.stat": "anon 19000000000"}), "as rt ci plans"),
    ((4, 64, {"memory.max": "max", "memory.stat": "anon 19000000000"}), "4"),
    ((4, 64, {"memory/memory.limit_in_bytes": "9223372036854771712", "memory/memory.stat": "total_rss 1"}), "4"),
    ((4, 64, {"memory/memory.limit_in_bytes": "13000000000", "memory/memory.stat": "total_rss 1"}), "2"),
]


def make_machine(room, processors, free, group):
    """Has the room's `nproc` and `cat` tell of such a machine."""
    shutil.rmtree(f"{room}/group", ignore_errors=True)
    write(f"{room}/meminfo", f"MemTotal:       70000000 kB\nMemFree: 5 kB\nMemAvailable:   {free}000000 kB\n")
    for path, text in group.items():
        write(f"{room}/group/{path}", f"{text}\n")
    write_script(f"{room}/bin/nproc", f"echo {processors}")
    lines = [f"/proc/meminfo) exec {shutil.which('cat')} {room}/meminfo;;"]
    lines += [f"/sys/fs/cgroup/*) exec {shutil.which('cat')} {room}/group/${{1#/sys/fs/cgroup/}};;"]
    write_script(f"{room}/bin/cat", "case $1 in", *lines, f"*) exec {shutil.which('cat')} \"$@\";;", "esac")


def ask(room, *lines, words=()):
    """What tests/lib/rt_ci tells where rt does these lines."""
    write_script(f"{room}/bin/rt", '[ "$*" = ci ] || exit 2', f"echo >>{room}/calls", *lines)
    write(f"{room}/calls")
    status, told = run(room, *words, "tests/lib/rt_ci")
    return status, told


def calls(room):
    return os.path.getsize(f"{room}/calls")


def trials_of_machines(room):
    for (processors, free, group), wanted in MACHINES:
        make_machine(room, processors, free, group)
        status, told = ask(room, "echo jobs: ${RT_JOBS-as rt ci plans}")
        first, second = re.sub(r"(?m)^ *\d+:\d\d ", "", told).split("\n")[:2]
        is_well = first.endswith(f"; checks side by side: {wanted}") and second == f"jobs: {wanted}"
        yield f"{processors} processors, {free} GB, {group}", status == 0 and is_well, (status, told)


def trials_of_runs(room):
    make_machine(room, 4, 64, {})
    ran = ask(room, "echo jobs: $RT_JOBS", words=("env", "RT_JOBS=1"))
    yield "a number that is set", ran[1].endswith(" jobs: 1\n"), ran
    ran = ask(room, "echo a; sleep 1.1; printf b; exit 3")
    times = re.search(r"\n   0:(\d\d) a\n   0:(\d\d) b\n$", ran[1])
    yield "each line has its time, and the status is that of rt", ran[0] == 3 and bool(times) and times[1] < times[2], ran
    again = f"[ -n \"$RT_JOBS\" ] || {{ echo well; exit 0; }}; echo {KILLED}; exit 1"
    ran = ask(room, again)
    yield "killed for memory, and then well", ran[0] == 0 and ran[1].endswith(" well\n") and calls(room) == 2, ran
    ran = ask(room, f"echo {KILLED}; exit 1")
    yield "killed each time", ran[0] == 1 and calls(room) == 2, ran
    ran = ask(room, f"echo {KILLED}")
    yield "killed, and well in the same run", ran[0] == 0 and calls(room) == 1, ran
    ran = ask(room, "exit 1")
    yield "failed and not killed", ran[0] == 1 and calls(room) == 1, ran
    make_machine(room, 4, 2, {})
    ran = ask(room, f"echo {KILLED}; exit 1")
    yield "killed where rt ci planned", ran[0] == 1 and calls(room) == 1, ran


def trials(room):
    copy("tests/lib/rt_ci", room)
    yield from trials_of_machines(room)
    yield from trials_of_runs(room)
