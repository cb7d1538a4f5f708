"""Runs the workloads by turns in two built checkouts: compare.py OLD NEW [SEED] [NAME..], those of these names (none: all), which
works.py has. Prints the median processor seconds of both and their ratio, and stops where what they answer differs. Of a checkout
it needs the proved programs crates/desk/out/desk and crates/desk_bench/out/desk_bench alone."""

import hashlib
import os
import statistics
import sys
import tempfile

sys.dont_write_bytecode = True

from running import folder_in_memory  # noqa: E402
from works import PROGRAMS, WORKLOADS, program, works_of  # noqa: E402

TURNS = 9
USUAL_SEED = 1


def turn(checkout, works):
    """A digest of what is answered in each work, and the seconds of all."""
    digests, taken = [], 0
    for work in works:
        answers, seconds = work.done(checkout)
        digests.append(hashlib.sha256(answers).hexdigest())
        taken += seconds
    return digests, taken


def medians(name, checkouts, works):
    """The median seconds of each checkout."""
    times, wanted = ([], []), None
    for number in range(TURNS):
        # which of the two begins changes from turn to turn
        for which in ((0, 1), (1, 0))[number % 2]:
            digests, taken = turn(checkouts[which], works)
            wanted = wanted or digests
            if digests != wanted:
                place = [one == other for one, other in zip(digests, wanted)].index(False)
                sys.exit(f"{name}: in its work {place + 1} {checkouts[which]} answers otherwise than what was run before it")
            times[which].append(taken)
    return [statistics.median(of) for of in times]


def compare(name, checkouts, seed):
    """A workload's row of the table."""
    with tempfile.TemporaryDirectory(dir=folder_in_memory()) as folder:
        old, new = medians(name, checkouts, works_of(name, folder, seed))
    return f"| {name} | {old:.3f} | {new:.3f} | {old / new:.2f} |"


def main():
    if len(sys.argv) < 3:
        sys.exit("usage: bench/run OLD NEW [SEED] [NAME..]")
    checkouts = [os.path.abspath(path) for path in sys.argv[1:3]]
    for path in (program(checkout, crate) for checkout in checkouts for crate in PROGRAMS):
        if not os.path.isfile(path):
            sys.exit(f"there is no program {path}: docs/PERF.md says how it is built")
    names = sys.argv[3:]
    seed = int(names.pop(0)) if names and names[0].isdigit() else USUAL_SEED
    if unknown := [name for name in names if name not in WORKLOADS]:
        sys.exit(f"there is no workload {unknown[0]}")
    print(f"seed {seed}, {TURNS} turns, processor seconds, medians", flush=True)
    print("| workload | old | new | old over new |")
    print("|---|--:|--:|--:|", flush=True)
    for name in names or WORKLOADS:
        print(compare(name, checkouts, seed), flush=True)


main()
