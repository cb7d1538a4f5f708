"""Trials of `tests/parts/gate proofs`, with crates of no content and an rt that tells what the real one would."""

from .room import copy_gate, fails, passes, run, write, write_script

FILES = {
    "crates/low/src/lib.rt": "// no #[test] stands here\n",
    "crates/low/must-fail/one.edit": "",
    "crates/low/must-fail/two.edit": "",
    "crates/low_tests/src/lib.rt": "    #[test]\n",
    "crates/top/src/main.rt": "",
    # left from before a crate was renamed
    "crates/gone/out/gone": "",
}
WANTED = [
    "rt: low proved",
    "rt: low_tests proved",
    "rt: top proved",
    "rt: must-fail low/one.edit: refused, as it must be",
    "rt: must-fail low/two.edit: refused, as it must be",
    "rt: low_tests: its tests passed",
    "rt: top ran, and wrote what its file stdout has",
]
COUNTS = "5 passed, 0 failed"


def told_by_rt(room, *lines, status=0):
    """How that ends where rt ci tells these lines and ends with this status."""
    write_script(f"{room}/bin/rt", "[ $* = ci ] || exit 2", "cat <<'TOLD'", *lines, "TOLD", f"exit {status}")
    return run(room, "tests/parts/gate", "proofs")


def trials(room):
    copy_gate(room)
    for path, text in FILES.items():
        write(f"{room}/{path}", text)
    yield passes("a sound rt ci", told_by_rt(room, *WANTED, COUNTS), f"\n{len(WANTED)} passed, 0 failed\n")
    kept = "rt: top is kept: an earlier run on this machine proved the same files over the same libraries"
    ran = told_by_rt(room, *[kept if it == "rt: top proved" else it for it in WANTED], COUNTS)
    yield passes("a kept crate", ran, f"\n{len(WANTED)} passed, 0 failed\n")
    kept = kept.replace("top", "topmost")
    ran = told_by_rt(room, *[kept if it == "rt: top proved" else it for it in WANTED], COUNTS)
    yield fails("another crate is kept", ran, "gate proofs: rt: top proved: rt ci did not tell it\n", "6 passed, 1 failed")
    for line in WANTED:
        others = [it for it in WANTED if it != line]
        ran = told_by_rt(room, *others, f"note: {line}", COUNTS)
        yield fails(f"not told: {line}", ran, f"gate proofs: {line}: rt ci did not tell it\n", "6 passed, 1 failed")
    yield fails("rt ci proves nothing", told_by_rt(room, COUNTS), "\n0 passed, 7 failed\n")
    yield fails("rt ci ends with status 1", told_by_rt(room, *WANTED, COUNTS, status=1), "rt ci: it ended with status 1\n")
    ran = told_by_rt(room, *WANTED, "5 passed, 1 failed")
    yield fails("rt ci counts a failure", ran, "rt ci: its last line is '5 passed, 1 failed'\n")
    yield fails("rt ci does not count", told_by_rt(room, *WANTED), f"rt ci: its last line is '{WANTED[-1]}'\n")
    yield fails("rt ci cannot be run", told_by_rt(room, status=127), "rt ci: it ended with status 127\n")
