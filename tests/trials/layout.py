"""Trials of `tests/parts/gate layout`, with a made-up rt, a README and two crates."""

import os

from .room import copy_gate, fails, passes, run, write, write_script

# characters of two bytes each
LONGEST = "ä" * 100 + "\n"


def trials(room):
    def laid_out(readme):
        write(f"{room}/README.md", readme)
        return run(room, "tests/parts/gate", "layout")

    copy_gate(room)
    write(f"{room}/crates.txt")
    write(f"{room}/crates/one/src/lib.rt", "laid out\n")
    write(f"{room}/crates/two/src/deep/part.rt", "laid out\n")
    write_script(f"{room}/bin/rt", '[ "$*" = fmt ] || exit 1')
    yield passes("laid out", laid_out(LONGEST * 120), "3 passed, 0 failed\n")
    why = "README.md: it has 121 lines, and 120 are the most\n"
    yield fails("a line too many in the README", laid_out(LONGEST * 120 + "more"), why, "2 passed, 1 failed")
    why = "README.md: line 2 has 101 characters, and 100 are the most\n"
    yield fails("a line too long in the README", laid_out(LONGEST + "." + LONGEST), why, "2 passed, 1 failed")
    os.remove(f"{room}/README.md")
    why = "README.md: it cannot be read\n"
    yield fails("no README", run(room, "tests/parts/gate", "layout"), why, "2 passed, 1 failed")
    write(f"{room}/README.md")
    write_script(f"{room}/bin/rt", "for it in src/deep/*.rt; do [ -e $it ] && echo more >>$it; done; exit 0")
    yield fails("not laid out", run(room, "tests/parts/gate", "layout"), "crates/two/src/deep/part.rt: it has not the layout")
    yield passes("what is not laid out stays", run(room, "cat", "crates/two/src/deep/part.rt"), "laid out\n")
    write_script(f"{room}/bin/rt", "echo no such layout; exit 3")
    yield fails("no layout", run(room, "tests/parts/gate", "layout"), "crates/one: rt fmt fails there: no such layout")
