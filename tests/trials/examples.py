"""Trials of `tests/parts/cases examples`, with a made-up program."""

import os

from .room import fails, part, passes, write, write_script


def trials(room):
    def examples(*words, program="program"):
        return part(room, "cases examples", f"{room}/{program}", *words)

    write_script(f"{room}/program", '[ "$*" = play ] || exit 2', "read -r line", 'echo "played $line"', "[ $line != bad ]")
    for folder in ("sound", "other", "alone", "orphan", "below/deep"):
        write(f"{room}/{folder}/one.script", "given\n")
        write(f"{room}/{folder}/one.answers", "played given\n")
    yield passes("a sound example", examples("sound"), "1 passed, 0 failed\n")
    yield passes("a sound example in a folder", examples("below"), "1 passed, 0 failed\n")
    write(f"{room}/other/one.answers", "played given")
    yield fails("other answers", examples("other"), "other/one: it prints 2 lines, and 1 are wanted\n", "0 passed, 1 failed")
    write(f"{room}/other/one.script", "bad\n")
    write(f"{room}/other/one.answers", "played bad\n")
    yield fails("another status", examples("other"), "other/one: status 1 where 0 is wanted", "0 passed, 1 failed")
    write(f"{room}/alone/two.script", "given\n")
    yield fails("a script without answers", examples("alone"), "two.script: its case has no .answers\n", "1 passed, 1 failed")
    write(f"{room}/orphan/two.answers", "played given\n")
    yield fails("answers without a script", examples("orphan"), "two.answers: its case has no .script\n", "1 passed, 1 failed")
    os.makedirs(f"{room}/empty")
    yield fails("no script", examples("empty"), "nothing is tried\n", "0 passed, 1 failed")
    yield fails("no folder", examples("none"), "nothing is tried\n", "0 passed, 1 failed")
    yield fails("no program", examples("sound", program="none"), "No such file", "0 passed, 1 failed")
    yield fails("no word", part(room, "cases examples"), "the words are PROGRAM [FOLDER]\n")
