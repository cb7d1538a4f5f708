"""Trials of `tests/parts/cases run`, `changes` and `reasons`, with made-up programs."""

import os

from .room import fails, part, passes, write, write_script

CASE = {"args": "one\ntwo", "stdin": "given\n", "stdout": "one two given\n", "status": "3\n"}


def write_case(folder, name, ends):
    for end, text in ends.items():
        write(f"{folder}/{name}.{end}", text)


# prints the second line of its input, or refuses it where that begins with `x`
READS = "read -r first", "read -r second", 'echo "${second/#x/refused }"', '[[ $second != x* ]]'


def trials_of_changes(room):
    def run_changes(*changes, program="reads"):
        return part(room, "cases changes", f"{room}/{program}", "texts", *changes)

    write_script(f"{room}/reads", *READS)
    write_case(f"{room}/texts", "case", {"args": "read\n", "stdin": "a\nb\nc\n", "stdout": "b\n"})
    write(f"{room}/few/case.changes", "c|d|read\nb|x1|refused 1\na~|a~x2~|refused 2\n")
    yield passes("sound changes", run_changes("few/case.changes"), "3 passed, 0 failed\n")
    wrong = {"read what is refused": "b|x1|read", "another number": "b|x1|refused 2", "refused what is read": "c|d|refused 1"}
    for name, row in {**wrong, "no such text": "e|f|read"}.items():
        write(f"{room}/wrong/case.changes", f"c|d|read\n{row}\n")
        yield fails(f"changes: {name}", run_changes("wrong/case.changes"), f"case.changes: {row}: ", "1 passed, 1 failed")
    write(f"{room}/other/other.changes", "c|d|read\n")
    yield fails("changes of no case", run_changes("other/other.changes"), "No such file")
    yield fails("no changes", run_changes(), "nothing is tried\n", "0 passed, 1 failed")
    yield fails("changes, no program", run_changes("few/case.changes", program="none"), "No such file")


READ = "refused 10: the sender of the message or the question is no participant (line 2)"
TOLD = "refused 2 2: it begins with x (line 3, reference A1)"


def write_check(path, told=TOLD, front="line 1: $asked: ", status=1):
    """A program that tells of each second line of a message that begins with `x` what is given here, and of any other that it is
    read."""
    reads = "read -r asked", "read -r first", "read -r second", f'told="{READ}"'
    write_script(path, *reads, f'[[ $second != x* ]] || told="{told}"', f'echo "{front}$told"', f"exit {status}")


# what a program tells otherwise that should tell TOLD
OTHERWISE = {
    "another line": "refused 2 2: it begins with x (line 4, reference A1)",
    "no line": "refused 2 2: it begins with x",
    "other words": "refused 2 2: it begins with y (line 3, reference A1)",
    "more words": "refused 2 2: it begins with x1 (line 3, reference A1)",
    "no words": "refused 2 2 (line 3, reference A1)",
    "another answer": "refused 2 3: it begins with x (line 3, reference A1)",
    "no answer": "it begins with x (line 3, reference A1)",
}


def trials_of_reasons(room):
    def run_reasons(*reasons, program="checks"):
        return part(room, "cases reasons", f"{room}/{program}", "messages", *reasons)

    is_refused = "b|x1|refused 2 2|2|it begins with x"
    write_check(f"{room}/checks")
    write_case(f"{room}/messages", "case", {"args": "read\n543\n", "stdin": "a\nb\nc\n"})
    write(f"{room}/told/case.reasons", f"c|d|read\n{is_refused}\na~|a~x~|refused 2 2|2|it begins with x\n")
    yield passes("sound reasons", run_reasons("told/case.reasons"), "3 passed, 0 failed\n")
    write(f"{room}/one/case.reasons", f"c|d|read\n{is_refused}\n")
    for name, told in OTHERWISE.items():
        write_check(f"{room}/otherwise", told)
        ran = run_reasons("one/case.reasons", program="otherwise")
        yield fails(f"reasons: a program tells {name}", ran, f"case.reasons: {is_refused}: ", "1 passed, 1 failed")
    for name, how in {"tells of another request": {"front": "line 4: $asked: "}, "ends well": {"status": 0}}.items():
        write_check(f"{room}/otherwise", **how)
        ran = run_reasons("one/case.reasons", program="otherwise")
        yield fails(f"reasons: a program {name}", ran, f"case.reasons: {is_refused}: ", "0 passed, 2 failed")
    wrong = {"another answer": is_refused.replace("2 2", "2 3"), "another line": is_refused.replace("|2|", "|3|")}
    wrong |= {"other words": f"{is_refused}1", "no words": "b|x1|refused 2 2|2|", "read what is refused": "b|x1|read"}
    wrong |= {"refused what is read": is_refused.replace("x1", "y1"), "no such text": is_refused.replace("b|", "e|")}
    for name, row in wrong.items():
        write(f"{room}/wrong/case.reasons", f"c|d|read\n{row}\n")
        yield fails(f"reasons: {name}", run_reasons("wrong/case.reasons"), f"case.reasons: {row}: ", "1 passed, 1 failed")
    write(f"{room}/other/other.reasons", f"{is_refused}\n")
    yield fails("reasons of no case", run_reasons("other/other.reasons"), "No such file")
    yield fails("no reasons", run_reasons(), "nothing is tried\n", "0 passed, 1 failed")
    yield fails("reasons, no program", run_reasons("told/case.reasons", program="none"), "No such file")


def trials(room):
    yield from trials_of_changes(room)
    yield from trials_of_reasons(room)

    def run_cases(*folders, program="program"):
        return part(room, "cases run", f"{room}/{program}", *folders)

    write_script(f"{room}/program", "read -r line", 'echo "$* $line"', "exit $(($# > 0 ? 3 : 0))")
    write_case(f"{room}/sound/below", "full", CASE)
    write_case(f"{room}/sound", "short", {"stdout": " \n"})
    yield passes("sound cases", run_cases("sound"), "2 passed, 0 failed\n")
    for end in CASE:
        write_case(f"{room}/other_{end}", "other", {**CASE, end: "4" if end == "status" else "other"})
        yield fails(f"another .{end}", run_cases(f"other_{end}"), f"case other_{end}/other: ", "0 passed, 1 failed")
    for end in ("args", "stdin", "status", "setup"):
        write_case(f"{room}/alone_{end}", "sound", CASE)
        write_case(f"{room}/alone_{end}", "alone", {end: "3\n"})
        why = "no case has such a file" if end == "setup" else "its case has no .stdout"
        yield fails(f"a .{end} without .stdout", run_cases(f"alone_{end}"), f"alone.{end}: {why}\n", "1 passed, 1 failed")
    write_case(f"{room}/unknown", "case", {**CASE, "sdtin": ""})
    yield fails("a file of no case", run_cases("unknown"), "case.sdtin: no case has such a file\n", "1 passed, 1 failed")
    write_case(f"{room}/setup", "case", {**CASE, "setup": ""})
    yield fails("a case with a .setup", run_cases("setup"), "case.setup: no case has such a file\n", "1 passed, 1 failed")
    os.makedirs(f"{room}/empty/below")
    yield fails("an empty folder", run_cases("sound", "empty"), "empty/below: it has no case\n", "2 passed, 1 failed")
    yield fails("no such folder", run_cases("sound", "none"), "folder none: it has no case\n", "2 passed, 1 failed")
    yield fails("no folder", run_cases(), "nothing is tried\n", "0 passed, 1 failed")
    yield fails("no program is named", part(room, "cases run"), "the words are PROGRAM FOLDERS..\n")
    yield fails("no word", part(room, "cases none"), "cases: the first word is one of: run, changes, ")
    yield fails("no program", run_cases("sound", program="none"), "No such file", "0 passed, 2 failed")
