"""Trials of `tests/parts/gate edits`, in a repository of their own."""

import os

from .room import copy_gate, fails, passes, run, write

OF_THE_GATE = "crates/one/must-fail/of_the_gate.edit"
ASIDE = "tests/wrong_bodies/one.edits"
OF_NO_CRATE = "tests/wrong_bodies/two.edits"
OF_THE_PLAIN = "tests/plain/wrong.edits"
BODY = "fn one() {\n    let a = 1;\n    let b = 1;\n}\n\nfn two() {\n}\n"

# each way in which a wrong body of the gate cannot be planted, and what is said of it
SOUND = "file: src/lib.rt\nold: let a = 1;\nnew: let a = 2;\n"
FAULTS = {
    "no such file": (SOUND.replace("lib.rt", "main.rt"), "there is no file src/main.rt"),
    "its text is gone": (SOUND.replace("a = 1", "c = 1"), "its old text stands 0 times"),
    "its text stands twice": (SOUND.replace("let a = 1;", "= 1;"), "its old text stands 2 times"),
    "it changes nothing": (SOUND.replace("a = 2", "a = 1"), "it changes nothing"),
    "a text of two lines": (SOUND.replace("old: ", "old: fn one() {\n    "), "a line is none of 'file:', 'old:' and 'new:'"),
    "no new text": (SOUND.replace("new: let a = 2;\n", ""), "its last 'old:' has no 'new:'"),
    "nothing in it": ("", "it changes no place"),
}

# and each way in which one aside cannot
SOUND_ASIDE = "One is two\nfile: src/lib.rt\n fn one() {\n-    let a = 1;\n+    let a = 2;\n     let b = 1;\n"
OTHER_ASIDE = "\nAnd so it stays\nfile: src/lib.rt\n     let b = 1;\n+    let c = b;\nfile: src/lib.rt\n-    let a = 1;\n"
FAULTS_ASIDE = {
    "no such file": (SOUND_ASIDE.replace("lib.rt", "main.rt"), "there is no file src/main.rt"),
    "a line that goes is gone": (SOUND_ASIDE.replace("a = 1", "c = 1"), "its old text stands 0 times"),
    "a line that stays is gone": (SOUND_ASIDE.replace("b = 1", "c = 1"), "its old text stands 0 times"),
    "a part of a line": (SOUND_ASIDE.replace("let b = 1;", "let b"), "its old text stands 0 times"),
    "its lines stand twice": ("One\nfile: src/lib.rt\n-}\n+};\n", "its old text stands 2 times"),
    "no line goes or stays": ("One\nfile: src/lib.rt\n+    let a = 2;\n", "its old text stands 0 times"),
    "it changes nothing": (SOUND_ASIDE.replace("a = 2", "a = 1"), "it changes nothing"),
    "no sign before a line": (SOUND_ASIDE.replace(" fn one", "fn one"), "a line has no sign, or stands before any file: fn one"),
    "no file": (SOUND_ASIDE.replace("file: src/lib.rt\n", ""), "a line has no sign, or stands before any file:  fn one"),
    "no name": (SOUND_ASIDE.replace("One is two\n", ""), "a line has no sign, or stands before any file:  fn one"),
    "a name alone": ("One is two\n", "it changes no place"),
    "two places on one line": (SOUND_ASIDE + "file: src/lib.rt\n-    let a = 1;\n", "two of its places share a line"),
    "two of one name": (f"{SOUND_ASIDE}\n{SOUND_ASIDE}", "gate edits: one: One is two: 2 have this name"),
    "the name of one of the gate": (SOUND_ASIDE.replace("One is two", "Of the gate"), "one: Of the gate: 2 have this name"),
}


def trials(room):
    def tried(text, path):
        """How the script ends where a file of edits has this text, and the others are sound."""
        for other, sound in (OF_THE_GATE, SOUND), (ASIDE, SOUND_ASIDE + OTHER_ASIDE), (OF_THE_PLAIN, ""):
            write(f"{room}/{other}", text if other == path else sound)
        return run(room, "tests/parts/gate", "edits")

    copy_gate(room)
    write(f"{room}/crates/one/src/lib.rt", BODY)
    write(f"{room}/tests/plain/one.py", "one = 1\n")
    yield passes("those that can be planted", tried(SOUND, OF_THE_GATE), "3 passed, 0 failed\n")
    for name, (edit, why) in FAULTS.items():
        yield fails(f"of the gate: {name}", tried(edit, OF_THE_GATE), why)
    for name, (edit, why) in FAULTS_ASIDE.items():
        yield fails(f"aside: {name}", tried(edit, ASIDE), why)
    plain = "One is two\nfile: one.py\n-one = 1\n+one = 2\n"
    yield passes("one of the plain program", tried(plain, OF_THE_PLAIN), "4 passed, 0 failed\n")
    ran = tried(plain.replace("-one = 1", "-one = 3"), OF_THE_PLAIN)
    yield fails("one of the plain program that can not", ran, "plain: One is two: its old text stands 0 times: one = 3\n")
    write(f"{room}/{OF_NO_CRATE}", SOUND_ASIDE)
    ran = tried(SOUND, OF_THE_GATE)
    yield fails("one of no crate", ran, "two, of which there is no crate: One is two: there is no file src/lib.rt\n")
    os.remove(f"{room}/{OF_NO_CRATE}")
