"""What the trials share: a room is a folder in which scripts run beside made-up tools. A trial is its name, whether it
went well, and the status and the text that the script ended with and told."""

import os
import shutil
import subprocess

TESTS = os.path.dirname(os.path.dirname(os.path.abspath(__file__)))
TOP = os.path.dirname(TESTS)
BASH = shutil.which("bash")
# the most seconds that a script takes, also beside proofs that take every processor
PATIENCE = 900


def write(path, text=""):
    os.makedirs(os.path.dirname(path), exist_ok=True)
    with open(path, "w", encoding="utf-8") as file:
        file.write(text)


def write_script(path, *lines):
    write(path, "\n".join([f"#!{BASH}", *lines, ""]))
    os.chmod(path, 0o755)


def build(room, name, text, **defined):
    """Builds a program in C of a text in which this is defined. Gives its path."""
    program = f"{room}/{name}"
    write(f"{program}.c", text)
    words = [f"-D{it}={value}" for it, value in defined.items()]
    run(room, "gcc", "-O0", "-fno-builtin", *words, "-o", program, f"{program}.c")
    return program


def build_silent(room):
    """Builds a program that does nothing."""
    return build(room, "silent", "int main(void) { return 0; }\n")


def copy(name, room):
    """Copies a file of the repository to the same place in a room. Gives its path there."""
    path = os.path.join(room, name)
    os.makedirs(os.path.dirname(path), exist_ok=True)
    return shutil.copy(os.path.join(TOP, name), path)


def copy_gate(room):
    """Copies what looks at the tree, so that it looks at the room."""
    copy("tests/parts/gate", room)
    shutil.copytree(f"{TESTS}/lib", f"{room}/tests/lib")


def run(room, *words, path=None):
    """Runs words in a room, whose folder bin comes first in PATH. Gives the status and all that was told."""
    surroundings = {name: text for name, text in os.environ.items() if not name.startswith("GIT_")}
    surroundings.update(PATH=path or f"{room}/bin:{os.environ['PATH']}", TMPDIR=room)
    how = {"cwd": room, "env": surroundings, "stdin": subprocess.DEVNULL, "timeout": PATIENCE}
    ran = subprocess.run(words, stdout=subprocess.PIPE, stderr=subprocess.STDOUT, errors="replace", **how)
    return ran.returncode, ran.stdout


def part(room, words, *more):
    """Runs a word of a part of the gate in a room: part(room, "KIND WORD", WORDS..)."""
    kind, word = words.split()
    return run(room, f"{TESTS}/parts/{kind}", word, *more)


def passes(name, ran, told=""):
    return name, ran[0] == 0 and told in ran[1], ran


def fails(name, ran, why, counts=""):
    """A trial in which something fails and says why, and ends with these counts, where it comes to its end."""
    is_told = why in ran[1] and (not counts or ran[1].endswith(f"\n{counts}\n"))
    return name, ran[0] != 0 and is_told and not ran[1].endswith("passed, 0 failed\n"), ran
