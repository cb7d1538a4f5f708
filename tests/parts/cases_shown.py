"""What `tests/parts/cases examples`, `helps` and `documents` try: what is shown to people is run, and must come out so."""

import contextlib
import glob
import os
import re
import shutil
import subprocess
import tempfile
import textwrap

from lib.cases import cases_in, files_below
from lib.part import TOP
from lib.play import PATIENCE, difference, other_lines, ran, read

# the files of desks that commands make, and the folder of answers
DESKS = [os.path.join(TOP, it) for it in ("day.db", "new.db")]
ANSWERS = os.path.join(TOP, "answers")


def script_fault(program, script):
    """In what a script is answered otherwise than is wanted."""
    return difference(program, ["play"], read(f"{script}.script"), (0, read(f"{script}.answers")))


def examples(program, folder=os.path.join(TOP, "examples")):
    """Plays the scripts of a folder. Beside each NAME.script stand its answers, NAME.answers, which the program must print, to the
    byte, with status 0. A script without answers, and answers without a script, are failures."""
    paths = [it for it in files_below([folder]) if it.suffix in (".script", ".answers")]
    for script, stray in cases_in(paths, [".script", ".answers"]):
        yield script, stray or script_fault(program, script)


def command_ran(program, command, folder, *options):
    """How a command that is shown for ./desk ends in a folder, in a shell with options, and what it prints; the program stands in
    for ./desk, which would prove and build it. Where it does not end it has no status."""
    words = ["bash", *options, "-c", command.replace("./desk ", '"$program" ')]
    how = {"stdin": subprocess.DEVNULL, "stdout": subprocess.PIPE, "stderr": subprocess.DEVNULL, "timeout": PATIENCE}
    try:
        done = subprocess.run(words, cwd=folder, env={**os.environ, "program": program}, **how)
    except subprocess.TimeoutExpired:
        return None, b""
    return done.returncode, done.stdout


def help_fault(program, subcommand, room):
    """Why the example with which a help ends does not come out in a room."""
    _, told, _ = ran(program, "help", *subcommand)
    example = told.decode().rstrip("\n").split("\n")[-1]
    if not example.startswith("  ./desk "):
        return "it ends with no example"
    if example.startswith("  ./desk serve "):
        return ""
    answers = os.path.join(room, "answers")
    shutil.rmtree(answers, ignore_errors=True)
    os.mkdir(answers)
    status, printed = command_ran(program, example, room)
    is_well = status == 0 and (printed.rstrip(b"\n") or os.listdir(answers))
    return "" if is_well else f"its example ends with status {status} or prints nothing: {example}"


def helps(program):
    """Runs the example with which each help ends. The last line of `PROGRAM help SUBCOMMAND`, and of `PROGRAM help`, must be two
    spaces and words for ./desk, which must print something, or write a file into the folder answers, and end with status 0. They
    run one after another in a folder with the examples/ of the clone, so that the desk's file that one makes is there for those
    behind it, and goes with the folder. The example of `serve` is only looked at, since it waits for clients
    (`tests/parts/http serve` runs it)."""
    program = os.path.abspath(program)
    _, told, _ = ran(program, "help")
    commands = told.decode().partition("\nCommands:\n")[2].partition("\n\n")[0]
    subcommands = [it for it in re.findall(r"^  ([a-z]+) ", commands, re.M) if it != "help"]
    with tempfile.TemporaryDirectory() as room:
        os.symlink(os.path.join(TOP, "examples"), os.path.join(room, "examples"))
        for subcommand in [], *([it] for it in subcommands):
            yield " ".join(["help", *subcommand]), help_fault(program, subcommand, room)
    if not subcommands:
        yield "help", "it tells of no subcommand"


def without_end(lines):
    """Lines without the empty ones at their end."""
    while lines and not lines[-1].strip():
        lines = lines[:-1]
    return lines


def blocks(text):
    """The code blocks of a document, each with the paragraph before it and the number of its first line. A block begins
    behind an empty line, and empty lines within it belong to it."""
    before, block, start = [], [], 0
    is_paragraph = False
    # the line at the end ends the last block
    for number, line in enumerate([*text.split("\n"), "."], 1):
        if not line.strip():
            is_paragraph = False
            block += [""] if block else []
        elif line.startswith("    ") and not is_paragraph:
            start = start if block else number
            block.append(line[4:])
        else:
            if block:
                yield " ".join(before), start, without_end(block)
            before = [*before, line] if is_paragraph else [line]
            block = []
            is_paragraph = True


def commands(block):
    """The commands of a block, each with the lines that it is to print, and the number of its line in the block."""
    shown = []
    for number, line in enumerate(block):
        if line.startswith("$ "):
            shown.append((number, line[2:], []))
        else:
            shown[-1][2].append(line)
    return [(number, command, without_end(wanted)) for number, command, wanted in shown]


def lines_of(program, command):
    """The lines that a command prints in the clone, and why it ends otherwise than it may ('' where it does not)."""
    status, printed = command_ran(program, command, TOP, "-o", "pipefail")
    lines = printed.decode(errors="replace").replace("\r", "").split("\n")
    fault = "" if status in (0, 1) else f"status {status}" if status else f"it does not end in {PATIENCE} seconds"
    return lines[:-1] if lines[-1] == "" else lines, fault


def fault_of_command(program, command, wanted):
    """What is wrong with a command and what it is shown to print."""
    if not wanted:
        return "nothing is shown behind it"
    printed, fault = lines_of(program, command)
    return fault or other_lines(printed, wanted)


def fault_of_citation(path, block):
    """What is wrong with a block that is said to stand in a file."""
    try:
        lines = read(os.path.join(TOP, path)).decode().split("\n")
    except OSError:
        return f"there is no {path}"
    for start in range(len(lines) - len(block) + 1):
        if textwrap.dedent("\n".join(lines[start : start + len(block)])) == "\n".join(block):
            return ""
    return f"it does not stand in {path}"


def tables(text):
    """The tables of a document, each with the number of its first line, the names of its columns, and its rows."""
    table, start = [], 0
    # the line at the end ends the last table
    for number, line in enumerate([*text.split("\n"), "."], 1):
        if line.startswith("|"):
            start = start if table else number
            table.append([cell.strip() for cell in line.strip().strip("|").split("|")])
        elif table:
            yield start, table[0], table[2:]
            table = []


def numbers_in(cell):
    """The numbers of a cell, as of '1 to 4, 10'."""
    for part in cell.split(","):
        first, _, last = part.partition(" to ")
        if not first.strip().isdigit() or not (last.strip() or "0").isdigit():
            raise ValueError(f"{cell!r} has no numbers")
        yield from range(int(first), int(last or first) + 1)


def fault_of_numbers(program, at, rows, is_whole):
    """What is wrong with a column of numbers, of refusals and faults, each of which it is to have where it is whole."""
    printed, fault = lines_of(program, "./desk explain")
    if fault:
        return f"explain: {fault}"
    told = [int(line.split()[1].rstrip(":")) for line in printed if re.match(r"(refused|fault) \d+:", line)]
    try:
        shown = [number for row in rows for number in numbers_in(row[at])]
    except (IndexError, ValueError) as error:
        return str(error)
    if unknown := sorted(set(shown) - set(told)):
        return f"explain does not tell {unknown[0]}"
    if is_whole and sorted(shown) != sorted(told):
        wrong = min(number for number in told if shown.count(number) != 1)
        return f"{wrong} stands there {shown.count(wrong)} times"
    return ""


def anchors(text):
    """The names by which links lead to the headings of a document."""
    for heading in re.findall(r"^#+ (.*)$", text, re.M):
        yield re.sub(r"[^\w -]", "", heading.lower()).replace(" ", "-")


def dead_links(document, text):
    """The links of a document to files and to headings that are not there."""
    for target, name, anchor in re.findall(r"\]\((([^)#:]*)(?:#([^)]*))?)\)", text):
        path = os.path.join(os.path.dirname(document), name) if name else document
        if not os.path.exists(path) or anchor and anchor not in anchors(read(path).decode()):
            yield target


def faults(program, document, text):
    """What each command, citation and table of a document is found to be: where it stands, and its fault."""
    for before, number, block in blocks(text):
        if block[0].startswith("$ ") and "./desk " in block[0]:
            for offset, command, wanted in commands(block):
                yield f"{document}:{number + offset}: {command}", fault_of_command(program, command, wanted)
            continue
        cited = re.search(r"From `([^`]+)`.*:$", before)
        if cited:
            yield f"{document}:{number}", fault_of_citation(cited[1], block)
    for number, columns, rows in tables(text):
        for at, column in enumerate(columns):
            if column == "Number" or column.startswith("Refused with"):
                yield f"{document}:{number}", fault_of_numbers(program, at, rows, column == "Number")


def remove_desk():
    """Removes the files of desks that commands make, and their logs."""
    shutil.rmtree(ANSWERS, ignore_errors=True)
    for path in (desk + end for desk in DESKS for end in ("", "-wal")):
        with contextlib.suppress(FileNotFoundError):
            os.remove(path)


def documents(program, *paths):
    """Runs what documents show; none: README.md and docs/*.md.

    A code block is indented by four spaces. Of one whose first line begins with `$ ` and has `./desk` each line that begins with
    `$ ` is a command, which runs in the clone's folder with the program in place of ./desk, and must print just the lines behind
    it, with status 0 or 1. The files of desks that they make, day.db and new.db, and the folder of answers, answers, are not there
    before the first, and are removed behind the last. A block behind a paragraph that says "From `PATH`" and ends with a colon must stand in
    that file, line for line. A table with a column 'Number' must have the number of each refusal and each fault that
    `PROGRAM explain` tells, once, and no other; and one with a column that begins with 'Refused with' no other. Each command, each
    such block and each such table counts. A document with a link that leads to no file, or to no heading, fails."""
    program = os.path.abspath(program)
    remove_desk()
    for path in paths or [f"{TOP}/README.md", *sorted(glob.glob(f"{TOP}/docs/*.md"))]:
        text, name = read(path).decode(), os.path.relpath(path, TOP)
        yield from ((name, f"the link {target} leads nowhere") for target in dead_links(path, text))
        yield from faults(program, name, text)
    remove_desk()
