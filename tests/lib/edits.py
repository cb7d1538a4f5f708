"""The edits that make a program wrong: how their files are read, and what each changes.

A file of edits, tests/wrong_bodies/CRATE.edits or tests/plain/wrong.edits, has an empty line between two of them. The first
line of an edit names it. Each line `file: PATH` begins a place of it: whole lines of that file as in a difference, with '-'
before one that goes, '+' before one that comes, and a blank before one that stays. Those that go or stay must stand in the
file exactly once, one behind the other. The edits of crates/CRATE/must-fail are the toolchain's, a file each: `old:` is a part
of a line that goes, and `new:` is what comes in its place."""

from collections import namedtuple

# a name in words, and what is wrong with the text that it is written in (None: nothing)
Edit = namedtuple("Edit", "name places fault")

# lines of a file that go or stay, and those that stand in their place then
Lines = namedtuple("Lines", "path old new")

# a part of a line that goes, and what comes in its place
Part = namedtuple("Part", "path old new")

# the lines of a file, from one on (0: the first), that go, and those that come in their place
Change = namedtuple("Change", "path line old new")


class Unfit(Exception):
    """An edit that cannot be planted, and why."""


def read_edits(file):
    """The edits of a file of them."""
    text = file.read_text(encoding="utf-8").strip("\n")
    return [edit_in(block) for block in text.split("\n\n")] if text else []


def edit_in(block):
    """The edit that lines are."""
    name, *lines = block.split("\n")
    places = []
    for line in lines:
        if line.startswith("file: "):
            places.append(Lines(line.removeprefix("file: "), [], []))
        elif line[:1] in ("-", "+", " ") and line and places:
            if line[0] != "+":
                places[-1].old.append(line[1:])
            if line[0] != "-":
                places[-1].new.append(line[1:])
        else:
            return Edit(name, [], f"a line has no sign, or stands before any file: {line}")
    return Edit(name, places, None)


def read_edit_of_the_tool(file):
    """The edit of a file of crates/CRATE/must-fail. Its name is that of the file, in words."""
    name = file.stem.replace("_", " ")
    name = name[:1].upper() + name[1:]
    path, old, places = "", None, []
    for line in file.read_text(encoding="utf-8").splitlines():
        word, _, rest = line.partition(":")
        rest = rest.removeprefix(" ")
        if word == "file":
            path = rest.strip()
        elif word == "old" and path and rest:
            old = rest
        elif word == "new" and old:
            places.append(Part(path, old, rest))
            old = None
        elif line:
            return Edit(name, [], f"a line is none of 'file:', 'old:' and 'new:' in their order: {line.strip()}")
    return Edit(name, places, None) if old is None else Edit(name, [], "its last 'old:' has no 'new:'")


def edits_of(top, crate):
    """The edits of a crate of a repository: those of the toolchain, and the others."""
    aside = top / "tests/wrong_bodies" / f"{crate}.edits"
    edits = [read_edit_of_the_tool(it) for it in sorted((top / "crates" / crate / "must-fail").glob("*.edit"))]
    return edits + (read_edits(aside) if aside.is_file() else [])


def changes_of(edit, folder):
    """What an edit changes in the files of a folder, each change as small as its lines let it be."""
    if edit.fault:
        raise Unfit(edit.fault)
    if not edit.places:
        raise Unfit("it changes no place")
    found = [change_at(place, lines_of(folder, place.path)) for place in edit.places]
    for before, behind in zip(sorted(found), sorted(found)[1:]):
        if before.path == behind.path and behind.line < before.line + len(before.old):
            raise Unfit(f"two of its places share a line: {behind.old[0].strip()}")
    return found


def lines_of(folder, path):
    if not (folder / path).is_file():
        raise Unfit(f"there is no file {path}")
    return (folder / path).read_text(encoding="utf-8").split("\n")


def change_at(place, lines):
    """The change of one place in the lines of its file."""
    old, new = place.old, place.new
    if isinstance(place, Part):
        once(sum(line.count(old) for line in lines), old)
        at = next(at for at, line in enumerate(lines) if old in line)
        old, new = [lines[at]], [lines[at].replace(place.old, place.new)]
    else:
        places = [at for at in range(len(lines)) if lines[at : at + len(old)] == old] if old else []
        once(len(places), "\n".join(old))
        at = places[0]
    if old == new:
        raise Unfit(f"it changes nothing: {old[0].strip()}")
    # lines that stay are no part of the change, but for one where nothing else goes
    while len(old) > 1 and new and old[0] == new[0]:
        at, old, new = at + 1, old[1:], new[1:]
    while len(old) > 1 and new and old[-1] == new[-1]:
        old, new = old[:-1], new[:-1]
    return Change(place.path, at, old, new)


def once(count, text):
    if count != 1:
        raise Unfit(f"its old text stands {count} times: {text.strip()}")


def changed(text, changes):
    """The text of a file with changes of it."""
    lines = text.split("\n")
    for change in sorted(changes, reverse=True):
        lines[change.line : change.line + len(change.old)] = change.new
    return "\n".join(lines)
