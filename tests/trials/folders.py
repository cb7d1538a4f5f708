"""Trials of the parts that take folders, with made-up programs: sound ones, and ones with something broken."""

import os

from .room import TESTS, build, build_silent, fails, part, passes, write, write_script

# takes folders in which each name says nothing; what is broken is defined
TAKES = r"""#define _GNU_SOURCE
#include <dirent.h>
#include <errno.h>
#include <fcntl.h>
#include <stdio.h>
#include <stdlib.h>
#include <string.h>
#include <unistd.h>
static const char answer[] = "422\nrefused 40\n.\n";
static const char *db;
static int fault(const char *name)
{
    puts("fault io");
    if (TELLS)
        fprintf(stderr, "desk: %s: \"%s\": it failed\n", db, name);
    return 3;
}
static int by_bytes(const void *one, const void *other)
{
    return strcmp(*(char *const *)one, *(char *const *)other);
}
static int put(const char *path, size_t length)
{
    int file = open(path, O_WRONLY | O_CREAT | O_TRUNC, 0666);
    int is_well = file >= 0;
    while (is_well && length > 0) {
        ssize_t wrote = write(file, answer + sizeof answer - 1 - length, length);
        is_well = wrote > 0;
        length = IS_PATIENT ? length - (is_well ? wrote : 0) : 0;
    }
    is_well = is_well && (fsync(file) == 0 || !LOOKS);
    return file >= 0 && close(file) == 0 && is_well ? 0 : -1;
}
int main(int count, char **words)
{
    static char *names[20000], place[5000], other[5000];
    static char bytes[65537];
    size_t found = 0;
    db = words[3];
    if (close(open(db, O_RDWR | O_CREAT, 0600)) != 0)
        return puts("fault 61") < 0 ? 1 : 3;
    if (strcmp(words[1], "sums") == 0)
        return puts("{\"cash\":[],\"securities\":[]}") < 0;
    char *from = words[5], *to = words[7];
    snprintf(place, sizeof place, "%s/.desk-drop-unfinished", to);
    if (put(place, 0) != 0 || unlink(place) != 0)
        return fault(to);
    DIR *folder = opendir(from);
    if (folder == NULL)
        return fault(from);
    for (struct dirent *it = readdir(folder); it != NULL; it = readdir(folder)) {
        if (it->d_type == DT_DIR || strcmp(it->d_name, ".desk-drop-unfinished") == 0)
            continue;
        snprintf(other, sizeof other, "%s/%s", from, it->d_name);
        int file = open(other, O_RDONLY);
        ssize_t part = file < 0 ? -1 : 1;
        while (part > 0)
            part = read(file, bytes, sizeof bytes);
        if (part < 0)
            return fault(it->d_name);
        close(file);
        char *kept = KEEPS > 0 ? malloc(KEEPS) : NULL;
        if (kept != NULL)
            kept[0] = 'x';
        names[found++] = strdup(it->d_name);
    }
    closedir(folder);
    qsort(names, found, sizeof names[0], by_bytes);
    for (size_t at = 0; at < found; at += 1) {
        snprintf(other, sizeof other, "%s/%s%s", to, names[at], ENDS);
        if (put(IN_PLACE ? other : place, sizeof answer - 1) != 0 || (!IN_PLACE && rename(place, other) != 0)) {
            if (STOPS)
                return fault(names[at]);
        }
    }
    fprintf(stderr, "desk: %s: %zu files are taken: 0 accepted, %zu refused, 0 not answered for a fault\n", db, found, found);
    return PRINTS ? puts("done") < 0 : 0;
}
"""
SOUND = {"LOOKS": 1, "IS_PATIENT": 1, "IN_PLACE": 0, "STOPS": 1, "TELLS": 1, "KEEPS": 0, "ENDS": '".out"', "PRINTS": 0}

# takes any folder, and asks by the plain program; what is broken is defined before it
ASKS = """
import os, sys, stat
sys.dont_write_bytecode = True
sys.path.insert(0, TESTS)
from plain.dropping import UNFINISHED, keep, kept, print_sums, tally
from plain.folders import take
words = dict(zip(sys.argv[2::2], sys.argv[3::2]))
db = words["--db"]
if sys.argv[1] == "sums":
    sys.exit(print_sums(db))
source, target = os.fsencode(words["--in"]), os.fsencode(words["--out"])
unfinished = os.path.join(target, UNFINISHED)

def put(path, content):
    if REMOVES and os.path.lexists(path):
        os.remove(path)
    with open(path, "wb") as file:
        file.write(content)

def content(name):
    path = os.path.join(source, name)
    if LOOKS and not stat.S_ISREG(os.stat(path).st_mode):
        raise OSError
    with open(path, "rb") as file:
        return file.read(65537)

def asked(files):
    books, answers = take(kept(db), files)
    keep(db, books)
    return answers

kept(db)
try:
    if TRIES:
        put(unfinished, b"")
        os.remove(unfinished)
    names = [name for name in os.listdir(source) if name != UNFINISHED and not os.path.isdir(os.path.join(source, name))]
    if MEASURES and any(len(name) > 251 for name in names) or DECODES and [name for name in names if name.decode() is None]:
        raise OSError
    if AT_ONCE:
        answers = asked([(name, content(name)) for name in names])
    else:
        answers = [it for name in sorted(names) for it in asked([(name, content(name))])]
    for name, answer in answers:
        put(unfinished, answer)
        os.rename(unfinished, os.path.join(target, name))
except (OSError, UnicodeDecodeError) as error:
    print("fault io")
    print(f'desk: {db}: "{source}": {error!r}' if TELLS else "", end="\\n", file=sys.stderr)
    sys.exit(3)
try:
    print(f"desk: {db}: {tally(answers)}", file=sys.stderr)
except OSError:
    os._exit(0)
"""
RIGHT = dict.fromkeys(("REMOVES", "LOOKS", "TRIES", "MEASURES", "DECODES", "AT_ONCE", "TELLS"), True)


def built(room, name, **broken):
    """A program in C that takes folders, of which this is broken."""
    return build(room, name, TAKES, **{**SOUND, **broken})


def scripted(room, **broken):
    """A program in Python that takes folders, of which this is broken."""
    names = "\n".join(f"{name} = {value!r}" for name, value in {"TESTS": TESTS, **RIGHT, **broken}.items())
    write(f"{room}/asks.py", names + ASKS)
    write_script(f"{room}/asks", f'exec python3 {room}/asks.py "$@"')
    return f"{room}/asks"


def write_case(room, case, **folders):
    """A case, of which each folder has these files."""
    for folder, files in folders.items():
        for name, content in files.items():
            write(f"{room}/{case}/{folder}/{name}", content)


def trials_of_cases(room, takes):
    def cases(*words, program=takes):
        return part(room, "cases drop", program, *words)

    notes, refused = {"notes": "x", "Notes": ""}, "422\nrefused 40\n.\n"
    answers = {"notes.out": refused, "Notes.out": refused}
    write_case(room, "sound/one", **{"in": notes, "out": answers})
    write_case(room, "sound/two", **{"in": {"below/notes": "x"}})
    write_case(room, "other/one", **{"in": notes, "out": {**answers, "notes.out": "422\nrefused 41\n.\n"}})
    write_case(room, "fewer/one", **{"in": notes, "out": {"notes.out": refused}})
    write_case(room, "more/one", **{"in": notes, "out": {**answers, "other.out": refused}})
    write_case(room, "again/one", **{"in": notes, "out": answers, "again": {**answers, "Notes.out": ""}})
    write_case(room, "strange/one", **{"in": notes, "out": answers, "agian": answers})
    write_case(room, "nothing/one", out=answers)
    os.makedirs(f"{room}/empty")
    yield passes("sound cases", cases("sound"), "2 passed, 0 failed\n")
    for name, why in {"other": "notes.out", "fewer": "Notes.out", "more": "other.out"}.items():
        yield fails(f"a folder of answers, {name}", cases(name), f"the first time the answers are others: {why};")
    yield fails("another second time", cases("again"), "; the second time the answers are others: Notes.out\n", "0 passed, 1 failed")
    yield fails("a folder of no case", cases("strange"), "no case has this: agian\n", "0 passed, 1 failed")
    yield fails("a case without in", cases("nothing"), "it has no folder in\n", "0 passed, 1 failed")
    yield fails("no case", cases("sound", "empty"), "empty: it has no case\n", "2 passed, 1 failed")
    yield fails("no folder", cases("none"), "none: it has no case\n", "0 passed, 1 failed")
    yield fails("no folder is named", cases(), "nothing is tried\n", "0 passed, 1 failed")
    yield fails("a program that prints", cases("sound", program=built(room, "prints", PRINTS=1)), "it ends with (0, b'done")
    yield fails("other names of answers", cases("sound", program=built(room, "ends", ENDS='".OUT"')), "the answers are others")


def trials_of_failures(room, takes):
    """Calls fail, as a folder of one file or two is taken."""

    def refuse(case, program=takes):
        return part(room, "refuse folders", program, case, "0", "0")

    write_case(room, "one", **{"in": {"notes": "x"}})
    yield passes("calls fail", refuse("sound/one"), " passed, 0 failed\n")
    for name, (value, why) in {
        "IN_PLACE": (1, "failed write: answers are others: notes.out:"),
        "STOPS": (0, "failed write: there are 0 answers:"),
        "LOOKS": (0, "failed fsync: the failure is not told:"),
        "TELLS": (0, "failed open: other lines are told:"),
        "IS_PATIENT": (0, "byte by byte: answers are others: notes.out:"),
    }.items():
        yield fails(f"calls fail, and {name} is {value}", refuse("one", built(room, name, **{name: value})), why)


def trials_of_faults(room):
    def faults(*rooms, **broken):
        return part(room, "folders faults", scripted(room, **broken), *rooms)

    rooms = "--in", "--out", "pipe", "UTF-8", "too long", "unfinished", "nothing odd", "link to nothing", "whose name a folder has"
    yield passes("odd folders", faults(*rooms), " passed, 0 failed\n")
    for name, (rooms, why) in {
        "LOOKS": (["a link to a device without bytes"], "it ends with (0, b''"),
        "TRIES": (["an --out that is not there"], "there are 3 entries, where there were 1"),
        "MEASURES": (["a name that is too long"], "there are 4 entries, where there were 1"),
        "DECODES": (["a name that is not UTF-8"], "it ends with (0, b''"),
        "AT_ONCE": (["a link to nothing"], "entries, where there were 1"),
        "REMOVES": (["a link in place of an unfinished answer"], "something is another: out/aside.txt"),
        "TELLS": (["an --in that is a file"], "it ends with (3, b'fault io"),
    }.items():
        yield fails(f"odd folders, and not {name}", faults(*rooms, **{name: False}), why)
    yield fails("no such folder is odd", faults("a name of no folder"), "nothing is tried\n")


def trials(room):
    silent, takes = build_silent(room), built(room, "takes")
    yield from trials_of_cases(room, takes)
    yield from trials_of_failures(room, takes)
    yield from trials_of_faults(room)
    plain, sound = f"{TESTS}/plain/desk", f"{room}/sound/one"
    yield passes("random folders: the plain program", part(room, "random folders", plain, "2"), "\n2 passed, 0 failed\n")
    yield fails("random folders: one that does nothing", part(room, "random folders", silent, "1"), "\n0 passed, ")
    yield fails("random folders: no program", part(room, "random folders", f"{room}/none", "1"), "No such file")
    yield fails("random folders: a count of 0", part(room, "random folders", plain, "0"), "nothing is tried\n")
    yield fails("folders faults: one that does nothing", part(room, "folders faults", silent), "no entry is made: status 0")
    yield fails("refuse folders: one that does nothing", part(room, "refuse folders", silent, sound), "\n0 passed, ")
    yield fails("refuse folders: no case", part(room, "refuse folders", takes, f"{room}/none"), "No such file")
    yield passes("folders many: one that keeps little", part(room, "folders many", takes), "\n5 passed, 0 failed\n")
    keeps = built(room, "keeps", KEEPS=5000)
    yield fails("folders many: one that keeps much", part(room, "folders many", keeps), "\n4 passed, 1 failed\n")
    yield fails("folders many: one that does nothing", part(room, "folders many", silent), "\n0 passed, 5 failed\n")
