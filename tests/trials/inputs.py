"""Trials of the parts that make input for the program, or refuse it memory or a file, with programs that do nothing, or
little."""

import contextlib
import os
import shutil
import sqlite3

from plain.program import answer

from .room import TESTS, build, build_silent, copy, fails, part, passes, run, write, write_script

# writes so many rows, and keeps each of them or none
ROWS = """#include <stdlib.h>
#include <string.h>
#include <unistd.h>
int main(int count, char **words)
{
    const char *text = strcmp(words[1], "sums") == 0 ? "\\"isin\\":\\n" : ":35B:ISIN \\n";
    if (write(1, "begins\\n", 7) < 0)
        return 1;
    for (int left = atoi(words[2]); left > 0; left -= 1) {
        char *row = strdup(text);
        if (write(1, row, strlen(row)) < 0)
            return 1;
        KEEP(row);
    }
    return count != 3;
}
"""

# takes memory at its start and for each answer, or none; after an answer that it had no memory for it has lost what it kept,
# or not
ASKED = """#include <stdlib.h>
#include <string.h>
#include <unistd.h>
static int say(const char *text)
{
    return write(1, text, strlen(text)) < 0;
}
int main(void)
{
    char line[5];
    const char *kept = "200\\nkept\\n.\\n";
    if (GROWTH == NULL)
        return say("fault 60\\n") ? 1 : 3;
    while (read(0, line, sizeof line) == sizeof line)
        if (GROWTH != NULL)
            say(kept);
        else if (say("503\\nfault 60\\n.\\n") || LOSES)
            kept = "200\\nlost\\n.\\n";
    return 0;
}
"""

# opens a file, and answers a question; it does nothing more where it cannot open it, or goes on
OPENS = """#include <fcntl.h>
#include <stdio.h>
int main(int count, char **words)
{
    char line[8];
    if (open(words[count - 1], O_RDWR | O_CREAT, 0600) < 0 && STOPS) {
        puts("fault 61");
        return 3;
    }
    while (fgets(line, sizeof line, stdin) != NULL)
        puts("200\\n{}\\n.");
    return 0;
}
"""

# writes for a question in two calls, and takes back what the first or the second failed to write; the other failure closes it
SETTLES = """#include <fcntl.h>
#include <stdio.h>
#include <unistd.h>
int main(int count, char **words)
{
    char line[8];
    int closed = 0, file = open(words[count - 1], O_RDWR | O_CREAT, 0600);
    if (file < 0) {
        puts("fault 61");
        return 3;
    }
    while (fgets(line, sizeof line, stdin) != NULL) {
        int failed = 0;
        for (int at = 1; at <= 2 && !closed && !failed; at += 1)
            if (pwrite(file, line, 4, 4 * at) != 4)
                failed = at;
        closed = closed || (failed && (failed != UNDOES || ftruncate(file, 0) != 0));
        puts(closed ? "500\\nfault 62\\n." : failed ? "500\\nfault 61\\n." : "200\\n{}\\n.");
    }
    return 0;
}
"""

# takes memory for its words, to open a file and for each of three rows; what is broken is defined
TELLS = """#include <errno.h>
#include <fcntl.h>
#include <stdio.h>
#include <stdlib.h>
#include <string.h>
#include <unistd.h>
static int say(const char *text)
{
    size_t length = strlen(text);
    while (length > 0) {
        ssize_t wrote = write(1, text, length);
        if (wrote < 0 && RETRIES)
            wrote = write(1, text, length);
        if (wrote < 0) {
            if (SAYS_WHY)
                fprintf(stderr, "desk: standard output: %s (os error %d)\\n", strerror(errno), errno);
            return 1;
        }
        text += wrote;
        length -= wrote;
    }
    return 0;
}
static int fault(const char *front)
{
    return say(front) || say("fault 60\\n") ? UNWRITTEN : 3;
}
int main(int count, char **words)
{
    const char *db = NULL;
    int is_json = 0;
    for (int at = 2; at < count; at += 1) {
        is_json = is_json || strcmp(words[at], "--json") == 0;
        db = strcmp(words[at - 1], "--db") == 0 ? words[at] : db;
    }
    if (malloc(1) == NULL)
        return fault("");
    if (strcmp(words[1], "play") == 0)
        return close(open(db, O_RDWR | O_CREAT, 0600));
    if (db != NULL && malloc(1) == NULL) {
        fprintf(stderr, "desk: %s: fault 60: memory is wanting\\n", db);
        return fault("");
    }
    for (int row = 0; row < 3; row += 1) {
        if (malloc(1) != NULL) {
            if (say(is_json ? "[]" : "row\\n"))
                return UNWRITTEN;
        } else if (!LEAVES_OUT) {
            if (TELLS_MORE)
                fprintf(stderr, "desk: %s: fault 60: memory is wanting\\n", db);
            if (CHANGES)
                truncate(db, 1);
            return fault(is_json && ENDS ? "\\n" : "");
        }
    }
    return say("\\n") ? UNWRITTEN : 0;
}
"""
TOLD_WELL = {"RETRIES": 0, "SAYS_WHY": 1, "UNWRITTEN": 3, "LEAVES_OUT": 0, "TELLS_MORE": 0, "CHANGES": 0, "ENDS": 1}

# no odd file but those that `tests/parts/files odd` makes itself, and a day of nothing
NO_ODD_FILES = """from .all_odd import *
def script_of_day():
    return b""
def odd_files(room, day):
    return []
def damaged_files(room, day):
    return []
"""

# opens no file that another has open, and none with that table, and counts the entries of the one of many; what is broken is
# defined
LOOKS = """db=$3 word=$1
[ "$4" != --dry-run ] || word=trial
fault() {
  [ -z "$BESIDE" ] || touch "$db$BESIDE"
  echo "fault $1"
  echo "desk: $db: fault $1: $2" >&2
  exit 3
}
if [ "${db##*/}" = many ]; then
  [ "$1" = play ] && exec grep -c '^op$' >>"$db"
  count=$(($(paste -sd+ "$db")))
  if [ -t 2 ] || [ -n "$ALWAYS" ]; then
    seq "$UNTOLD" 5000 "$count" | sed "s|.*|desk: $db: & entries are read|" >&2
  fi
  echo "desk: $db: it holds $count entries, and no run" >&2
  exec printf '{"cash":[{"ccy":"EUR","held":%d,"net":%d}],"securities":[]}\\n' $((count - 1)) $((count - 1))
fi
if ! [ -e "$db" ]; then
  [ "$word" = play ] && exec cp "$TABLES" "$db"
  [ "$word" != "$MAKES" ] || touch "$db"
  fault 61 "there is no such file, and none is made"
fi
[ -r "$db" ] || fault 61 "it cannot be read and written: Permission denied (os error 13)"
if [ -e "$db-shm" ] || [ -e "$db.served" ]; then
  fault 61 "another program has it open, or its log"
fi
! grep -q "TABLE note" "$db"* || fault 50 "it has other tables than the desk's, or others beside"
case $1 in
sums)
  [ -n "$SILENT" ] || echo "desk: $db: it holds no entries" >&2
  echo '{"cash":[],"securities":[]}' ;;
serve)
  touch "$db.served"
  "$PLAIN" "$@"
  rm "$db.served" ;;
esac
"""

# goes on where the desk of this file ended, by the plain program
GOES_ON = """import os, sys
if sys.argv[1] != "play":
    os.execv(PLAIN, [PLAIN, *sys.argv[1:]])
sys.dont_write_bytecode = True
sys.path.insert(0, TESTS)
from plain.dropping import keep, kept
from plain.scripts import ask_item, items_of, shown
books = kept(FROM or sys.argv[3])
for line, body in items_of(sys.stdin.buffer.read()):
    books, reply = ask_item(books, line, body)
    sys.stdout.buffer.write(shown(reply))
keep(sys.argv[3], books)
"""
CUT = """op
{"op":"participant","ref":"P1","bic":"ALPHDEFF"}
.
op
{"op":"account","ref":"A1","account":"A-1","bic":"ALPHDEFF"}
.
holdings ALPHDEFF A-1
"""


def trials_of_cuts(room):
    """Two cases of three requests each are cut in two runs."""
    for name in "one", "two":
        write(f"{room}/cut/{name}.stdin", CUT)
        write(f"{room}/cut/{name}.stdout", answer(["play"], CUT.encode())[1].decode())

    def cut(*step, begins=""):
        names = {"PLAIN": f"{TESTS}/plain/desk", "TESTS": TESTS, "FROM": begins}
        write(f"{room}/goes_on.py", "".join(f"{name} = {value!r}\n" for name, value in names.items()) + GOES_ON)
        write_script(f"{room}/goes_on", f'exec python3 {room}/goes_on.py "$@"')
        return part(room, "files cut_cases", f"{room}/goes_on", "cut", *step)

    yield passes("files cut_cases: each cut", cut(), "6 passed, 0 failed\n")
    yield passes("files cut_cases: one cut of each case at least", cut("9"), "2 passed, 0 failed\n")
    why = "two.stdin, cut at byte 54: the answers are others; "
    yield fails("files cut_cases: a program that forgets what it was asked", cut("9", begins=":memory:"), why)
    yield fails("files cut_cases: no case", part(room, "files cut_cases", f"{room}/goes_on", "none"), "nothing is tried\n")


def trials_of_reports(room):
    """Memory and writes are refused to a program that tells three rows."""

    def refused(**broken):
        return part(room, "refuse reports", build(room, "tells", TELLS, **{**TOLD_WELL, **broken}), "/dev/null")

    yield passes("refuse reports: a program that tells rows", refused(), " passed, 0 failed\n")
    for name, (value, why) in {
        "LEAVES_OUT": (1, "report, growth 3 of 5 refused: (0,"),
        "TELLS_MORE": (1, "journal, growth 5 of 5 refused: (3,"),
        "CHANGES": (1, "report, growth 4 of 5 refused: (3,"),
        "ENDS": (0, "report --json, growth 4 of 5 refused: (3,"),
        "UNWRITTEN": (1, "journal, write 2 half: (1,"),
        "RETRIES": (1, "report --json, write 4 unmade: (0,"),
        "SAYS_WHY": (0, "report, write 1 unmade: (3,"),
    }.items():
        yield fails(f"refuse reports: {name} is {value}", refused(**{name: value}), why)


def trials_of_files(room):
    """A program is let at files, of which one is not there."""
    for name in "files", "files_days.py", "files_killed.py", "files_migrated.py", "files_odd.py":
        copy(f"tests/parts/{name}", room)
    for name in "generate", "plain":
        os.symlink(f"{TESTS}/{name}", f"{room}/tests/{name}")
    shutil.copytree(f"{TESTS}/lib", f"{room}/tests/lib")
    os.rename(f"{room}/tests/lib/odd.py", f"{room}/tests/lib/all_odd.py")
    write(f"{room}/tests/lib/odd.py", NO_ODD_FILES)
    with contextlib.closing(sqlite3.connect(f"{room}/tables")) as connection:
        connection.execute("PRAGMA journal_mode = WAL")
        connection.execute("CREATE TABLE register (number INTEGER PRIMARY KEY)")

    def let_at(makes="", beside="", untold="20000", always="", silent=""):
        names = {"TABLES": f"{room}/tables", "PLAIN": f"{TESTS}/plain/desk", "MAKES": makes, "BESIDE": beside}
        names |= {"UNTOLD": untold, "ALWAYS": always, "SILENT": silent}
        write_script(f"{room}/looks", *(f"{name}={value}" for name, value in names.items()), LOOKS)
        return run(room, "tests/parts/files", "odd", f"{room}/looks")

    yield passes("files odd: a program that makes no file", let_at(), " passed, 0 failed\n")
    for word in "holdings", "sums", "report", "journal", "check", "trial":
        why = f"files odd: {word} over a path with no file: the file is another\n"
        yield fails(f"files odd: {word} makes the file that it looks for", let_at(makes=word), why)
    why = "files odd: play over a database that another left: beside it stand "
    yield fails("files odd: a journal that is left", let_at(beside="-journal"), why)
    why = "files odd: {} entries, told to a {}: "
    yield fails("files odd: a short opening that is told", let_at(untold="15000"), why.format(19_999, "terminal"))
    yield fails("files odd: a long one that is not told", let_at(untold="30000"), why.format(25_000, "terminal"))
    yield fails("files odd: one that is told to a pipe", let_at(always="yes"), why.format(25_000, "pipe"))
    why = "files odd: sums over the file that was served: "
    yield fails("files odd: an opening that does not tell what it found", let_at(silent="yes"), why)


# what parts tell of a program that does nothing, on these words
OF_NOTHING = {
    "cases limits": ([], "\n0 passed, "),
    "cases bounded_memory": ([], "\n0 passed, 10 failed\n"),
    "files days": (["1"], "the file of a day is not opened: (0, b'')"),
    # no growth of memory can be refused to a program that asks for none
    "refuse memory": (["script"], "1 requests are answered: status 0, []\n"),
    "refuse http": (["script"], "status 0, [b'']\n"),
    "refuse words": (["case"], "no failure led to this"),
    "refuse stops": (["script"], "\n0 passed, 1 failed\n"),
    "refuse opening": (["script"], "a file is not opened: (0, b'')"),
    "refuse reports": (["/dev/null"], "the program has made no file\n"),
    "refuse disk": (["script"], "1 requests are answered: status 0, b''"),
}

# those that try nothing where no script, no case and no folder is named
OF_SOME = ["refuse memory", "refuse http", "refuse words", "refuse stops", "refuse disk", "cases same_tables", "http cases"]


def trials_of_random(room, silent):
    plain = f"{TESTS}/plain/desk"
    for word in "random scripts", "random reports", "random blocks", "random streams":
        yield passes(f"{word}: the plain program", part(room, word, plain, "2"), "\n2 passed, 0 failed\n")
        yield fails(f"{word}: a program that does nothing", part(room, word, silent, "2"), "\n0 passed, 2 failed\n")
        yield fails(f"{word}: no program", part(room, word, f"{room}/none", "2"), "No such file")
        yield fails(f"{word}: a count of 0", part(room, word, plain, "0"), "nothing is tried\n")


# what makes a plain `check` wrong: its file, what goes and what comes; and what is told where the plain program is as wrong
WRONG_REASONS = {
    "tells what each number means": (
        "checking.py",
        ("why = (words or MEANINGS[refusal]).encode()", "why = MEANINGS[refusal].encode()"),
        "it has no reason of its own",
    ),
    "has a reason for what is read": (
        "checking.py",
        ("or (1, None)", 'or (1, "it does not fit")'),
        "it has a reason of its own, and is read",
    ),
    "counts from the line that asks": (
        "checking.py",
        ("number + at, named", "number + at - 1, named"),
        ", and the request ends in line ",
    ),
    "has words for what is something else": (
        "reasons.py",
        ("it stands nowhere", "it is not read"),
        "words='it is not read'",
    ),
    "tells the line before": (
        "reasons.py",
        ("return at, why_no_line", "return at - 1, why_no_line"),
        "it is told at what was not damaged",
    ),
    "blames the first field": (
        "reasons.py",
        ("return found[0].number, why_no_value", "return fields[0].number, why_no_value"),
        "it is told where it is mended",
    ),
}


# one that reads no dollars
READS_LESS = "codes.py", ('b"KWD": 3, b"USD": 2}', 'b"KWD": 3}')


def make_wrong(room, path, change):
    """Makes a plain program with a change, and the part beside it that compares with that. Gives the program."""
    copy("tests/parts/random", room)
    for name in "lib", "generate":
        os.symlink(f"{TESTS}/{name}", f"{room}/tests/{name}")
    shutil.copytree(f"{TESTS}/plain", f"{room}/tests/plain")
    with open(f"{TESTS}/plain/{path}", encoding="utf-8") as file:
        text = file.read()
    assert text.count(change[0]) == 1, f"{path} has not once: {change[0]}"
    write(f"{room}/tests/plain/{path}", text.replace(*change))
    return f"{room}/tests/plain/desk"


def trials_of_reasons(room, silent):
    """Programs that tell wrong reasons are compared with the plain program, and with one that is as wrong."""
    plain = f"{TESTS}/plain/desk"
    yield passes("random reasons: the plain program", part(room, "random reasons", plain, "30"), " passed, 0 failed\n")
    yield fails("random reasons: a program that does nothing", part(room, "random reasons", silent, "2"), "None where [b'line ")
    yield fails("random reasons: no program", part(room, "random reasons", f"{room}/none", "2"), "No such file")
    yield fails("random reasons: a count of 0", part(room, "random reasons", plain, "0"), "nothing is tried\n")
    for number, (name, (path, change, why)) in enumerate(WRONG_REASONS.items()):
        own = f"{room}/reasons_{number}"
        ran = part(room, "random reasons", make_wrong(own, path, change), "30")
        yield fails(f"random reasons: one that {name}", ran, " is wanted")
        ran = run(own, "tests/parts/random", "reasons", "tests/plain/desk", "300")
        yield fails(f"random reasons: two that do so: {name}", ran, why)
    ran = part(room, "random reasons", make_wrong(f"{room}/reads_less", *READS_LESS), "100")
    yield fails("random reasons: one that reads no dollars", ran, "what is mended fully is refused")


def trials_of_nothing(room, silent):
    """Programs that do nothing, and parts that are given nothing."""
    write(f"{room}/script", "sums\n")
    write(f"{room}/case.stdout")
    for word, (words, why) in OF_NOTHING.items():
        yield fails(f"{word}: a program that does nothing", part(room, word, silent, *words), why)
    for word in OF_SOME:
        yield fails(f"{word}: nothing to try", part(room, word, silent), "nothing is tried\n")
    yield fails("refuse words: an unknown case", part(room, "refuse words", silent, "none"), "none.stdout")


def trials_of_refusals(room):
    """Memory is refused to a program that plays a script, and its calls on a file fail."""
    for at, (name, told, ended, how) in enumerate([
        ("keeps what it had", passes, "7 passed, 0 failed", {"GROWTH": "malloc(1)", "LOSES": 0}),
        ("loses what it had", fails, "6 passed, 2 failed", {"GROWTH": "malloc(1)", "LOSES": 1}),
        ("takes no memory", fails, "2 passed, 5 failed", {"GROWTH": "line", "LOSES": 0}),
    ]):
        ran = part(room, "refuse memory", build(room, f"asked_{at}", ASKED, **how), "script")
        yield told(f"refuse memory: a program that {name}", ran, f"\n{ended}\n")
    for stops, told, ended in (1, passes, "10 passed, 0 failed"), (0, fails, "5 passed, 6 failed"):
        ran = part(room, "refuse disk", build(room, f"opens_{stops}", OPENS, STOPS=stops), "script")
        yield told(f"refuse disk: a program that cannot open its file, and STOPS is {stops}", ran, f"\n{ended}\n")
    for undoes, told, ended in (1, passes, "20 passed, 0 failed"), (2, fails, "16 passed, 5 failed"):
        ran = part(room, "refuse disk", build(room, f"settles_{undoes}", SETTLES, UNDOES=undoes), "script")
        yield told(f"refuse disk: a program that takes back call {undoes} of two", ran, f"\n{ended}\n")


def trials_of_rows(room):
    """The memory of a program that writes rows is watched."""
    for name, told, keep, ended in (
        ("no row", passes, "free(row)", "10 passed, 0 failed"),
        ("its rows", fails, "", "8 passed, 2 failed"),
    ):
        ran = part(room, "cases bounded_memory", build(room, "rows", ROWS, **{"KEEP(row)": keep}))
        yield told(f"cases bounded_memory: a program that keeps {name}", ran, f"\n{ended}\n")


def trials(room):
    silent = build_silent(room)
    yield from trials_of_random(room, silent)
    yield from trials_of_reasons(room, silent)
    yield from trials_of_nothing(room, silent)
    yield from trials_of_refusals(room)
    yield from trials_of_rows(room)
    yield from trials_of_reports(room)
    yield from trials_of_cuts(room)
    yield from trials_of_files(room)
