"""Trials of `tests/parts/files migrated`, with a made-up program that brings files over: as it must, and with one thing broken."""

from .room import TESTS, build_silent, fails, part, passes, write, write_script

# reads the rows of a file, makes the plain program's books of their entries, and compares what these come to; what is broken is
# defined
MIGRATES = r"""
import os, sqlite3, sys, time
sys.dont_write_bytecode = True
sys.path.insert(0, TESTS)
from lib.files import changed, looked_at
from lib.odd import texts, texts_of_first
from lib.old import FIRST, OLD_PASSES, SECOND, THIRD, made, other_row, rows_in, rows_of
from plain.books import EMPTY
from plain.desk import sums, with_entry
from plain.dropping import files_in, tally
from plain.entries import ONE_PASS, PASSES
from plain.entries import Account, Cancel, Instruct, Issue, Participant, PayIn, PayOut, Redeem, Run, Security
from plain.folders import ask_file
from plain.messages import Cancellation, Instruction
from plain.program import tell
from plain.scripts import ask_item, items_of, shown

class Fault(Exception):
    pass

def entry_of(row, version):
    (_, sender, reference, kind, _, bic, account, isin, unit, quantity, currency, amount, day, rule, mt, settlement, place, previous,
        *_) = row
    if version != THIRD:
        rule = PASSES if kind == OLD_PASSES or not KEEPS_RULES else ONE_PASS
        kind = 10 if kind == OLD_PASSES and version == SECOND else kind
    cash = (currency, amount) if currency else None
    if kind == 8:
        said = mt, reference, day, isin, unit, quantity, account, settlement, place, bic, cash
        return Instruct(sender, Instruction(*said))
    if kind == 9:
        return Cancel(sender, Cancellation(mt, reference, previous))
    return {
        1: lambda: Participant(reference, bic),
        2: lambda: Account(reference, bic, account),
        3: lambda: Security(reference, isin, unit),
        4: lambda: Issue(reference, account, isin, quantity),
        5: lambda: Redeem(reference, account, isin, quantity),
        6: lambda: PayIn(reference, bic, currency, amount),
        7: lambda: PayOut(reference, bic, currency, amount),
        10: lambda: Run(reference, day, rule),
    }[kind]()

def books_in(path, versions):
    if not os.path.exists(path):
        raise Fault(50, path)
    try:
        rows = rows_in(path)
        with looked_at(path) as connection:
            schema = [text for (text,) in connection.execute("SELECT sql FROM sqlite_schema WHERE sql NOT NULL ORDER BY rowid")]
    except sqlite3.Error:
        raise Fault(50, path)
    numbers = [number for (number,) in rows.get("version", [])]
    if len(numbers) == 1 and numbers[0] not in versions:
        raise Fault(51, path)
    if len(numbers) != 1 or schema != (texts_of_first() if numbers == [FIRST] else texts()):
        raise Fault(50, path)
    books, [version] = EMPTY, numbers
    for row in rows["register"]:
        try:
            books = with_entry(books, entry_of(row, version))
        except (AssertionError, IndexError, KeyError, TypeError):
            raise Fault(50, path)
    if COMPARES and other_row(rows, rows_of(books, version)):
        raise Fault(50, path)
    return books

def put(path, books):
    unfinished = path + "-unfinished"
    for it in unfinished, *([] if FINISHES else [path]):
        if os.path.exists(it):
            os.remove(it)
        if it == path:
            made(path, EMPTY, THIRD)
            time.sleep(0.3)
    if not os.path.isdir(os.path.dirname(path)):
        raise OSError(path)
    made(unfinished, books, THIRD)
    os.rename(unfinished, path)

def migrate(old, new):
    books = books_in(old, [FIRST, SECOND])
    if CHANGES_OLD:
        changed(old, "PRAGMA user_version = 7")
    for end in "", "-wal":
        if os.path.exists(new + end):
            if os.path.getsize(new + end) and REFUSES_NEW:
                raise Fault(50, new)
            os.remove(new + end)
    if old in (new + "-unfinished", new + "-unfinished-wal"):
        raise Fault(50, new)
    put(new, books if PUTS else EMPTY)
    print("migrated", len(books.history))

def answered(words):
    global books
    at = words.index("--db")
    path = words[at + 1]
    told = words[:at] + words[at + 2 :]
    books = books_in(path, [THIRD])
    held = len(books.history)
    answers = []

    def ask(way, *asked):
        global books
        books, reply = way(books, *asked)
        answers.append(shown(reply))

    if words[0] == "play":
        for item in items_of(sys.stdin.buffer.read()):
            ask(ask_item, *item)
        sys.stdout.buffer.write(b"".join(answers))
    elif words[0] == "drop":
        source, target = words[words.index("--in") + 1], words[words.index("--out") + 1]
        for name, content in sorted(files_in(source)):
            ask(ask_file, name, content)
            with open(os.path.join(os.fsencode(target), name + b".out"), "wb") as file:
                file.write(answers[-1])
    elif words[0] == "sums":
        sys.stdout.buffer.write(sums(books).text + b"\n")
    else:
        sys.stdout.buffer.write(tell(books, told))
    if len(books.history) > held:
        os.remove(path)
        made(path, books, THIRD)

words = sys.argv[1:]
try:
    migrate(*words[1:]) if words[0] == "migrate" else answered(words)
except Fault as it:
    print("fault", it.args[0])
    print(f"desk: {it.args[1]}: fault {it.args[0]}: it is so", file=sys.stderr)
    sys.exit(3)
except (OSError, sqlite3.Error):
    print("fault 61")
    print(f"desk: {words[1] if os.path.isdir(words[1]) else words[2] + '-unfinished'}: fault 61: it is so", file=sys.stderr)
    sys.exit(3)
"""
SOUND = {name: True for name in ("COMPARES", "FINISHES", "KEEPS_RULES", "PUTS", "REFUSES_NEW")}
SOUND["CHANGES_OLD"] = False

# how many histories and kills, and with no failing calls
FEW = "2", "2", "0", "0"


def migrated(room, *words, **broken):
    """How that ends, on a program of which this is broken."""
    names = "".join(f"{name} = {value!r}\n" for name, value in {"TESTS": TESTS, **SOUND, **broken}.items())
    write(f"{room}/migrates.py", names + MIGRATES)
    write_script(f"{room}/migrates", f'exec python3 -S {room}/migrates.py "$@"')
    return part(room, "files migrated", f"{room}/migrates", *(words or FEW))


def trials(room):
    yield passes("a program that brings files over", migrated(room), " passed, 0 failed\n")
    yield passes("one of which calls fail", migrated(room, "1", "0", "0", "19"), " passed, 0 failed\n")
    yield fails("one that leaves the new file with no entry", migrated(room, PUTS=False), "one has this row of ")
    taken = migrated(room, COMPARES=False, KEEPS_RULES=False)
    yield fails("one that lets a run of one pass go on", taken, "accepted 13 settled 2 waiting 0")
    yield fails("one that compares nothing", migrated(room, COMPARES=False), "version 2, balance where quantity = quantity + 1 ")
    yield fails("one that changes the old file", migrated(room, CHANGES_OLD=True), ": the old file is another, ")
    yield fails("one that takes a new file that is there", migrated(room, REFUSES_NEW=False), "a new file that is there: a text: ")
    killed = migrated(room, "0", "20", "0", "0", FINISHES=False)
    yield fails("one that makes the tables first, and the entries behind", killed, "one has this row of ")
    yield fails("one that does nothing", part(room, "files migrated", build_silent(room), *FEW), ": it ends with ")
