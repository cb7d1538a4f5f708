"""Trials of `tests/parts/files killed`, with a made-up program that keeps what it is asked in a file: as it must, and with one
thing broken."""

from .room import TESTS, build_silent, fails, part, passes, write, write_script

# keeps each entry, its reply and what it sends in a transaction, before the answer; what is broken is defined
KEEPS = r"""
import os, pickle, socket, sqlite3, sys
sys.dont_write_bytecode = True
sys.path.insert(0, TESTS)
from plain.books import EMPTY
from plain.connections import served
from plain.desk import sums, with_entry
from plain.dropping import UNFINISHED, files_in, tally
from plain.entries import is_message, key_of
from plain.folders import ask_file
from plain.program import tell
from plain.scripts import ask_item, items_of, shown
words = sys.argv[1:]
place = words.index("--db")
_, db = words.pop(place), words.pop(place)
options = dict(zip(words[1::2], words[2::2]))
if FORGETS and os.path.exists(db + "-wal"):
    os.remove(db + "-wal")

file = sqlite3.connect(db, isolation_level=None)
later = []

def commit(statements):
    for statement in ("BEGIN",), *statements, ("COMMIT",):
        file.execute(*statement)

file.execute("PRAGMA locking_mode = EXCLUSIVE")
file.execute("PRAGMA journal_mode = WAL")
commit((f"CREATE TABLE IF NOT EXISTS {it}",) for it in (
    "register (number INTEGER PRIMARY KEY, sender TEXT, reference TEXT, entry BLOB, status INTEGER, reply_mt INTEGER, reply TEXT)",
    "sent (number INTEGER PRIMARY KEY, bic TEXT, mt INTEGER, about INTEGER, text TEXT)",
))
books = EMPTY
for (entry,) in file.execute("SELECT entry FROM register ORDER BY number").fetchall():
    books = with_entry(books, pickle.loads(entry))

def keep(before, after):
    number, entry, (status, mt, reply) = len(after.history), after.history[-1], after.replies[-1]
    sender, reference = key_of(entry)
    row = number, sender.decode() if is_message(entry) else "", reference.decode(), pickle.dumps(entry), status, mt
    statements = [("INSERT INTO register VALUES (?, ?, ?, ?, ?, ?, '')", row)]
    statements += [("UPDATE register SET reply = ? WHERE number = ?", (reply.decode(), number))]
    for number, (bic, mt, about, text) in list(enumerate(after.sent, 1))[len(before.sent) :]:
        statements += [("INSERT INTO sent VALUES (?, ?, ?, ?, ?)", (number, bic.decode(), mt, about, text.decode()))]
    commit(later + statements[:AT_ONCE])
    later[:] = statements[AT_ONCE:]

def ask(way, *asked):
    global books
    before = books
    books, reply = way(books, *asked)
    if books is not before:
        keep(before, books)
    return reply

def put(name, answer):
    unfinished = os.path.join(os.fsencode(options["--out"]), UNFINISHED)
    with open(unfinished, "wb") as answers:
        answers.write(answer)
    os.rename(unfinished, os.path.join(os.fsencode(options["--out"]), name))

if words[0] == "play":
    sys.stdout.buffer.write(b"".join(shown(ask(ask_item, *it)) for it in items_of(sys.stdin.buffer.read())))
elif words[0] == "drop":
    answers = [(it[0] + b".out", shown(ask(ask_file, *it))) for it in sorted(files_in(options["--in"]))]
    for answer in answers:
        put(*answer)
    print(f"desk: {db}: {tally(answers)}", file=sys.stderr)
elif words[0] == "serve":
    with socket.create_server(("127.0.0.1", int(options["--port"]))) as listener:
        print("listening", options["--port"], flush=True)
        for _ in range(int(options["--count"])):
            client, _ = listener.accept()
            with client:
                stream = b""
                while piece := client.recv(65536):
                    stream += piece
                client.sendall(ask(served, stream)[0])
elif words[0] == "sums":
    sys.stdout.buffer.write(sums(books).text + b"\n")
else:
    sys.stdout.buffer.write(tell(books, words))
sys.stdout.flush()
commit(later)
file.close()
"""
ALL = 99
SOUND = {"FORGETS": False, "AT_ONCE": ALL}

# how many kills, and of which seed: both of those that serve hit one in the middle
COUNT, SEED = "7", "22"


def killed(room, **broken):
    """How that ends, on a program of which this is broken."""
    names = "".join(f"{name} = {value!r}\n" for name, value in {"TESTS": TESTS, **SOUND, **broken}.items())
    write(f"{room}/keeps.py", names + KEEPS)
    write_script(f"{room}/keeps", f'exec python3 -S {room}/keeps.py "$@"')
    return part(room, "files killed", f"{room}/keeps", COUNT, SEED)


def trials(room):
    yield passes("kills of a program that keeps what it is asked", killed(room), f"\n{COUNT} passed, 0 failed\n")
    yield fails("one that keeps it with what comes behind it", killed(room, AT_ONCE=0), " entries, where ")
    yield fails("one that keeps the half of it first", killed(room, AT_ONCE=1), " answers, and a row of the file is (")
    yield fails("one that forgets its log", killed(room, FORGETS=True), ": the journal is (0, b'', b'') where ")
    silent = part(room, "files killed", build_silent(room), "1")
    yield fails("one that does nothing", silent, "with no kill it ends with 0, and tells ")
