"""Times scripts played by the desk's program, in memory and over a file, beside their statements asked of Python's SQLite; files
opened by the program of the bench; and the same served over HTTP, beside a server of Python's: measure.py [KIND..].
bench/RESULTS.md has the figures of a run."""

import contextlib
import functools
import http.server
import itertools
import multiprocessing
import os
import re
import resource
import socket
import sqlite3
import statistics
import string
import subprocess
import sys
import tempfile
import time

sys.dont_write_bytecode = True
sys.path.insert(0, os.path.join(os.path.dirname(os.path.abspath(__file__)), "..", "tests"))

import scripts  # noqa: E402
from lib.over_http import requests_of, sent_for  # noqa: E402
from lib.play import requests_in  # noqa: E402
from running import new_path, processor_seconds, ran  # noqa: E402
from scripts import SUMS, command, sent, status  # noqa: E402
from statements import Desk  # noqa: E402

# How many requests are played; what is likely to take longer than so many seconds is skipped.
SIZES = 1_000, 10_000, 100_000
MOST_SECONDS = 600

# They are timed so often, the least time being the one that other work on the machine slowed least.
TURNS = 3

# The proved program; a script has so many bytes at most.
DESK = "crates/desk/out/desk"
LONGEST_SCRIPT = 16_777_216

# The program that fills and opens files.
BENCH = "crates/desk_bench/out/desk_bench"

# A mixed day of so many requests is played beside its statements. The variable that names a folder on a disk for that (none:
# the folder of the system for files of a time), and how often it is played there, since what waits for a device varies.
DAY = 10_000
DISK, DISK_TURNS = "BENCH_DISK", 7

# In the scripts that are played: the security, the settlement day, and after how many rounds a run settles their pairs; and how
# many pairs a chain in the wrong order has.
SECURITY = "DE0007164600"
SETTLEMENT_DAY = "20240229"
ROUNDS = 100
CHAIN = 1_000
REFERENCES = ["".join(it) for it in itertools.product(string.digits + string.ascii_uppercase, repeat=3)]


def processor_time():
    """The seconds that this process and those it ran have computed. Other work on the machine isn't in them."""
    spent = [resource.getrusage(who) for who in (resource.RUSAGE_SELF, resource.RUSAGE_CHILDREN)]
    return sum(it.ru_utime + it.ru_stime for it in spent)


# A side of a delivery: its BIC, its account, the types that it instructs with, free and against payment, and what its
# counterparty is.
DELIVERER = "ALPHDEFF", "A", (542, 543), "REAG"
RECEIVER = "BETADEFF", "B", (540, 541), "DEAG"

# What is delivered at once: how many units, and the amount that is paid for them. Of a large lot there are too few units,
# and for a dear one there is too little money.
FREE, PAID, LARGE, DEAR = (1, None), (1, "EUR1,"), (7, None), (1, "EUR1000000,")


def instruction(side, reference, lot):
    """A side's instruction of a lot."""
    sender, account, types, qualifier = side
    quantity, amount = lot
    counterparty = (RECEIVER if sender == DELIVERER[0] else DELIVERER)[0]
    text = scripts.instruction(reference, SETTLEMENT_DAY, SECURITY, quantity, account, f"{qualifier}//{counterparty}", amount)
    return scripts.message(sender, types[amount is not None], text)


def cancellation(side, reference, lot, previous):
    """A side's request to cancel its instruction of a lot."""
    sender, _, types, _ = side
    return scripts.message(sender, types[lot[1] is not None], scripts.cancellation(reference, previous))


# What a generated script asks first, so that pairs can settle.
OPENING = [
    command(op="participant", ref="P1", bic="ALPHDEFF"),
    command(op="participant", ref="P2", bic="BETADEFF"),
    command(op="account", ref="C1", bic="ALPHDEFF", account="A"),
    command(op="account", ref="C2", bic="BETADEFF", account="B"),
    command(op="security", ref="S1", isin=SECURITY, kind="UNIT"),
    command(op="issue", ref="I1", account="A", isin=SECURITY, quantity=1),
]

# Of the hundred requests of a mixed day between two runs so many lots are instructed by both sides; the last one is short.
LOTS = 14


def lots_of(hundred):
    """The lots of a hundred, each with its reference, half of them against payment."""
    short = DEAR if hundred % 2 else LARGE
    lots = [*[FREE, PAID] * (LOTS // 2)][: LOTS - 1] + [short]
    return [(REFERENCES[hundred * LOTS + number], lot) for number, lot in enumerate(lots)]


def follow(hundred):
    """What follows on the lot that was short in the hundred before: units are issued, or both sides cancel it and its unit is
    redeemed. The deliverer's money is paid out too."""
    if hundred == 0:
        return []
    mark = REFERENCES[hundred]
    requests = [command(op="payout", ref=f"O{mark}", bic="ALPHDEFF", ccy="EUR", amount=600)]
    reference, lot = lots_of(hundred - 1)[-1]
    if lot is LARGE:
        return requests + [command(op="issue", ref=f"J{mark}", account="A", isin=SECURITY, quantity=7)]
    requests += [cancellation(side, f"X{reference}", lot, reference) for side in (DELIVERER, RECEIVER)]
    return requests + [command(op="redeem", ref=f"D{mark}", account="A", isin=SECURITY, quantity=1)]


def hundred_of(hundred):
    """A hundred requests of a mixed day, the last of them a run that settles all lots but the short one; and how many pairs
    that are. In between come questions about messages and sums."""
    mark, lots = REFERENCES[hundred], lots_of(hundred)
    units = LOTS - 1 + (lots[-1][1] is DEAR)
    issue = command(op="issue", ref=f"I{mark}", account="A", isin=SECURITY, quantity=units)
    requests = [issue, command(op="payin", ref=f"M{mark}", bic="BETADEFF", ccy="EUR", amount=600), *follow(hundred)]
    for reference, lot in lots:
        requests += [instruction(DELIVERER, reference, lot), instruction(RECEIVER, reference, lot)]
        requests += [status("ALPHDEFF", reference), sent("BETADEFF", hundred + 1)]
    earlier = lots_of(max(hundred - 1, 0))[0][0]
    questions = [status("BETADEFF", earlier), SUMS, sent("ALPHDEFF", hundred + 1), issue]
    requests += (questions * 100)[: 99 - len(requests)]
    return [*requests, command(op="run", ref=f"R{mark}", day=SETTLEMENT_DAY)], LOTS - 1 + hundred % 2


def mixed_script(requests):
    """A script of so many requests of a mixed day, and how many pairs settle in it."""
    hundreds, rest = divmod(requests - len(OPENING), 100)
    made = [hundred_of(hundred) for hundred in range(hundreds)]
    asked = [request for part, _ in made for request in part]
    return "".join([*OPENING, *asked, *rest * [SUMS]]).encode(), sum(pairs for _, pairs in made)


def free_round(number, is_last):
    """Four requests: a unit is delivered and received, and the totals are asked twice; or once and a run settles the
    pairs of the last rounds."""
    reference = REFERENCES[number]
    return [
        instruction(DELIVERER, reference, FREE),
        instruction(RECEIVER, reference, FREE),
        command(op="run", ref=f"N{reference}", day=SETTLEMENT_DAY) if is_last or number % ROUNDS == 0 else SUMS,
        SUMS,
    ]


def free_script(requests):
    """A script of so many requests, with free deliveries alone: a pair settles for every four behind the opening, and how
    many pairs that are."""
    issued = command(op="issue", ref="I2", account="A", isin=SECURITY, quantity=1_000_000)
    pairs, rest = divmod(requests - len(OPENING) - 1, 4)
    rounds = (it for number in range(1, pairs + 1) for it in free_round(number, number == pairs))
    return "".join([*OPENING, issued, *rounds, *rest * [SUMS]]).encode(), pairs


def chain_script(pairs):
    """A script of a chain of so many free pairs, in which each account delivers the one unit that it is about to receive, and how
    many pairs settle in it. The last link is instructed first, so that each pass of the one run settles a pair."""
    owners = [DELIVERER[0], RECEIVER[0]]
    accounts = [(owners[link % 2], f"L{link}") for link in range(pairs + 1)]
    requests = [*OPENING[:2], OPENING[4]]
    requests += [command(op="account", ref=f"C{account}", bic=bic, account=account) for bic, account in accounts]
    requests += [command(op="issue", ref="I1", account=accounts[0][1], isin=SECURITY, quantity=1)]
    for link in reversed(range(pairs)):
        giving, taking = (*accounts[link], *DELIVERER[2:]), (*accounts[link + 1], *RECEIVER[2:])
        requests += [instruction(giving, REFERENCES[link], FREE), instruction(taking, REFERENCES[pairs + link], FREE)]
    return "".join([*requests, command(op="run", ref="R1", day=SETTLEMENT_DAY)]).encode(), pairs


def played(words, script, pairs, clock=processor_time):
    """The seconds, of the processor or by another clock, that these words take to play a script in which so many pairs
    settle."""
    started = clock()
    done = subprocess.run(words, input=script, capture_output=True, check=True)
    taken = clock() - started
    settled = sum(map(int, re.findall(rb"^accepted [0-9]+ settled ([0-9]+) waiting [01]$", done.stdout, re.MULTILINE)))
    if settled != pairs:
        sys.exit(f"play: {settled} pairs settled of {pairs}")
    return taken


def likely_seconds(size, taken):
    """What so many requests are likely to take, as the cost of one grew over the two sizes timed last."""
    if len(taken) < 2:
        return 0
    (few, first), (many, second) = taken[-2:]
    growth = (second / many - first / few) / (many - few)
    return size * (second / many + growth * (size - many))


def measure_growing(work, one, many, timed_at, who="desk"):
    """Work of growing size, each unless it would take too long: its name, what is counted, and who does it. The call gives
    how many pairs are settled at a size, and the processor seconds that it takes."""
    taken = []
    for size in SIZES:
        likely = likely_seconds(size, taken)
        if likely > MOST_SECONDS:
            print(
                f"{work} {size:,} {many}: skipped, since as the cost of one grows it would take {likely:.0f} s, "
                f"and {MOST_SECONDS} s is the most"
            )
            continue
        pairs, seconds = timed_at(size)
        taken.append((size, seconds))
        rate, cost = size / seconds, seconds / size * 1e6
        print(f"{work} {size:,} {many}, {pairs:,} pairs settled: {who} {rate:,.0f} {many}/s, {cost:.1f} us/{one}")


def played_by_desk(script, pairs):
    return played([DESK, "play"], script, pairs)


def folder_on_disk():
    return os.environ.get(DISK) or tempfile.gettempdir()


def played_in_file(script, pairs, beneath=None, clock=processor_time):
    """As `played`, by the desk's program in a new file: over tables, with a register in memory beside them."""
    with new_path(beneath) as path:
        return played([DESK, "play", "--db", path], script, pairs, clock)


@functools.lru_cache(maxsize=1)
def bare_desk(script):
    """A desk of bench/statements.py that has played a script."""
    desk = Desk()
    for request in requests_in(script):
        desk.play(request.decode())
    return desk


def asked_of_sqlite(script, pairs, beneath=None, clock=processor_time):
    """The seconds that Python's SQLite takes for the statements of a script, on a new file with a log of its writes, as the
    desk's library has one, of which each commit waits until the device has it."""
    desk = bare_desk(script)
    if desk.settled != pairs:
        sys.exit(f"store: {desk.settled} pairs settled of {pairs}")
    with new_path(beneath) as path:
        started = clock()
        with contextlib.closing(sqlite3.connect(path, isolation_level=None)) as connection:
            connection.execute("PRAGMA journal_mode = WAL")
            connection.execute("PRAGMA synchronous = FULL")
            for text, parameters in desk.asked:
                connection.execute(text, parameters).fetchall()
        return clock() - started


def rows_in(connection):
    """The rows of the desk's tables; of texts that are replies or messages the length alone."""
    rows = {}
    for (table,) in connection.execute("SELECT name FROM sqlite_master WHERE type = 'table'").fetchall():
        found = sorted(connection.execute(f"SELECT * FROM {table}"))
        rows[table] = [(*it[:-1], len(it[-1])) for it in found] if table in ("register", "sent") else found
    return rows


def compare_tables():
    """The tables after a day, of the desk and of the bare one, whose statements are timed beside it."""
    script, pairs = mixed_script(SIZES[0])
    with new_path() as path:
        played([DESK, "play", "--db", path], script, pairs)
        with contextlib.closing(sqlite3.connect(path)) as connection:
            if rows_in(connection) != rows_in(bare_desk(script).connection):
                sys.exit("store: the tables of the bare desk are others than the desk's")


def script_timed(script_of, play, size):
    """A script of so many requests, played."""
    script, pairs = script_of(size)
    if len(script) > LONGEST_SCRIPT:
        sys.exit(f"play: a script of {len(script):,} bytes is longer than the desk takes")
    return pairs, min(play(script, pairs) for _ in range(TURNS))


def measure_play():
    """Scripts of growing length, of a mixed day and of free deliveries alone."""
    for day, script_of in (("a mixed day", mixed_script), ("free deliveries", free_script)):
        timed_at = functools.partial(script_timed, script_of, played_by_desk)
        measure_growing(f"play of {day} of", "request", "requests", timed_at)


def measure_store():
    """Scripts of growing length, of a mixed day, in memory and over a file, whose statements are asked of Python's SQLite too."""
    compare_tables()
    work = [
        ("play in memory", played_by_desk, "desk"),
        ("play over a file", played_in_file, "desk"),
        ("its statements on a file", asked_of_sqlite, "Python's SQLite"),
    ]
    for name, play, who in work:
        timed_at = functools.partial(script_timed, mixed_script, play)
        measure_growing(f"{name} of a mixed day of", "request", "requests", timed_at, who)
    measure_statements(f"a mixed day of {DAY:,} requests", *mixed_script(DAY))
    measure_statements(f"a chain of {CHAIN:,} pairs in the wrong order, one run", *chain_script(CHAIN))
    measure_on_disk()


def measure_statements(name, script, pairs):
    """A script over a file, beside its statements asked of Python's SQLite."""
    desk, python = (min(play(script, pairs) for _ in range(TURNS)) for play in (played_in_file, asked_of_sqlite))
    print(
        f"play over a file of {name}: desk {desk:.3f} s, "
        f"its statements by Python's SQLite {python:.3f} s, ratio {desk / python:.2f}"
    )


def measure_on_disk():
    """A mixed day over a file on a disk, by turns with its statements, by the clock, which waits for the device too."""
    folder, (script, pairs) = folder_on_disk(), mixed_script(DAY)
    taken = [], []
    for turn in range(DISK_TURNS):
        # which of the two begins changes from turn to turn
        for which in ((0, 1), (1, 0))[turn % 2]:
            play = (played_in_file, asked_of_sqlite)[which]
            taken[which].append(play(script, pairs, beneath=folder, clock=time.monotonic))
    desk, python = (f"{statistics.median(of):.3f} s ({min(of):.3f} to {max(of):.3f})" for of in taken)
    print(
        f"play over a file in {folder} of a mixed day of {DAY:,} requests, by the clock, the median of "
        f"{DISK_TURNS} by turns: desk {desk}, its statements by Python's SQLite {python}, "
        f"ratio {statistics.median(taken[0]) / statistics.median(taken[1]):.2f}"
    )


# Files of so many entries are opened; one is filled by scripts of so many hundreds of requests at most.
OPENED = 1_000, 10_000, 100_000
HUNDREDS = 400


def entries_in(path):
    with contextlib.closing(sqlite3.connect(path)) as connection:
        [(count,)] = connection.execute("SELECT COUNT(*) FROM register")
    return count


def fill(path, entries):
    """Plays a mixed day into a file until it has so many entries, or some more, and closes it."""
    played_in_file_at(path, "".join(OPENING))
    first, count = 0, 0
    while count < entries:
        # a hundred requests are some thirty entries and more
        hundreds = max(1, min(HUNDREDS, (entries - count) // 33))
        played_in_file_at(path, "".join(it for at in range(first, first + hundreds) for it in hundred_of(at)[0]))
        first, count = first + hundreds, entries_in(path)
    return count


def played_in_file_at(path, script):
    subprocess.run([BENCH, "play", path], input=script.encode(), stdout=subprocess.DEVNULL, check=True)
    subprocess.run([BENCH, "open", path], stdout=subprocess.DEVNULL, check=True)


def opened(word, path):
    """The processor seconds that it takes to open a file, and the most memory that is in use, in kilobytes."""
    _, used = ran([BENCH, word, path])
    return processor_seconds(used), used.ru_maxrss


def measure_open():
    """Files of more and more entries, opened by the library alone, and compared with their entries besides."""
    for entries in OPENED:
        with new_path() as path:
            count = fill(path, entries)
            runs = {word: [opened(word, path) for _ in range(TURNS)] for word in ("schema", "open")}
        (library, its_peak), (both, peak) = (map(min, zip(*runs[word])) for word in ("schema", "open"))
        print(
            f"open of {count:,} entries: the library alone {library / count * 1e6:.1f} us an entry, "
            f"the audit beside it {(both - library) / count * 1e6:.1f}; "
            f"at most {its_peak / 1024:.0f} MB in use, and {peak / 1024:.0f}",
            flush=True,
        )


# How many requests are asked over HTTP, one a connection; and what the server of Python's answers to each.
ASKED = 2_000
CONSTANT = b'{"cash":[],"securities":[]}'
HOST = "127.0.0.1"


class Constant(http.server.BaseHTTPRequestHandler):
    """Answers each request by a constant."""

    def do_POST(self):
        self.rfile.read(int(self.headers.get("Content-Length", 0)))
        self.send_response(200)
        self.send_header("Content-Type", "text/plain")
        self.send_header("Connection", "close")
        self.end_headers()
        self.wfile.write(CONSTANT)

    do_GET = do_POST

    def log_message(self, *_):
        pass


def seconds_over_loopback(port, requests):
    """The seconds that it takes to ask all of them, one after another."""
    started = time.monotonic()
    for request in requests:
        with socket.create_connection((HOST, port)) as connection:
            connection.sendall(request)
            while connection.recv(65_536):
                pass
    return time.monotonic() - started


def measure_http():
    """Requests of a mixed day over loopback, beside the same script by play, and beside a server of Python's."""
    script, pairs = mixed_script(ASKED)
    requests = [sent_for(*it) for it in requests_of(script)]
    with socket.socket() as probe:
        probe.bind((HOST, 0))
        port = probe.getsockname()[1]
    words = [DESK, "serve", "--port", str(port), "--count", str(len(requests))]
    with subprocess.Popen(words, stdout=subprocess.PIPE) as desk:
        desk.stdout.readline()
        by_desk = len(requests) / seconds_over_loopback(port, requests)
    by_play = len(requests) / played([DESK, "play"], script, pairs)
    with http.server.HTTPServer((HOST, 0), Constant) as server:
        peer = multiprocessing.Process(target=server.serve_forever)
        peer.start()
        by_python = len(requests) / seconds_over_loopback(server.server_port, requests)
        peer.terminate()
        peer.join()
    print(
        f"http, {len(requests):,} requests of a mixed day, one a connection over loopback: desk {by_desk:,.0f} requests/s; "
        f"by play {by_play:,.0f}/s; a server of Python's that answers a constant {by_python:,.0f}/s"
    )


KINDS = {"play": measure_play, "store": measure_store, "open": measure_open, "http": measure_http}

if __name__ == "__main__":
    for word in sys.argv[1:] or KINDS:
        KINDS[word]()
