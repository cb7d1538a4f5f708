"""What `tests/parts/http serve` tries: clients at the program's `serve`.

A case of the folder is what one connection sends, then its end (NAME.stdin), the response (NAME.stdout), and a script that
is asked first, request by request (NAME.setup; none: an empty desk). Each case is sent whole and byte by byte. Each script
is asked by Python's http.client, and its answers compared with those of `play`. And there are clients that send half a
request, wait, or read nothing, between others that must be served as ever; clients that send all of a body which is refused
by its length, before their answer or behind it, and must get it without a reset; and words that are usage.

Over a file (`serve --db`) each case is sent whole; each script is asked half of one server and half of a second one; of servers
of which each is killed right behind the answer to a command that it accepted, so that the next one finds the file with its log
beside it; and of such servers between which `play --db` asks the same command again, and `sums` how it stands. The answers are
those of `play`, and a run that ends leaves the file alone. A file that is no desk's is told at once, and nobody listens then,
also where the port is in use. Where a call on the file fails, at the byte by which a command in the middle of a script counts
there and then at the wait for it, this command and all behind it get `fault 62`, standard error tells that once, and the run
ends with `fault 61` and status 3: the file holds nothing of the command, or all of it, and asked again it acts once. Each
counts."""

import bisect
import glob
import os
import shutil
import socket
import subprocess
import tempfile

from lib.files import dumped
from lib.over_http import requests_of
from lib.play import answers_in, read, requests_in
from lib.preload import build, failed
from lib.refusing import CLOSED, MOST, TELLS_BROKEN, TELLS_CLOSED, TELLS_UNCLOSED, UNDONE
from lib.server import HOST, PATIENCE, Server, free_port, over, received

SUMS = b"GET /sums HTTP/1.1\r\n\r\n"
NO_SUMS = b'HTTP/1.1 200 OK\r\nContent-Type: text/plain\r\nConnection: close\r\n\r\n{"cash":[],"securities":[]}'
PARTICIPANT = b'{"op":"participant","ref":"P1","bic":"ALPHDEFF"}'

LONG_BODY = b"POST /in/ALPHDEFF/542 HTTP/1.1\r\nContent-Length: 70000\r\n\r\n" + b"x" * 70_000
TOO_LONG = b"HTTP/1.1 413 Payload Too Large\r\nContent-Type: text/plain\r\nConnection: close\r\n\r\nrefused 413"

# so often is a client tried to which a reset may come, or not
TRIES = 10

USAGE, FAULT = 2, 3

# the file of a desk, in a folder of its own, and the log that stands beside it while a desk has it open
DB, LOG = "desk.db", "desk.db-wal"

# what a server prints, at its end, where it cannot close its file
UNCLOSED = b"fault 61\n"

# the most seconds that it may take to refuse a file, or a port; and what a file holds that is none of a desk's
MOMENTS, NO_DESK = 10, b"Wattlepeg\n"

WRONG_WORDS = [
    [],
    ["--port", "8000"],
    ["--count", "1"],
    ["--port", "0", "--count", "1"],
    ["--port", "65536", "--count", "1"],
    ["--port", "8000", "--count", "0"],
    ["--port", "8000", "--count", "1000001"],
    ["--port", "-1", "--count", "1"],
    ["--port", "x", "--count", "1"],
    ["--port", "8000", "--count", "1", "--db"],
    ["--db", "--port", "8000", "--count", "1"],
    ["--db", DB, "--db", DB, "--port", "8000", "--count", "1"],
    ["--db", DB, "--count", "1"],
]


def is_case_answered(program, case, db=None):
    sent, wanted = read(f"{case}.stdin"), read(f"{case}.stdout")
    setup = requests_of(read(f"{case}.setup")) if os.path.exists(f"{case}.setup") else []
    ways = [[sent], [sent[at : at + 1] for at in range(len(sent))]] if len(sent) < 10_000 and db is None else [[sent]]
    with Server(program, len(setup) + len(ways), db=db) as server:
        for request in setup:
            server.answer(*request)
        return [server.response(way) for way in ways] == [wanted] * len(ways) and server.has_ended()


def is_case_answered_over_a_file(program, case):
    with tempfile.TemporaryDirectory() as folder:
        return is_case_answered(program, case, f"{folder}/{DB}") and os.listdir(folder) == [DB]


def is_script_answered(program, path):
    script = read(path)
    requests = requests_of(script)
    wanted = subprocess.run([program, "play"], input=script, stdout=subprocess.PIPE, check=False).stdout
    with Server(program, len(requests)) as server:
        return b"".join(server.answer(*it) for it in requests) == wanted and server.has_ended()


def played(program, script, db=None):
    """What is printed to a script that is played; nothing where it ends otherwise than done."""
    words = [program, "play", *over(db)]
    ran = subprocess.run(words, input=script, stdout=subprocess.PIPE, timeout=PATIENCE, check=False)
    return ran.stdout if ran.returncode == 0 else b""


def sums_told(program, db):
    """What `sums` prints of a file, as an answer of a script."""
    words = [program, "sums", *over(db)]
    ran = subprocess.run(words, stdin=subprocess.DEVNULL, stdout=subprocess.PIPE, timeout=PATIENCE, check=False)
    return b"200\n" + ran.stdout + b".\n" if ran.returncode == 0 else b""


def is_accepted(answer):
    return answer.startswith(b"200\naccepted ")


def is_script_continued(program, path):
    """Whether a second server goes on where the first one over its file ended."""
    script = read(path)
    requests = requests_of(script)
    got = b""
    with tempfile.TemporaryDirectory() as folder:
        for part in (requests[: len(requests) // 2], requests[len(requests) // 2 :]):
            with Server(program, len(part), db=f"{folder}/{DB}") as server:
                got += b"".join(server.answer(*it) for it in part)
                if not server.has_ended() or os.listdir(folder) != [DB]:
                    return False
    return got == played(program, script)


def is_nothing_asked(*_):
    """The next server finds the file with the log of the one that was killed."""
    return True


def is_asked_again(program, folder, asked, answer):
    """Whether the last one of these requests is answered as before, and the sums are those of a desk that was asked them."""
    db = f"{folder}/{DB}"
    told = answers_in(played(program, b"".join([*asked, b"sums\n"])))
    is_kept = played(program, asked[-1], db) == answer and os.listdir(folder) == [DB]
    return is_kept and sums_told(program, db) == told[-1] and os.listdir(folder) == [DB]


def is_kept_where_killed(program, path, is_well_between):
    """Whether the answers are those of `play` where each server over the file is killed behind the first command that it
    accepts, and what is asked between two is well; it gets the requests so far and the last answer."""
    script = read(path)
    asked, requests, wanted = requests_in(script), requests_of(script), answers_in(played(program, script))
    kills = [at + 1 for at, answer in enumerate(wanted) if is_accepted(answer)]
    with tempfile.TemporaryDirectory() as folder:
        for first, end in zip([0, *kills], kills):
            with Server(program, len(requests), db=f"{folder}/{DB}") as server:
                got = [server.answer(*it) for it in requests[first:end]]
                server.kill()
            if got != wanted[first:end] or sorted(os.listdir(folder)) != [DB, LOG]:
                return False
            if not is_well_between(program, folder, asked[:end], wanted[end - 1]):
                return False
        # what is left is asked behind the last command once more, and may be nothing
        with Server(program, len(requests) - kills[-1] + 1, db=f"{folder}/{DB}") as server:
            got = [server.answer(*it) for it in requests[kills[-1] - 1 :]]
            return got == wanted[kills[-1] - 1 :] and server.has_ended() and os.listdir(folder) == [DB]


def first_fault(answers):
    """The first answer by which a failure is told, behind its place: before all where there is no answer, and behind all where
    none tells one."""
    faults = ((place, answer) for place, answer in enumerate(answers) if answer in (UNDONE, CLOSED))
    return next(faults, (len(answers), b"")) if answers else (-1, b"")


class FailingFile:
    """A program that serves a script, each time over a new file on which a call fails."""

    def __init__(self, program, script, room):
        self.program, self.folder = program, f"{room}/desk"
        self.db = f"{self.folder}/{DB}"
        self.asked, self.requests, self.wanted = requests_in(script), requests_of(script), answers_in(played(program, script))
        self.library = build(room, "failing")

    def serve(self, number):
        """How a server over a new file answers the requests, none where it does not listen, and how it ends, while the call of
        this number on the file fails."""
        shutil.rmtree(self.folder, ignore_errors=True)
        os.mkdir(self.folder)
        surroundings = failed(self.library, self.folder, "unmade", number)
        with Server(self.program, len(self.requests), surroundings, self.db) as server:
            answers = [server.answer(*it) for it in self.requests] if server.listens() else []
            return answers, server.end()

    def first_call(self, place):
        """The number of the first call whose failure closes the desk at the request of this place: a later call is met at a
        later request, and one by which a request is as if not asked before one that closes."""
        met = lambda number: first_fault(self.serve(number)[0])  # noqa: E731
        return 1 + bisect.bisect_left(range(1, MOST), (place, CLOSED), key=met)

    def is_closed_at(self, place, number):
        """Whether the desk is closed at the request of this place where the call of this number fails, and tells so once, behind
        what that call met."""
        answers, (status, printed, told) = self.serve(number)
        lines = [it for it in told.decode().splitlines() if not it.startswith("failed ")]
        is_told = lines == [f"desk: {self.db}: {it}" for it in (TELLS_BROKEN, TELLS_CLOSED, TELLS_UNCLOSED)]
        is_ended = (status, printed) == (FAULT, UNCLOSED) and sorted(os.listdir(self.folder)) == [DB, LOG]
        return answers == self.wanted[:place] + [CLOSED] * (len(self.wanted) - place) and is_told and is_ended

    def holds(self, count):
        """Whether the file holds what a new one does once these first requests are played."""
        with tempfile.TemporaryDirectory() as folder:
            played(self.program, b"".join(self.asked[:count]), f"{folder}/{DB}")
            return dumped(self.db) == dumped(f"{folder}/{DB}")

    def acts_once(self, place):
        """Whether the request of this place, asked again twice, is answered as if none had failed, and has acted once then."""
        asked = self.asked[: place + 1]
        return all(is_asked_again(self.program, self.folder, asked, self.wanted[place]) for _ in range(2))


def is_closed_for_good(program, path):
    """Whether a server answers nothing more, from a command in the middle of a script on, where a call fails by which that is
    to count in the file, and the file goes on: with nothing of the command where the first such call fails, and with all of it
    where the next one does, by which it is waited for the device."""
    with tempfile.TemporaryDirectory() as room:
        # as the system names an open file
        file = FailingFile(program, read(path), os.path.realpath(room))
        kills = [place for place, answer in enumerate(file.wanted) if is_accepted(answer)]
        place = kills[len(kills) // 2]
        number = file.first_call(place)
        ways = (number, place), (number + 1, place + 1)
        return all(file.is_closed_at(place, call) and file.holds(count) and file.acts_once(place) for call, count in ways)


def half_a_head(server):
    with server.connect() as connection:
        connection.sendall(SUMS[:10])
    return True


def half_a_body(server):
    with server.connect() as connection:
        connection.sendall(b"POST /ops HTTP/1.1\r\nContent-Length: %d\r\n\r\n" % (len(PARTICIPANT) + 1) + PARTICIPANT)
    return True


def nothing_read(server):
    """Asks, and resets the connection in place of reading."""
    with server.connect() as connection:
        connection.sendall(SUMS)
        connection.setsockopt(socket.SOL_SOCKET, socket.SO_LINGER, b"\1\0\0\0\0\0\0\0")
    return True


def nothing_sent(server):
    with server.connect():
        return True


def silence(server):
    """Waits until it is given up: nothing was asked, so nothing is answered."""
    with server.connect() as connection:
        return received(connection) == b""


MANNERS = [half_a_head, half_a_body, nothing_read, nothing_sent, silence]


def is_next_one_served(program, manner):
    """Whether the one behind such a client is answered as ever, also one that has sent all before it is accepted."""
    with Server(program, 2) as server:
        kept = manner(server)
        return kept and server.response([SUMS]) == NO_SUMS and server.has_ended()


def is_served_behind(program, other):
    """Whether a client that has connected and sent all while another one is served is answered, and then the program ends."""
    with Server(program, 2) as server, server.connect() as first, server.connect() as second:
        second.sendall(SUMS)
        first.sendall(other)
        first.shutdown(socket.SHUT_WR)
        return received(first) != NO_SUMS and received(second) == NO_SUMS and server.has_ended()


def answer_behind(connection, pieces):
    """What is answered to a client that sends all these pieces; a reset is an error."""
    got = b""
    for piece in pieces:
        connection.sendall(piece)
    while piece := connection.recv(65_536):
        got += piece
    return got


def is_long_body_refused(program, size):
    """Whether each client gets its answer that sends a body which is refused by its length, in pieces of this size."""
    pieces = [LONG_BODY[at : at + size] for at in range(0, len(LONG_BODY), size)]
    with Server(program, TRIES) as server:
        for _ in range(TRIES):
            with server.connect() as connection:
                if answer_behind(connection, pieces) != TOO_LONG:
                    return False
        return server.has_ended()


def is_rest_taken(program, size):
    """Whether each client that has its answer, of a body which is refused by its length, may send what is left of that body."""
    with Server(program, TRIES) as server:
        for _ in range(TRIES):
            with server.connect() as connection:
                connection.sendall(LONG_BODY[:size])
                if connection.recv(len(TOO_LONG), socket.MSG_WAITALL) != TOO_LONG:
                    return False
                for at in range(size, len(LONG_BODY), size):
                    connection.sendall(LONG_BODY[at : at + size])
                if connection.recv(1):
                    return False
        return server.has_ended()


def ends_so(program, words, status, printed, port):
    """Whether `serve` ends so within moments, and nobody listens at the port."""
    words = [program, "serve", *words, "--port", str(port), "--count", "1"]
    ran = subprocess.run(words, stdin=subprocess.DEVNULL, stdout=subprocess.PIPE, timeout=MOMENTS, check=False)
    with socket.socket() as probe:
        return (ran.returncode, ran.stdout) == (status, printed) and probe.connect_ex((HOST, port)) != 0


def is_no_desk_told(program, port):
    """Whether a file that is none of a desk's is told before anybody may come at this port, and stays as it is."""
    with tempfile.TemporaryDirectory() as folder:
        with open(f"{folder}/{DB}", "wb") as file:
            file.write(NO_DESK)
        is_told = ends_so(program, over(f"{folder}/{DB}"), FAULT, b"fault 50\n", port)
        return is_told and read(f"{folder}/{DB}") == NO_DESK


def is_no_desk_told_first(program):
    """Whether that is told where the port is in use too: the file is looked at before the port."""
    with socket.socket() as taken:
        taken.bind((HOST, 0))
        return is_no_desk_told(program, taken.getsockname()[1])


def is_closed_where_port_is_used(program):
    """Whether a desk that cannot listen closes its file."""
    with tempfile.TemporaryDirectory() as folder, socket.socket() as taken:
        taken.bind((HOST, 0))
        is_told = ends_so(program, over(f"{folder}/{DB}"), FAULT, b"fault io\n", taken.getsockname()[1])
        return is_told and os.listdir(folder) == [DB]


def is_usage(program, words):
    ran = subprocess.run([program, "serve", *words], stdin=subprocess.DEVNULL, stdout=subprocess.PIPE, timeout=PATIENCE)
    return ran.returncode == USAGE


def fault_of(is_so, *given):
    """Why something is not so of a program; where nobody is at the port, or none comes to an end, it is not."""
    try:
        return "" if is_so(*given) else "not as it must be"
    except (OSError, subprocess.TimeoutExpired) as error:
        return str(error)


def serve(program, folder, *scripts):
    """Lets clients at the program: the cases of a folder, the requests of scripts, and bad ones."""
    for case in sorted(path[: -len(".stdout")] for path in glob.glob(f"{folder}/*.stdout")):
        yield case, fault_of(is_case_answered, program, case)
        yield f"{case} over a file", fault_of(is_case_answered_over_a_file, program, case)
    for script in scripts:
        yield script, fault_of(is_script_answered, program, script)
        yield f"{script} over a file", fault_of(is_script_continued, program, script)
        yield f"{script}, killed", fault_of(is_kept_where_killed, program, script, is_nothing_asked)
        yield f"{script}, killed and played", fault_of(is_kept_where_killed, program, script, is_asked_again)
        yield f"{script}, closed by a failure", fault_of(is_closed_for_good, program, script)
    yield "a file that is no desk's", fault_of(is_no_desk_told, program, free_port())
    yield "a file that is no desk's, and a port that is in use", fault_of(is_no_desk_told_first, program)
    yield "a file, and a port that is in use", fault_of(is_closed_where_port_is_used, program)
    for manner in MANNERS:
        yield manner.__name__, fault_of(is_next_one_served, program, manner)
    yield "one behind another", fault_of(is_served_behind, program, SUMS[:10])
    for size in 100_000, 1_000:
        yield f"a long body by {size}", fault_of(is_long_body_refused, program, size)
    yield "the rest of a long body", fault_of(is_rest_taken, program, 1_000)
    for words in WRONG_WORDS:
        yield f"words {words}", fault_of(is_usage, program, words)
