"""A program's `serve`, and a client of it."""

import http.client
import socket
import subprocess

from .play import without_found

HOST = "127.0.0.1"

# the most seconds that a client waits: more than the ten after which the desk gives up a silent one
PATIENCE = 30


def free_port():
    with socket.socket() as probe:
        probe.bind((HOST, 0))
        return probe.getsockname()[1]


def over(db):
    """The words behind a subcommand that name the desk's file; none for a desk in memory."""
    return [] if db is None else ["--db", db]


class Server:
    """A program that serves so many connections; it must then end by itself, with status 0 and nothing more said."""

    def __init__(self, program, count, surroundings=None, db=None):
        self.port = free_port()
        words = [program, "serve", *over(db), "--port", str(self.port), "--count", str(count)]
        # what a library that is loaded before the C library tells there is waited for by `end`
        told = None if surroundings is None else subprocess.PIPE
        self.process = subprocess.Popen(
            words, stdin=subprocess.DEVNULL, stdout=subprocess.PIPE, stderr=told, env=surroundings
        )
        self.said = self.process.stdout.readline()

    def __enter__(self):
        return self

    def __exit__(self, *_):
        self.kill()
        self.process.stdout.close()

    def listens(self):
        return self.said == b"listening %d\n" % self.port

    def end(self):
        """Its status, once it has ended, with what it printed behind its first line, and what it told as an error, but for what was found."""
        printed, told = self.process.communicate(timeout=PATIENCE)
        return self.process.returncode, printed, told and without_found(told)

    def kill(self):
        """Kills it at once: nothing more is written, and nothing is closed in order."""
        self.process.kill()
        self.process.wait()

    def has_ended(self):
        try:
            status, printed, _ = self.end()
        except subprocess.TimeoutExpired:
            return False
        return self.listens() and (status, printed) == (0, b"")

    def connect(self):
        connection = socket.create_connection((HOST, self.port), timeout=PATIENCE)
        connection.setsockopt(socket.IPPROTO_TCP, socket.TCP_NODELAY, 1)
        return connection

    def response(self, pieces, stays_open=False):
        """What is answered to a connection that sends these pieces, then its end unless it stays open."""
        with self.connect() as connection:
            try:
                for piece in pieces:
                    connection.sendall(piece)
                if not stays_open:
                    connection.shutdown(socket.SHUT_WR)
            except OSError:
                # answered and closed before all was read
                pass
            return received(connection)

    def answer(self, method, target, body):
        """What is answered to a request, as `play` writes it."""
        client = http.client.HTTPConnection(HOST, self.port, timeout=PATIENCE)
        try:
            client.request(method, target, body)
            response = client.getresponse()
            kind = response.getheader("Message-Type")
            head = str(response.status) + (f" {kind}" if kind else "")
            return head.encode() + b"\n" + response.read() + b"\n.\n"
        finally:
            client.close()


def received(connection):
    got = b""
    try:
        while piece := connection.recv(65_536):
            got += piece
    except ConnectionResetError:
        pass
    return got
