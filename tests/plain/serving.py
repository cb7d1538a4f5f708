"""Serves connections plainly, one after another, on a new desk: what tests/plain/desk does for `serve`."""

import socket

from .books import EMPTY
from .connections import served


def serve_one(client, books):
    """The books after a connection, which is answered as soon as what it has sent decides."""
    stream, outcome = b"", None
    while outcome is None:
        piece = client.recv(65_536)
        stream += piece
        outcome = served(books, stream, has_ended=piece == b"")
    books, some = outcome
    client.sendall(some[0])
    return books


def serve(port, count):
    """Serves so many connections at a port, once it has told that it listens. One that fails counts and is passed
    over."""
    books = EMPTY
    with socket.create_server(("127.0.0.1", port)) as listener:
        print("listening", port, flush=True)
        for _ in range(count):
            client, _ = listener.accept()
            with client:
                try:
                    books = serve_one(client, books)
                except OSError:
                    pass
