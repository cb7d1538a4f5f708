"""Trials of `tests/parts/http serve`, with one case and a made-up program that serves it: as it must, and with one thing broken."""

from .room import fails, part, passes, write, write_script

ASKED = b"GET /sums HTTP/1.1\r\n\r\n"
ANSWERED = b'HTTP/1.1 200 OK\r\nContent-Type: text/plain\r\nConnection: close\r\n\r\n{"cash":[],"securities":[]}'
REFUSED = b"HTTP/1.1 413 Payload Too Large\r\nContent-Type: text/plain\r\nConnection: close\r\n\r\nrefused 413"

SERVER = """
import socket, sys
names, values = sys.argv[2::2], sys.argv[3::2]
if len(names) != len(values) or len(names) != len(set(names)):
    sys.exit(2)
words = dict(zip(names, values))
try:
    port, count = int(words["--port"]), int(words["--count"])
    if not (0 < port < 65536 and 0 < count <= 1000000):
        sys.exit(2)
except (KeyError, ValueError):
    sys.exit(2)
try:
    if PORT_FIRST:
        socket.create_server(("127.0.0.1", port)).close()
except OSError:
    print("fault io")
    sys.exit(3)
if "--db" in words:
    with open(words["--db"], "a+b") as file:
        file.seek(0)
        if file.read():
            print(NOT_OURS)
            sys.exit(3)
try:
    listener = socket.create_server(("127.0.0.1", port))
except OSError:
    open(words["--db"] + BESIDE, "ab").close()
    print("fault io")
    sys.exit(3)
print("listening", port + ELSEWHERE, flush=True)
for _ in range(count + FEWER):
    client, _ = listener.accept()
    client.settimeout(0.5)
    got = b""
    try:
        while b"\\r\\n\\r\\n" not in got and (piece := client.recv(1024)):
            got += piece
        if got == ASKED:
            client.sendall(ANSWERED)
        elif b"Content-Length: 70000" in got:
            client.sendall(REFUSED)
            if READS_ON:
                client.shutdown(socket.SHUT_WR)
                while client.recv(65536):
                    pass
            else:
                client.setsockopt(socket.SOL_SOCKET, socket.SO_LINGER, b"\\1\\0\\0\\0\\0\\0\\0\\0")
    except OSError:
        pass
    client.close()
print(end=LAST)
sys.exit(STATUS)
"""

SOUND = {
    "ELSEWHERE": 0,
    "FEWER": 0,
    "LAST": "",
    "STATUS": 0,
    "ASKED": ASKED,
    "ANSWERED": ANSWERED,
    "REFUSED": REFUSED,
    "READS_ON": True,
    "NOT_OURS": "fault 50",
    "PORT_FIRST": False,
    "BESIDE": "",
}


def served(room, **broken):
    """How that ends with a program of which this is broken."""
    names = "\n".join(f"{name} = {value!r}" for name, value in {**SOUND, **broken}.items())
    write(f"{room}/server.py", names + SERVER)
    write_script(f"{room}/desk", f"exec python3 {room}/server.py \"$@\"")
    return part(room, "http serve", f"{room}/desk", "cases")


def trials(room):
    write(f"{room}/cases/sums.stdin", ASKED.decode())
    write(f"{room}/cases/sums.stdout", ANSWERED.decode())
    yield passes("a program that serves", served(room), "27 passed, 0 failed\n")
    yield fails("another answer", served(room, ANSWERED=ANSWERED + b" "), "http serve: cases/sums: not as it must be\n")
    yield fails("it listens elsewhere", served(room, ELSEWHERE=1), "http serve: cases/sums: not as it must be\n")
    # (its client finds it ending, or gone)
    yield fails("it serves too few", served(room, FEWER=-1), "http serve: cases/sums: ")
    yield fails("it says more at its end", served(room, LAST="x"), "http serve: cases/sums: not as it must be\n")
    yield fails("it ends with another status", served(room, STATUS=1), "http serve: cases/sums: not as it must be\n")
    why = "http serve: a file that is no desk's: not as it must be\n"
    yield fails("another fault of a file", served(room, NOT_OURS="fault 51"), why)
    why = "http serve: a file that is no desk's, and a port that is in use: not as it must be\n"
    yield fails("a port that is looked at before the file", served(room, PORT_FIRST=True), why)
    why = "http serve: a file, and a port that is in use: not as it must be\n"
    yield fails("a log that is left", served(room, BESIDE="-wal"), why)
    yield fails("a reset", served(room, READS_ON=False), "http serve: the rest of a long body: [Errno ")
    yield fails("another refusal", served(room, REFUSED=ANSWERED), "http serve: a long body by 1000: not as it must be\n")
