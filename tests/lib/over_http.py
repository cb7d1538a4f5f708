"""The requests of a script, as they are asked over HTTP: what clients of `serve` ask, and bench/run times."""

from .play import requests_in


def requests_of(script):
    """The requests of a script in which each line is one: method, target and body."""
    return [over_http(it) for it in requests_in(script)]


def over_http(request):
    head, _, body = request.partition(b"\n")
    word, *words = head.decode().split(" ")
    if word in ("in", "op"):
        return "POST", f"/in/{words[0]}/{words[1]}" if word == "in" else "/ops", body.removesuffix(b".\n")
    if word in ("status", "holdings"):
        return "POST", f"/{word}/{words[0]}", " ".join(words[1:]).encode()
    return "GET", f"/out/{words[0]}/{words[1]}" if word == "sent" else "/sums", None


def sent_for(method, target, body):
    """What a client sends for a request, all at once."""
    length = b"" if body is None else b"Content-Length: %d\r\n" % len(body)
    return f"{method} {target} HTTP/1.1\r\n".encode() + length + b"\r\n" + (body or b"")
