"""A plain server of connections (docs/PROGRAM.md, 'The desk over HTTP'): what a connection asks by all that it sends, and
the response."""

import re
from collections import namedtuple

from .blocks import MOST_BYTES
from .books import EMPTY
from .codes import read_bic
from .desk import Reply, holdings, sent, status, sums
from .scripts import ask_command, ask_message, lines_with_ends

MOST_HEAD = 8_192
MOST_FIELDS = 64

PHRASES = {
    200: b"OK",
    400: b"Bad Request",
    404: b"Not Found",
    405: b"Method Not Allowed",
    411: b"Length Required",
    413: b"Payload Too Large",
    422: b"Unprocessable Entity",
    431: b"Request Header Fields Too Large",
}

# the characters of a method or of a field's name, of a target and of a field's value
TOKEN, TARGET, VALUE = rb"[!#$%&'*+.^_`|~0-9A-Za-z-]", rb"[\x21-\x7e\x80-\xff]", rb"[\t\x20-\x7e\x80-\xff]"
REQUEST_LINE = rb"(%s+) (%s+) HTTP/1\.[01]" % (TOKEN, TARGET)
FIELD_LINE = rb"(%s+):[ \t]*(%s*?)[ \t]*" % (TOKEN, VALUE)

# what such lines begin with, short of their ends
BEGUN_VERSION = b"|".join(re.escape(b"HTTP/1."[:length]) for length in range(8)) + rb"|HTTP/1\.[01]"
BEGUN_REQUEST = rb"%s*|%s+ %s*|%s+ (%s+) (%s)" % (TOKEN, TOKEN, TARGET, TOKEN, TARGET, BEGUN_VERSION)
BEGUN_FIELD = rb"%s*|%s+:%s*" % (TOKEN, TOKEN, VALUE)

# the paths, each with its word and its method
PATHS = {
    rb"/in/([^/]+)/([^/]+)": (b"in", b"POST"),
    rb"/ops": (b"op", b"POST"),
    rb"/status/([^/]+)": (b"status", b"POST"),
    rb"/holdings/([^/]+)": (b"holdings", b"POST"),
    rb"/out/([^/]+)/([^/]+)": (b"sent", b"GET"),
    rb"/sums": (b"sums", b"GET"),
}

# what a second part of a path may be, by the word of the path
SECOND_PARTS = {b"in": rb"54[0-3]", b"sent": rb"[0-9]{1,9}"}

# the head of a request: its method, its target, its fields as names and values, and where it ends
Head = namedtuple("Head", "method target fields length")

# what a connection asks: the word of its path, a BIC and a second part where the path has them, and the body
Asked = namedtuple("Asked", "word bic part body")


class NotServed(Exception):
    """What HTTP itself refuses, with one of these statuses."""


class Unfinished(Exception):
    """What is not whole yet. It has the statuses with one of which it is refused where no more comes."""


# the head


def is_text(target):
    try:
        target.decode("utf-8")
    except UnicodeDecodeError:
        return False
    return True


def refuse_head(fields):
    """Refuses what makes no head; one of too many fields may be told of these."""
    raise NotServed(400) if len(fields) <= MOST_FIELDS else NotServed(400, 431)


def begins_line(piece, has_request):
    """Whether a line may begin with this, which has no line feed."""
    if piece.endswith(b"\r"):
        whole = FIELD_LINE if has_request else REQUEST_LINE
        return piece == b"\r" or bool(re.fullmatch(whole, piece[:-1]))
    begun = re.fullmatch(BEGUN_FIELD if has_request else BEGUN_REQUEST, piece)
    return bool(begun) and (has_request or begun[1] is None or is_text(begun[1]))


def bare(line):
    return line[:-2] if line.endswith(b"\r\n") else line[:-1]


def read_head(text):
    """The head that a text begins with. Of a text that is only the beginning of one, Unfinished with its statuses where
    the head is too long for a desk, and then where the stream ends."""
    request, fields, length = None, [], 0
    *lines, last = [*lines_with_ends(text), b""] if text.endswith(b"\n") else lines_with_ends(text) or [b""]
    for whole in lines:
        line, length = bare(whole), length + len(whole)
        if request is None and line:
            request = re.fullmatch(REQUEST_LINE, line) or refuse_head(fields)
            if not is_text(request[2]):
                refuse_head(fields)
        elif request and not line:
            return Head(request[1], request[2], [it.groups() for it in fields], length)
        elif line:
            fields.append(re.fullmatch(FIELD_LINE, line) or refuse_head(fields))
    if not begins_line(last, request):
        refuse_head(fields)
    raise Unfinished(request, fields, last)


def head_of(stream):
    """The head of what a connection has sent so far, which must stand in its first bytes."""
    try:
        head = read_head(stream[:MOST_HEAD])
    except Unfinished as unfinished:
        request, fields, last = unfinished.args
        has_many = len(fields) + (last not in (b"", b"\r")) > MOST_FIELDS
        if len(stream) < MOST_HEAD:
            raise Unfinished(*(400, 431) if has_many else (400,)) from None
        ends_in_target = request is None and re.fullmatch(rb"%s+ %s*" % (TOKEN, TARGET), last)
        raise NotServed(*(400, 431) if has_many or ends_in_target else (431,)) from None
    if len(head.fields) > MOST_FIELDS:
        raise NotServed(431)
    return head


# the request


def values_of(head, name):
    """The values of the fields of this name, in whatever case."""
    return [value for it, value in head.fields if it.lower() == name]


def length_of_body(head):
    lengths = values_of(head, b"content-length")
    if values_of(head, b"transfer-encoding") or not lengths:
        raise NotServed(411)
    if len(lengths) > 1 or not re.fullmatch(rb"[0-9]{1,10}", lengths[0]):
        raise NotServed(400)
    if int(lengths[0]) > MOST_BYTES:
        raise NotServed(413)
    return int(lengths[0])


def asked_by(stream):
    """What a connection asks with what it has sent so far."""
    head = head_of(stream)
    found = [(path, re.fullmatch(path, head.target)) for path in PATHS if re.fullmatch(path, head.target)]
    if not found:
        raise NotServed(404)
    [(path, match)] = found
    word, method = PATHS[path]
    if head.method != method:
        raise NotServed(405)
    written, part = (*match.groups(), None, None)[:2]
    bic = read_bic(written) if written else None
    if (written and bic is None) or (part and not re.fullmatch(SECOND_PARTS[word], part)):
        raise NotServed(404)
    if method == b"GET":
        return Asked(word, bic, part, None)
    body = stream[head.length :][: length_of_body(head)]
    if len(body) < length_of_body(head):
        raise Unfinished(400)
    return Asked(word, bic, part, body)


def ask(books, asked):
    """The books after a request, and the desk's reply."""
    if asked.word == b"op":
        return ask_command(books, asked.body)
    if asked.word == b"in":
        return ask_message(books, asked.bic, int(asked.part), asked.body)
    if asked.word == b"sums":
        return books, sums(books)
    if asked.word == b"sent":
        return books, sent(books, asked.bic, int(asked.part))
    return books, (status if asked.word == b"status" else holdings)(books, asked.bic, asked.body)


# the response


def response(reply):
    of_type = b"Message-Type: %d\r\n" % reply.type if reply.type else b""
    head = b"HTTP/1.1 %d %s\r\nContent-Type: text/plain\r\n%sConnection: close\r\n\r\n"
    return head % (reply.status, PHRASES[reply.status], of_type) + reply.text


def not_served(statuses):
    """The responses of which one is given to what HTTP itself refuses with one of these statuses."""
    return [response(Reply(status, None, b"refused %d" % status)) for status in statuses]


def served(books, stream, has_ended=True):
    """The books after a connection that has sent this, and the responses of which it gets one; None where it is still
    to be heard out."""
    try:
        books, reply = ask(books, asked_by(stream))
    except NotServed as refused:
        return books, not_served(refused.args)
    except Unfinished as unfinished:
        return (books, not_served(unfinished.args)) if has_ended else None
    return books, [response(reply)]


def responses(streams):
    """What connections get that send these streams, one behind another, to a new desk; each one of some responses."""
    books, given = EMPTY, []
    for stream in streams:
        books, some = served(books, stream)
        given.append(some)
    return given
