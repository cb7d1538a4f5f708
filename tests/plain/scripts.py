"""A plain player of scripts on a new desk (docs/PROGRAM.md, 'Scripts')."""

import re

from .blocks import MOST_BYTES, Refused, read_block
from .books import EMPTY
from .codes import read_bic
from .commands import NoCommand, read_command
from .desk import Reply, ask, holdings, sent, status, sums
from .entries import Cancel, Instruct
from .messages import Cancellation, read_message

MOST_LINE = 1_024
MOST_SCRIPT = 16_777_216
NOT_ASKED = Reply(400, None, b"refused 41")


def lines_with_ends(script):
    """The lines of a script, each with its line feed where it has one."""
    return re.findall(rb"[^\n]*\n|[^\n]+", script)


def bare(line):
    """A line without its line feed, and without a carriage return right before that."""
    if line.endswith(b"\r\n"):
        return line[:-2]
    return line[:-1] if line.endswith(b"\n") else line


def numbered_items(script):
    """What a script asks: the number of a line, the line and its body, which is None where there is none, and False where the
    script ends before it does."""
    rest = enumerate(lines_with_ends(script), 1)
    for number, whole in rest:
        line = bare(whole)
        if line == b"" or line.startswith(b"#"):
            continue
        body = read_body(rest) if line.split(b" ")[0] in (b"in", b"op") else None
        yield number, line, body


def items_of(script):
    """The same without the numbers."""
    return [(line, body) for _, line, body in numbered_items(script)]


def read_body(rest):
    """The lines up to a full stop, as they stand; False where none comes."""
    body = []
    for _, whole in rest:
        if bare(whole) == b".":
            return b"".join(body)[: MOST_BYTES + 1]
        body.append(whole)
    return False


def ask_command(books, body):
    try:
        return ask(books, read_command(body))
    except NoCommand:
        return books, Reply(400, None, b"refused 30")


def ask_message(books, sender, mt, body):
    try:
        message = read_message(mt, read_block(body))
    except Refused as refused:
        return books, Reply(400, None, refused.text())
    return ask(books, (Cancel if isinstance(message, Cancellation) else Instruct)(sender, message))


# the lines that begin with a word and a BIC, by what stands behind these
FORMS = {
    b"in": rb"54[0-3]",
    b"status": rb".*",
    b"sent": rb"[0-9]{1,9}",
    b"holdings": rb".*",
}


def ask_participants(books, word, bic, rest, body):
    """The books after a line with this word, BIC and rest was asked, and the answer."""
    if word == b"in":
        return ask_message(books, bic, int(rest), body)
    if word == b"sent":
        return books, sent(books, bic, int(rest))
    return books, (status if word == b"status" else holdings)(books, bic, rest)


def ask_item(books, line, body):
    """The books after an item of a script, and its answer."""
    if len(line) > MOST_LINE or body is False:
        return books, NOT_ASKED
    if line == b"op":
        return ask_command(books, body)
    if line == b"sums":
        return books, sums(books)
    word, _, behind = line.partition(b" ")
    written, blank, rest = behind.partition(b" ")
    bic = read_bic(written)
    if word in FORMS and bic and blank and re.fullmatch(FORMS[word], rest):
        return ask_participants(books, word, bic, rest, body)
    return books, NOT_ASKED


def shown(reply):
    """An answer as it is printed."""
    of_type = b" %d" % reply.type if reply.type else b""
    return b"%d%s\n%s\n.\n" % (reply.status, of_type, reply.text)


def answers_to(script):
    """The items of a script, each as its line, its body and its answer as it is printed."""
    books, answers = EMPTY, []
    for line, body in items_of(script):
        books, reply = ask_item(books, line, body)
        answers.append((line, body, shown(reply)))
    return answers


def books_after(script):
    """The books of a new desk behind a script."""
    books = EMPTY
    for line, body in items_of(script):
        books, _ = ask_item(books, line, body)
    return books


def play(script):
    """The exit status and the printed answers of a script on a new desk."""
    if len(script) > MOST_SCRIPT:
        return 3, b"fault io\n"
    return 0, b"".join(answer for _, _, answer in answers_to(script))
