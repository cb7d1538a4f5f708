"""The plain program: exit status and printed bytes for its words and its standard input."""

from .blocks import Refused, read_block
from .books import EMPTY
from .checking import check, explain
from .codes import isin_fault
from .connections import responses
from .folders import take
from .journal import journal
from .messages import fields_text, read_message
from .reports import report
from .scripts import MOST_SCRIPT, books_after, play


def answer_isin(code):
    fault = isin_fault(code.encode())
    return (1, fault.encode() + b"\n") if fault else (0, b"valid\n")


def answer_read(mt, text):
    """What `desk read` prints of a message's text, and its status."""
    try:
        return 0, fields_text(read_message(mt, read_block(text))) + b"\n"
    except Refused as refused:
        return 1, refused.text() + b"\n"


def tell(books, words):
    """What `desk report` or `desk journal` prints of books."""
    return (journal if words[0] == "journal" else report)(books, words[1:])


def answer_told(words, script):
    """What one of them prints of a new desk behind a script, and its status."""
    if len(script) > MOST_SCRIPT:
        return 3, b"fault io\n"
    return 0, tell(books_after(script), words)


def answer(words, given):
    """The answer to words that are no usage. Those that serve are given all that each connection sends, and those that take a
    folder its files, each a name and what it holds; they have an answer for each."""
    if words[:1] == ["isin"]:
        return answer_isin(words[1])
    if words[:1] == ["read"]:
        return answer_read(int(words[1]), given)
    if words[:1] == ["check"]:
        return check(given)
    if words[:1] == ["explain"]:
        return explain()
    if words[:1] == ["serve"]:
        return responses(given)
    if words[:1] == ["drop"]:
        return 0, dict(take(EMPTY, given)[1])
    if words[:1] in (["report"], ["journal"]):
        return answer_told(words, given)
    return play(given)
