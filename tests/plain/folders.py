"""A plain taker of the files of a folder (docs/PROGRAM.md, 'Folders'): what each asks by its name, in which order they are taken,
and the answers with their names."""

import re

from .codes import read_bic
from .desk import Reply
from .scripts import ask_command, ask_message, shown

NO_NAME = Reply(422, None, b"refused 40")


def sender_and_type(name):
    """Whose message a file of this name is, and of which type; None where it is none."""
    parts = name.split(b".")
    if len(parts) < 4 or parts[-1] != b"fin" or not re.fullmatch(rb"54[0-3]", parts[1]):
        return None
    sender = read_bic(parts[0])
    return (sender, int(parts[1])) if sender else None


def ask_file(books, name, content):
    """The books after a file was asked, and the reply."""
    if name.endswith(b".json"):
        return ask_command(books, content)
    message = sender_and_type(name)
    return ask_message(books, *message, content) if message else (books, NO_NAME)


def take(books, files):
    """The books after the files of a folder, each a name and what it holds, were taken, and the answers, each with its name, as
    they are written."""
    answers = []
    for name, content in sorted(files):
        books, reply = ask_file(books, name, content)
        answers.append((name + b".out", shown(reply)))
    return books, answers
