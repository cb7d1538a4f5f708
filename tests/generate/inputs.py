"""Random input of a program: its words, and its standard input in parts, what connections send to it, or the files of a
folder."""

from plain.scripts import lines_with_ends

from .damaged_requests import EACH, damaged_script
from .folders import random_folder
from .messages import random_text
from .reports import journal_words, random_words, report_script
from .scripts import random_script
from .spellings import spelled_commands
from .streams import random_streams, sent_by


def script_input(chance):
    return ["play"], random_script(chance)


def commands_input(chance):
    return ["play"], spelled_commands(chance)


def block_input(chance):
    mt = chance.pick((540, 541, 542, 543))
    return ["read", str(mt)], lines_with_ends(random_text(chance, mt))


def check_input(chance):
    return ["check"], [damaged_script(chance, EACH)[1]]


def stream_input(chance):
    return ["serve"], [sent_by(stream) for stream in random_streams(chance)]


def folder_input(chance):
    return ["drop"], random_folder(chance)


def report_input(chance):
    return random_words(chance), report_script(chance)


def journal_input(chance):
    return journal_words(chance), report_script(chance)


def told_input(chance):
    """Input of a report or of a journal."""
    return (report_input if chance.happens(50) else journal_input)(chance)
