"""Why a text is no message, in plain words: the line of the text in which the fault stands, counted from 1, and the words."""

import re

from . import messages
from .blocks import Refused, lines_of, read_block
from .codes import DECIMALS, expected_check_digit, isin_fault, read_currency, read_day

ROWS = {it.word: it for it in vars(messages).values() if isinstance(it, messages.Row)}


def first_that_fits(cases):
    """The words of the first of these cases that holds."""
    return next(words for holds, words in cases if holds)


# the text as a block


def why_no_block(text, lines):
    begins = {b"\xef\xbb\xbf": "the text begins with a byte order mark"}
    begins |= dict.fromkeys([b"{1:", b"{2:", b"{3:"], "the text begins with a block 1, 2 or 3")
    for front, words in begins.items():
        if text.startswith(front):
            return 1, words
    if lines[:1] == [b"{4:"] and b"\n" in text:
        return len(lines), "the text ends before its -}"
    return 1, first_that_fits([
        (not text, "the text is empty"),
        ((lines or [text])[0].startswith(b"{4:\r"), "a carriage return without line feed stands behind {4:"),
        (b"\n" not in text, "the text has no line feed"),
        (True, "the first line is not {4:"),
    ])


NAMES_OF_BYTES = {9: "a tab, ", 13: "a carriage return without line feed, "}


def why_no_line(line):
    odd = re.search(rb"[^\x20-\x7e]", line)
    if odd:
        byte = line[odd.start()]
        return f"here stands {NAMES_OF_BYTES.get(byte, '')}the byte 0x{byte:02X}, in column {odd.start() + 1}"
    return first_that_fits([
        (re.match(rb"(-\})?\{5:", line), "a block 5 begins here"),
        (line.startswith(b"-}"), "something stands behind -}"),
        (line.startswith(b"-"), "the line begins with a hyphen"),
        (re.match(rb":16[RS]:(?![A-Z0-9]{1,16}$)", line), "the name of the sequence is not 1 to 16 capitals or digits"),
        (re.match(rb":[0-9]{2}[A-Z]?:", line), "the line may not stand here"),
        (re.match(rb":[0-9]{2}[a-z]:", line), "the letter of the tag is in lower case"),
        (line.startswith(b":"), "no tag of two digits and a letter stands between the first two colons"),
        (line == b"", "the line is empty, and no value goes on here"),
        (True, "no value goes on here"),
    ])


def why_no_nesting(lines, number):
    opened = []
    for at, line in enumerate(lines[: number - 1], 1):
        if line.startswith(b":16R:"):
            opened.append(at)
        elif line.startswith(b":16S:"):
            opened.pop()
    line, named = lines[number - 1], lambda it: f"{it}, {lines[it - 1][5:].decode()}"
    if line.startswith(b":16R:"):
        return "more than 16 sequences would be open"
    if not opened:
        return "no sequence is open here"
    if line.startswith(b":16S:"):
        return f"the sequence to be closed here is that of line {named(opened[-1])}"
    return f"a sequence is still open, that of line {named(opened[-1])}"


# the fields


def front_of(row):
    """What the value of a row's field begins with."""
    return b":%s/" % row.qualifier if row.qualifier else b""


def has_lower_case(text):
    return re.search(rb"[a-z]", text) is not None


def why_missing(row, fields):
    """Why a row has no field, and the field that was most likely meant to be it."""
    front = front_of(row)
    here = [it for it in fields if it.path == row.path]

    def is_other_option(field):
        return len(field.tag) == 3 and field.tag[:2] == row.tags[0][:2] and field.lines[0].startswith(front)

    def is_misspelt(field):
        spelt = field.lines[0][:6].lower() == front.lower()
        return field.tag in row.tags and (field.lines[0].startswith(front[1:]) or spelt)

    for field in filter(is_other_option, here):
        return field.number, f"it stands here with an option that is not read: {chr(field.tag[2])}"
    for field in filter(is_misspelt, here):
        if field.lines[0].startswith(front[1:]):
            return field.number, "one colon stands before its qualifier, where two must"
        return field.number, "its qualifier has a letter in lower case"
    for field in fields:
        if field.tag in row.tags and field.lines[0].startswith(front):
            return field.number, "it stands here, and not in its own sequence"
    return 1, "it stands nowhere"


def why_no_shape(text):
    """Why a text is not digits, one comma, digits."""
    return first_that_fits([
        (text == b"", "the number is missing"),
        (b" " in text, "a space stands in the number"),
        (text[:1] in (b"-", b"+"), "the number has a sign"),
        (b"." in text and b"," not in text, "a point stands in the number, and no comma"),
        (b"." in text, "a point stands in the number, and a comma too"),
        (re.search(rb"[^0-9,]", text), "a character of the number is neither digit nor comma"),
        (b"," not in text, "the number has no comma"),
        (text.startswith(b","), "the number begins with a comma"),
        (text.count(b",") > 1, "the number has more than one comma"),
    ])


def why_no_number(text, decimals):
    if not re.fullmatch(rb"[0-9]+,[0-9]*", text):
        return why_no_shape(text)
    too_many = text.split(b",")[1][decimals:].strip(b"0")
    return first_that_fits([
        (len(text) > 15, "the number is longer than 15 characters"),
        (too_many, f"the number has too many decimals; the most are {decimals}"),
        (True, "the number is 0"),
    ])


def why_no_amount(_, text):
    currency = text[:3]
    if read_currency(currency):
        return why_no_number(text[3:], DECIMALS[currency])
    return first_that_fits([
        (text[:1] == b"N" and text[1:4] in DECIMALS, "N, the sign of a negative amount, stands before the currency"),
        (has_lower_case(currency), "a letter in lower case stands where the currency must"),
        (re.fullmatch(rb"[A-Z]{3}", currency), "the currency is none of these: CHF EUR GBP JPY KWD USD"),
        (True, "the amount does not begin with a currency of three letters"),
    ])


def why_no_quantity(_, text):
    if re.match(rb"(UNIT|FAMT)/", text):
        return why_no_number(text[5:], 0)
    return first_that_fits([
        (has_lower_case(text[:4]), "a letter in lower case stands where UNIT or FAMT must"),
        (text[:4] in (b"UNIT", b"FAMT"), "no slash stands directly behind UNIT or FAMT"),
        (True, "the quantity begins with neither UNIT/ nor FAMT/"),
    ])


def why_no_security(line):
    if not line.startswith(b"ISIN "):
        return "the first line does not begin with ISIN and a space"
    isin = line[5:]
    if has_lower_case(isin):
        return "a letter in lower case stands in the first line behind ISIN and a space"
    fault = isin_fault(isin)
    return {
        "length": "not twelve characters stand in the first line behind ISIN and a space",
        "prefix": "the ISIN does not begin with two letters",
        "body": "the ISIN has a character that is no letter and no digit",
    }.get(fault) or f"the check digit of the ISIN should be {expected_check_digit(isin[:11])}"


def why_no_day(tag, text):
    if tag == b"98C" and not re.fullmatch(rb"[0-9]{14}", text):
        return "the day and the time are not fourteen digits"
    if tag == b"98A" and not re.fullmatch(rb"[0-9]{8}", text):
        return "the day is not eight digits"
    assert read_day(text[:8]) is None
    return "the calendar has no such date"


def why_no_reference(_, text):
    return first_that_fits([
        (len(text) > 16, "the reference is longer than 16 characters"),
        (text.startswith(b"/"), "the reference begins with a slash"),
        (text.endswith(b"/"), "the reference ends with a slash"),
        (b"//" in text, "two slashes stand together in the reference"),
    ])


def why_no_party(_, text):
    return first_that_fits([
        (has_lower_case(text), "a letter in lower case stands behind the two slashes"),
        (len(text) not in (8, 11), "not 8 or 11 characters stand behind the two slashes"),
        (True, "a character of the BIC may not stand in its place"),
    ])


def why_no_settlement(_, text):
    return first_that_fits([
        (has_lower_case(text), "a letter in lower case stands behind SETR"),
        (b"/" not in text, "one slash stands behind SETR, where two must"),
        (True, "its form is neither //TRAD nor /ISSUER/TRAD, with one to eight capitals or digits for ISSUER and four for TRAD"),
    ])


def why_no_function(_, text):
    if has_lower_case(text):
        return "a letter in lower case stands in the value"
    return "the function has not the form NEWM or NEWM/CODE"


def why_no_account(_, text):
    assert len(text) > 35
    return "the account is longer than 35 characters"


VALUES = {
    b"23G": why_no_function,
    b"SEME": why_no_reference,
    b"PREV": why_no_reference,
    b"DATE": why_no_day,
    b"36B": why_no_quantity,
    b"SAFE": why_no_account,
    b"SETR": why_no_settlement,
    b"PSET": why_no_party,
    b"DEAG": why_no_party,
    b"REAG": why_no_party,
    b"19A": why_no_amount,
}


def why_no_value(row, field):
    """Why the value of a row's one field does not fit."""
    line, *further = field.lines
    if row is messages.SECURITY:
        return why_no_security(line)
    if further:
        return "the value has a second line"
    # between the slashes of 22F an issuer may stand
    front = front_of(row) + (b"/" if row.qualifier not in (None, b"SETR") else b"")
    if not line.startswith(front):
        return "two slashes must stand behind the qualifier"
    text = line[len(front) :]
    return VALUES[row.word](field.tag, text) if text else "the value is empty"


def why_no_fields(fields, number, word):
    """Why the fields of a block say no message, by what it is refused with."""
    row = ROWS[word]
    found = [it for it in fields if messages.belongs(it, row)]
    if number == b"5":
        return why_missing(row, fields)
    if number == b"6":
        return found[1].number, f"it stands here too, first in line {found[0].number}"
    if number == b"7":
        return found[0].number, why_no_value(row, found[0])
    return found[0].number, "the function is neither NEWM nor CANC"


def why_no_message(mt, text):
    """The line and the words; None of a text that is a message."""
    lines = lines_of(text)
    try:
        fields = read_block(text)
    except Refused as refused:
        number, *line = refused.args
        if number == b"1":
            return why_no_block(text, lines)
        if number == b"4":
            return 1, "the text has more than 65,536 bytes"
        at = int(line[0])
        return at, why_no_line(lines[at - 1]) if number == b"2" else why_no_nesting(lines, at)
    try:
        messages.read_message(mt, fields)
    except Refused as refused:
        number, word = (*refused.args, b"23G")[:2]
        return why_no_fields(fields, number, word)
    return None
