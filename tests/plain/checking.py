"""A plain `desk check` (docs/PROGRAM.md): plays a script, and tells of each refused request why and where."""

import re

from .books import EMPTY
from .faults import command_reference, front, why_no_command, why_no_request
from .reasons import why_no_message
from .scripts import MOST_SCRIPT, ask_item, bare, lines_with_ends, numbered_items

# what each number means, as `desk explain` tells it
MEANINGS = {
    1: "the text is no block 4: its first line is not {4:, or its -} is missing",
    2: "a line of the text may not stand there; its number is told behind the refusal",
    3: "a line opens or closes a sequence wrongly; its number is told behind the refusal",
    4: "the text has more than 65,536 bytes",
    5: "a field that the message must have is missing; its word is told behind the refusal",
    6: "a field stands more than once; its word is told behind the refusal",
    7: "the value of a field does not fit; its word is told behind the refusal",
    8: "the function of the message, field 23G, is neither NEWM nor CANC",
    10: "the sender of the message or the question is no participant",
    11: "the sender used this reference for another message",
    12: "the place of settlement, field 95P PSET, is another than DESKDEFF",
    13: "the security of the instruction is not registered",
    14: "the security is counted otherwise, in units (UNIT) or in face amount (FAMT)",
    15: "the safekeeping account is another's, or there is none of this number",
    16: "the counterparty, field 95P DEAG or REAG, is no participant",
    17: "the sender has no accepted instruction of this reference and type; of a question, no message of it",
    18: "the instruction that is to be cancelled is cancelled already",
    19: "the instruction that is to be cancelled is settled",
    22: "a cancellation of this instruction waits already for that of the other side",
    30: "the operator's command cannot be read",
    31: "the operator used this reference for another command",
    32: "the participant, the account or the security is there already",
    33: "the participant that the command names is not registered",
    34: "the account that the command names is not there",
    35: "the security that the command names is not registered",
    36: "more would be outstanding of the security, or paid in of the currency, than the desk counts",
    37: "the account holds less than is to be redeemed, or the participant has less than is to be paid out",
    38: "the day of the run is before that of the last run",
    41: "the line of the script asks nothing that the desk knows, or its body has no end",
    42: "the participant was not sent so many messages",
}


def explain():
    """What `desk explain` prints of these numbers, but for what is to be done, and its status."""
    return 0, "".join(f"refused {number}: {words}\n" for number, words in MEANINGS.items()).encode()


def told_by(reply):
    """The number that an answer tells, and what stands behind it; None of an answer of status 200."""
    found = re.search(rb"(?:^refused |:70D::REAS//DESK )([0-9]{1,2})([^\r\n]*)", reply.text)
    return (int(found[1]), found[2]) if reply.status != 200 and found else None


def message_reference(text):
    """What the first line of a text gives as a reference that may give one, in whichever sequence."""
    fronts = [bare(it).partition(b":20C::SEME//") for it in lines_with_ends(text)]
    return next((rest for before, found, rest in fronts if found and not before), b"")


def reason(line, body):
    """At which line behind its own the fault of a request stands (0: at its own), the reference that it gives itself, and why it
    cannot be read (None where it can)."""
    words = why_no_request(line) or (body is False and "no line with a full stop alone ends the body")
    if words:
        return 0, b"", words
    if body is None:
        return 0, b"", None
    is_command = line == b"op"
    reference = command_reference(body) if is_command else message_reference(body)
    at, words = (why_no_command(body) if is_command else why_no_message(int(line[-3:]), body)) or (1, None)
    return at, reference, words


def within(number, at, reference):
    """In which line the fault stands, and of which reference."""
    named = b", reference " + front(reference) if reference else b""
    return b" (line %d%b)" % (number + at, named) if at else b""


def line_of(number, line, body, told):
    """The line that tells why a request is refused."""
    refusal, behind = told
    at, reference, words = reason(line, body)
    why = (words or MEANINGS[refusal]).encode()
    parts = number, front(line), refusal, front(behind), why, within(number, at, reference)
    return b"line %d: %b: refused %d%b: %b%b\n" % parts


def check(script):
    """The exit status and what is printed of a script."""
    if len(script) > MOST_SCRIPT:
        return 3, b"fault io\n"
    books, count, numbers, lines = EMPTY, 0, [], []
    for number, line, body in numbered_items(script):
        count += 1
        books, reply = ask_item(books, line, body)
        told = told_by(reply)
        if told:
            numbers.append(told[0])
            lines.append(line_of(number, line, body, told))
    sums = [b"refused %d: %d\n" % (it, numbers.count(it)) for it in sorted(set(numbers))]
    sums.append(b"%d requests, %d refused\n" % (count, len(numbers)))
    return 1 if numbers else 0, b"".join(lines + sums)
