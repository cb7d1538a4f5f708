"""Trials of the random scripts, streams, folders, reports, journals and damaged requests: whether the plain program, playing some
scripts, serving some days, taking some folders, reporting and telling the journal some times, and checking some scripts, gives each
kind of answer, of row and of reason, and is asked in each kind of words."""

import json
import re
from pathlib import Path

from generate.chance import Chance
from generate.comparing import DEFAULT_SEED
from generate.comparing_reasons import findings_in
from generate.comparing_streams import is_heard_out
from generate.damaged_requests import EACH, damaged_script
from generate.folders import random_folder
from generate.inputs import journal_input, report_input
from generate.scripts import random_script
from generate.streams import random_streams, sent_by
from plain.books import EMPTY
from plain.checking import check
from plain.connections import responses
from plain.folders import take
from plain.journal import journal
from plain.reports import PARTS, report
from plain.scripts import answers_to, books_after

from .room import TOP

SCRIPTS = 250
DAYS = 60
# as many as the gate takes
FOLDERS = 24
REPORTS = 150
JOURNALS = 150
CHECKS = 32


def op(name, answer):
    return rb'op\n.*"op"\s*:\s*"%s"' % name, answer


def advice(function, *lines):
    """What a status advice has: its function, and these further lines in their order."""
    return b".*".join([rb".*:23G:" + function, *lines, b""])


def narrative(number):
    return rb":70D::REAS//DESK %d\r" % number


# each kind of answer: what the request begins with and has, and what its answer is
EVENTS = {
    "no request": (rb"", rb"400\nrefused 41"),
    "an unreadable command": (rb"op", rb"400\nrefused 30"),
    **{f"a message refused with {it}": (rb"in ", rb"400\nrefused %d( .*)?" % it) for it in range(1, 9)},
    **{
        f"{name} accepted": op(name.encode(), rb"200\naccepted \d+")
        for name in ("participant", "account", "security", "issue", "redeem", "payin", "payout")
    },
    **{
        f"{name} refused with {it}": op(name.encode(), rb"422\nrefused %d" % it)
        for name, numbers in {
            "participant": (31, 32),
            "account": (31, 32, 33),
            "security": (31, 32),
            "issue": (31, 34, 35, 36),
            "redeem": (31, 34, 35, 37),
            "payin": (31, 33, 36),
            "payout": (31, 33, 37),
            "run": (31, 38),
        }.items()
        for it in numbers
    },
    "a run that settles nothing": op(b"run", rb"200\naccepted \d+ settled 0 waiting 0"),
    "a run that settles all": op(b"run", rb"200\naccepted \d+ settled [1-9] waiting 0"),
    "a run that settles some": op(b"run", rb"200\naccepted \d+ settled [1-9] waiting [1-9]"),
    "a run that settles none of some": op(b"run", rb"200\naccepted \d+ settled 0 waiting [1-9]"),
    **{
        f"an instruction refused with {it}": (rb"in ", rb"422 548\n" + advice(b"INST", narrative(it)))
        for it in (10, 11, 12, 13, 14, 15, 16)
    },
    **{
        f"a cancellation refused with {it}": (rb"in ", rb"422 548\n" + advice(b"CAST", narrative(it)))
        for it in (10, 11, 17, 18, 19, 22)
    },
    **{
        f"an MT{it} unmatched": (rb"in ", rb"200 548\n" + advice(b"INST", b":13A::LINK//%d" % it, rb"NMAT//CMIS"))
        for it in (540, 541, 542, 543)
    },
    **{
        f"an MT{it} matched": (rb"in ", rb"200 548\n" + advice(b"INST", b":13A::LINK//%d" % it, rb"PEND//FUTU"))
        for it in (540, 541, 542, 543)
    },
    "a cancellation done": (rb"in ", rb"200 548\n" + advice(b"CAST", rb"CPRC//CAND")),
    "a cancellation that waits": (rb"in ", rb"200 548\n" + advice(b"CAST", rb"CPRC//PACK")),
    "a status of a stranger": (rb"status ", rb"422\nrefused 10"),
    "a status of no message": (rb"status ", rb"422\nrefused 17"),
    **{
        f"an instruction's status {it.decode()}": (rb"status ", rb"200 548\n" + advice(b"INST", it))
        for it in (b"NMAT//CMIS", b"PEND//FUTU", b"PEND//LACK", b"PEND//MONY", b"IPRC//CAND")
    },
    **{
        f"a cancellation's status {it.decode()}": (rb"status ", rb"200 548\n" + advice(b"CAST", it))
        for it in (b"CPRC//CAND", b"CPRC//PACK", b"CPRC//REJT.*DESK 19")
    },
    **{f"a status that is an MT{it}": (rb"status ", rb"200 %d\n.*" % it) for it in (544, 545, 546, 547)},
    **{f"a sent MT{it}": (rb"sent ", rb"200 %d\n.*" % it) for it in (544, 545, 546, 547, 548)},
    "a sent message of a stranger": (rb"sent ", rb"422\nrefused 10"),
    "message 0": (rb"sent \w+ 0+\n", rb"422\nrefused 42"),
    "no such message": (rb"sent \w+ 0*[1-9]", rb"422\nrefused 42"),
    "holdings of a stranger": (rb"holdings ", rb"422\nrefused 10"),
    "holdings of another's account": (rb"holdings \w+ [AB]-1\n", rb"422\nrefused 15"),
    "holdings of no account": (rb"holdings \w+ ([^ABCa].*)?\n", rb"422\nrefused 15"),
    "no holdings": (rb"holdings ", rb"200 535\n.*:17B::ACTI//N.*"),
    "holdings before any run": (rb"holdings ", rb"200 535\n.*:98A::STAT//19700101.*ACTI//Y.*"),
    "holdings after a run": (rb"holdings ", rb"200 535\n.*:98A::STAT//202.*ACTI//Y.*"),
    "holdings in units and by face amount": (rb"holdings ", rb"200 535\n.*(//UNIT/.*//FAMT/|//FAMT/.*//UNIT/).*"),
    "sums without cash": (rb"sums", rb'200\n{"cash":\[\],.*'),
    "sums with a currency that is back at 0": (rb"sums", rb'200\n.*"held":0,"net":0.*'),
    "sums of two currencies": (rb"sums", rb'200\n.*"net":\d+},{"ccy".*'),
}


# each kind of response: its status, the type of its message where it has one, and its text
RESPONSES = {
    "accepted": (200, None, rb"accepted .*"),
    "sums": (200, None, rb"{.*"),
    "refused by the rules": (422, None, rb"refused (10|1[57]|3[1-8]|42)"),
    "an unreadable command": (400, None, rb"refused 30"),
    "an unreadable message": (400, None, rb"refused [1-8]( [^ ]*)?"),
    "an advice": (200, 548, rb"{4:.*"),
    "an advice of a refusal": (422, 548, rb"{4:.*DESK.*"),
    "a statement": (200, 535, rb"{4:.*"),
    "a confirmation of a delivery": (200, rb"54[67]", rb"{4:.*"),
    "a confirmation of a receipt": (200, rb"54[45]", rb"{4:.*"),
    **{f"a {it}": (it, None, rb"refused %d" % it) for it in (400, 404, 405, 411, 413, 431)},
}


def pattern_of(status, mt, text):
    """A response of this kind."""
    of_type = b"Message-Type: %s\r\n" % (mt if isinstance(mt, bytes) else b"%d" % mt) if mt else b""
    fields = rb"Content-Type: text/plain\r\n%sConnection: close\r\n" % of_type
    return re.compile(rb"HTTP/1\.1 %d [A-Za-z ]+\r\n%s\r\n%s" % (status, fields, text), re.DOTALL)


def days(count, seed=DEFAULT_SEED):
    """The streams of so many days of a seed, each with the responses of which it gets one."""
    for number in range(count):
        streams = random_streams(Chance(seed, number))
        yield from zip(streams, responses(map(sent_by, streams)))


def trials_of_streams():
    asked = list(days(DAYS))
    of_days = f"in {DAYS} days of random streams there is"
    for name, kind in RESPONSES.items():
        seen = sum(bool(pattern_of(*kind).fullmatch(some[0])) for _, some in asked)
        yield f"{of_days} {name}", seen > 0, (seen, "")
    kinds = {
        "one that may be refused in two ways": lambda stream, some: len(some) > 1,
        "one that is answered before its end": lambda stream, _: stream.stays_open and is_heard_out(stream),
        "one that is answered behind its end": lambda stream, _: not is_heard_out(stream),
        "one that comes in pieces": lambda stream, _: len(stream.pieces) > 1,
        "one that comes byte by byte": lambda stream, _: len(stream.pieces) == len(sent_by(stream)) > 1,
    }
    for name, is_one in kinds.items():
        seen = sum(is_one(*it) for it in asked)
        yield f"{of_days} {name}", seen > 0, (seen, "")


# each kind of answer to a file: its name, the answer, and what it is answered the second time, where that is another
NAMED = {
    "a command accepted": (rb".*\.json", rb"200\naccepted \d+\n\.\n", None),
    "a message accepted": (rb".*\.fin", rb"200 548\n.*", None),
    "a run that settles": (rb".*\.json", rb"200\naccepted \d+ settled [1-9].*", None),
    "an unreadable command": (rb".*\.json", rb"400\nrefused 30\n.*", None),
    "an unreadable message": (rb".*\.fin", rb"400\nrefused [1-8] .*", None),
    "a message that is too long": (rb".*\.fin", rb"400\nrefused 4\n.*", None),
    "an advice of a refusal": (rb".*\.fin", rb"422 548\n.*", None),
    "a message of a head office with XXX": (rb"[A-Z]{8}XXX\..*", rb"[24]\d\d 548\n.*", None),
    "a message of a branch": (rb"[A-Z]{8}ABC\..*", rb"[24]\d\d 548\n.*", None),
    "a message that is called nothing": (rb"[A-Z]{8,11}\.54[0-3]\.\.fin", rb"[24]\d\d 548\n.*", None),
    "a command with a message's name within": (rb"[A-Z]{8,11}\.54[0-3]\..*\.json", rb"200\n.*", None),
    "a command whose name is no ASCII": (rb"[^\x00-\x7f]+.*\.json", rb"200\n.*", None),
    "a name in small letters": (rb"[a-z]{8}\.54[0-3]\..*\.fin", rb"422\nrefused 40\n.*", None),
    "a name with an end in capitals": (rb".*\.(FIN|JSON)", rb"422\nrefused 40\n.*", None),
    "a name of three parts": (rb"[A-Z]{8,11}\.54[0-3]\.fin", rb"422\nrefused 40\n.*", None),
    "a name of another type": (rb"[A-Z]{8,11}\.(5[0-35-9]\d|54[4-9])\..*\.fin", rb"422\nrefused 40\n.*", None),
    "a command that is accepted later": (rb".*\.json", rb"422\n.*", rb"200\n.*"),
    "a message that is accepted later": (rb".*\.fin", rb"422 548\n.*", rb"200 548\n.*"),
}


def trials_of_folders():
    seen, alike = dict.fromkeys(NAMED, 0), 0
    for number in range(FOLDERS):
        files = random_folder(Chance(DEFAULT_SEED, number))
        books, first = take(EMPTY, files)
        _, second = take(books, files)
        alike += len(files) - len({name.lower() for name, _ in files})
        for (name, answer), (_, later) in zip(first, second):
            for kind, patterns in NAMED.items():
                asked = name.removesuffix(b".out"), answer, later
                seen[kind] += all(it is None or re.fullmatch(it, text, re.DOTALL) for it, text in zip(patterns, asked))
    for kind, count in {**seen, "two names that differ in case alone": alike}.items():
        yield f"in {FOLDERS} random folders there is {kind}", count > 0, (count, "")


def number_of(row):
    """The number of a pending pair."""
    return max(row[side]["number"] for side in ("deliverer", "receiver"))


def values(found, part, member):
    """What the rows of a part have in a member."""
    return {row[member] for row in found[part]}


def parts_in(words):
    return [it for it in words if it in PARTS]


# each kind of row of the parts of a report, of a report, and of its words
STANDING = {
    "pending": {
        "FUTU": lambda row: row["reason"] == "FUTU",
        **{f"{it} and lacks": lambda row, it=it: row["reason"] == it and row["lacking"] for it in ("LACK", "MONY")},
        **{f"{it} and lacks 0": lambda row, it=it: row["reason"] == it and row["lacking"] == 0 for it in ("LACK", "MONY")},
        "LACK of a pair against payment": lambda row: row["reason"] == "LACK" and row["ccy"],
        "LACK of a face amount": lambda row: row["reason"] == "LACK" and row["kind"] == "FAMT",
        **{f"MONY of {it}": lambda row, it=it: row["reason"] == "MONY" and row["ccy"] == it for it in ("EUR", "JPY", "KWD")},
        "cancellation asked by who delivers": lambda row: row["deliverer"]["cancel"] and not row["receiver"]["cancel"],
        "cancellation asked by who receives": lambda row: row["receiver"]["cancel"] and not row["deliverer"]["cancel"],
        "both sides of one participant": lambda row: row["deliverer"]["bic"] == row["receiver"]["bic"],
        "both sides of one account": lambda row: row["deliverer"]["account"] == row["receiver"]["account"],
        "an earlier receipt": lambda row: row["receiver"]["number"] < row["deliverer"]["number"],
        "a reference that JSON escapes": lambda row: set('"\\') & set(row["receiver"]["ref"]),
    },
    "unmatched": {
        **{f"an MT{it}": lambda row, it=it: row["mt"] == it for it in (540, 541, 542, 543)},
        "none that comes near": lambda row: row["nearest"] is None,
        **{
            f"a difference in {it} alone": lambda row, it=it: row["nearest"] and row["nearest"]["differs"] == [it]
            for it in ("quantity", "day", "payment", "currency", "amount")
        },
        "three differences": lambda row: row["nearest"] and len(row["nearest"]["differs"]) == 3,
        "a nearest one that comes later": lambda row: row["nearest"] and row["nearest"]["number"] > row["number"],
        "a nearest one of the same participant": lambda row: row["nearest"] and row["bic"] == row["counterparty"],
    },
    "accounts": {
        "nothing": lambda row: row["quantity"] is None,
        "units": lambda row: row["kind"] == "UNIT",
        "a face amount": lambda row: row["kind"] == "FAMT",
    },
    "cash": {it: lambda row, it=it: row["ccy"] == it for it in ("CHF", "EUR", "GBP", "JPY", "KWD", "USD")},
}
REPORTED = {
    "nothing in each part": lambda found: not any(found[it] for it in STANDING),
    "pairs in another order than by number": lambda found: found["pending"] != sorted(found["pending"], key=number_of),
    "a nearest one to which another one is nearer": lambda found: any(
        row["nearest"] and row["nearest"]["number"] == other["number"] and other["nearest"]["number"] != row["number"]
        for row in found["unmatched"]
        for other in found["unmatched"]
    ),
    "an account with two securities": lambda found: len(values(found, "accounts", "account")) < len(found["accounts"]),
    "a participant with two currencies": lambda found: len(values(found, "cash", "bic")) < len(found["cash"]),
    "an account of one without cash": lambda found: values(found, "accounts", "owner") - values(found, "cash", "bic"),
}
ASKED = {
    "all parts": lambda words: words == ["report"],
    "all parts as JSON": lambda words: words == ["report", "--json"],
    **{f"{it} alone": lambda words, it=it: parts_in(words) == [it] for it in PARTS},
    "one part as JSON": lambda words: len(parts_in(words)) == 1 and "--json" in words,
    "a part twice": lambda words: len(set(words)) < len(words),
    "parts in another order": lambda words: parts_in(words) != sorted(parts_in(words), key=list(PARTS).index),
    "--json before a part": lambda words: "--json" in words[:-1],
}


def trials_of_reports():
    in_parts = {f"{kind} in {part}": (part, is_one) for part, kinds in STANDING.items() for kind, is_one in kinds.items()}
    seen = dict.fromkeys([*in_parts, *REPORTED, *ASKED], 0)
    for number in range(REPORTS):
        words, script = report_input(Chance(DEFAULT_SEED, number))
        found = json.loads(report(books_after(b"".join(script)), ["--json"]))
        for kind, (part, is_one) in in_parts.items():
            seen[kind] += any(is_one(row) for row in found[part])
        for kind, is_one in REPORTED.items():
            seen[kind] += bool(is_one(found))
        for kind, is_one in ASKED.items():
            seen[kind] += is_one(words)
    for kind, count in seen.items():
        yield f"of {REPORTS} random reports some have {kind}", count > 0, (count, "")


def is_op(op, row, **members):
    """Whether a row of a journal is of an operation, and its command has these members."""
    return row["command"]["op"] == op and all(row["command"][name] == value for name, value in members.items())


def fares(state, row, **members):
    """The same of how it fares by now."""
    return row["outcome"]["state"] == state and all(row["outcome"][name] == value for name, value in members.items())


def is_settled_again(found, row):
    """Whether an instruction was settled in a run that was not the first one of its day."""
    return fares("settled", row) and any(
        is_op("run", other, day=row["outcome"]["day"]) and other["number"] < row["outcome"]["entry"] for other in found
    )


def first_in(words):
    return int(words[words.index("--from") + 1]) if "--from" in words else None


# each kind of row of a journal, of a journal, and of its words, beside the number of its entries
ENTERED = {
    **{
        f"{op} booked": lambda row, op=op: is_op(op, row) and fares("booked", row)
        for op in ("participant", "account", "security", "issue", "redeem", "payin", "payout")
    },
    **{f"a pay in of {it}": lambda row, it=it: is_op("payin", row, ccy=it) for it in ("CHF", "EUR", "GBP", "JPY", "KWD", "USD")},
    **{
        f"an MT{mt} {state}": lambda row, mt=mt, state=state: is_op("instruct", row, mt=mt) and fares(state, row)
        for mt in (540, 541, 542, 543)
        for state in ("unmatched", "matched", "settled", "cancelled")
    },
    **{f"a pair matched with {it}": lambda row, it=it: fares("matched", row, reason=it) for it in ("FUTU", "LACK", "MONY")},
    "an instruction of a face amount": lambda row: is_op("instruct", row, kind="FAMT"),
    "an instruction of one participant with itself": lambda row: is_op("instruct", row, counterparty=row["sender"]),
    "an instruction of a branch": lambda row: is_op("instruct", row) and len(row["sender"]) == 11,
    "one cancelled without a mate": lambda row: fares("cancelled", row, mate=None),
    "one cancelled with a mate": lambda row: fares("cancelled", row) and row["outcome"]["mate"] is not None,
    **{f"a cancellation {it}": lambda row, it=it: is_op("cancel", row) and fares(it, row) for it in ("done", "waits", "late")},
    "a run that settles nothing": lambda row: fares("ran", row, settled=0, waiting=0),
    "a run that settles all": lambda row: fares("ran", row, waiting=0) and row["outcome"]["settled"] > 1,
    "a run that leaves some": lambda row: fares("ran", row, settled=0) and row["outcome"]["waiting"] > 1,
    "a run that settles and leaves some": lambda row: fares("ran", row) and min(row["outcome"][it] for it in ("settled", "waiting")),
    "two confirmations to one participant": lambda row: len({it["bic"] for it in row["messages"]}) < len(row["messages"]) < 3,
    **{f"an MT{mt} sent": lambda row, mt=mt: mt in [it["mt"] for it in row["messages"]] for mt in (544, 545, 546, 547, 548)},
    "a tenth message": lambda row: any(it["number"] == 10 for it in row["messages"]),
    "a reference that JSON escapes": lambda row: set('"\\') & set(row["ref"]),
}
JOURNALED = {
    "nothing": lambda found: not found,
    "what a second run of a day settled": lambda found: any(is_settled_again(found, row) for row in found),
    "one reference of two senders": lambda found: len({row["ref"] for row in found}) < len(found),
    "an advice between two runs": lambda found: any(
        row["messages"] and row["sender"] and any(is_op("run", it) for it in found[: row["number"]]) for row in found
    ),
}
ASKED_FROM = {
    "all entries": lambda words, _: words == ["journal"],
    "all entries as JSON": lambda words, _: words == ["journal", "--json"],
    "those from 1 on": lambda words, _: first_in(words) == 1,
    "those from one on": lambda words, count: 1 < (first_in(words) or 0) < count,
    "none, behind the last": lambda words, count: count < (first_in(words) or 0),
    "--from alone": lambda words, _: words[1:2] == ["--from"] and len(words) == 3,
    "--from before --json": lambda words, _: words[1:2] == ["--from"] and "--json" in words,
    "--json before --from": lambda words, _: words[1:3] == ["--json", "--from"],
}


def trials_of_journals():
    seen = dict.fromkeys([*ENTERED, *JOURNALED, *ASKED_FROM], 0)
    for number in range(JOURNALS):
        words, script = journal_input(Chance(DEFAULT_SEED, number))
        found = json.loads(journal(books_after(b"".join(script)), ["--json"]))["journal"]
        for kind, is_one in ENTERED.items():
            seen[kind] += any(is_one(row) for row in found)
        for kind, is_one in JOURNALED.items():
            seen[kind] += bool(is_one(found))
        for kind, is_one in ASKED_FROM.items():
            seen[kind] += is_one(words, len(found))
    for kind, count in seen.items():
        yield f"of {JOURNALS} random journals some have {kind}", count > 0, (count, "")


# where the program has its reasons, and those that nobody is told: what no reader answers, and of a body in a script, which ends with
# a line feed, that it has none
REASONS = "crates/desk_reasons/src/words.rt", "crates/desk_findings/src/commands/fault.rt", "crates/desk_findings/src/lines/fault.rt"
NEVER = {"is too long", "does not end with its check digit", "the BIC is none"}
NEVER |= {f"the {it} does not fit" for it in ("number", "ISIN", "security", "BIC", "party", "day", "account", "reference", "value")}
NEVER |= {"the text has no line feed"}


def reasons_of_program():
    """The words of its reasons, and what finds them in what is told."""
    for path in REASONS:
        for words in re.findall(r'"([^"]+)"', Path(TOP, path).read_text(encoding="utf-8")):
            if words != "{name} {words}":
                yield words, re.compile(re.sub(r"\\{[a-z]+\\}", ".+", re.escape(words)) + ("$" if words in NEVER else ""))


def trials_of_reasons():
    told = set()
    for number in range(CHECKS):
        _, script, _ = damaged_script(Chance(DEFAULT_SEED, number * EACH), EACH)
        told |= {it.words for it in findings_in(script, check(script)[1]).values()}
    for words, form in reasons_of_program():
        seen = any(form.search(it) for it in told)
        of_none = "none" if words in NEVER else "one"
        yield f"of {CHECKS * EACH} damaged requests {of_none} is told: {words}", seen != (words in NEVER), (seen, "")


def answered(script):
    """The requests of a script and what the plain program answers, each as one text."""
    return [(line + b"\n" + (body or b""), answer[: -len(b"\n.\n")]) for line, body, answer in answers_to(script)]


def counts(scripts, seed=DEFAULT_SEED):
    """How often each kind of answer comes in so many scripts of a seed."""
    kinds = {name: [re.compile(it, re.DOTALL) for it in patterns] for name, patterns in EVENTS.items()}
    seen = dict.fromkeys(EVENTS, 0)
    for number in range(scripts):
        for asked, answer in answered(b"".join(random_script(Chance(seed, number)))):
            for name, (request, reply) in kinds.items():
                seen[name] += bool(request.match(asked) and reply.fullmatch(answer))
    return seen


def trials(_):
    for name, seen in counts(SCRIPTS).items():
        yield f"in {SCRIPTS} random scripts there is {name}", seen > 0, (seen, "")
    yield from trials_of_streams()
    yield from trials_of_folders()
    yield from trials_of_reports()
    yield from trials_of_journals()
    yield from trials_of_reasons()
