"""Compares what a program's `check` tells of random scripts of damaged requests with what the plain program, tests/plain, tells, and
looks whether that can be: a request has a reason of its own exactly where it cannot be read, a known damage is told in its words at
its place, and what is told is gone where it is mended."""

import functools
import re
from collections import namedtuple

from lib.play import ran
from plain.checking import MEANINGS, check, front
from plain.scripts import lines_with_ends, numbered_items

from .chance import Chance
from .comparing import with_files, write_files
from .damaged_requests import EACH, Line, body_of, damaged_script, left_of, stands, ways
from .damages import Damage, Old, is_of
from .message_damages import OF_LINES, Message

# what cannot be read has a reason of its own; that of one number is just what the number means
UNREADABLE = {1, 2, 3, 4, 5, 6, 7, 8, 30, 41}
SAYS_ALL = 4

# what is told of a request: the number with what stands behind it, the words, and the line of the fault in the script (None: its own)
Finding = namedtuple("Finding", "refusal words at")

# that a body is no JSON, where a reader has read so many bytes at least and at most
NoJson = namedtuple("NoJson", "least most")

# the line that tells this
STOPPED = re.compile(rb"(line ([0-9]+): .* the body is no JSON, from its) line ([0-9]+), column ([0-9]+) on \(line ([0-9]+)\)")
# what a reader of JSON reads as one
TOKEN = re.compile(rb'"(?:\\.|[^"\\])*"?|[{}\[\]:,]|[^ \t\r\n{}\[\]:,"]+', re.DOTALL)


# what must be told


def place_of(origins, place):
    """The number of the line that comes from there, counted from 1; None where there is none."""
    if place in (0, -1):
        return 1 if place == 0 else len(origins)
    return origins.index(place) + 1 if place in origins else None


def told_of_message(origins, told):
    """The rank of what must be told of a known damage alone, and that; None where another damage took its place."""
    at, named = place_of(origins, told.place), told.named and place_of(origins, told.named)
    if at is None or (told.named and named is None):
        return None
    # a text that only ends too early has no wrong line
    where = at if told.place != -1 else len(origins) + 1
    rank = (*told.rank, where) if told.rank == (OF_LINES,) else told.rank
    refusal = told.refusal + b" %d" % at if told.refusal in (b"2", b"3") else told.refusal
    return rank, Finding(refusal, told.words % named if named else told.words, at)


def told_of_command(found, told):
    if told.place == 0:
        return told.rank, Finding(told.refusal, told.words, 1)
    origins = [origin for origin, _ in found]
    if told.place not in origins:
        return None
    # a reader stops at what is damaged, or has read what stands behind it
    ends = [sum(len(piece) for _, piece in found[: at + 1]) for at in range(len(found))]
    first = next(at for at, origin in enumerate(origins) if is_of(Damage([told.named]), origin))
    most = ends[min(origins.index(told.place) + 2, len(ends) - 1)]
    return told.rank, NoJson(ends[first] - len(found[first][1]) + 1, most + 1)


def fault_of_stop(finding, wanted, body, begin):
    """In what it is told otherwise that a body is no JSON."""
    stop = re.fullmatch(r"the body is no JSON, from its line ([0-9]+), column ([0-9]+) on", finding.words) if finding else None
    if not stop:
        return f"{finding!r} where it is no JSON"
    read = read_at(body, int(stop[1]), int(stop[2]))
    is_right = any(wanted.least <= it <= wanted.most for it in read) and finding.at == begin + int(stop[1])
    return "" if is_right else f"{finding!r}, byte {read}, where one of {wanted!r} is wanted"


def known_finding(request, mended):
    """What must be told of a request that has damages of known kinds alone; None of any other."""
    told = [it.told for it in left_of(request, mended)]
    groups = [it.group for it in told if it and it.group]
    if not told or None in told or len(set(groups)) < len(groups):
        return None
    found = stands(request, mended)
    if request.head == b"op\n":
        each = [told_of_command(found, it) for it in told]
    else:
        each = [told_of_message([origin for origin, _ in found], it) for it in told]
    return None if None in each else min(each, key=lambda it: it[0])[1]


# what is told


def findings_in(script, printed):
    """What printed lines tell, by the line at which the request begins."""
    lines = {number: line for number, line, _ in numbered_items(script)}
    findings = {}
    for text in printed.split(b"\n"):
        number = re.match(rb"line ([0-9]+): ", text)
        head = number and b"line %b: %b: refused " % (number[1], front(lines.get(int(number[1]), b"")))
        found = number and text.startswith(head) and re.fullmatch(rb"([^:]*): (.*?)(?: \(line ([0-9]+)[,)].*)?", text[len(head) :])
        if found:
            at = found[3] and int(found[3])
            findings[int(number[1])] = Finding(found[1], found[2].decode(errors="replace"), at)
    return findings


def number_of(finding):
    return int(finding.refusal.split(b" ")[0])


def is_unreadable(finding):
    return finding is not None and number_of(finding) in UNREADABLE


def fault_of_reason(finding, begin, end):
    """In what the reason of a request that stands in these lines of a script is none that it may have."""
    number = number_of(finding)
    is_own = finding.words != MEANINGS.get(number)
    if is_own != (number in UNREADABLE) and number != SAYS_ALL:
        return f"line {begin}: {'it has a reason of its own, and is read' if is_own else 'it has no reason of its own'}"
    # what stands behind the line that asks is a body
    is_within = begin < finding.at <= end if finding.at else begin == end or number == 41
    return "" if is_within else f"line {begin}: the fault stands in line {finding.at}, and the request ends in line {end}"


# it says one of them
ONE_OF_MANY = "a member is there that this op does not have"

# what is told, by the line alone at which it is told
OF_ITS_LINE = re.compile(
    "here stands|the line begins with|the name of the sequence|the letter of the tag|no tag of|a block 5|the function|the reference "
    "|the day|the calendar|the ISIN|the check digit|the first line does|the quantity|the code|no slash|the account|two slashes|four "
    "|the BIC|a character|a letter in lower case|not |its form|one slash|the amount|the currency|N, |the number|a point|a space|no digit|the value is empty"
)


def origin_in(found, words, at, whole):
    """Where what is told of a body comes from: pairs of the place of a piece, and how many bytes of it are read."""
    if isinstance(whole, Message):
        lines = [at, *(int(it) for it in re.findall(r"line ([0-9]+)", words))]
        return [(found[it - 1][0], 0) for it in lines if 0 < it <= len(found)]
    stop = re.search(r"line ([0-9]+), column ([0-9]+)", words)
    if not stop:
        name = words.split(" ")[0]
        return [(Old(whole.place(name)), 0)] if name in whole.order else []
    lines = lines_with_ends(body_of([piece for _, piece in found]))
    left = sum(map(len, lines[: int(stop[1]) - 1])) + int(stop[2])
    for origin, piece in found:
        if left <= len(piece):
            return [(origin, left)]
        left -= len(piece)
    return [(None, left)]


class Case:
    """A damaged request, and what is told of it each way in which it is asked."""

    def __init__(self, request, lines, findings):
        self.request, self.ways = request, ways(request)
        self.lines, self.findings = lines, [findings.get(it) for it in lines]

    def origins(self, way):
        """Where what is told in a way comes from."""
        finding, found = self.findings[way], stands(self.request, self.ways[way])
        return origin_in(found, finding.words, (finding.at or self.lines[way]) - self.lines[way], self.request.whole)

    def is_again(self, way, damage):
        """Whether a way in which a damage is mended tells what the first one tells, in its place."""
        first, second = self.findings[0], self.findings[way]
        same_number = second and first.refusal.split(b" ")[:1] + row_in(first) == second.refusal.split(b" ")[:1] + row_in(second)
        if not same_number or without_places(first.words) != without_places(second.words):
            return False
        places = self.origins(0), self.origins(way)
        return len(places[0]) == len(places[1]) and all(one == other or is_of(damage, other[0]) for one, other in zip(*places))

    def faults_of_mending(self):
        """In what something is told where it is mended, or at what was not damaged."""
        first = self.findings[0]
        if is_unreadable(self.findings[-1]):
            yield "what is mended fully is refused"
        if not is_unreadable(first):
            return
        origins = [origin for origin, _ in self.origins(0)]
        damages = [it for it in self.request.damages if any(is_of(it, origin) for origin in origins)]
        if origins and not damages and OF_ITS_LINE.match(first.words) and self.was_right(origins[0]):
            yield "it is told at what was not damaged"
        # what is nested wrongly may be told far from the line that is missing
        mended = damages if damages and number_of(first) != 3 else self.request.damages
        again = [self.is_again(1 + self.request.damages.index(it), it) for it in mended]
        if all(again) and not first.words.startswith(ONE_OF_MANY):
            yield "it is told where it is mended"

    def was_right(self, origin):
        """Whether what comes from there is a line that was there, and of a field the one that its row has."""
        if not isinstance(self.request.whole, Message) or not isinstance(origin, Old):
            return False
        row = row_in(self.findings[0])
        return not row or origin.number == self.request.whole.first_of(row[0])

    def faults_of_words(self):
        """In what known damages are told otherwise."""
        for way, finding in enumerate(self.findings):
            wanted = known_finding(self.request, self.ways[way])
            if isinstance(wanted, NoJson):
                body = body_of([piece for _, piece in stands(self.request, self.ways[way])])
                fault = fault_of_stop(finding, wanted, body, self.lines[way])
                yield from [f"line {self.lines[way]}: {fault}"] if fault else []
            elif wanted and finding != wanted._replace(at=self.lines[way] + wanted.at):
                yield f"line {self.lines[way]}: {finding!r} where {wanted!r} is wanted, counted from there"


def row_in(finding):
    """The word of the row of which something is told; nothing where that is none."""
    return [it for it in finding.refusal.split(b" ")[1:] if not it.isdigit()]


def without_places(words):
    return re.sub(r"line [0-9]+|column [0-9]+ on", "", words)


def faults_of(request, lines, findings):
    if isinstance(request, Line):
        found = findings.get(lines[0])
        if request.words and found != Finding(b"41", request.words, None):
            yield f"line {lines[0]}: {found!r} where {request.words!r} is wanted"
        return
    case = Case(request, lines, findings)
    yield from case.faults_of_words()
    yield from case.faults_of_mending()


# scripts


def lines_by_request(printed):
    """The printed lines by the line at which the request begins; under 0 the others."""
    found = {}
    for line in printed.split(b"\n"):
        number = re.match(rb"line ([0-9]+): ", line)
        found.setdefault(int(number[1]) if number else 0, []).append(line)
    return found


def read_at(body, line, column):
    """How many bytes may be read up to this column of this line: the first one is told too where nothing of it is."""
    begin = sum(map(len, lines_with_ends(body)[: line - 1]))
    return [begin, begin + 1] if column == 1 else [begin + column]


def is_near(told, due, body):
    """Whether it is told that a body is no JSON, at or a little behind the token that is none."""
    one, other = (STOPPED.fullmatch(it[0]) if it and len(it) == 1 else None for it in (told, due))
    if not one or not other or one[1] != other[1] or int(one[5]) != int(one[2]) + int(one[3]):
        return False
    read = read_at(body, int(one[3]), int(one[4]))
    return any(is_near_to(stop, it, body) for stop in read_at(body, int(other[3]), int(other[4])) for it in read)


def is_near_to(stop, read, body):
    """Whether so many bytes are read by a reader that stops at the token at which another stops, or a little behind it."""
    tokens = [it.span() for it in TOKEN.finditer(body)]
    first = next((at for at, (_, end) in enumerate(tokens) if end >= stop - 1), len(tokens) - 1)
    least = tokens[first][0] + 1 if tokens else 0
    most = tokens[first + 3][0] + 1 if first + 3 < len(tokens) else len(body)
    return min(least, stop) <= read <= most


def differences(script, printed, wanted):
    """What printed lines tell; and in what they are others than those that are wanted, or cannot be, by the line at which the
    request begins."""
    told, due, findings = lines_by_request(printed), lines_by_request(wanted), findings_in(script, printed)
    bodies = {number: body for number, _, body in numbered_items(script)}
    differing = [it for it in {*told, *due} if told.get(it) != due.get(it) and not is_near(told.get(it), due.get(it), bodies.get(it))]
    faults = {it: f"{told.get(it)} where {due.get(it)} is wanted" for it in differing}
    for number, line, body in numbered_items(script):
        end = number + (len(lines_with_ends(body)) + 1 if body is not None and body is not False else 0)
        if number in findings and fault_of_reason(findings[number], number, end):
            faults.setdefault(number, fault_of_reason(findings[number], number, end))
    return findings, faults


def write_out(script, printed, wanted, folder, name):
    """Writes a script, what came and what the plain program tells."""
    write_files(folder, name, {"stdin": script, "stdout": wanted, "got": printed})


def tried_script(program, name, chance, count):
    """Each of so many requests of a script, and the script."""
    requests, script, lines = damaged_script(chance, count)
    status, printed, _ = ran(program, "check", given=script)
    due, wanted = check(script)
    findings, faults = differences(script, printed, wanted)
    keep = functools.partial(write_out, script, printed, wanted)
    for number, (request, own) in enumerate(zip(requests, lines)):
        found = [faults.pop(it) for it in own if it in faults]
        yield f"{name}_{number}", "; ".join([*found, *faults_of(request, own, findings)]), keep
    if status != due:
        faults.setdefault(0, f"status {status}")
    yield name, "; ".join(faults.values()), keep


def explained(program):
    """Whether the program explains each number as the plain one does."""
    told = ran(program, "explain")[1].split(b"\n")
    for number, words in MEANINGS.items():
        is_told = f"refused {number}: {words}".encode() in told
        yield f"explain_{number}", "" if is_told else "it means something else", lambda folder, name: None


def compared_reasons(program, count, seed):
    """Compares so many damaged requests of a seed."""

    def found():
        yield from explained(program) if count else []
        for number in range(0, count, EACH):
            yield from tried_script(program, f"reasons_{seed}_{number}", Chance(seed, number), min(EACH, count - number))

    return with_files(found())
