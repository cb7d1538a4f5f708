"""Random damaged requests of scripts: messages and commands that were in order, and lines."""

from collections import namedtuple

from plain.reasons import why_no_message
from plain.scripts import bare, lines_with_ends

from . import command_damages, message_damages
from .damages import any_damage, damaged, stand_apart
from .messages import lines_of, random_cancellation, random_instruction

# so many damaged requests are in a script
EACH = 100

# a request: the line that asks it, the message or the command that is in order, and its damages; of a line, the words that tell it,
# None where these are not known
Damaged = namedtuple("Damaged", "head whole damages")
Line = namedtuple("Line", "text words")


def body_of(pieces):
    """Pieces as they stand in a script."""
    text = b"".join(pieces)
    return text if text.endswith(b"\n") or text == b"" else text + b"\n"


def left_of(request, mended):
    return [it for it in request.damages if it not in mended]


def stands(request, mended):
    """What stands in the body where these damages are mended: pairs of where a piece comes from, and it."""
    return damaged(request.whole.pieces, left_of(request, mended))


def text_of(request, mended=()):
    """A request in a script, where these damages are mended."""
    if isinstance(request, Line):
        return request.text
    return request.head + body_of([piece for _, piece in stands(request, mended)]) + b".\n"


def ways(request):
    """The damages that are mended each time that a request is asked: none, each, and all."""
    if isinstance(request, Line):
        return [[]]
    each = [[it] for it in request.damages]
    return [[], *each, request.damages] if len(each) > 1 else [[], *each]


def some_damages(chance, whole, known):
    """One damage or two apart from each other, of known kinds or of any."""
    damages = []
    for _ in range(chance.pick((1, 2, 2))):
        damage = known(chance, whole) if chance.happens(65) else whole.any_damage(chance)
        if damage and damage.edits and stand_apart([*damages, damage]):
            damages.append(damage)
    return damages


def random_message(chance, mt):
    """A message that can be read; what is made may have a number that is too long."""
    make = random_instruction if chance.happens(85) else random_cancellation
    end = chance.pick((b"\n", b"\n", b"\r\n"))
    lines = [line + end for line in lines_of(chance, make(chance, mt))]
    return random_message(chance, mt) if why_no_message(mt, b"".join(lines)) else message_damages.Message(mt, lines)


def damaged_message(chance):
    mt = chance.pick((540, 541, 542, 543))
    whole = random_message(chance, mt)
    head = b"in %b %d\n" % (chance.pick((b"ALPHDEFF", b"BETADEFFXXX", b"ZZZZDEFF")), mt)
    return Damaged(head, whole, some_damages(chance, whole, message_damages.of_message))


def damaged_command(chance):
    whole = command_damages.Command(chance)
    return Damaged(b"op\n", whole, some_damages(chance, whole, command_damages.of_command))


def has_stop(request):
    """Whether a line that is a full stop ends a body too early."""
    return any(bare(it) == b"." for way in ways(request) for it in lines_with_ends(text_of(request, way))[1:-1])


def damaged_body(chance):
    """A message or a command with a damage at least."""
    while True:
        request = (damaged_message if chance.happens(65) else damaged_command)(chance)
        if request.damages and not has_stop(request):
            return request


def wrong_line(chance):
    """A line that asks nothing, or that was damaged at random."""
    kinds = chance.pick((command_damages.LINES, command_damages.HEADS, None))
    words = kinds and chance.pick(list(kinds))
    line = chance.pick(kinds[words] if kinds else command_damages.ASKING)
    for damage in [] if kinds else [any_damage(chance, [line, b""])]:
        line = b"".join(piece for _, piece in damaged([line, b""], [damage] if damage else [])).replace(b"\n", b"")
    has_body = line.split(b" ")[0] in (b"op", b"in")
    return Line(line + b"\n" + (b"{4:\n# no comment\n\n-}\n.\n" if has_body else b""), words)


def random_request(chance):
    return wrong_line(chance) if chance.happens(12) else damaged_body(chance)


def without_end(chance):
    """A request at the end of a script that has no full stop."""
    text = text_of(damaged_body(chance)).removesuffix(b".\n")
    return Line(text, "no line with a full stop alone ends the body")


BETWEEN = b"# a note\n", b"\n", b"sums\n", b"status ALPHDEFF A1\n", b"\r\n", b"# op\n\n"


def script_of(chance, requests):
    """A script, and of each request the lines at which it is asked, each way."""
    texts, lines, at = [], [], 1
    for request in requests:
        lines.append([])
        for way in ways(request):
            between = chance.pick(BETWEEN) if chance.happens(20) else b""
            texts += [between, text_of(request, way)]
            lines[-1].append(at + between.count(b"\n"))
            at += between.count(b"\n") + texts[-1].count(b"\n")
    return b"".join(texts), lines


def damaged_script(chance, count):
    """So many requests, at times one without its end behind them; the script, and of each request the lines at which it is asked."""
    requests = [random_request(chance) for _ in range(count)]
    requests += [without_end(chance)] if chance.happens(50) else []
    return requests, *script_of(chance, requests)
