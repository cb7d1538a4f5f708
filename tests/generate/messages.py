"""Random texts of settlement messages: valid ones in many spellings, and ones with a few faults."""

from collections import namedtuple

from plain.codes import DECIMALS, write_number

# what an instruction is to say, as bytes but for the type and the quantity; the cash is a currency and an amount in
# minor units, which a free one says now and then too
Instruction = namedtuple(
    "Instruction", "mt reference day isin kind quantity account counterparty place settlement cash"
)
Cancellation = namedtuple("Cancellation", "mt reference previous")

ISINS = (b"DE0007164600", b"US0378331005", b"AU0000XVGZA3")
BICS = (b"ALPHDEFF", b"BETADEFF", b"GAMMDEFF", b"ALPHDEFFABC", b"DESKDEFF")
DAYS = (b"20240228", b"20240229", b"20240301", b"20240302", b"20241231", b"20250101")
SETTLEMENTS = (b"TRAD", b"RPTO", b"OWNI", b"0000")
CASH = ((b"EUR", 100_050), (b"USD", 1), (b"JPY", 7), (b"CHF", 100), (b"GBP", 99_999_999_999_999), (b"KWD", 1_005))

ODD_REFERENCES = (b"A", b"A B", b"a/b", b" ", b"0123456789ABCDEF", b"X-1.(2)+'?:,")
BAD_REFERENCES = (b"", b"/A", b"A/", b"A//B", b"0123456789ABCDEFG", b"A\x7f", b"\xc3\x84")
ODD_ACCOUNTS = (b"a", b"//A 1//", b" ", b"x" * 35)
BAD_ACCOUNTS = (b"", b"x" * 36, b"A\t1", b"\xff")
BAD_ISINS = (b"DE0007164601", b"de0007164600", b"DE000716460", b"DE00071646000", b"DE0007164-00", b"US037833100X", b"")
BAD_BICS = (b"ALPHDEF", b"ALPHDEFFAB", b"alphdeff", b"ALPH9EFF", b"ALPHDEFFXXXX", b"", b"ALPHDEFF ")
BAD_DAYS = (
    (b"20230229", b"20240230", b"19000229", b"21000229", b"20241301", b"20240001", b"20240100", b"00000000")
    + (b"2024022", b"202402290", b"2024-2-9", b"2024022 ")
)
EDGE_DAYS = (b"00000229", b"00000101", b"99991231", b"19000228", b"20000229", b"19700101", b"21000228")
BAD_NUMBERS = (b"", b",", b"1", b",5", b"1,2,3", b"0,", b"0,00", b"-1,", b"+1,", b"1.5", b"1,x", b" 1,", b"1, ")
ZEROS = (b"0,", b"0,0", b"0,00", b"00,")
ODD_NUMBERS = (b"99999999999999,", b"999999999999999,", b"00000000000001,", b"000000000000001,", b"1,0000000000000")
FRACTIONS = (b"1,5", b"1,50", b"1,005", b"0,001", b"0,01", b"0,1", b"00,10", b"1,00000000000001", b"12345678901,234")


def spelled(chance, value, decimals=0):
    """A spelling of a number of minor units."""
    plain = write_number(value, decimals)
    if chance.happens(70):
        return plain
    number = b"0" * chance.below(4) + plain + b"0" * chance.below(4)
    return number if len(number) <= 15 or chance.happens(10) else plain


def spelled_bic(chance, bic):
    return bic + b"XXX" if len(bic) == 8 and chance.happens(20) else bic


def field(tag, value):
    return b":%s:%s" % (tag, value)


def sequence(name, lines):
    return [b":16R:" + name, *lines, b":16S:" + name]


def unused(chance, percent, *lines):
    """Lines that no profile asks for, sometimes."""
    return [chance.pick(lines)] if chance.happens(percent) else []


def general(chance, function, reference, previous):
    lines = [
        [field(b"20C", b":SEME//" + reference)],
        [field(b"23G", function + (b"/" + chance.pick((b"CODU", b"0000")) if chance.happens(10) else b""))],
        unused(chance, 15, b":98C::PREP//20240226101500", b":98A::PREP//20240226", b":20C::POOL//X", b":99B::TOSE//1"),
        sequence(b"LINK", [field(b"20C", b":PREV//" + previous)]) if previous else [],
    ]
    return sequence(b"GENL", together(chance, lines))


def together(chance, parts):
    """The lines of these parts, now and then in another order."""
    parts = chance.shuffled(parts) if chance.happens(20) else parts
    return [line for part in parts for line in part]


def dated(chance, day):
    if chance.happens(15):
        return field(b"98C", b":SETT//%s%06d" % (day, chance.below(1_000_000)))
    return field(b"98A", b":SETT//" + day)


def trade(chance, instruction):
    isin = [field(b"35B", b"ISIN " + instruction.isin)]
    isin += [b"ORDINARY SHARES", b"", b"ISIN"][: chance.between(1, 3)] if chance.happens(20) else []
    nested = sequence(b"FIA", [b":11A::DENO//EUR", *unused(chance, 20, b":98A::SETT//20200101", b":35B:ISIN X")])
    lines = [
        [dated(chance, instruction.day)],
        unused(chance, 20, b":98A::TRAD//20240227", b":98B::SETT//OPEN", b":98E::SETT//20240229101500/02"),
        unused(chance, 15, b":90B::DEAL//ACTU/EUR2,50125", b":90A::DEAL//PRCT/99,5"),
        isin,
        nested if chance.happens(15) else [],
        [b":70E::SPRO//NOTE OF THE DESK", b"SECOND LINE", b""][: chance.between(1, 3)] if chance.happens(15) else [],
    ]
    return sequence(b"TRADDET", together(chance, lines))


def quantity_and_account(chance, instruction):
    quantity = field(b"36B", b":SETT//%s/%s" % (instruction.kind, spelled(chance, instruction.quantity)))
    account = field(b"97A", b":SAFE//" + instruction.account)
    other = unused(chance, 15, b":97A::CASH//123", b":97B::SAFE//BANK/A/A-1", b":36B::OTHR//UNIT/1,", b":94F::SAFE//X")
    if chance.happens(10):
        return sequence(b"FIAC", [quantity, *other]) + sequence(b"FIAC", [account])
    return sequence(b"FIAC", together(chance, [[quantity], [account], other]))


def party(line):
    return sequence(b"SETPRTY", [line])


def settling(chance, instruction):
    issuer = b"/" + chance.pick((b"A", b"ABCD", b"12345678")) if chance.happens(10) else b"/"
    role = b"DEAG" if instruction.mt in (540, 541) else b"REAG"
    against = instruction.mt in (541, 543)
    currency, amount = instruction.cash
    cash = [field(b"19A", b":SETT//" + currency + spelled(chance, amount, DECIMALS[currency]))]
    parts = [
        [field(b"22F", b":SETR%s/%s" % (issuer, instruction.settlement)), *unused(chance, 10, b":22F::STCO//DLWM")],
        party(b":95P::BUYR//" + chance.pick(BICS)) if chance.happens(15) else [],
        party(field(b"95P", b":%s//%s" % (role, spelled_bic(chance, instruction.counterparty)))),
        party(field(b"95P", b":PSET//" + spelled_bic(chance, instruction.place))),
        sequence(b"AMT", cash) if against or chance.happens(10) else [],
    ]
    return sequence(b"SETDET", together(chance, parts))


def lines_of_instruction(chance, instruction):
    """The lines of a message that says an instruction."""
    previous = chance.pick((b"A1", b"B 2", instruction.reference)) if chance.happens(5) else None
    first = general(chance, b"NEWM", instruction.reference, previous)
    others = [trade(chance, instruction), quantity_and_account(chance, instruction), settling(chance, instruction)]
    if chance.happens(15):
        others.append(sequence(b"OTHRPRTY", [b":95P::MEOR//ALPHDEFF"]))
    if chance.happens(5):
        others.append([b":20C::SEME//OUTSIDE", b":23G:CANC"])
    return [b"{4:", *first, *together(chance, others), b"-}"]


def lines_of_cancellation(chance, cancellation):
    return [b"{4:", *general(chance, b"CANC", cancellation.reference, cancellation.previous), b"-}"]


def lines_of(chance, message):
    """The lines of a message that says an instruction or a cancellation."""
    make = lines_of_cancellation if isinstance(message, Cancellation) else lines_of_instruction
    return make(chance, message)


def random_instruction(chance, mt):
    """An instruction of its own, for a message that stands alone."""
    odd = chance.happens(15)
    return Instruction(
        mt,
        chance.pick(ODD_REFERENCES) if odd else b"A%d" % chance.below(100),
        chance.pick(EDGE_DAYS if odd else DAYS),
        chance.pick(ISINS),
        chance.pick((b"UNIT", b"FAMT")),
        chance.pick((1, 7, 400, 1000, 99_999_999_999_999, chance.between(1, 99_999_999_999_999))),
        chance.pick(ODD_ACCOUNTS) if odd else chance.pick((b"A-1", b"B-1")),
        chance.pick(BICS),
        chance.pick((b"DESKDEFF", b"DESKDEFF", b"OTHRDEFF")),
        chance.pick(SETTLEMENTS),
        chance.pick(CASH),
    )


def random_cancellation(chance, mt):
    """A cancellation of its own."""
    reference, previous = (
        chance.pick(ODD_REFERENCES) if chance.happens(15) else b"A%d" % chance.below(100) for _ in range(2)
    )
    return Cancellation(mt, reference, previous)


def joined(chance, lines):
    """The text of lines, with line ends of one kind, or now and then of both."""
    ends = chance.weighted({(b"\n",): 60, (b"\r\n",): 30, (b"\n", b"\r\n"): 10})
    text = b"".join(line + chance.pick(ends) for line in lines)
    if chance.happens(10):
        return text.rstrip(b"\r\n") + (b"\r" if chance.happens(20) else b"")
    return text + b"\r\n" * (chance.below(3) if chance.happens(5) else 0)


# faults


def replace_line(chance, lines, changed):
    """These lines with one of them changed to other lines."""
    place = chance.below(len(lines))
    return [*lines[:place], *changed(lines[place]), *lines[place + 1 :]]


def drop_line(chance, lines):
    return replace_line(chance, lines, lambda line: [])


def double_line(chance, lines):
    return replace_line(chance, lines, lambda line: [line, line])


def swap_lines(chance, lines):
    lines = list(lines)
    one = chance.below(len(lines))
    other = min(one + 1, len(lines) - 1) if chance.happens(60) else chance.below(len(lines))
    lines[one], lines[other] = lines[other], lines[one]
    return lines


STRAY_LINES = (
    (b"", b"STRAY", b"-", b"--}", b"-}", b":", b"::", b":20C", b":20C:", b":2C:X", b":200:X", b":20c:X", b":20CC:X")
    + (b"{4:", b":16R:", b":16S:", b":16R:GENL", b":16S:GENL", b":16R:genl", b":16R:ABCDEFGHIJKLMNOP", b":16:X")
    + (b":16R:ABCDEFGHIJKLMNOPQ", b":16R:A B", b":16Q:GENL", b":16R:GENL ", b" ", b"-} ", b":98A::SETT//20240229")
    + (b":23G:NEWM", b":20C::SEME//Z", b":95P::PSET//DESKDEFF", b":97A::SAFE/A", b":22F::SETR/", b":36B::SETT/")
    + (b":16R:FIAC", b":16S:FIAC", b":16R:SETDET", b":16R:LINK", b":20C::PREV//A1", b".")
)


def stray_line(chance, lines):
    stray = chance.pick(STRAY_LINES)
    return replace_line(chance, lines, lambda line: [line, stray])


TAGS = (b"20C", b"98A", b"98C", b"98B", b"97B", b"95Q", b"95R", b"22H", b"36E", b"19B", b"16R", b"16S")
TAGS += (b"9", b"20CC", b"")


def wrong_tag(chance, lines):
    tag = chance.pick(TAGS)

    def changed(line):
        return [b":" + tag + line[line.find(b":", 1) :] if b":" in line[1:] else line]

    return replace_line(chance, lines, changed)


def lines_with(head, *values):
    """Lines with this head before each of these values."""
    return tuple(head + value for value in values)


BAD_DATES = (
    lines_with(b":98A::SETT//", *BAD_DAYS, *EDGE_DAYS, b"20240229101500")
    + lines_with(b":98C::SETT//", b"20230229101500", b"20241301101500", b"00000229101500", b"2024-2-9101500")
    + lines_with(b":98C::SETT//", b"20240229", b"20240229999999", b"2024022910150", b"20240229 01500")
    + lines_with(b":98C::SETT//", b"20240229abcdef", b"2024022910150x", b"20240229-00001", b"20240229000000")
    + (b":98A::SETT/20240229", b":98C::SETT/20240229101500")
    + (b":98A::SETT/", b":98A:SETT//20240229")
)

# lines that may stand for a field of the profile, by the beginning of its line; most do not fit
BAD_FIELDS = {
    b":23G:": lines_with(b":23G:", b"PREA", b"NEW", b"NEWM/", b"NEWM/ABC", b"newm", b"CANC/CODU", b"NEWM/CODU")
    + lines_with(b":23G:", b"", b"NEWMNEWM", b"ABCD/ABCD", b"NEWM ", b"NEWM//CODU"),
    b":20C::SEME/": lines_with(b":20C::SEME//", *ODD_REFERENCES, *BAD_REFERENCES)
    + lines_with(b":20C::SEME/", b"A", b"", b"//A"),
    b":20C::PREV/": lines_with(b":20C::PREV//", *ODD_REFERENCES, *BAD_REFERENCES)
    + lines_with(b":20C::PREV/", b"A", b""),
    b":98A::SETT/": BAD_DATES,
    b":98C::SETT/": BAD_DATES,
    b":35B:": lines_with(b":35B:ISIN ", *BAD_ISINS, *ISINS)
    + lines_with(b":35B:", b"ISIN  DE0007164600", b"DE0007164600", b"", b"ISIN", b"isin DE0007164600"),
    b":36B::SETT/": lines_with(b":36B::SETT//UNIT/", *BAD_NUMBERS, *ODD_NUMBERS, *FRACTIONS)
    + lines_with(b":36B::SETT//", b"AMOR/400,", b"FAMT/400,", b"UNIT//400,", b"unit/400,", b"UNIT400,")
    + lines_with(b":36B::SETT/", b"UNIT/400,", b""),
    b":97A::SAFE/": lines_with(b":97A::SAFE//", *ODD_ACCOUNTS, *BAD_ACCOUNTS) + lines_with(b":97A::SAFE/", b"A-1", b""),
    b":22F::SETR/": lines_with(b":22F::SETR/", b"TRAD", b"//TRAD", b"/TRA", b"/TRADE", b"/trad", b"1/0000", b"")
    + lines_with(b":22F::SETR/", b"ab/TRAD", b"A B/TRAD", b"12345678/TRAD", b"123456789/TRAD"),
    b":95P::PSET/": lines_with(b":95P::PSET//", *BAD_BICS, b"OTHRDEFF", b"DESKDEFFABC") + (b":95P::PSET/DESKDEFF",),
    b":95P::DEAG/": lines_with(b":95P::DEAG//", *BAD_BICS, b"ALPHDEFFXXX") + (b":95P::DEAG/ALPHDEFF",),
    b":95P::REAG/": lines_with(b":95P::REAG//", *BAD_BICS, b"ALPHDEFFXXX") + (b":95P::REAG/ALPHDEFF",),
    b":19A::SETT/": lines_with(b":19A::SETT//EUR", *BAD_NUMBERS, *ODD_NUMBERS, *FRACTIONS)
    + lines_with(b":19A::SETT//JPY", *FRACTIONS, *ZEROS, b"999999999999999,", b"1,")
    + lines_with(b":19A::SETT//KWD", *FRACTIONS, *ZEROS, b"1,0005")
    + lines_with(b":19A::SETT//USD", *ZEROS)
    + lines_with(b":19A::SETT/", b"/XXX1,", b"/eur1,", b"/EU1,", b"/NEUR1,", b"/BHD1,", b"EUR1,", b"/EUR 1,", b""),
}


def of_profile(lines):
    """The places of the lines that begin a field of the profile, each with its beginning."""
    return [(at, head) for at, line in enumerate(lines) for head in BAD_FIELDS if line.startswith(head)]


def bad_value(chance, lines):
    """One field of the profile with another value, most often one that does not fit."""
    places = of_profile(lines)
    if not places:
        return lines
    at, value = chance.pick([(at, value) for at, head in places for value in BAD_FIELDS[head]])
    return [*lines[:at], value, *lines[at + 1 :]]


def other_function(chance, lines):
    word = chance.pick((b"PREA", b"REPL", b"CANC", b"NEWM/CODU", b"0000", b"PREA/CODU"))
    lines = [b":23G:" + word if line.startswith(b":23G:") else line for line in lines]
    return bad_values(chance, lines) if chance.happens(30) else lines


def bad_values(chance, lines):
    """Several fields with a value that does not fit, or left out."""
    for at, head in reversed(of_profile(lines)):
        if chance.happens(40):
            lines = [*lines[:at], *([chance.pick(BAD_FIELDS[head])] if chance.happens(70) else []), *lines[at + 1 :]]
    return lines


def further_field(chance, lines):
    """One field of the profile twice, the second time with another value."""
    places = of_profile(lines)
    if not places:
        return lines
    at, head = chance.pick(places)
    return [*lines[: at + chance.below(2)], chance.pick(BAD_FIELDS[head]), *lines[at:]]


def second_line(chance, lines):
    fields = [at for at, line in enumerate(lines) if line.startswith(b":")]
    if not fields:
        return lines
    at = chance.pick(fields)
    return [*lines[: at + 1], chance.pick((b"", b"MORE", b" ")), *lines[at + 1 :]]


def wrong_close(chance, lines):
    ends = [at for at, line in enumerate(lines) if line.startswith((b":16S:", b":16R:"))]
    if not ends:
        return lines
    at = chance.pick(ends)
    name = chance.pick((b"GENL", b"LINK", b"FIAC", b"SETDET", b"SETPRTY", b"GEN", b"GENLX", b"", b"Genl"))
    return [*lines[:at], lines[at][:5] + name, *lines[at + 1 :]]


CHARACTERS = (b"\x00", b"\t", b"\r", b"\x1f", b"\x7f", b"\x80", b"\xff", b"\xc3\xa4", b" ", b"~", b":", b"/")


def bad_character(chance, lines):
    character = chance.pick(CHARACTERS)

    def changed(line):
        at = chance.below(len(line) + 1)
        return [line[:at] + character + line[at + chance.below(2) :]]

    return replace_line(chance, lines, changed)


def move_sequence(chance, lines):
    """One sequence inside another one, or its lines outside any."""
    starts = [at for at, line in enumerate(lines) if line.startswith(b":16R:")]
    if not starts:
        return lines
    start = chance.pick(starts)
    end = next((at for at in range(start, len(lines)) if lines[at] == b":16S:" + lines[start][5:]), None)
    if end is None:
        return lines
    if chance.happens(50):
        return lines[:start] + lines[start + 1 : end] + lines[end + 1 :]
    return lines[:start] + sequence(chance.pick((b"GENL", b"SETDET", b"X")), lines[start : end + 1]) + lines[end + 1 :]


def deepen(chance, lines):
    """So many sequences inside each other, around nothing, that the limit is near."""
    depth = chance.between(13, 18)
    names = [b"S%d" % level for level in range(depth)]
    nest = [b":16R:" + name for name in names] + [b":16S:" + name for name in reversed(names)]
    return replace_line(chance, lines, lambda line: [line, *nest])


def cut_off(chance, lines):
    return lines[: chance.below(len(lines) + 1)]


def lengthen(chance, lines):
    """About as long as a text may be, by a note."""
    spare = 65_536 - sum(len(line) + 1 for line in lines) - len(b":70E:\n")
    note = b":70E:" + b"x" * max(0, spare + chance.between(-2, 2))
    return [*lines[:1], note, *lines[1:]]


FAULTS = {
    drop_line: 12,
    double_line: 10,
    swap_lines: 10,
    stray_line: 12,
    wrong_tag: 8,
    bad_value: 45,
    bad_values: 8,
    other_function: 6,
    further_field: 5,
    second_line: 8,
    wrong_close: 8,
    bad_character: 8,
    move_sequence: 6,
    deepen: 3,
    cut_off: 2,
    lengthen: 3,
}


def with_faults(chance, lines):
    """These lines with one or two faults, of which some harm nothing."""
    for _ in range(chance.between(1, 2)):
        lines = chance.weighted(FAULTS)(chance, lines) if lines else lines
    return lines


SOUP = (
    (b":16R:A", b":16S:A", b":16R:B", b":16S:B", b":20C:X", b":70E:", b"TEXT", b"")
    + (b"-}", b"-", b":", b"{4:", b":1:X")
)


def soup(chance):
    """A short list of lines as they come, most often one that begins as a block does."""
    first = [b"{4:"] if chance.happens(90) else []
    kinds = chance.pick((SOUP, SOUP[:8], SOUP[:6], (*SOUP[:4], b"-}")))
    last = [b"-}"] if chance.happens(70) else []
    return first + [chance.pick(kinds) for _ in range(chance.below(12))] + last


def random_text(chance, mt):
    """The text of a message for `desk read` of this type."""
    kind = chance.weighted({"valid": 25, "faulty": 60, "soup": 15})
    if kind == "soup":
        return joined(chance, soup(chance))
    of_type = mt if chance.happens(90) else chance.pick((540, 541, 542, 543))
    make = random_instruction if chance.happens(80) else random_cancellation
    lines = lines_of(chance, make(chance, of_type))
    return joined(chance, with_faults(chance, lines) if kind == "faulty" else lines)
