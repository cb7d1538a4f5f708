"""A plain reader of block 4 of a message (docs/RULES.md, 'Blocks')."""

import re
from collections import namedtuple

MOST_BYTES = 65_536
MOST_OPEN = 16

# a field: its tag, the lines of its value, the names of the sequences around it, outermost first, and the number of its line
Field = namedtuple("Field", "tag lines path number")


class Refused(Exception):
    """What a text is refused with: the number, and the line or the row's word where there is one."""

    def text(self):
        return b" ".join([b"refused", *(b"%s" % part for part in self.args)])


def lines_of(text):
    """The lines of a text. One ends with LF or CR LF; the last may have no line end."""
    *ended, last = text.split(b"\n")
    lines = [line[:-1] if line.endswith(b"\r") else line for line in ended]
    return lines if last == b"" else [*lines, last]


def refuse(number, line):
    raise Refused(b"%d" % number, b"%d" % line)


def read_opening_or_close(side, name, number, names):
    """The names that are open behind a line that opens (R) or closes (S) a sequence."""
    if not re.fullmatch(rb"[A-Z0-9]{1,16}", name):
        refuse(2, number)
    if side == b"R":
        return [*names, name] if len(names) < MOST_OPEN else refuse(3, number)
    return names[:-1] if names[-1:] == [name] else refuse(3, number)


def read_body(numbered):
    """The fields of the numbered lines behind the first one, up to the end of the block."""
    fields, names, in_value = [], [], False
    for number, line in numbered:
        if re.search(rb"[^\x20-\x7e]", line):
            refuse(2, number)
        field = re.fullmatch(rb":([0-9]{2}[A-Z]?):(.*)", line)
        if field and field[1] in (b"16R", b"16S"):
            names, in_value = read_opening_or_close(field[1][2:], field[2], number, names), False
        elif field:
            fields.append(Field(field[1], [field[2]], tuple(names), number))
            in_value = True
        elif line == b"-}":
            return fields if not names else refuse(3, number)
        elif in_value and line[:1] not in (b":", b"-"):
            fields[-1].lines.append(line)
        else:
            refuse(2, number)
    raise Refused(b"1")


def read_block(text):
    """The fields of a block, or Refused."""
    if len(text) > MOST_BYTES:
        raise Refused(b"4")
    lines = lines_of(text)
    if lines[:1] != [b"{4:"]:
        raise Refused(b"1")
    numbered = iter(enumerate(lines[1:], 2))
    fields = read_body(numbered)
    for number, line in numbered:
        if line:
            refuse(2, number)
    return fields
