"""Random folders: requests of a random script, each in a file. Most names say what is asked, in an order in which most of it is
accepted; some say nothing, and some differ from others in little."""

from plain.blocks import MOST_BYTES
from plain.dropping import UNFINISHED
from plain.scripts import items_of

from .scripts import random_script

MOST_FILES = 60
LONGEST_NAME = 251

# what the name of a command begins with, by where that is taken: before all messages, between some, or behind all
FRONTS = {
    "before": (b"", b"", b"-", b" ", b"#", b"1.", b"A"),
    "between": (b"ALPHDEFF.", b"ALPHDEFF.542.", b"ALPHDEFFXXX.540.", b"B", b"BETADEFF", b"GAMMDEFF.541"),
    "behind": (b"Z", b"a", b"z.", b"_", b"~", "ä".encode(), "\u4e00".encode(), "\U0001d7d8".encode()),
}
# what stands behind that, and before the last full stop; the number of the request stands for #
MIDDLES = (b"#",) * 12 + (b"#.fin", b"# a", b"#.json", b"#.JSON", b"#.ALPHDEFF.540.a.fin")
# what the sender of a message calls it
OWN = (b"#",) * 16 + (b"", b"#.b", b"a.#", b"#.fin", b"# ", b"#.json", "#ä".encode(), b"\n#", b"'#\"", b"..#", b"#" + b"x" * 200)

# names that are nearly another one: most say nothing, or something else
CHANGES = (
    bytes.swapcase,
    bytes.lower,
    lambda name: name.replace(b".fin", b".FIN").replace(b".json", b".JSON"),
    lambda name: name.replace(b".fin", b".Fin").replace(b".json", b".Json"),
    lambda name: name[:8].lower() + name[8:],
    lambda name: b".".join([*name.split(b".")[:2], *name.split(b".")[-1:]]),
    lambda name: b".".join([*name.split(b".")[:1], *name.split(b".")[2:]]),
    lambda name: name.replace(b".54", b".55"),
    lambda name: name.replace(b".54", b".054"),
    lambda name: name.replace(b".54", b". 54"),
    lambda name: name.replace(b".", b"..", 1),
    lambda name: name.replace(b".", b"-", 1),
    lambda name: name + b".",
    lambda name: name + b" ",
    lambda name: name + b".out",
    lambda name: name + b".json",
    lambda name: name + b".fin",
    lambda name: b" " + name,
    lambda name: b"." + name,
    lambda name: name[:-1],
    lambda name: name[1:],
    lambda name: name.rpartition(b".")[0],
)


def is_name(name):
    """Whether a file that is taken may have this name."""
    try:
        name.decode()
    except UnicodeDecodeError:
        return False
    is_told = 0 < len(name) <= LONGEST_NAME and not set(name) & set(b"/\0")
    return is_told and name not in (b".", b"..", UNFINISHED)


def number_of(chance, number):
    """The number of a request as it stands in a name: with zeros, so that its bytes are in order, or as it is."""
    return b"%03d" % number if chance.happens(95) else b"%d" % number


class Naming:
    """The names of the requests of a folder."""

    def __init__(self, chance, items):
        self.chance = chance
        self.first_message = next((at for at, (line, _) in enumerate(items) if line.startswith(b"in ")), len(items))
        # those of one folder begin alike, so that most are taken in their order
        self.fronts = {place: chance.pick(fronts) for place, fronts in FRONTS.items()}

    def of_command(self, number):
        chance = self.chance
        weights = {"before": 95, "behind": 5} if number < self.first_message else {"before": 15, "between": 15, "behind": 70}
        place = chance.weighted(weights)
        front = self.fronts[place] if chance.happens(92) else chance.pick(FRONTS[place])
        return front + chance.pick(MIDDLES).replace(b"#", number_of(chance, number)) + b".json"

    def of_message(self, number, line):
        """That of a message: what its line says of sender and type stands in it, also where that is wrong."""
        own = self.chance.pick(OWN).replace(b"#", number_of(self.chance, number))
        return b".".join([*line.split(b" ")[1:], own, b"fin"])

    def of_item(self, number, line):
        word = line.split(b" ")[0]
        if word not in (b"op", b"in"):
            return number_of(self.chance, number) + self.chance.pick((b"", b".txt", b".script", b".fin", b".out"))
        return self.of_message(number, line) if word == b"in" else self.of_command(number)


def content_of(chance, line, body):
    """What a file holds: the body of its request, or its line."""
    content = body if body else line
    kinds = {"as it is": 68, "no line end": 26, "full stop": 2, "empty": 1, "about as long as one may be": 2, "longer": 1}
    kind = chance.weighted(kinds)
    if kind == "no line end":
        return content.removesuffix(b"\n").removesuffix(b"\r")
    if kind == "full stop":
        return content + b".\n"
    if kind == "empty":
        return b""
    if kind == "as it is":
        return content
    length = MOST_BYTES - 1 + chance.below(4) if kind == "about as long as one may be" else chance.between(70_000, 200_000)
    return content.ljust(length, b"\n")


def random_folder(chance):
    """The files of a folder, each a name and what it holds, in the order in which they are listed."""
    items = items_of(b"".join(random_script(chance)))
    naming = Naming(chance, items)
    asked = [it for it in enumerate(items) if it[1][1] or chance.happens(20)][:MOST_FILES]
    files = {}
    for number, (line, body) in asked:
        name = naming.of_item(number, line)
        other = chance.pick(CHANGES)(name)
        kind = chance.weighted({"alone": 86, "changed": 7, "beside another": 7})
        contents = {other if kind == "changed" else name: content_of(chance, line, body)}
        if kind == "beside another":
            contents[other] = content_of(chance, *chance.pick(items))
        files.update({it: content for it, content in contents.items() if is_name(it)})
    return chance.shuffled(files.items())
