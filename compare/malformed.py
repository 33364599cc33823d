"""Lines at the edges of the script language, most of them bad."""

from calls import wild_call
from reader import ARGUMENTS, FIELDS, LONGEST_LINE, NUMBER, PAYLOAD

NOT_NEWLINE = [chr(byte) for byte in range(256) if byte != 10]

ODD_LINES = [
    "",
    " ",
    "-",
    "0",
    "cut",
    "cut 1",
    "cut open",
    "cut 1 cut 1 open",
    "cut 1 set mode 3",
    "cut 1  open",
    "set",
    "set mode",
    "set mode 3 3",
    "set e 64",
    "set clean 1",
    "Open",
    "OPEN",
    "open -",
    "\xef\xbb\xbfopen",
    "read \xb2",
    "read 1 ",
    "read  1",
    "read\t1",
]


def edge_words(kind):
    """Words at the edges of what an argument may be."""
    if kind == PAYLOAD:
        return ["-", "--", "", "0", "00", "0a", "0A", "AA", "0g", "000", "-00", "00-", "a5 a5"]
    return [kind, kind + 1, kind * 10, "00", "01", "+1", "-1", "1.0", "0x1", "a", ""]


def plain_word(kind):
    return "-" if kind == PAYLOAD else "0"


def edge_lines():
    """Every command with each of its arguments at every edge, and odd lines."""
    yield from ODD_LINES
    for name, kinds in ARGUMENTS.items():
        plain = [plain_word(kind) for kind in kinds]
        yield " ".join(["cut 0", name, *plain])
        for index, kind in enumerate(kinds):
            for word in edge_words(kind):
                yield " ".join([name, *plain[:index], str(word), *plain[index + 1 :]])
    for name, (_, highest) in FIELDS.items():
        for word in edge_words(highest):
            yield f"set {name} {word}"
    for word in edge_words(NUMBER):
        yield f"cut {word} counts"


EDGE_LINES = list(edge_lines())


def mutated(rng, line):
    """One character put in, taken out or replaced."""
    at = rng.randrange(len(line))
    kind = rng.randrange(3)
    new = "" if kind == 0 else rng.choice(NOT_NEWLINE)
    return line[:at] + new + line[at + (kind < 2) :]


def spoilt(rng, line):
    """A fault in spacing, case or the count of words."""
    return rng.choice(
        [
            " " + line,
            line + " ",
            line + "\r",
            line + "\0",
            line.replace(" ", "  ", 1),
            line.replace(" ", "\t", 1),
            line.upper(),
            line + " 0",
            line.rpartition(" ")[0],
        ]
    )


def long_line(rng, line):
    """Lines around the longest length, sound ones among those that are not over it."""
    name = rng.choice(["append ", "write ", "cut 1 write ", "cut 10 append ", "new ", ""])
    length = LONGEST_LINE + rng.randint(-2, 2)
    return name + rng.choice("0a") * (length - len(name))


def malformed_line(rng, state, image):
    """A random line; a few are sound, for both sides of every edge are wanted."""
    make = rng.choice([mutated, mutated, spoilt, spoilt, long_line])
    return make(rng, wild_call(rng, state, image))
