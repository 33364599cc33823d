"""Reads a script of the log bench on standard input and prints a line for each."""

import re
import sys
from dataclasses import replace
from zlib import crc32

import model

LONGEST_LINE = 4096
LONGEST_IMAGE = 65_536
BYTE = 255
NUMBER = 4_294_967_295
PAYLOAD = "payload"

# What each command takes: for a number its highest value.
ARGUMENTS = {
    "new": (LONGEST_IMAGE,),
    "poke": (NUMBER, BYTE),
    "setslot": (model.ENTRIES - 1, BYTE),
    "setstart": (model.ENTRIES - 1, NUMBER),
    "dump": (),
    "create": (NUMBER, BYTE),
    "open": (),
    "wipe": (),
    "mark": (),
    "append": (PAYLOAD,),
    "begin": (NUMBER,),
    "write": (PAYLOAD,),
    "list": (),
    "head": (NUMBER,),
    "headfinish": (),
    "tail": (NUMBER,),
    "tailfinish": (),
    "close": (),
    "read": (NUMBER,),
    "counts": (),
}

# The fields of `set`: the script's name, the state's name and the highest value,
# in the order in which the state is printed.
FIELDS = {
    "mode": ("mode", 9),
    "E": ("e", NUMBER),
    "S": ("s", BYTE),
    "n": ("n", BYTE),
    "head": ("head", NUMBER),
    "tail": ("tail", NUMBER),
    "last": ("last", NUMBER),
    "version": ("version", 65_535),
    "place": ("place", NUMBER),
    "pending": ("pending", 2**64 - 1),
    "rollslot": ("roll_slot", BYTE),
    "rolllen": ("roll_len", NUMBER),
}


class Bad(Exception):
    """The line is none of the script language's."""


def parse_number(word, highest):
    if not re.fullmatch("0|[1-9][0-9]*", word) or int(word) > highest:
        raise Bad
    return int(word)


def parse_payload(word):
    if word == "-":
        return b""
    if not re.fullmatch("([0-9a-f]{2})+", word):
        raise Bad
    return bytes.fromhex(word)


def parse_argument(word, kind):
    return parse_payload(word) if kind == PAYLOAD else parse_number(word, kind)


def parse_set(words):
    if len(words) != 2 or words[0] not in FIELDS:
        raise Bad
    name, highest = FIELDS[words[0]]
    return "set", [name, parse_number(words[1], highest)]


def parse_cut(words):
    if len(words) < 2 or words[1] not in model.CALLS or words[1] == "create":
        raise Bad
    name, arguments = parse_words(words[1:])
    return "cut", [parse_number(words[0], NUMBER), name, *arguments]


def parse_words(words):
    name, *rest = words
    if name == "set":
        return parse_set(rest)
    if name == "cut":
        return parse_cut(rest)
    kinds = ARGUMENTS.get(name)
    if kinds is None or len(kinds) != len(rest):
        raise Bad
    return name, [parse_argument(word, kind) for word, kind in zip(rest, kinds)]


def parse_line(line):
    """The command's name and its arguments, from the line without its newline."""
    if len(line) > LONGEST_LINE:
        raise Bad
    # Latin-1 takes every byte, and those beyond ASCII then match nothing.
    return parse_words(line.decode("latin-1").split(" "))


def hex_text(data):
    return data.hex() or "-"


def entries_text(entries, n):
    return ",".join(str(entry) for entry in entries[:n])


def state_text(state, image):
    fields = " ".join(str(int(getattr(state, name))) for name, _ in FIELDS.values())
    slots = entries_text(state.slots, state.n)
    starts = entries_text(state.starts, state.n)
    return f"{fields} slots={slots} starts={starts} image={len(image)}:{crc32(image):08x}"


def with_entry(entries, index, value):
    return entries[:index] + (value,) + entries[index + 1 :]


class Bench:
    """A state and an image, driven line by line."""

    def __init__(self):
        self.state = model.ZEROS
        self.image = bytearray()

    def answer(self, line):
        """Does a line of bytes and answers its output, both without the newline."""
        try:
            name, arguments = parse_line(line)
        except Bad:
            return "bad"
        return f"{self.run(name, arguments)} | {state_text(self.state, self.image)}"

    def run(self, name, arguments):
        if name in model.CALLS:
            return self.call(name, arguments)
        if name == "cut":
            return self.cut(*arguments)
        if name == "dump":
            return f"dump {hex_text(self.image)}"
        self.change(name, *arguments)
        return name

    def call(self, name, arguments):
        outcome = model.call(name, self.state, self.image, *arguments)
        if outcome.store:
            model.put(self.image, outcome.store, len(outcome.store.data))
        self.state = outcome.state
        text = " ".join(str(word) for word in (name, outcome.number, *outcome.values))
        if name == "read":
            place, length = outcome.values
            text += " " + hex_text(self.image[place : place + length])
        return text

    def cut(self, k, name, *arguments):
        outcome = model.call(name, self.state, self.image, *arguments)
        if outcome.store:
            model.put(self.image, outcome.store, k)
        self.state = model.ZEROS
        return f"cut {outcome.number}"

    def change(self, name, which, value=None):
        """The commands that set the image's bytes or the state's fields."""
        if name == "new":
            self.state = model.ZEROS
            self.image = bytearray(which)
        elif name == "poke":
            if which < len(self.image):
                self.image[which] = value
        elif name == "set":
            value = model.Mode(value) if which == "mode" else value
            self.state = replace(self.state, **{which: value})
        elif name == "setslot":
            self.state = replace(self.state, slots=with_entry(self.state.slots, which, value))
        elif name == "setstart":
            self.state = replace(self.state, starts=with_entry(self.state.starts, which, value))


def main():
    bench = Bench()
    for line in sys.stdin.buffer:
        print(bench.answer(line.removesuffix(b"\n")), flush=True)


if __name__ == "__main__":
    main()
