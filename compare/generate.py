"""Prints a random script of the log bench: generate.py SEED LINES.

The script is made of episodes. Each line is also done on the reader's bench, so
that the next one can be chosen for the state it meets.
"""

import random
import sys
from dataclasses import replace
from itertools import islice, product

import model
from calls import cut_call, fitting_sizes, plausible_call, store_of, wild_call, with_arguments
from damage import damaged
from malformed import EDGE_LINES, malformed_line
from model import LAST_LSN, Mode, State
from reader import LONGEST_IMAGE, Bench
from states import fault, random_state, state_lines

# Dumps of bigger images would be most of the output.
LONGEST_DUMP = 1500

# The calls that store something and can be cut.
STORING = [name for name in model.STEPS if name not in ("headfinish", "read")]


def in_turn(rng, items):
    """Every item once in a random order, then again; so that none is left out for long."""
    while True:
        yield from rng.sample(items, len(items))


class Script:
    """The lines so far, and the bench after them."""

    def __init__(self, seed):
        self.rng = random.Random(seed)
        self.bench = Bench()
        self.lines = []
        self.modes = in_turn(self.rng, list(Mode))
        self.storing = in_turn(self.rng, STORING)
        self.edges = in_turn(self.rng, EDGE_LINES)
        self.bare = in_turn(self.rng, list(product(Mode, model.CALLS, (False, True), (0.0, 1.0))))

    @property
    def state(self):
        return self.bench.state

    @property
    def image(self):
        return self.bench.image

    def say(self, line):
        self.lines.append(line.encode("latin-1"))
        self.bench.answer(self.lines[-1])

    def say_all(self, lines):
        for line in lines:
            self.say(line)

    def plausible(self):
        return plausible_call(self.rng, self.state, self.image)

    def wild(self):
        return wild_call(self.rng, self.state, self.image)

    def cut(self, call):
        return cut_call(self.rng, call, self.state, self.image)

    def become(self, state):
        self.say_all(state_lines(self.state, state))

    def become_image(self, image):
        for offset, (old, new) in enumerate(zip(bytes(self.image), bytes(image))):
            if old != new:
                self.say(f"poke {offset} {new}")


def geometry(rng):
    """E and S of an image that fits the bench; small ones mostly, to roll often."""
    kind = rng.random()
    if kind < 0.5:
        return 64, rng.randint(2, 4)
    if kind < 0.8:
        return rng.randint(64, 130), rng.randint(2, 6)
    if kind < 0.88:
        return rng.randint(130, 600), rng.randint(2, 5)
    if kind < 0.95:
        return rng.randint(1030, 1050), rng.randint(2, 3)
    if kind < 0.99:
        return 64, rng.choice([63, 64])
    s = rng.randint(2, 64)
    return (LONGEST_IMAGE - model.METADATA_SIZE) // s, s


def start_log(script, e, s):
    script.say(f"new {model.image_size(e, s)}")
    script.say(f"create {e} {s}")
    script.say_all(["open", "wipe", "mark"])


def recover(script):
    """Opens the image and goes to Run, or makes a new log when open refuses it."""
    script.say("open")
    if script.state.mode is Mode.OPENED:
        script.say_all(["wipe", "mark"])
    elif sizes := fitting_sizes(script.image):
        e, s = script.rng.choice(sizes)
        script.say(f"create {e} {s}")
    else:
        script.say("new 212")


def usable(script):
    """Whether a life can go on from here without an open."""
    refusal = model.common_refusal("read", script.state, script.image)
    return refusal in (0, 3) and script.state.mode is not Mode.CLOSED


def live(script, steps):
    """A life: mostly plausible calls, with cuts, faults and stray lines between."""
    rng = script.rng
    for _ in range(steps):
        kind = rng.random()
        if not usable(script) and kind > 0.3:
            recover(script)
        elif kind < 0.07:
            script.say(script.wild())
        elif kind < 0.13:
            script.say(script.cut(script.plausible()))
        elif kind < 0.135:
            script.say(f"poke {rng.randrange(len(script.image) + 20)} {rng.randrange(256)}")
        elif kind < 0.165:
            blur(script)
        elif kind < 0.195:
            disturb(script)
        elif kind < 0.215:
            script.say(malformed_line(rng, script.state, script.image))
        elif kind < 0.225 and len(script.image) < LONGEST_DUMP:
            script.say("dump")
        else:
            script.say(script.plausible())


def blur(script):
    """A byte of a listed extent changed under a running log, and mostly put back."""
    rng, state = script.rng, script.state
    if not usable(script):
        return
    index = rng.randrange(state.n)
    end = state.place if index == state.n - 1 else state.e
    offset = model.slot_place(state.e, state.slots[index]) + rng.randrange(end)
    before = bytes(script.image)
    script.say(f"poke {offset} {rng.choice([0, before[offset] ^ 1, rng.randrange(256)])}")
    for _ in range(rng.randint(1, 3)):
        name = rng.choice(["read", "read", "tail"])
        script.say(with_arguments(rng, name, script.state, script.image))
    if rng.random() < 0.8:
        script.say(f"poke {offset} {before[offset]}")


def disturb(script):
    """A fault in the state, some calls on it, and mostly the state as it was."""
    before = script.state
    script.become(fault(script.rng, before))
    probe(script, script.rng.randint(1, 3))
    if script.rng.random() < 0.8:
        script.become(before)


def say_or_cut(script, call, share):
    """The call, or in a share of the cases the call cut."""
    if script.rng.random() < share and not call.startswith("create"):
        call = script.cut(call)
    script.say(call)


def probe(script, calls):
    """Calls of every kind, some of them cut, on whatever state there is."""
    for _ in range(calls):
        call = script.rng.choice([script.wild, script.wild, script.plausible])()
        say_or_cut(script, call, 0.2)


def life(script):
    start_log(script, *geometry(script.rng))
    live(script, script.rng.randint(20, 160))


def full_life(script):
    """Rolls with the longest payloads until every slot is taken, then a life on that."""
    start_log(script, 64, script.rng.choice([2, 3, 4, 8, 64]))
    longest = model.longest_payload(64)
    while script.state.mode is Mode.RUN and model.free_slots(script.state):
        script.say(f"append {'5a' * longest}")
        script.say_all([f"begin {longest}", f"write {'a5' * longest}", "list"])
    live(script, script.rng.randint(20, 60))


def start_log_at(script, e, s, base):
    """A running log whose first LSN is not 1."""
    start_log(script, e, s)
    script.say_all(f"set {field} {base}" for field in ("head", "tail", "last"))
    script.say(f"setstart 0 {base}")
    header = bytearray(script.image)
    model.EXTENT_HEADER.pack_into(header, model.METADATA_SIZE, 1, base)
    script.become_image(header)
    # Close stores the new counters, so that what follows can be opened.
    script.say_all(["close", "open", "wipe", "mark"])


def last_lsns(script):
    """A life whose LSNs come to their end."""
    e, s = geometry(script.rng)
    start_log_at(script, e, s, LAST_LSN - script.rng.randint(0, 12))
    live(script, script.rng.randint(20, 60))


def last_versions(script):
    """A life whose tail versions come to their end."""
    rng = script.rng
    start_log(script, *geometry(rng))
    script.say(f"set version {65_535 - rng.randint(0, 4)}")
    for _ in range(rng.randint(3, 8)):
        script.say_all(f"append {'11' * rng.randrange(4)}" for _ in range(rng.randint(1, 3)))
        say_or_cut(script, f"tail {max(script.state.tail - rng.randint(1, 2), 0)}", 0.1)
        say_or_cut(script, "tailfinish", 0.2)
        if script.state.mode is Mode.CLOSED:
            recover(script)
    live(script, rng.randint(5, 20))


def junk_states(script):
    """States made up by `set` on an image that knows nothing of them."""
    rng = script.rng
    e, s = geometry(rng)
    if rng.random() < 0.7:
        start_log(script, e, s)
        live(script, rng.randint(0, 20))
    if rng.random() < 0.1:
        e, s = rng.choice([64, 65_536, e + 1]), rng.choice([2, 64, s])
    for _ in range(rng.randint(2, 6)):
        state = random_state(rng, rng.choice(list(Mode)), e, s)
        for _ in range(rng.randint(1, 4)):
            script.become(state)
            probe(script, rng.randint(1, 3))
        disturb(script)


def faulty_states(script):
    """One well-formed state, and many faults in it one after the other."""
    rng = script.rng
    e, s = rng.choice([64, 64, 1100]), rng.randint(2, 5)
    start_log(script, e, s)
    state = random_state(rng, rng.choice(list(Mode)), e, s)
    for _ in range(rng.randint(15, 30)):
        script.become(state)
        script.become(fault(rng, state))
        script.say("counts")
        if rng.random() < 0.4:
            probe(script, 1)


def edge_sizes(script):
    """Images, metadata and states with E or S at an end of its range."""
    rng = script.rng
    e, s = rng.choice([(63, 2), (64, 1), (64, 2), (64, 64), (64, 65), (65, 2), (1022, 64)])
    script.say(f"new {model.image_size(e, s)}")
    script.say(f"create {e} {s}")
    fresh = model.fresh_state(e, s)
    script.become_image(model.fresh_image(fresh))
    script.say("open")
    for size in (e, 65_536, 65_537):
        mode = rng.choice([Mode.CLOSED, Mode.OPENED, Mode.RUN])
        script.become(replace(fresh, mode=mode, e=size))
        script.say("counts")
        probe(script, 2)


def bare_states(script):
    """States that hold little more than a mode, for the refusals that come first."""
    rng = script.rng
    start_log(script, 64, rng.randint(2, 4))
    for mode, name, sized, cuts in islice(script.bare, rng.randint(20, 40)):
        sizes = fitting_sizes(script.image)
        e, s = rng.choice(sizes) if sized and sizes else (0, 0)
        script.become(State(mode=mode, e=e, s=s))
        say_or_cut(script, with_arguments(rng, name, script.state, script.image), cuts)


def odd_lines(script):
    """Lines that are bad or nearly so, on a running log."""
    rng = script.rng
    start_log(script, 64, 2)
    for line in islice(script.edges, rng.randint(20, 40)):
        script.say(line)
        if rng.random() < 0.3:
            script.say(malformed_line(rng, script.state, script.image))


def each_call(script):
    """One state made up by `set`, and each call on it, whole and cut."""
    rng = script.rng
    e, s = 64, rng.randint(2, 3)
    start_log(script, e, s)
    live(script, rng.randint(0, 10))
    state = random_state(rng, next(script.modes), e, s)
    admitted = [name for name, modes in model.TABLE.items() if state.mode in modes]
    # The calls that the mode admits come more often, for they have more answers.
    names = [name for name in (*model.CALLS, *admitted, *admitted) if name != "create"]
    for name in rng.sample(names, len(names)):
        for share in (0.0, 1.0):
            script.become(state)
            say_or_cut(script, with_arguments(rng, name, script.state, script.image), share)


def damaged_images(script):
    """Damages to a log, an open after each, and mostly the image as it was."""
    rng = script.rng
    e, s = rng.choice([64, 64, 80, 2200]), rng.randint(2, 5)
    if rng.random() < 0.8:
        start_log(script, e, s)
    else:
        start_log_at(script, e, s, LAST_LSN - rng.randrange(3))
    live(script, rng.choice([0, rng.randint(1, 10), rng.randint(10, 80)]))
    if script.state.mode is Mode.RUN and rng.random() < 0.5:
        script.say("close")
    for _ in range(rng.randint(8, 16)):
        before = bytes(script.image)
        script.become_image(damaged(rng, before))
        # Open asks nothing of the state, so any mode may come before it.
        for _ in range(rng.randint(1, 3)):
            script.say(f"set mode {rng.randrange(10)}")
            say_or_cut(script, "open", 0.4)
        if script.state.mode is Mode.OPENED and rng.random() < 0.4:
            script.say_all(["wipe", "mark"])
            probe(script, rng.randint(1, 4))
        elif rng.random() < 0.85:
            script.become_image(before)
        if rng.random() < 0.3:
            recover(script)


def reach(script, name):
    """Plausible calls until the named one would be done, and that call."""
    while True:
        call = with_arguments(script.rng, name, script.state, script.image)
        if store_of(call, script.state, script.image):
            return call
        if name in ("wipe", "mark"):
            script.say("wipe" if script.state.mode is Mode.OPENED else "open")
        else:
            script.say(script.plausible())


def cut_everywhere(script):
    """One call after one short life, cut after each count of bytes in turn."""
    rng = script.rng
    first = len(script.lines)
    start_log(script, 64, rng.randint(2, 3))
    for _ in range(rng.randint(0, 5)):
        script.say(script.plausible())
    call = reach(script, next(script.storing))
    prefix = [line.decode("latin-1") for line in script.lines[first:]]
    for k in cut_counts(store_of(call, script.state, script.image)):
        script.say(f"cut {k} {call}")
        script.say_all(["open", "counts"])
        script.say_all(prefix)


def cut_counts(store):
    """Each count of bytes that a store can stop after, and one above."""
    if store.kind is model.Kind.METADATA:
        return [0, 1, 83, 84, 85]
    return range(len(store.data) + 2)


EPISODES = {
    life: 36,
    full_life: 2,
    last_lsns: 8,
    last_versions: 5,
    junk_states: 8,
    faulty_states: 10,
    edge_sizes: 4,
    bare_states: 9,
    odd_lines: 5,
    each_call: 5,
    damaged_images: 24,
    cut_everywhere: 4,
}


def generate(seed, count):
    """A script of that many lines, as bytes without their newlines."""
    script = Script(seed)
    while len(script.lines) < count:
        episode = script.rng.choices(list(EPISODES), EPISODES.values())[0]
        episode(script)
    return script.lines[:count]


def script_bytes(seed, lines):
    """The script as it is sent; with odd seeds its last line has no newline."""
    end = b"" if seed % 2 and lines[-1] else b"\n"
    return b"\n".join(lines) + end


def main():
    seed, count = int(sys.argv[1]), int(sys.argv[2])
    sys.stdout.buffer.write(script_bytes(seed, generate(seed, count)))


if __name__ == "__main__":
    main()
