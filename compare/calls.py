"""Chooses calls for a state: plausible ones, mostly done, and wild ones."""

import model
from model import LAST_LSN, Mode
from reader import hex_text, parse_words

# So much fits in a line after `cut K append`.
LONGEST_PAYLOAD = 2030

PLAUSIBLE = {
    Mode.CLOSED: {"open": 1},
    Mode.OPENED: {"wipe": 9, "counts": 1},
    Mode.WIPED: {"mark": 9, "counts": 1},
    Mode.RUN: {"append": 45, "begin": 14, "head": 9, "tail": 8, "close": 3, "read": 9, "counts": 2},
    Mode.ZEROED: {"write": 14, "read": 4, "counts": 1},
    Mode.WRITTEN: {"list": 14, "read": 4, "counts": 1},
    Mode.TAIL: {"tailfinish": 9, "counts": 1},
    Mode.RUN_H: {"append": 40, "begin": 20, "headfinish": 16, "read": 12, "counts": 3},
    Mode.ZEROED_H: {"write": 10, "headfinish": 4, "read": 4, "counts": 1},
    Mode.WRITTEN_H: {"list": 10, "headfinish": 4, "read": 4, "counts": 1},
}


def clamp(value, low, high):
    return max(low, min(value, high))


def weighted(rng, weights):
    return rng.choices(list(weights), weights.values())[0]


def within(rng, low, high, edges):
    """Mostly a number from low to high when there is one, else one of the edges."""
    if low <= high and rng.random() < 0.8:
        return rng.choice([low, high, rng.randint(low, high), rng.randint(low, high)])
    return clamp(rng.choice(edges), 0, LAST_LSN)


def payload_text(rng, state, size):
    """A payload in hex, sometimes one that looks like zeros, closings or records."""
    size = clamp(size, 0, LONGEST_PAYLOAD)
    kind = rng.randrange(5)
    if kind == 0:
        data = bytes(size)
    elif kind == 1:
        data = bytes([model.CLOSING]) * size
    elif kind == 2:
        data = look_alike(rng, state, size)
    else:
        data = rng.randbytes(size)
    return hex_text(data)


def look_alike(rng, state, size):
    lsn = clamp(state.tail + rng.randrange(3), 0, LAST_LSN)
    data = b""
    while len(data) < size:
        data += model.record_bytes(state.version, lsn, bytes(rng.randrange(3)))
        lsn = min(lsn + 1, LAST_LSN)
    return data[:size]


def room(state):
    """The longest payload that still fits behind the write place; may be negative."""
    return state.e - state.place - 9


def append_size(rng, state):
    longest = model.longest_payload(state.e)
    fitting = min(room(state), longest)
    short = min(fitting, 12)
    edges = [0, longest, longest + 1, longest + 2, room(state), room(state) + 1, 1025]
    return rng.choice([within(rng, 0, short, edges), within(rng, 0, fitting, edges)])


def roll_length(rng, state):
    longest = model.longest_payload(state.e)
    edges = [0, 0, 0, room(state), room(state), longest, longest + 1, 1025, LAST_LSN]
    return within(rng, max(room(state) + 1, 0), longest, edges)


def write_size(rng, state):
    edges = [0, state.roll_len - 1, state.roll_len + 1, model.longest_payload(state.e) + 1]
    return within(rng, state.roll_len, state.roll_len, edges)


def lsn_argument(rng, state, low, high):
    edges = [0, state.head - 1, state.head, state.tail, state.tail + 1, LAST_LSN]
    starts = state.starts[: state.n]
    inside = [lsn for start in starts for lsn in (start - 1, start) if low <= lsn <= high]
    if inside and rng.random() < 0.3:
        return rng.choice(inside)
    return within(rng, low, high, edges)


def fitting_sizes(image):
    """Every E and S in range that make the image's length."""
    size = len(image) - model.METADATA_SIZE
    return [(size // s, s) for s in range(2, 65) if size % s == 0 and size // s >= 64]


def create_arguments(rng, state, image):
    """Mostly sizes that fit the image; also the edges of both ranges."""
    fitting = fitting_sizes(image)
    if fitting and rng.random() < 0.7:
        return rng.choice(fitting)
    e = rng.choice([0, 63, 64, 65, state.e, 65_536, 65_537, LAST_LSN])
    return e, rng.choice([0, 1, 2, 3, 64, 65, 255])


def with_arguments(rng, name, state, image):
    """A call by its name with arguments for the state."""
    if name == "create":
        arguments = create_arguments(rng, state, image)
    elif name == "append":
        arguments = [payload_text(rng, state, append_size(rng, state))]
    elif name == "begin":
        arguments = [roll_length(rng, state)]
    elif name == "write":
        arguments = [payload_text(rng, state, write_size(rng, state))]
    elif name == "head":
        arguments = [lsn_argument(rng, state, state.head + 1, state.tail)]
    elif name in ("tail", "read"):
        arguments = [lsn_argument(rng, state, state.head, state.tail - 1)]
    else:
        arguments = []
    return " ".join(str(word) for word in (name, *arguments))


def plausible_call(rng, state, image):
    """A call that the mode admits, mostly with arguments that let it be done."""
    name = weighted(rng, PLAUSIBLE[state.mode])
    if rng.random() < 0.8:
        name = better_call(state, name)
    return with_arguments(rng, name, state, image)


def better_call(state, name):
    """Another call in place of one that could not be done."""
    if name == "append" and room(state) < 0:
        name = "begin"
    if name == "begin" and room(state) >= model.longest_payload(state.e):
        return "append"
    if name == "begin" and not model.free_slots(state):
        return "head" if state.mode is Mode.RUN else "headfinish"
    return name


def wild_call(rng, state, image):
    """Any call in any mode; seldom those that throw the state away."""
    weights = {name: 1 if name in ("create", "open") else 4 for name in model.CALLS}
    return with_arguments(rng, weighted(rng, weights), state, image)


def store_of(call, state, image):
    """The store that a call makes, or none."""
    name, arguments = parse_words(call.split(" "))
    return model.call(name, state, image, *arguments).store


def cut_call(rng, call, state, image):
    """The call with its store cut at any byte, often at the ends of the store."""
    store = store_of(call, state, image)
    size = len(store.data) if store else 0
    k = rng.choice([rng.randint(0, size)] * 4 + [0, 1, max(size - 1, 0), size, size + 1, LAST_LSN])
    return f"cut {k} {call}"
