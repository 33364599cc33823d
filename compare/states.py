"""Random states for `set`, `setslot` and `setstart`: well formed, or with one fault."""

from dataclasses import replace
from itertools import accumulate

import model
from calls import clamp
from model import HEAD_MODES, LAST_LSN, ROLL_MODES, Mode, State
from reader import FIELDS, NUMBER, with_entry


def random_state(rng, mode, e, s):
    """A well-formed state in a mode for an E and an S in range."""
    while True:
        state = candidate(rng, mode, e, s)
        if model.well_formed(state):
            return state


def candidate(rng, mode, e, s):
    """A state that is well formed unless its roll finds no room or no slot."""
    n = rng.choice([rng.randint(1, min(s, 5)), rng.randint(1, s)])
    order = rng.sample(range(s), s)
    starts, tail = rising(rng, n)
    limit = tail if n == 1 else min(tail, starts[1] - 1)
    state = State(
        mode=mode,
        e=e,
        s=s,
        n=n,
        slots=model.filled(order[:n]),
        starts=model.filled(starts),
        head=rng.randint(starts[0], limit),
        tail=tail,
        last=rng.choice([1, tail, rng.randint(1, tail), rng.randint(max(tail - 5, 1), tail)]),
        version=rng.choice([1, 2, 3, 65_534, 65_535]),
        place=write_place(rng, e, starts[-1] == tail),
    )
    return with_roll(rng, with_pending(rng, state, order[n:]))


def rising(rng, n):
    """Starts that rise strictly, and a tail at or above the last, near either end."""
    offsets = [0, *accumulate(rng.choices([1, 1, 2, 5], k=n - 1))]
    live = offsets[-1] + rng.choice([0, 1, 1, 2, 5])
    highest = LAST_LSN - live
    first = rng.choice([1, rng.randint(1, 50), rng.randint(1, highest), highest, highest - 1])
    return [first + offset for offset in offsets], first + live


def write_place(rng, e, empty):
    if empty:
        return model.RECORDS_PLACE
    return max(model.RECORDS_PLACE + 1, rng.choice([e, e - rng.randint(0, 60), rng.randint(6, e)]))


def with_pending(rng, state, others):
    if state.mode not in HEAD_MODES:
        return state
    chosen = rng.sample(others, rng.randint(0, len(others)))
    return replace(state, pending=sum(1 << slot for slot in chosen))


def with_roll(rng, state):
    if state.mode not in ROLL_MODES:
        return state
    # The roll's slot is not chosen yet, so the free ones are those of Run.
    free = model.free_slots(replace(state, mode=Mode.RUN))
    longest = model.longest_payload(state.e)
    shortest = max(state.e - state.place - 8, 0)
    if not free or shortest > longest:
        return state
    length = rng.choice([shortest, longest, rng.randint(shortest, longest)])
    return replace(state, roll_slot=rng.choice(free), roll_len=length)


def fault(rng, state):
    """The state with one field or entry changed, mostly so that a rule is broken."""
    name = rng.choice([name for name, _ in FIELDS.values()] + ["slots", "starts"] * 2)
    if name in ("slots", "starts"):
        return replace(state, **{name: entry_fault(rng, state, name)})
    highest = dict(FIELDS.values())[name]
    value = clamp(rng.choice(field_edges(rng, state, name)), 0, highest)
    return replace(state, **{name: Mode(value) if name == "mode" else value})


def field_edges(rng, state, name):
    """Values at the edges of what the state's rules ask of a field."""
    e, s, n, tail = state.e, state.s, state.n, state.tail
    listed = rng.choice(state.slots[: max(n, 1)])
    last_start = state.starts[clamp(n, 1, model.ENTRIES) - 1]
    first_pending = (state.pending & -state.pending).bit_length() - 1
    longest = model.longest_payload(e)
    return {
        "mode": range(10),
        "e": [0, 63, 64, e - 1, e + 1, 65_536, 65_537, NUMBER],
        "s": [0, 1, 2, s - 1, s + 1, 64, 65, 255],
        "n": [0, n - 1, n + 1, s, s + 1, 64, 65, 255],
        "head": [0, state.starts[0] - 1, state.starts[1], tail, tail + 1, NUMBER],
        "tail": [0, state.head - 1, last_start - 1, last_start, tail + 1, NUMBER],
        "last": [0, 1, tail, tail + 1, NUMBER],
        "version": [0, 1, state.version + 1, 65_535],
        "place": [0, 4, 5, 6, e, e + 1, 65_536, NUMBER],
        "pending": [0, 1 << listed, 1 << state.roll_slot, 1 << s, 1 << 63, 2**64 - 1],
        "roll_slot": [0, 1, listed, first_pending, s - 1, s, 64, 255],
        "roll_len": [0, 1, e - state.place - 9, e - state.place - 8, longest, longest + 1, NUMBER],
    }[name]


def entry_fault(rng, state, name):
    """The entries of slots or starts with one changed, the first unused one too."""
    entries = getattr(state, name)
    index = rng.randrange(min(state.n + 1, model.ENTRIES))
    other = rng.choice(entries[: max(state.n, 1)])
    if name == "slots":
        values = [0, other, state.s - 1, state.s, 64, 255]
    else:
        values = [0, entries[index - 1], other + 1, state.head, state.tail, state.tail + 1]
    return with_entry(entries, index, clamp(rng.choice(values), 0, NUMBER))


def state_lines(before, after):
    """The commands that turn one state into another."""
    for word, (name, _) in FIELDS.items():
        if getattr(before, name) != getattr(after, name):
            yield f"set {word} {int(getattr(after, name))}"
    for command, name in (("setslot", "slots"), ("setstart", "starts")):
        pairs = zip(getattr(before, name), getattr(after, name))
        for index, (old, new) in enumerate(pairs):
            if old != new:
                yield f"{command} {index} {new}"
