"""Damages an image that holds a log, so that open meets its refusals."""

import model
from calls import clamp
from model import EXTENT_HEADER, LAST_LSN, LAST_VERSION, METADATA_FRONT, RECORDS_PLACE


def damaged(rng, image):
    """A copy of the image with a damage, mostly where open looks."""
    copy = bytearray(image)
    if len(copy) < model.METADATA_SIZE:
        return copy
    meta = model.read_metadata(copy)
    sound = model.sizes_in_range(meta.e, meta.s) and model.metadata_kept(meta, copy)
    if sound and len(copy) == model.image_size(meta.e, meta.s):
        rng.choice(DAMAGES)(rng, copy, meta)
    else:
        copy[rng.randrange(len(copy))] = rng.randrange(256)
    return copy


def walked(image, meta, slot):
    """The header's start, the places of an extent's records, and where the walk stops."""
    part = model.slot_part(image, meta.e, slot)
    _, start = EXTENT_HEADER.unpack_from(part)
    places, place = [], RECORDS_PLACE
    while size := model.complete_size(part, place, start + len(places), meta.version, meta.last):
        places.append(place)
        place += size
    return start, places, place


def listed(image, meta):
    return list(image[20 : 20 + meta.n])


def found_tail(image, meta):
    start, places, _ = walked(image, meta, listed(image, meta)[-1])
    return start + len(places)


def hurt_field(rng, image, meta):
    """One metadata field changed, or a byte of the rest."""
    edges = {
        "format": [0, 2],
        "length": [meta.length - 1, meta.length + 1],
        "e": [0, 63, meta.e - 1, meta.e + 1, 65_536, 65_537],
        "s": [0, 1, meta.s - 1, meta.s + 1, 64, 65],
        "head": [0],
        "last": [0],
        "version": [0, meta.version - 1, min(meta.version + 1, LAST_VERSION)],
        "clean": [0, 1, 2, 255],
        "n": [0, meta.n - 1, meta.n + 1, meta.s + 1, 255],
    }
    name = rng.choice([*edges, "rest"])
    if name == "rest":
        image[rng.randrange(20, model.METADATA_SIZE)] = rng.randrange(256)
    else:
        METADATA_FRONT.pack_into(image, 0, *meta._replace(**{name: rng.choice(edges[name])}))


def hurt_head(rng, image, meta):
    """A head at an edge of the first extent or of the log."""
    starts = [walked(image, meta, slot)[0] for slot in listed(image, meta)]
    tail = found_tail(image, meta)
    head = rng.choice([starts[0] - 1, *starts[1:2], starts[-1], tail, tail + 1])
    METADATA_FRONT.pack_into(image, 0, *meta._replace(head=clamp(head, 0, LAST_LSN)))


def hurt_last_tail(rng, image, meta):
    """A last tail LSN beside the tail, and either clean mark."""
    last = clamp(found_tail(image, meta) + rng.choice([-1, 1, 2]), 1, LAST_LSN)
    METADATA_FRONT.pack_into(image, 0, *meta._replace(last=last, clean=rng.randrange(2)))


def put_list(image, meta, slots):
    """Stores a list of slots with its length, as far as the metadata can hold it."""
    slots = slots[: model.ENTRIES]
    METADATA_FRONT.pack_into(image, 0, *meta._replace(n=len(slots), length=17 + len(slots)))
    image[20 : model.METADATA_SIZE] = bytes(slots).ljust(model.METADATA_SIZE - 20, b"\0")


def hurt_list(rng, image, meta):
    """Another list of slots, that may name one out of range or twice."""
    slots = listed(image, meta)
    kind = rng.randrange(5)
    if kind == 0:
        slots.append(slots[-1])
    elif kind == 1:
        slots.insert(rng.randint(0, len(slots)), rng.randrange(meta.s))
    elif kind == 2:
        slots.pop(rng.randrange(len(slots)))
    elif kind == 3:
        rng.shuffle(slots)
    else:
        slots[rng.randrange(len(slots))] = rng.choice([meta.s, 255, rng.randrange(meta.s)])
    put_list(image, meta, slots)


def hurt_header(rng, image, meta):
    place = model.slot_place(meta.e, rng.choice(listed(image, meta)))
    first, start = EXTENT_HEADER.unpack_from(image, place)
    if rng.random() < 0.4:
        first = rng.choice([0, 2, 255])
    else:
        start = clamp(rng.choice([0, start - 1, start + 1, LAST_LSN]), 0, LAST_LSN)
    EXTENT_HEADER.pack_into(image, place, first, start)


def hurt_record(rng, image, meta):
    """One field of a record changed, or any byte of the extents when there is none."""
    slot = rng.choice(listed(image, meta))
    _, places, _ = walked(image, meta, slot)
    if not places:
        image[rng.randrange(model.METADATA_SIZE, len(image))] = rng.randrange(256)
        return
    place = model.slot_place(meta.e, slot) + rng.choice(places)
    length, version, lsn = model.RECORD_FRONT.unpack_from(image, place)
    kind = rng.randrange(5)
    if kind == 0:
        length = rng.choice([0, 6, 7, length - 1, length + 1, 1031, 1032])
    elif kind == 1:
        version = rng.choice([0, version - 1, min(version + 1, LAST_VERSION)])
    elif kind == 2:
        lsn = clamp(rng.choice([0, lsn - 1, lsn + 1]), 0, LAST_LSN)
    elif kind == 3:
        image[place + 1 + length] = rng.choice([0, 164, 166])
    else:
        image[place + rng.randrange(2 + length)] = rng.randrange(256)
    if kind < 3:
        model.RECORD_FRONT.pack_into(image, place, length, version, lsn)


def put_record(image, meta, slot, place, record):
    """Lays a record into a slot when there is room for it."""
    if place + len(record) <= meta.e:
        place += model.slot_place(meta.e, slot)
        image[place : place + len(record)] = record


def add_record(rng, image, meta):
    """A record put down where a walk stops: one too many but in the write extent, and
    none when its payload is one byte too long for any."""
    slot = rng.choice(listed(image, meta))
    start, places, stop = walked(image, meta, slot)
    version = clamp(rng.choice([meta.version, meta.version, meta.version - 1]), 1, LAST_VERSION)
    lsn = min(start + len(places), LAST_LSN)
    payload = bytes(1025 if meta.e > 1025 and rng.random() < 0.5 else rng.randrange(3))
    put_record(image, meta, slot, stop, model.record_bytes(version, lsn, payload))


def shift_lsns(image, meta, shift):
    """Every LSN of the log moved by as much, so that the extents join as before."""
    for slot in listed(image, meta):
        start, places, _ = walked(image, meta, slot)
        base = model.slot_place(meta.e, slot)
        EXTENT_HEADER.pack_into(image, base, 1, clamp(start + shift, 0, LAST_LSN))
        for lsn, place in enumerate(places, start + shift):
            length, version, _ = model.RECORD_FRONT.unpack_from(image, base + place)
            lsn = clamp(lsn, 0, LAST_LSN)
            model.RECORD_FRONT.pack_into(image, base + place, length, version, lsn)
    head, last = clamp(meta.head + shift, 1, LAST_LSN), clamp(meta.last + shift, 1, LAST_LSN)
    METADATA_FRONT.pack_into(image, 0, *meta._replace(head=head, last=last))


def start_at_zero(rng, image, meta):
    shift_lsns(image, meta, -walked(image, meta, image[20])[0])


def add_short_record(rng, image, meta):
    """A record one byte too short, whose LSN ends in the closing byte."""
    slot = listed(image, meta)[-1]
    stop = walked(image, meta, slot)[2]
    shift_lsns(image, meta, model.CLOSING - found_tail(image, meta))
    put_record(image, meta, slot, stop, model.RECORD_FRONT.pack(6, meta.version, model.CLOSING))


def empty_twice(rng, image, meta):
    """A write extent without records, listed twice."""
    slots = listed(image, meta)
    first = model.slot_place(meta.e, slots[-1]) + RECORDS_PLACE
    image[first : first + 2] = bytes(2)
    put_list(image, meta, slots + slots[-1:])


DAMAGES = [
    *[hurt_field] * 4,
    hurt_head,
    hurt_last_tail,
    *[hurt_list] * 2,
    hurt_header,
    *[hurt_record] * 2,
    *[add_record] * 2,
    start_at_zero,
    add_short_record,
    empty_twice,
]
