"""An outside model of document 01's restore list: what one must be, and whether bytes are one.

`call_complaint` and `list_complaint` judge by the paper alone, which leaves the order of the
records open: any order passes whose records a unit accepts. `called` is a list maker that puts
them in the order which crates/gateway/restore_list.h promises.
"""

import struct

import model
from images_model import COUNT, ENTRIES, HEAD, PLACES, configuration_of, dictionary_with, read_image

NO_ROOM = -8  # "then -8 for room"


# --------------------------------------------------------------------------- Judging by the paper


def differing(first, second):
    """ "one record per entry whose bytes differ": their places"""
    return [place for place in range(len(ENTRIES)) if first[place] != second[place]]


def record_of(place, data):
    entry = ENTRIES[place]
    return HEAD.pack(entry.index, entry.sub, len(data)) + data


def length_of_list(first, second):
    return COUNT.size + sum(HEAD.size + len(second[place]) for place in differing(first, second))


def records_in(made):
    """Each record's name and data; None where the bytes are not whole records, as many as are counted."""
    if len(made) < COUNT.size:
        return None
    at, records = COUNT.size, []
    while at < len(made):
        if len(made) - at < HEAD.size:
            return None
        index, sub, size = HEAD.unpack_from(made, at)
        at += HEAD.size + size
        if at > len(made):
            return None
        records.append((index, sub, made[at - size : at]))
    return records if len(records) == COUNT.unpack_from(made)[0] else None


WRITES = {size: command for command, size in model.WRITES.items()}


def frame_of(index, sub, data):
    """The write that a record asks for."""
    return struct.pack("<BHB", WRITES[len(data)], index, sub) + data.ljust(4, b"\0")


def frames_in(made):
    return [frame_of(*record) for record in records_in(made)]


def list_complaint(first, second, made):
    """In words, why the bytes are no list from the first configuration to the second; None where they are one."""
    records = records_in(made)
    if records is None:
        return "no records, or not as many as counted"
    if sorted(records) != [(ENTRIES[place].index, ENTRIES[place].sub, second[place]) for place in differing(first, second)]:
        return "not one record per entry whose bytes differ"
    unit = dictionary_with(first)
    for number, record in enumerate(records, 1):
        refused = model.refusal(unit, frame_of(*record))
        if refused is not None:
            return "record %d of %d, %04Xh:%d, is refused with %08Xh" % (number, len(records), *record[:2], refused[1])
        model.answer(unit, frame_of(*record))
    return None if configuration_of(unit) == second else "another configuration"


def refusal_of(current, wanted):
    """The number for an image that is refused, else 0; then both configurations."""
    refusal, first = read_image(current)  # "current read first"
    if refusal:
        return -refusal, None, None
    refusal, second = read_image(wanted)
    if refusal:
        return -(10 + refusal), None, None
    return 0, first, second


def call_complaint(read, before, number, after):
    """In words, what is wrong with a call's number and with what it left of the buffer; None where nothing is.

    Read is what `refusal_of` says of the two images. The list itself is not looked at.
    """
    expected, first, second = read
    if expected == 0:
        needed = length_of_list(first, second)
        expected = needed if needed <= len(before) else NO_ROOM
    if number != expected:
        return "%d came, not %d" % (number, expected)
    if number < 0:
        return None if after == before else "a refusal wrote"
    return None if after[number:] == before[number:] else "bytes past the list did not stay"


# --------------------------------------------------------------------------- A list maker


def sending_order():
    """The places in image order, but 7148h:1-4 before 7120h:1-4."""
    starts = [place for place, entry in enumerate(ENTRIES) if entry.index == 0x7148]
    others = [place for place in range(len(ENTRIES)) if place not in starts]
    at = others.index(PLACES[0x7120, 1])
    return others[:at] + starts + others[at:]


ORDER = sending_order()


def number_in(data):
    """INTEGER16 from the low two bytes; one byte counts as itself."""
    return data[0] if len(data) == 1 else struct.unpack_from("<h", data)[0]


def sent(first, second):
    """The places as they are sent: what rises, from the last to the first, then the others, from the first to the last."""
    rising, others = [], []
    for place in ORDER:
        if first[place] == second[place]:
            continue
        rises = number_in(first[place]) < number_in(second[place])
        (rising if rises else others).append(place)
    return rising[::-1] + others


def list_of(first, second):
    places = sent(first, second)
    count = len(places)
    return COUNT.pack(count) + b"".join(record_of(place, second[place]) for place in places)


def called(current, wanted, before):
    """The number that is returned, and the buffer afterwards."""
    refused, first, second = refusal_of(current, wanted)
    if refused:
        return refused, before
    made = list_of(first, second)
    if len(made) > len(before):
        return NO_ROOM, before
    return len(made), made + before[len(made) :]
