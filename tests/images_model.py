"""An outside model of document 01's configuration image: how it is written, read and looked into.

Written from the paper alone, on the model's table of names; (OP n) is the open point
whose reading is taken. A configuration here is a list of 611 byte strings, the entries'
data in the image's order, so that -0.0 and every other bit stay as they are.
"""

import math
import struct

import model

COUNT = struct.Struct("<I")  # "count u32, then per record index u16, sub u8, size u32, data; low byte first"
HEAD = struct.Struct("<HBI")
IMAGE_BYTES = 5207

ENTRIES = model.Dictionary().configuration  # "the 611 entries ascending by index, then sub"
PLACES = {(entry.index, entry.sub): place for place, entry in enumerate(ENTRIES)}


def _links(entries):
    """The chains as (place of the lower, gap, place of the upper); the gap is 1 for <, 0 for <=."""
    for place, entry in enumerate(entries):
        if entry.above is not None:
            upper, gap = entry.above
            yield place, gap, PLACES[upper.index, upper.sub]


LINKS = tuple(_links(ENTRIES))


def value_of(entry, data):
    return entry.type.form.unpack(data)[0]


def data_of(entry, value):
    return entry.type.form.pack(value)


def image_of(configuration):
    records = [COUNT.pack(len(ENTRIES))]
    for entry, data in zip(ENTRIES, configuration, strict=True):
        records.append(HEAD.pack(entry.index, entry.sub, len(data)) + data)
    return b"".join(records)


def is_in_range(entry, data):
    value = value_of(entry, data)
    if entry.type is model.REAL32:  # "REAL32, finite"
        return math.isfinite(value)
    return entry.low <= value <= entry.high


def is_in_order(configuration):
    """Whether every chain holds."""
    for lower, gap, upper in LINKS:
        if value_of(ENTRIES[lower], configuration[lower]) + gap > value_of(ENTRIES[upper], configuration[upper]):
            return False
    return True


def read_record(image, at, entry):
    """The refusal number of the record that begins there, 0 for none, and the record's data."""
    if len(image) - at < HEAD.size:  # a head is one piece (OP 73)
        return 1, b""
    index, sub, size = HEAD.unpack_from(image, at)
    if (index, sub) != (entry.index, entry.sub):
        return 3, b""
    if size != entry.type.size:
        return 4, b""
    data = image[at + HEAD.size : at + HEAD.size + size]
    if len(data) < size:  # "1 ended early (for a record's data: after 4)"
        return 1, b""
    if not is_in_range(entry, data):  # chains wait for the end (OP 76)
        return 5, b""
    return 0, data


def read_image(image):
    """The refusal number and None, or 0 and the configuration."""
    if len(image) < COUNT.size:
        return 1, None
    if COUNT.unpack_from(image)[0] != len(ENTRIES):
        return 2, None
    at, configuration = COUNT.size, []
    for entry in ENTRIES:  # the first record with a fault decides (OP 75)
        refusal, data = read_record(image, at, entry)
        if refusal:
            return refusal, None
        configuration.append(data)
        at += HEAD.size + len(data)
    if at < len(image):  # "then 7 bytes left over; then 6 chain"
        return 7, None
    if not is_in_order(configuration):
        return 6, None
    return 0, configuration


def look_up(image, index, sub):
    """The data of the first record with that name in any concise list; empty where the walk finds none whole."""
    if len(image) < COUNT.size:
        return b""
    at = COUNT.size
    for _ in range(COUNT.unpack_from(image)[0]):
        if len(image) - at < HEAD.size:
            return b""
        *name, size = HEAD.unpack_from(image, at)
        at += HEAD.size
        if len(image) - at < size:
            return b""
        if name == [index, sub]:
            return image[at : at + size]
        at += size
    return b""


# A unit that frames can be sent to.


def dictionary_with(configuration):
    names = model.Dictionary()
    for entry, data in zip(names.configuration, configuration, strict=True):
        entry.value = value_of(entry, data)
    return names


def configuration_of(names):
    return [data_of(entry, entry.value) for entry in names.configuration]


# The unit lent by C: one word for each entry, then the rest.


def words_of(configuration):
    """The words that hold the configuration, low byte first: a data's missing bytes are 0."""
    return b"".join(data.ljust(4, b"\0") for data in configuration)


def configuration_in(words):
    """What the words hold: the low bytes of each, as many as its entry has."""
    return [words[4 * place : 4 * place + entry.type.size] for place, entry in enumerate(ENTRIES)]
