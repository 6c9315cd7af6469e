"""Checks the image check itself, in a few seconds and without the product.

Bytes typed by hand from the paper against the model; then whether the cases notice each
link of a chain that is taken otherwise, and each of the wrong readers. A wrong reader is a change to the model's text: another reading of
the paper (OP n: the open point), or a slip. It is run on one group of cases until it
answers otherwise than the model. One that is not noticed fails the run.

    python3 images_selfcheck.py [--seed S] [--all]

--all prints for each wrong reader the first case that notices it.
"""

import argparse
import pathlib
import sys
import types

import images_cases as cases
import images_model

SOURCE = pathlib.Path(images_model.__file__).read_text()

# --------------------------------------------------------------------------- Typed by hand

FIRST = "63 02 00 00  10 21 01 01 00 00 00 01"  # 611, then 2110h:1, one byte, 1
LAST = "41 73 04 02 00 00 00 00 00"  # 7341h:4, two bytes, 0

DATA = (
    (0x2112, 1, "E8 03"),
    (0x3015, 2, "64 00"),
    (0x3014, 1, "00"),
    (0x4203, 1, ""),
    (0x4202, 3, "00"),
    (0x4640, 4, "64 00"),
    (0x5010, 2, ""),
    (0x5010, 15, "00 00 00 00"),
    (0x7122, 4, "94 11"),
)

# Two records: 3015h:2 with two bytes, 1000h:0 with three.
LIST = bytes.fromhex("02 00 00 00  15 30 02 02 00 00 00 2C 01  00 10 00 03 00 00 00 AA BB CC")

LOOK_UPS = (
    (LIST, 0x3015, 2, "2C 01"),
    (LIST, 0x1000, 0, "AA BB CC"),
    (LIST, 0x3015, 0, ""),
    (LIST, 0x0010, 0, ""),
    (LIST[:-1], 0x1000, 0, ""),  # its data is cut
    (LIST[:-1], 0x3015, 2, "2C 01"),
    (LIST[:-4], 0x1000, 0, ""),  # its head is cut
    (LIST + LIST[4:13], 0x1000, 0, "AA BB CC"),
    (b"\1" + LIST[1:], 0x1000, 0, ""),  # not counted
    (b"\0" + LIST[1:], 0x3015, 2, ""),
    (b"\xFF" + LIST[1:], 0x1000, 0, "AA BB CC"),
    (b"\xFF" + LIST[1:], 0x1001, 0, ""),  # the walk meets the end
    (LIST[:7] + b"\xFF" + LIST[8:], 0x3015, 2, ""),
    (LIST[:7] + b"\xFF" + LIST[8:], 0x1000, 0, ""),
    (LIST[:3], 0x3015, 2, ""),
    (b"", 0x3015, 2, ""),
)


def check_by_hand():
    image = images_model.image_of(cases.DEFAULTS)
    assert len(image) == 5207 and len(images_model.LINKS) == 112
    assert image.startswith(bytes.fromhex(FIRST)) and image.endswith(bytes.fromhex(LAST))
    for index, sub, data in DATA:
        assert images_model.look_up(image, index, sub) == bytes.fromhex(data), (hex(index), sub)
    for records, index, sub, data in LOOK_UPS:
        assert images_model.look_up(records, index, sub) == bytes.fromhex(data), (records, hex(index), sub)
    return "%d look-ups" % (len(DATA) + len(LOOK_UPS))


# --------------------------------------------------------------------------- Wrong readers

LEFT_OVER = """    if at < len(image):  # "then 7 bytes left over; then 6 chain"
        return 7, None
"""
CHAIN = """    if not is_in_order(configuration):
        return 6, None
"""
COUNTED = """    if COUNT.unpack_from(image)[0] != len(ENTRIES):
        return 2, None
"""
HEAD_CUT = """    if len(image) - at < HEAD.size:  # a head is one piece (OP 73)
"""
NAME = """    if (index, sub) != (entry.index, entry.sub):
        return 3, b""
"""
SIZE = """    if size != entry.type.size:
        return 4, b""
"""
DATA_CUT = """    if len(data) < size:  # "1 ended early (for a record's data: after 4)"
        return 1, b""
"""
START = "    at, configuration = COUNT.size, []\n"
KEPT = "        configuration.append(data)\n"
FINITE = "        return math.isfinite(value)\n"
RANGE = "    return entry.low <= value <= entry.high\n"
LINK = "            yield place, gap, PLACES[upper.index, upper.sub]\n"
LINKED = "        if entry.above is not None:\n"

ABOVE = "value_of(ENTRIES[lower], configuration[lower]) + gap >"
WRAPPED_ABOVE = "(value_of(ENTRIES[lower], configuration[lower]) + gap + 0x8000) % 0x10000 - 0x8000 >"

CUT_FIELD_BY_FIELD = """    if 3 <= len(image) - at < HEAD.size and image[at : at + 3] != HEAD.pack(entry.index, entry.sub, 0)[:3]:
        return 3, b""
"""
CUT_INDEX_FIRST = """    if 2 <= len(image) - at < HEAD.size and image[at : at + 2] != HEAD.pack(entry.index, 0, 0)[:2]:
        return 3, b""
"""
DATA_CUT_BY_SIZE_FIELD = """    if len(image) - at - HEAD.size < size:
        return 1, b""
"""
DATA_CUT_BY_TYPE = """    if len(image) - at - HEAD.size < entry.type.size:
        return 1, b""
"""
CHAIN_AT_ONCE = """        if entry.below and entry.below[0].index < entry.index:
            lower, gap = entry.below
            if value_of(lower, configuration[PLACES[lower.index, lower.sub]]) + gap > value_of(entry, data):
                return 6, None
"""

# What is wrong, the group that must notice it, and the change.
WRONG_READERS = (
    ("OP 75: 6 before 7", cases.doubly_damaged_images, LEFT_OVER + CHAIN, CHAIN + LEFT_OVER),
    ("OP 76: a chain is looked at record by record", cases.doubly_damaged_images, KEPT, KEPT + CHAIN_AT_ONCE),
    ("OP 73: a cut head read field by field", cases.doubly_damaged_images, HEAD_CUT, CUT_FIELD_BY_FIELD + HEAD_CUT),
    ("OP 73: a cut head's index read first", cases.doubly_damaged_images, HEAD_CUT, CUT_INDEX_FIRST + HEAD_CUT),
    ("data ended early before size, by the size field", cases.doubly_damaged_images, SIZE, DATA_CUT_BY_SIZE_FIELD + SIZE),
    ("data ended early before size, by the type", cases.doubly_damaged_images, SIZE, DATA_CUT_BY_TYPE + SIZE),
    ("data ended early before the name", cases.doubly_damaged_images, NAME, DATA_CUT_BY_TYPE + NAME),
    ("size before the name", cases.doubly_damaged_images, NAME + SIZE, SIZE + NAME),
    ("OP 75: too short before all records", cases.doubly_damaged_images, START, "    if len(image) < IMAGE_BYTES:\n        return 1, None\n" + START),
    ("OP 75: too long before all records", cases.doubly_damaged_images, START, "    if len(image) > IMAGE_BYTES:\n        return 7, None\n" + START),
    ("too long before the count", cases.doubly_damaged_images, COUNTED, "    if len(image) > IMAGE_BYTES:\n        return 7, None\n" + COUNTED),
    ("the count looked at last", cases.doubly_damaged_images, COUNTED + START, START, CHAIN, CHAIN + COUNTED),
    ("the count not looked at", cases.miscounted_images, COUNTED, ""),
    ("the count's low half only", cases.miscounted_images, "COUNT.unpack_from(image)[0] != len", "COUNT.unpack_from(image)[0] & 0xFFFF != len"),
    ("OP 74: under 4 bytes is a wrong count", cases.cut_images, "        return 1, None\n" + COUNTED, "        return 2, None\n" + COUNTED),
    ("missing data is 0", cases.cut_images, DATA_CUT, '    data = data.ljust(size, b"\\0")\n'),
    ("a last record that ends with the image is cut", cases.good_images, DATA_CUT, DATA_CUT.replace("len(data) < size", "at + HEAD.size + size >= len(image)")),
    ("bytes left over taken", cases.longer_images, LEFT_OVER, ""),
    ("a few bytes left over taken", cases.longer_images, "at < len(image):", "at + 6 < len(image):"),
    ("the sub not looked at", cases.reordered_images, "(index, sub) != (entry.index, entry.sub)", "index != entry.index"),
    ("the index not looked at", cases.reordered_images, "(index, sub) != (entry.index, entry.sub)", "sub != entry.sub"),
    ("the size's low byte only", cases.doubly_damaged_images, SIZE, "    size &= 0xFF\n" + SIZE),
    ("the size not looked at", cases.doubly_damaged_images, SIZE, "    size = entry.type.size\n"),
    ("infinity taken", cases.out_of_range_images, FINITE, "        return not math.isnan(value)\n"),
    ("not a number taken", cases.out_of_range_images, FINITE, "        return not math.isinf(value)\n"),
    ("OP 8: subnormals refused", cases.good_images, FINITE, "        return math.isfinite(value) and (value == 0 or abs(value) >= 2.0**-126)\n"),
    ("OP 8: subnormals become 0", cases.good_images, KEPT, KEPT.replace("(data)", "(data if len(data) < 4 or data[3] & 0x7F or data[2] & 0x80 else bytes(4))")),
    ("OP 8: -0.0 becomes +0.0", cases.good_images, KEPT, KEPT.replace("(data)", '(data if data != b"\\0\\0\\0\\x80" else bytes(4))')),
    ("the low end not looked at", cases.out_of_range_images, RANGE, "    return value <= entry.high\n"),
    ("the high end not looked at", cases.out_of_range_images, RANGE, "    return entry.low <= value\n"),
    ("the low end is outside", cases.good_images, RANGE, "    return entry.low < value <= entry.high or value == entry.default\n"),
    ("the high end is outside", cases.good_images, RANGE, "    return entry.low <= value < entry.high or value == entry.default\n"),
    ("axis type 1 taken", cases.out_of_range_images, RANGE, "    return entry.low <= value <= entry.high + (entry.index & 0xFF0F == 0x3004 and entry.sub == 1)\n"),
    ("gain -101 taken", cases.out_of_range_images, RANGE, "    return entry.low - (entry.index & 0xF0FF == 0x4040) <= value <= entry.high\n"),
    ("ramp 60001 taken", cases.out_of_range_images, RANGE, "    return entry.low <= value <= entry.high + (entry.index == 0x2331)\n"),
    ("7320h <= 7322h", cases.broken_images, LINK, LINK.replace("gap,", "gap * (entry.index != 0x7320),")),
    ("7120h <= 7122h", cases.broken_images, LINK, LINK.replace("gap,", "gap * (entry.index != 0x7120),")),
    ("4920h:4 <= 4922h:4", cases.broken_images, LINK, LINK.replace("gap,", "gap * ((entry.index, entry.sub) != (0x4920, 4)),")),
    ("2520h:12 not looked at", cases.broken_images, LINKED, LINKED.replace("None:", "None and (entry.index, entry.sub) != (0x2520, 12):")),
    ("7148h not looked at", cases.broken_images, LINKED, LINKED.replace("None:", "None and entry.index != 0x7148:")),
    ("7149h not looked at", cases.broken_images, LINKED, LINKED.replace("None:", "None and entry.index != 0x7122:")),
    ("3065h:11 not looked at", cases.broken_images, LINKED, LINKED.replace("None:", "None and (entry.index, entry.sub) != (0x3065, 10):")),
    ("7148h < 7120h", cases.good_images, LINK, LINK.replace("gap,", "gap + (entry.index == 0x7148),")),
    ("3065h:10 < :11", cases.good_images, LINK, LINK.replace("gap,", "gap + ((entry.index, entry.sub) == (0x3065, 10)),")),
    ("lower + 1 wraps round", cases.broken_images, ABOVE, WRAPPED_ABOVE),
)


def changed_module(text, changes):
    """A module with its text changed, old and new in turn."""
    for old, new in zip(changes[::2], changes[1::2]):
        assert text.count(old) == 1, old
        text = text.replace(old, new)
    module = types.ModuleType("changed")
    exec(compile(text, "changed", "exec"), module.__dict__)
    return module


class Answered:
    """The cases of a group with the model's answers, which are kept for the next wrong reader."""

    def __init__(self, group, seed):
        self.coming = cases.cases((group,), seed)
        self.known = []

    def __iter__(self):
        yield from self.known
        for _, image, _ in self.coming:
            self.known.append((image, images_model.read_image(image)))
            yield self.known[-1]


def noticed_at(answered, changes):
    """The number of the first case that the wrong reader answers otherwise, None where there is none."""
    wrong = changed_module(SOURCE, changes).read_image
    for number, (image, answer) in enumerate(answered, 1):
        if wrong(image) != answer:
            return number
    return None


def check_wrong_readers(seed, show_all):
    """The number of wrong readers that no case notices."""
    answered = {group: Answered(group, seed) for _, group, *_ in WRONG_READERS}
    missed = 0
    for title, group, *changes in WRONG_READERS:
        number = noticed_at(answered[group], changes)
        if number is None:
            print("%-48s NOT NOTICED by %s" % (title, group.__name__))
            missed += 1
        elif show_all:
            print("%-48s %s, case %d" % (title, group.__name__, number))
    return missed


# --------------------------------------------------------------------------- Every link


def values_in(group, seed):
    """The values of each image of the group; its records are all whole."""
    for _, image, _ in cases.cases((group,), seed):
        yield [
            images_model.value_of(entry, image[start + images_model.HEAD.size : end])
            for entry, start, end in zip(images_model.ENTRIES, cases.STARTS, cases.STARTS[1:])
        ]


def all_hold(values, links):
    return all(values[lower] + gap <= values[upper] for lower, gap, upper in links)


def check_links(seed):
    """A link that is left out or taken one weaker lets a broken image pass; one stronger, and a good one fails."""
    good, broken = list(values_in(cases.good_images, seed)), list(values_in(cases.broken_images, seed))
    for link in images_model.LINKS:
        lower, gap, upper = link
        others = [other for other in images_model.LINKS if other != link]
        assert any(all_hold(values, others) for values in broken), link
        assert any(all_hold(values, others + [(lower, gap - 1, upper)]) for values in broken), link
        assert not all(all_hold(values, [(lower, gap + 1, upper)]) for values in good), link
    return "%d links, each left out, one weaker, one stronger" % len(images_model.LINKS)


def main(arguments):
    parser = argparse.ArgumentParser(description="checks of the image check")
    parser.add_argument("--seed", default="1")
    parser.add_argument("--all", action="store_true")
    chosen = parser.parse_args(arguments)
    print("good: " + check_by_hand())
    print("good: " + check_links(chosen.seed))
    missed = check_wrong_readers(chosen.seed, chosen.all)
    print("%d wrong readers, %d not noticed" % (len(WRONG_READERS), missed))
    return 1 if missed else 0


if __name__ == "__main__":
    sys.exit(main(sys.argv[1:]))
