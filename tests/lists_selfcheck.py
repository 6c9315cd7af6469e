"""Checks the list check itself, in a few seconds and without the product.

The model stands in for the C program of lists.c and must pass; then wrong list makers stand
in, and units that play a list wrongly. A wrong list maker is a change to the model's text:
another reading of the paper, or a slip. It goes through the same checks as the product, on
one group of pairs, until one complains. One that is not noticed fails the run. Where only
the order of the header is broken, and no unit would mind, that is said.

    python3 lists_selfcheck.py [--seed S] [--all]

--all prints for each wrong list maker what was complained of.
"""

import argparse
import functools
import pathlib
import random
import struct
import sys

import images_model
import lists
import lists_cases as cases
import lists_model
import model
from images import Difference
from images_selfcheck import changed_module

SOURCE = pathlib.Path(lists_model.__file__).read_text()

# --------------------------------------------------------------------------- Standing in for the C program


def maker_of(changes):
    """The model's list maker with its text changed; images that come several times in a row are read once."""
    module = changed_module(SOURCE, changes)
    module.read_image = functools.lru_cache(8)(module.read_image)
    return module.called


class StandIn:
    """Answers requests as lists.c does, with this list maker and units of the model."""

    def __init__(self, *changes):
        self.called = maker_of(changes)

    def ask(self, request):
        letter, rest = request[:1], request[1:]
        if letter == b"P":
            return self.played(rest)
        if letter == b"E":
            length, room, filler = struct.unpack_from("<IIB", rest)
            current = wanted = rest[9:]
        else:
            length, _, room, filler = struct.unpack_from("<IIIB", rest)
            current, wanted = rest[13 : 13 + length], rest[13 + length :]
        number, after = self.called(current, wanted, bytes((filler,)) * room)
        return struct.pack("<ii", number, 0) + after

    def played(self, rest):
        size = images_model.IMAGE_BYTES
        first, second = (images_model.read_image(rest[at : at + size])[1] for at in (0, size))
        names, answers = images_model.dictionary_with(first), []
        for kind, event in struct.iter_unpack("<s8s", rest[2 * size :]):
            reply = self.reply(names, event) if kind == b"S" else None
            answers.append(struct.pack("<B8sB", len(reply or b""), reply or b"", self.holds(names, first, second)))
        return struct.pack("<ii", 0, 0) + b"".join(answers) + images_model.image_of(images_model.configuration_of(names))

    def reply(self, names, frame):
        return model.answer(names, frame)

    def holds(self, names, first, second):
        return all(now in both for now, *both in zip(images_model.configuration_of(names), first, second))


class RefusesOne(StandIn):
    """The record for 3015h:6 is not done, and that is said."""

    def reply(self, names, frame):
        if frame[:4] == bytes.fromhex("2B 15 30 06"):
            return bytes.fromhex("80 15 30 06 31 00 09 06")
        return model.answer(names, frame)


class LosesOne(StandIn):
    """The record for 3015h:1 is not done once it could be, and answered as if it were."""

    def reply(self, names, frame):
        if frame[:4] == bytes.fromhex("2B 15 30 01") and names.entry(0x3015, 2).value == 600:
            return bytes.fromhex("60 15 30 01 00 00 00 00")
        return model.answer(names, frame)


class WritesAnother(StandIn):
    """A write to 3015h:6 sets 3016h:6 to a third value until 3015h:5 is written."""

    def reply(self, names, frame):
        if frame[0] == 0x2B and frame[1:3] == b"\x15\x30" and frame[3] in (5, 6):
            names.entry(0x3016, 6).value = 500 + (frame[3] == 6)
        return model.answer(names, frame)


class TouchesAnImage(StandIn):
    def ask(self, request):
        answer = super().ask(request)
        return answer if request[:1] == b"P" else answer[:4] + struct.pack("<i", 1) + answer[8:]


# What stands in, what must notice it, and in which words.
STAND_INS = (
    ("a unit refuses a record", RefusesOne, lists.play_by_hand, "answered with"),
    ("a unit loses a record", LosesOne, lists.play_by_hand, "at the end"),
    ("a unit holds a third value on the way", WritesAnother, lists.play_by_hand, "neither value"),
    ("an image is touched", TouchesAnImage, lists.check_by_hand, "touched"),
)

# --------------------------------------------------------------------------- Wrong list makers

SENT = "    return rising[::-1] + others\n"
DIFFER = "        if first[place] == second[place]:\n"
COUNTED = "    count = len(places)\n"
RECORDS = 'b"".join(record_of(place, second[place]) for place in places)'
STARTS = "    starts = [place for place, entry in enumerate(ENTRIES) if entry.index == 0x7148]\n"
NUMBER = '    return data[0] if len(data) == 1 else struct.unpack_from("<h", data)[0]\n'
READING = """    refused, first, second = refusal_of(current, wanted)
    if refused:
        return refused, before
"""
DONE = "    return len(made), made + before[len(made) :]\n"

CURRENT_NUMBER, WANTED_NUMBER = "        return -refusal, None, None\n", "        return -(10 + refusal), None, None\n"
CURRENT = """    refusal, first = read_image(current)  # "current read first"
    if refusal:
        return -refusal, None, None
"""
WANTED = """    refusal, second = read_image(wanted)
    if refusal:
        return -(10 + refusal), None, None
"""
WRITTEN = "bytes(4)[: len(before)] + before[4:]"

# What is wrong, the group that must notice it, and the change. All of these are wrong by the paper.
WRONG_MAKERS = (
    ("one pass, as an image has them", cases.moved_chains, SENT, "    return sorted(rising + others)\n"),
    ("one pass, from the last to the first", cases.moved_chains, SENT, "    return sorted(rising + others)[::-1]\n"),
    ("what rises from the first to the last", cases.moved_chains, SENT, "    return rising + others\n"),
    ("what falls from the last to the first", cases.moved_chains, SENT, "    return rising[::-1] + others[::-1]\n"),
    ("both passes turned round", cases.moved_chains, SENT, "    return others[::-1] + rising\n"),
    ("7148h in image order", cases.moved_chains, STARTS, "    return list(range(len(ENTRIES)))\n" + STARTS),
    ("7149h before 7120h too", cases.moved_chains, "entry.index == 0x7148]", "entry.index in (0x7148, 0x7149)]"),
    ("7148h:4 in image order", cases.moved_chains, "entry.index == 0x7148]", "entry.index == 0x7148 and entry.sub < 4]"),
    ("numbers without a sign", cases.moved_chains, NUMBER, NUMBER.replace("<h", "<H")),
    ("numbers by their low byte", cases.moved_chains, NUMBER, "    return data[0]\n"),
    ("the count is 611", cases.near_pairs, COUNTED, "    count = len(ENTRIES)\n"),
    ("the count is 0", cases.near_pairs, COUNTED, "    count = 0\n"),
    ("the count one less", cases.near_pairs, COUNTED, "    count = max(len(places) - 1, 0)\n"),
    ("the count in bytes", cases.near_pairs, COUNTED, "    count = 9 * len(places)\n"),
    ("the count's high byte first", cases.near_pairs, "COUNT.pack(count)", 'struct.pack(">I", count)'),
    ("the first record left out", cases.near_pairs, COUNTED, "    places = places[1:]\n" + COUNTED),
    ("the last record left out, but counted", cases.near_pairs, COUNTED, COUNTED + "    places = places[:-1]\n"),
    ("the last entry left out", cases.far_pairs, "    for place in ORDER:", "    for place in ORDER[:-1]:"),
    ("the first record twice", cases.near_pairs, COUNTED, "    places = places[:1] + places\n" + COUNTED),
    ("a record too many in two equal images", cases.equal_pairs, COUNTED, "    places = places or [0]\n" + COUNTED),
    ("every entry", cases.equal_pairs, DIFFER, "        if False:\n"),
    ("nothing at all for two equal images", cases.equal_pairs, DONE, "    made = made if first != second else b''\n" + DONE),
    ("the current values", cases.near_pairs, RECORDS, RECORDS.replace("second[place]", "first[place]")),
    ("-0.0 is 0.0", cases.pairs_of_bits, DIFFER, "        if first[place] == second[place] or {first[place], second[place]} == {bytes(4), bytes.fromhex('00000080')}:\n"),
    ("REAL32 by their low two bytes", cases.pairs_of_bits, DIFFER, "        if first[place][:2] == second[place][:2]:\n"),
    ("times by their low byte", cases.pairs_of_bits, DIFFER, "        if first[place] == second[place] or len(first[place]) == 2 and first[place][0] == second[place][0]:\n"),
    ("sizes of four bytes always", cases.near_pairs, RECORDS, RECORDS.replace("second[place]", r"second[place].ljust(4, b'\0')")),
    ("wanted judged before current", cases.faulty_pairs, CURRENT + WANTED, WANTED + CURRENT),
    ("the current image not judged", cases.valued_pairs, CURRENT_NUMBER, "        first = read_image(wanted)[1]\n"),
    ("the wanted image not judged", cases.valued_pairs, WANTED_NUMBER, "        second = first\n"),
    ("wanted without the 10", cases.counted_pairs, WANTED_NUMBER, WANTED_NUMBER.replace("(10 + refusal)", "refusal")),
    ("wanted 8 further", cases.counted_pairs, WANTED_NUMBER, WANTED_NUMBER.replace("10 +", "8 +")),
    ("current 10 further", cases.counted_pairs, CURRENT_NUMBER, CURRENT_NUMBER.replace("-refusal", "-(10 + refusal)")),
    ("above zero", cases.counted_pairs, CURRENT_NUMBER, CURRENT_NUMBER.replace("-refusal", "refusal")),
    ("6 and 7 told as each other", cases.counted_pairs, CURRENT_NUMBER, CURRENT_NUMBER.replace("-refusal", "-{6: 7, 7: 6}.get(refusal, refusal)")),
    ("room before the images", cases.counted_pairs, READING, "    if len(before) < 4:\n        return NO_ROOM, before\n" + READING),
    ("room for an image asked for", cases.near_pairs, "len(made) > len(before)", "len(before) < 5207"),
    ("room for a byte more asked for", cases.near_pairs, "len(made) > len(before)", "len(made) >= len(before)"),
    ("room for a byte less taken", cases.near_pairs, "len(made) > len(before)", "len(made) > len(before) + 1", DONE, "    return len(made), (made + before[len(made) :])[: len(before)]\n"),
    ("no room is -18", cases.near_pairs, "NO_ROOM = -8 ", "NO_ROOM = -18 "),
    ("no room is -1", cases.near_pairs, "NO_ROOM = -8 ", "NO_ROOM = -1 "),
    ("what fits is written", cases.near_pairs, "        return NO_ROOM, before\n", "        return NO_ROOM, made[: len(before)]\n"),
    ("the count is written before room is asked", cases.near_pairs, "        return NO_ROOM, before\n", "        return NO_ROOM, (made[:4] + before[4:])[: len(before)]\n"),
    ("a refused image clears the buffer", cases.faulty_pairs, "        return refused, before\n", "        return refused, bytes(len(before))\n"),
    ("a refused image writes a count", cases.faulty_pairs, "        return refused, before\n", "        return refused, %s\n" % WRITTEN),
    ("bytes past the list are cleared", cases.near_pairs, DONE, "    return len(made), made.ljust(len(before), b'\\0')\n"),
    ("a byte past the list is cleared", cases.near_pairs, DONE, DONE.replace("made + before[len(made) :]", "(made + b'\\0' + before[len(made) + 1 :])[: len(before)]")),
    ("the number of records returned", cases.near_pairs, DONE, DONE.replace("return len(made)", "return COUNT.unpack_from(made)[0]")),
    ("the length without the count", cases.near_pairs, DONE, DONE.replace("return len(made)", "return len(made) - 4")),
)

# Lists that a unit accepts, in another order than the header's: only the exact bytes can notice them.
OTHER_ORDERS = (
    ("what falls first", cases.pairs_of_bits, SENT, "    return others + rising[::-1]\n"),
    ("times without a sign", cases.pairs_of_bits, "        rises = ", "        rises = ENTRIES[place].type is not model.UNSIGNED16 and "),
    ("REAL32 by their value", cases.pairs_of_bits, NUMBER, "    if len(data) == 4:\n        return struct.unpack('<f', data)[0]\n" + NUMBER),
)


class Judge(lists.Bench):
    """A list that has been judged is not played too: a stand-in's unit is the one that it was judged on."""

    def send(self, first, second, made):
        pass


def complaint(driver, group, seed, exact=True):
    """What the check says of this driver on one group, None where it says nothing."""
    bench = Judge(driver, random.Random(seed), exact)
    check = lists.check_good if group in cases.GOOD else lists.check_damaged
    try:
        check(bench, seed, (group,))
    except Difference as found:
        return str(found)
    return None


def check_wrong_makers(seed, show_all):
    """The number of wrong list makers that are not noticed; those of other orders must pass where order is free."""
    missed = 0
    for makers, exact in ((WRONG_MAKERS, False), (OTHER_ORDERS, True)):
        for title, group, *changes in makers:
            driver = StandIn(*changes)
            said = complaint(driver, group, seed, exact)
            if said is None or (exact and complaint(driver, group, seed, False)):
                print("%-44s NOT NOTICED by %s" % (title, group.__name__))
                missed += 1
            elif show_all:
                print("%-44s %s: %s" % (title, group.__name__, said))
    return missed


def check_stand_ins():
    """What plays a list wrongly is noticed on the lists typed by hand, and what does all rightly passes there."""
    lists.check_by_hand(lists.Bench(StandIn(), random.Random(1)))
    for title, stand_in, check, words in STAND_INS:
        try:
            check(lists.Bench(stand_in(), random.Random(1)))
        except Difference as found:
            assert words in str(found), (title, found)
        else:
            raise AssertionError("not noticed: " + title)
    return "the model passes by hand, %d that stand in wrongly do not" % len(STAND_INS)


def check_passing(seed):
    """The model itself passes a group of each kind."""
    for group in (cases.pairs_of_bits, cases.equal_pairs, cases.counted_pairs):
        said = complaint(StandIn(), group, seed)
        assert said is None, said
    return "the model passes against itself"


def check_links(seed):
    """Every link is crossed upward and downward: its two records in the other order, and the first would be refused."""

    def value(configuration, place):
        return images_model.value_of(images_model.ENTRIES[place], configuration[place])

    pairs = [pair for _, *pair in cases.cases((cases.moved_chains,), seed)]
    for lower, gap, upper in images_model.LINKS:
        assert any(value(second, lower) + gap > value(first, upper) for first, second in pairs), (lower, upper)
        assert any(value(first, lower) + gap > value(second, upper) for first, second in pairs), (lower, upper)
    return "%d links, each crossed upward and downward" % len(images_model.LINKS)


def main(arguments):
    parser = argparse.ArgumentParser(description="checks of the list check")
    parser.add_argument("--seed", default="1")
    parser.add_argument("--all", action="store_true")
    chosen = parser.parse_args(arguments)
    print("good: " + check_stand_ins())
    print("good: " + check_passing(chosen.seed))
    print("good: " + check_links(chosen.seed))
    missed = check_wrong_makers(chosen.seed, chosen.all)
    print("%d wrong list makers, %d not noticed" % (len(WRONG_MAKERS) + len(OTHER_ORDERS), missed))
    return 1 if missed else 0


if __name__ == "__main__":
    sys.exit(main(sys.argv[1:]))
