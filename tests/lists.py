"""restore_list, linked into a C program (lists.c), against the paper: by hand, against the model, and played on a unit.

    python3 lists.py [--seed S] [--plain | --library FILE]

--plain tries bench/plain.c in place of the crate gateway, FILE another library. At the first
difference the request is written to a file, it is said what was wrong, and the exit status is 1.
"""

import argparse
import pathlib
import random
import struct
import sys

import images
import images_cases
import images_model
import lists_cases
import lists_model
import model
from images import Difference, sides
from images_model import COUNT, IMAGE_BYTES, image_of

TOUCHED = {1: "the current image", 2: "the wanted image", 4: "the list's surroundings"}
FILLERS = (0x00, 0xA5, 0xFF)


class Bench:
    """The C program, or what stands in for it, and what it has been asked."""

    def __init__(self, driver, rng, exact=True):
        self.driver, self.rng = driver, rng
        self.exact = exact  # whether the order is to be that of the header, and not any that a unit accepts
        self.part = None  # of the comparison that is under way
        self.judged = None  # the two configurations and the list that were judged last
        self.lists = self.refusals = self.played = self.records = self.between = 0

    def returned(self, request, room):
        """The number and the buffer that come back; nothing else may be touched."""
        came = self.driver.ask(request)
        number, touched = struct.unpack_from("<ii", came)
        names = [name for bit, name in TOUCHED.items() if touched & bit]
        if names:
            raise Difference(request, "it touched " + ", ".join(names))
        if len(came) != 8 + room:
            raise Difference(request, "%d bytes came, not %d" % (len(came) - 8, room))
        return number, came[8:]

    def call(self, current, wanted, room, read=None):
        """restore_list, judged by the paper; the number and the list.

        No wanted image: the current one is lent as both. Read: what is known of the two.
        """
        read = read or lists_model.refusal_of(current, current if wanted is None else wanted)
        filler = bytes((self.rng.choice(FILLERS),))
        if wanted is None:
            request = b"E" + struct.pack("<II", len(current), room) + filler + current
        else:
            request = b"L" + struct.pack("<III", len(current), len(wanted), room) + filler + current + wanted
        number, after = self.returned(request, room)
        wrong = lists_model.call_complaint(read, filler * room, number, after)
        if wrong is None and number > 0:
            wrong = self.list_complaint(*read[1:], after[:number])
        if wrong is not None:
            raise Difference(request, wrong)
        if number < 0:
            self.refusals += 1
            return number, b""
        self.lists += 1
        return number, after[:number]

    def list_complaint(self, first, second, made):
        """One list is judged once, however often it is made in a row."""
        if self.judged == (first, second, made):
            return None
        wrong = lists_model.list_complaint(first, second, made)
        if wrong is None and self.exact and made != lists_model.list_of(first, second):
            wrong = "a list that a unit accepts, but not in the header's order"
        self.judged = first, second, made
        return wrong

    def play(self, first, second, events):
        """Events on a unit that holds the first configuration; the last leaves the second.

        An event is its nine bytes and the reply's, None for no reply.
        """
        request = b"P" + image_of(first) + image_of(second) + b"".join(event for event, _ in events)
        came = self.driver.ask(request)
        if struct.unpack_from("<ii", came) != (0, 0):
            raise Difference(request, "an image is not loaded")
        end = 8 + 10 * len(events)
        answers = struct.iter_unpack("<B8sB", came[8:end])
        for number, ((event, expected), (length, reply, holds)) in enumerate(zip(events, answers, strict=True), 1):
            if (reply[:length] or None) != expected:
                raise Difference(request, "event %d, %s, is answered with %s" % (number, event.hex(" "), reply[:length].hex(" ")))
            if not holds:
                raise Difference(request, "after event %d an entry holds neither value" % number)
        if came[end:] != image_of(second):
            raise Difference(request, "the unit holds something else at the end")
        self.played += 1

    def send(self, first, second, made):
        """The list, record by record, with other events between."""
        events = sent_with_others(self.rng, first, made)
        self.play(first, second, events)
        self.records += COUNT.unpack_from(made)[0]
        self.between += len(events) - COUNT.unpack_from(made)[0]


# --------------------------------------------------------------------------- By hand

DEFAULT = image_of(images_cases.DEFAULTS)


def with_records(image, *records):
    """The image with these records, each typed as head and data, in place of those with the same head."""
    for record in map(bytes.fromhex, records):
        assert image.count(record[:7]) == 1, record.hex(" ")
        at = image.index(record[:7])
        image = image[:at] + record + image[at + len(record) :]
    return image


# 3015h: 0, 100, .. 1000 moved to 500, 600, .. 1500, and back.
MOVED_POINTS = with_records(
    DEFAULT,
    "15 30 01 02 00 00 00 F4 01",
    "15 30 02 02 00 00 00 58 02",
    "15 30 03 02 00 00 00 BC 02",
    "15 30 04 02 00 00 00 20 03",
    "15 30 05 02 00 00 00 84 03",
    "15 30 06 02 00 00 00 E8 03",
    "15 30 07 02 00 00 00 4C 04",
    "15 30 08 02 00 00 00 B0 04",
    "15 30 09 02 00 00 00 14 05",
    "15 30 0A 02 00 00 00 78 05",
    "15 30 0B 02 00 00 00 DC 05",
)
POINTS_UP = """0B 00 00 00
    15 30 0B 02 00 00 00 DC 05
    15 30 0A 02 00 00 00 78 05
    15 30 09 02 00 00 00 14 05
    15 30 08 02 00 00 00 B0 04
    15 30 07 02 00 00 00 4C 04
    15 30 06 02 00 00 00 E8 03
    15 30 05 02 00 00 00 84 03
    15 30 04 02 00 00 00 20 03
    15 30 03 02 00 00 00 BC 02
    15 30 02 02 00 00 00 58 02
    15 30 01 02 00 00 00 F4 01"""
POINTS_DOWN = """0B 00 00 00
    15 30 01 02 00 00 00 00 00
    15 30 02 02 00 00 00 64 00
    15 30 03 02 00 00 00 C8 00
    15 30 04 02 00 00 00 2C 01
    15 30 05 02 00 00 00 90 01
    15 30 06 02 00 00 00 F4 01
    15 30 07 02 00 00 00 58 02
    15 30 08 02 00 00 00 BC 02
    15 30 09 02 00 00 00 20 03
    15 30 0A 02 00 00 00 84 03
    15 30 0B 02 00 00 00 E8 03"""

# Input 2: start 0, FV1 500, FV2 4500, end 5000 moved to 5001, 5002, 6000, 7000.
MOVED_SPAN = with_records(
    DEFAULT,
    "48 71 02 02 00 00 00 89 13",
    "20 71 02 02 00 00 00 8A 13",
    "22 71 02 02 00 00 00 70 17",
    "49 71 02 02 00 00 00 58 1B",
)
SPAN_UP = """04 00 00 00
    49 71 02 02 00 00 00 58 1B
    22 71 02 02 00 00 00 70 17
    20 71 02 02 00 00 00 8A 13
    48 71 02 02 00 00 00 89 13"""
SPAN_DOWN = """04 00 00 00
    48 71 02 02 00 00 00 00 00
    20 71 02 02 00 00 00 F4 01
    22 71 02 02 00 00 00 94 11
    49 71 02 02 00 00 00 88 13"""

# No chains: detect 1 off, override FV 1 2001, the last constant 1.0. The constant's low two bytes stay, so it does not rise.
MIXED = with_records(DEFAULT, "10 21 01 01 00 00 00 00", "00 23 01 02 00 00 00 D1 07", "10 50 0F 04 00 00 00 00 00 80 3F")
MIXED_THERE = """03 00 00 00
    00 23 01 02 00 00 00 D1 07
    10 21 01 01 00 00 00 00
    10 50 0F 04 00 00 00 00 00 80 3F"""

LISTS = (
    ("points up", DEFAULT, MOVED_POINTS, POINTS_UP),
    ("points down", MOVED_POINTS, DEFAULT, POINTS_DOWN),
    ("span up", DEFAULT, MOVED_SPAN, SPAN_UP),
    ("span down", MOVED_SPAN, DEFAULT, SPAN_DOWN),
    ("no chains", DEFAULT, MIXED, MIXED_THERE),
    ("two equal images", DEFAULT, DEFAULT, "00 00 00 00"),
    ("one image, lent as both", DEFAULT, None, "00 00 00 00"),
)

# The default image with one damage for each number: a byte short, 610 records, the first record's sub and size 2, detect 1 = 2,
# 3015h:1 = 101, a byte too many.
DAMAGED = {
    1: DEFAULT[:-1],
    2: bytes.fromhex("62 02 00 00") + DEFAULT[4:],
    3: bytes.fromhex("63 02 00 00 10 21 02 01 00 00 00 01") + DEFAULT[12:],
    4: bytes.fromhex("63 02 00 00 10 21 01 02 00 00 00 01") + DEFAULT[12:],
    5: bytes.fromhex("63 02 00 00 10 21 01 01 00 00 00 02") + DEFAULT[12:],
    6: with_records(DEFAULT, "15 30 01 02 00 00 00 65 00"),
    7: DEFAULT + b"\0",
}


def expect(title, wanted, came):
    if wanted != came:
        raise Difference(title.encode(), "%s: %s expected, %s came" % (title, wanted, came))


def check_by_hand(bench):
    for title, current, wanted, text in LISTS:
        typed = bytes.fromhex(text)
        read = lists_model.refusal_of(current, current if wanted is None else wanted)
        expect(title, (len(typed), typed), bench.call(current, wanted, IMAGE_BYTES, read))
        for room in range(len(typed) + 20):  # room last
            number = len(typed) if room >= len(typed) else -8
            expect("%s, room for %d" % (title, room), number, bench.call(current, wanted, room, read)[0])
    for n, damaged in DAMAGED.items():
        for room in (0, 3, 4, IMAGE_BYTES):
            expect("current damaged", -n, bench.call(damaged, MOVED_POINTS, room)[0])
            expect("wanted damaged", -10 - n, bench.call(MOVED_POINTS, damaged, room)[0])
            expect("damaged, lent as both", -n, bench.call(damaged, None, room)[0])
        for other in DAMAGED.values():  # current before wanted
            expect("both damaged", -n, bench.call(damaged, other, IMAGE_BYTES)[0])
    play_by_hand(bench)


# The trade's trap: moved upward from the first, 500 is above the second point.
FIRST_WRITE = "2B 15 30 01 F4 01 00 00", "80 15 30 01 31 00 09 06"
LAST_WRITE = "2B 15 30 0B DC 05 00 00", "60 15 30 0B 00 00 00 00"


def play_by_hand(bench):
    """The list upward begins with the last point; the trap's first write is refused before it."""
    first, second = (images_model.read_image(image)[1] for image in (DEFAULT, MOVED_POINTS))
    frames = lists_model.frames_in(bytes.fromhex(POINTS_UP))
    expect("the first frame", bytes.fromhex(LAST_WRITE[0]), frames[0])
    typed = [tuple(map(bytes.fromhex, pair)) for pair in (FIRST_WRITE, LAST_WRITE)]
    events = [(b"S" + frame, reply) for frame, reply in typed]
    events += [(b"S" + frame, b"\x60" + frame[1:4] + bytes(4)) for frame in frames[1:]]
    bench.play(first, second, events)


# --------------------------------------------------------------------------- Played on a unit


def some_refused(rng, names):
    """A frame that the unit refuses as it is now, or leaves unanswered."""
    entry = rng.choice(names.configuration)
    while True:
        kind = rng.randrange(6)
        if kind == 0:
            frame = bytes((rng.choice((0x00, 0x41, 0x60, 0x80, 0xFF)),)) + rng.randbytes(7)
        elif kind == 1:  # an index that nobody has, a sub that it lacks
            frame = struct.pack("<BHB4x", rng.choice((0x40, 0x2F)), *rng.choice(((0x1000, 0), (entry.index, 0x40))))
        elif kind == 2:  # what can only be read
            frame = struct.pack("<BHBI", 0x2B, rng.choice((0x7330, 0x7100, 0x4020)), 1, rng.randrange(65536))
        elif kind == 3 and entry.above is not None:  # just past its neighbour
            upper, gap = entry.above
            frame = lists_model.frame_of(entry.index, entry.sub, struct.pack("<h", min(upper.value - gap + 1, 32767)))
        else:
            frame = images.write_frame(rng, entry)
        if model.is_unanswered(frame, 8) or model.refusal(names, frame) is not None:
            return frame


def some_event(rng, names):
    """What may happen between two records, as the event and its reply: a tick, a read, a refused frame, an EC value."""
    kind = rng.randrange(4)
    if kind == 0:
        return b"T" + struct.pack("<4h", *(rng.choice((2500, -1, 5001, rng.randrange(-32768, 32768))) for _ in range(4))), None
    if kind == 1:
        frame = images.read_frame(rng.choice(names.configuration))
    elif kind == 2:
        frame = some_refused(rng, names)
    else:
        frame = struct.pack("<BHBhxx", 0x2B, 0x2500, rng.randrange(1, 13), rng.randrange(-32768, 32768))
    return b"S" + frame, model.answer(names, frame)


def sent_with_others(rng, first, made):
    """The list's writes, each accepted, as events with others between."""
    names, frames = images_model.dictionary_with(first), lists_model.frames_in(made)
    share = min(0.5, 60 / (len(frames) + 1))
    events = [some_event(rng, names)]
    for frame in frames:
        events.append((b"S" + frame, b"\x60" + frame[1:4] + bytes(4)))
        model.answer(names, frame)
        while rng.random() < share:
            events.append(some_event(rng, names))
    return events


# --------------------------------------------------------------------------- All of them


def check_good(bench, seed, groups=lists_cases.GOOD):
    """Each list, room for it and a byte more or less, and played."""
    for bench.part, first, second in lists_cases.cases(groups, seed):
        current, wanted = image_of(first), image_of(second)
        read = 0, first, second
        needed, made = bench.call(current, wanted, IMAGE_BYTES, read)
        rooms = [needed - 1, needed, needed + 1, bench.rng.randrange(needed), bench.rng.randrange(needed, 8000)]
        for room in rooms:
            bench.call(current, wanted, room, read)
        bench.send(first, second, made)


def check_damaged(bench, seed, groups=lists_cases.DAMAGED):
    """Each refusal, whatever the room."""
    for bench.part, current, wanted, known in lists_cases.cases(groups, seed):
        read = lists_model.refusal_of(current, wanted)
        if known is not None:
            expect("the model's number", known, read[0])
        for room in (0, bench.rng.randrange(4), IMAGE_BYTES):
            bench.call(current, wanted, room, read)


def check_all(bench, seed):
    bench.part = "by hand"
    check_by_hand(bench)
    check_good(bench, seed)
    check_damaged(bench, seed)


def gateway(chosen):
    if chosen.plain:
        return sides.compiled(sides.HERE / "plain.c", "plain_list.o", "-Dplain_restore_list=restore_list")
    return chosen.library or sides.library("gateway")


def main(arguments):
    parser = argparse.ArgumentParser(description="restore_list against the model")
    parser.add_argument("--seed", default="1")
    parser.add_argument("--plain", action="store_true")
    parser.add_argument("--library", type=pathlib.Path)
    chosen = parser.parse_args(arguments)
    driver = images.Driver("lists", [gateway(chosen), sides.library("firmware")])
    bench = Bench(driver, random.Random(chosen.seed))
    try:
        check_all(bench, chosen.seed)
    except Difference as found:
        file = sides.OUT / "lists.difference"
        file.write_bytes(found.request)
        print("difference, %s: %s" % (bench.part, found))
        print("the request, a letter and what it asks for, is in %s" % file.relative_to(sides.ROOT))
        return 1
    print("%d lists made, %d calls refused; %d lists played, %d records and %d events between them: all as the paper says"
          % (bench.lists, bench.refusals, bench.played, bench.records, bench.between))
    return driver.end()


if __name__ == "__main__":
    sys.exit(main(sys.argv[1:]))
