"""The image functions of valve.h, linked into a C program (images.c), against the model, byte for byte.

    python3 images.py [--seed S] [--library FILE]

FILE is a library to be tried in place of the firmware's. At the first difference the
request is written to a file, both answers are shown, and the exit status is 1.
"""

import argparse
import pathlib
import random
import re
import struct
import subprocess
import sys

import images_cases
import images_model
import model
import sessions
from images_model import ENTRIES, IMAGE_BYTES, image_of

HERE = pathlib.Path(__file__).resolve().parent
sys.path.insert(0, str(HERE.parent / "bench"))
import sides  # noqa: E402

# The words of a unit, as the header says; the first 611 are the configuration.
HEADER = sides.ROOT / "crates" / "firmware" / "valve.h"
VALVE_UNIT = int(re.search(r"#define VALVE_UNIT (\d+)", HEADER.read_text())[1])
TOUCHED = {1: "the image, by valve_check", 2: "the image, by valve_load", 4: "the unit", 8: "the buffer"}


class Difference(Exception):
    """What was asked, and in words what came otherwise."""

    def __init__(self, request, text):
        super().__init__(text)
        self.request = request


class Driver:
    """A C program over these libraries: a request in, its answer out."""

    def __init__(self, name, libraries):
        program = sides.linked(name, [sides.compiled(HERE / (name + ".c"), name + ".o"), *libraries])
        self.process = subprocess.Popen([*sides.EMULATOR, program], stdin=subprocess.PIPE, stdout=subprocess.PIPE)

    def ask(self, request):
        try:
            self.process.stdin.write(struct.pack("<I", len(request)) + request)
            self.process.stdin.flush()
        except BrokenPipeError:
            raise Difference(request, "the program has ended before it") from None
        length = self.process.stdout.read(4)
        if len(length) < 4:
            raise Difference(request, "the program ended in it, status %d" % self.process.wait())
        return self.process.stdout.read(*struct.unpack("<I", length))

    def end(self):
        self.process.stdin.close()
        return self.process.wait()


def shown(answer, numbers):
    """An answer's leading numbers, of which the last is what was touched; without such, its bytes."""
    if numbers == 0 or len(answer) < 4 * numbers:
        return answer.hex(" ") or "nothing"
    *results, touched = struct.unpack_from("<%di" % numbers, answer)
    names = [name for bit, name in TOUCHED.items() if touched & bit]
    return " ".join(map(str, results)) + "".join(", touched " + name for name in names)


def differing(expected, came):
    return next((at for at, (a, b) in enumerate(zip(expected, came)) if a != b), min(len(expected), len(came)))


def compare(driver, request, expected, numbers):
    """Numbers: how many stand before the bytes in the answer."""
    came = driver.ask(request)
    if came == expected:
        return
    at = differing(expected, came)
    where = "in the numbers" if at < 4 * numbers else "at byte %d of what follows" % (at - 4 * numbers)
    raise Difference(request, "expected %s, came %s; first %s" % (shown(expected, numbers), shown(came, numbers), where))


class Bench:
    """The program, and what its unit must hold."""

    def __init__(self, driver, rng):
        self.driver, self.rng = driver, rng
        self.part = None  # of the comparison that is under way
        self.images = dict.fromkeys(range(8), 0)
        self.saves = {0: 0, 8: 0}
        self.frames = 0

    def set_unit(self, configuration_words):
        """Behind the configuration stands anything."""
        self.words = configuration_words + self.rng.randbytes(4 * VALVE_UNIT - len(configuration_words))
        compare(self.driver, b"U" + self.words, b"", 0)

    def read(self, image, wanted=None):
        """valve_check and valve_load; a refused one leaves the unit, and what was loaded is saved as it came."""
        refusal, configuration = images_model.read_image(image)
        if wanted is not None and refusal != wanted:
            raise Difference(b"I" + image, "the model refuses with %d, the damage says %d" % (refusal, wanted))
        if configuration is not None:
            held = images_model.words_of(configuration)
            self.words = held + self.words[len(held) :]
        expected = struct.pack("<iii", -refusal, -refusal, 0) + self.words[: 4 * len(ENTRIES)]
        compare(self.driver, b"I" + image, expected, 3)
        self.images[refusal] += 1
        if refusal == 0:
            self.save(IMAGE_BYTES + self.rng.randrange(9), image)

    def save(self, room, image=None):
        """valve_save; the image is that of the unit's words where none is given."""
        image = image or image_of(images_model.configuration_in(self.words))
        filler = self.rng.randrange(256)
        refusal, written = (0, image) if room >= IMAGE_BYTES else (8, b"")
        expected = struct.pack("<ii", -refusal, 0) + written + bytes((filler,)) * (room - len(written))
        compare(self.driver, b"S" + struct.pack("<IB", room, filler), expected, 2)
        self.saves[refusal] += 1

    def serve(self, dictionary, frame):
        expected = struct.pack("<i", 8) + model.answer(dictionary, frame)
        compare(self.driver, b"F" + frame, expected, 0)
        self.frames += 1


def compare_reading(bench, seed):
    """Every case, on a unit with anything in it when a group begins."""
    for group, image, wanted in images_cases.cases(images_cases.AIMED + images_cases.EVERYWHERE, seed):
        if group != bench.part:
            bench.part = group
            bench.set_unit(b"")
        bench.read(image, wanted)


ROOMS = (0, 1, 4, 5206, IMAGE_BYTES, 5208, 6000)


def compare_saving(bench):
    """Every room, several times: words of a configuration, and any words at all."""
    for anything in (False, True):
        for room in 7 * ROOMS:
            configuration = images_cases.some_configuration(bench.rng)
            bench.set_unit(b"" if anything else images_model.words_of(configuration))
            bench.save(room)


def write_frame(rng, entry):
    """A write to the entry, often of a value near its range's ends, at times of a wrong size."""
    size = entry.type.size if rng.randrange(20) else rng.choice((1, 2, 3, 4))
    data = rng.randbytes(4)
    if entry.type is not model.REAL32 and rng.randrange(4):
        value = rng.choice((entry.low, entry.high, entry.value, entry.value + 1, entry.high + 1))
        data = (value & 0xFFFFFFFF).to_bytes(4, "little")
    return struct.pack("<BHB", sessions.WRITE_COMMAND[size], entry.index, entry.sub) + data


def read_frame(entry):
    return struct.pack("<BHB4x", 0x40, entry.index, entry.sub)


def compare_with_frames(bench):
    """What was loaded is what SDO reads, and what SDO wrote is what is saved."""
    configuration = images_cases.some_configuration(bench.rng)
    bench.set_unit(b"")
    bench.read(image_of(configuration), 0)
    names = images_model.dictionary_with(configuration)
    for entry in names.configuration:
        bench.serve(names, read_frame(entry))
    for _ in range(600):
        bench.serve(names, write_frame(bench.rng, bench.rng.choice(names.configuration)))
    written = image_of(images_model.configuration_of(names))
    bench.save(IMAGE_BYTES, written)
    bench.read(written, 0)


def compare_all(bench, seed):
    bench.part = "frames"
    for _ in range(4):
        compare_with_frames(bench)
    bench.part = "saving"
    compare_saving(bench)
    compare_reading(bench, seed)


def by_number(counted):
    return ", ".join("%d: %d" % item for item in counted.items())


def main(arguments):
    parser = argparse.ArgumentParser(description="the image functions of valve.h against the model")
    parser.add_argument("--seed", default="1")
    parser.add_argument("--library", type=pathlib.Path)
    chosen = parser.parse_args(arguments)
    driver = Driver("images", [chosen.library or sides.library("firmware")])
    bench = Bench(driver, random.Random(chosen.seed))
    try:
        compare_all(bench, chosen.seed)
    except Difference as found:
        file = sides.OUT / "images.difference"
        file.write_bytes(found.request)
        print("difference, %s: %s" % (bench.part, found))
        print("the request, a letter and what it asks for, is in %s" % file.relative_to(sides.ROOT))
        return 1
    total = sum(bench.images.values())
    print("%d images read (refusal %s), %d saved (%s), %d frames: all equal"
          % (total, by_number(bench.images), sum(bench.saves.values()), by_number(bench.saves), bench.frames))
    return driver.end()


if __name__ == "__main__":
    sys.exit(main(sys.argv[1:]))
