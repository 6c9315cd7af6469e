"""Sessions with questions why for why.py: typed by hand, and random ones whose blocks are often in error and read each other in circles.

A session is a list of steps: a line of the session printer (bytes), an output to ask for (a number), or an image to load, with the values
it holds or None where it is damaged (a pair).
"""

import random

import images_model
import sessions

OUTPUTS = (1, 2, 3, 4)
CALM, OUT = (2500, 2500, 2500, 2500), (2500, 6000, 2500, 2500)


def write(index, sub, value, size=1):
    return sessions.frame_line(sessions.WRITE_COMMAND[size], index, sub, (value & 0xFFFFFFFF).to_bytes(4, "little"))


def pair(index, sub, source, number):
    """A source and a number; the number's entry comes behind the source's."""
    return [write(index, sub, source), write(index + 1, sub, number)]


def tick(samples=CALM):
    return sessions.tick_line(samples)


NO_DELAY = [write(0x2112, n, 0, 2) for n in OUTPUTS]
# Output 1 takes logic 1, which selects table 3, which reads math 2, which divides EC 1 by EC 2.
DIVISION = [*pair(0x2340, 1, 4, 1), write(0x4000, 1, 1), write(0x4101, 1, 3), *pair(0x3030, 0, 5, 2), write(0x4500, 2, 1)]
DIVISION += [*pair(0x4700, 1, 1, 1), *pair(0x4700, 2, 1, 2), write(0x4750, 1, 3)]
# Math 1 has inputs 2 and 4 in error, by input 2 and by math 3, which divides by zero.
TWO_ERRORS = [*NO_DELAY, *pair(0x2340, 2, 5, 1), write(0x4500, 1, 1), write(0x4500, 3, 1), *pair(0x4600, 1, 1, 1)]
TWO_ERRORS += [*pair(0x4600, 2, 2, 2), *pair(0x4600, 4, 5, 3), *pair(0x4800, 1, 1, 1), *pair(0x4800, 2, 1, 2), write(0x4850, 1, 3)]

# What is asked and, by the paper, told: the number and the bytes of the trail, or the number alone.
BY_HAND = (
    ("before any tick", [1], -2, ""),
    ("no output 0, though no tick", [0], -1, ""),
    ("no output 5", [tick(), 5], -1, ""),
    ("control names nothing: rule 6", [tick(), 1], 6, "00 00 00 00000000"),
    ("a mistyped number stays", [*pair(0x2340, 3, 0, 5), tick(), 3], 6, "00 05 00 00000000"),
    ("an input that there is not", [*pair(0x2340, 3, 2, 9), tick(), 3], 6, "02 09 00 00000000"),
    ("enable off: rule 1", [*pair(0x2350, 1, 1, 3), tick(), 1], 1, "01 03 01 00000000"),
    ("enable on, turned round: rule 1", [*pair(0x2350, 1, 1, 3), write(0x2352, 1, 1), write(0x2500, 3, -7, 2), tick(), 1], 1, "01 03 01 F9FFFFFF"),
    ("enable in error: rule 2", [*NO_DELAY, *pair(0x2350, 1, 2, 2), tick(OUT), 1], 2, "02 02 03 00000000 01 0202 01"),
    ("override on: rule 3", [*pair(0x2360, 4, 6, 2), tick(), 4], 3, "06 02 02 0000803F"),
    ("override in error: rule 4", [*NO_DELAY, *pair(0x2360, 4, 2, 2), tick(OUT), 4], 4, "02 02 03 00000000 01 0202 01"),
    ("target: rule 7", [*pair(0x2340, 1, 1, 1), write(0x2500, 1, 500, 2), tick(), 1], 7, "01 01 01 F4010000"),
    ("the issue's own example", [*DIVISION, tick(), 1], 5, "04 01 03 00000000 03 0401 0303 0502 02"),
    ("the lowest-numbered input", [*TWO_ERRORS, tick(), tick(OUT), 2], 5, "05 01 03 00000000 02 0501 0202 01"),
    ("a later block: of the last tick", [*TWO_ERRORS, tick(), tick(), 2], 5, "05 01 03 00000000 02 0501 0503 03"),
    ("nothing was there the tick before", [*TWO_ERRORS, tick(), 2], 7, "05 01 02 0000FA43"),
    ("a block that feeds itself", [*NO_DELAY, *pair(0x2340, 1, 3, 2), *pair(0x3020, 0, 2, 2), tick(OUT), *pair(0x3020, 0, 3, 2), tick(), 1], 5, "03 02 03 00000000 02 0302 0302 03"),
    ("table B selected", [*NO_DELAY, *pair(0x2340, 1, 4, 2), write(0x4000, 2, 1), write(0x4202, 1, 2), *pair(0x3050, 0, 2, 2), tick(OUT), 1], 5, "04 02 03 00000000 03 0402 0305 0202 01"),
    ("a frame answered 60h", [tick(), write(0x2500, 12, 0, 2), 1], -2, ""),
    ("the error list cleared, though it was empty", [tick(), write(0x1003, 0, 0), 1], -2, ""),
    ("a read and a refused write", [tick(), sessions.frame_line(0x40, 0x1001, 0), write(0x4000, 1, 2), 1], 6, "00 00 00 00000000"),
    ("a tick after the write", [tick(), write(0x2500, 12, 0, 2), tick(), 1], 6, "00 00 00 00000000"),
)

# The words, typed by hand.
IN_WORDS = (
    (
        [*DIVISION, tick()],
        1,
        "output 1 is at fault FV: rule 5, its control (logic 1) is in error [7330h:1 = 0; 2340h:1 = 4, 2341h:1 = 1; 6340h:1 = 1, 7341h:1 = 0]\n"
        "logic 1 selected table 3 [4010h:1 = 3]\n"
        "table 3 reads math 2 [3030h = 5, 3031h = 2]\n"
        "math 2 divides by zero [4750h:1 = 3, 4750h:2 = 0, 4750h:3 = 0]\n",
        0,
    ),
    (
        [*TWO_ERRORS, write(0x6340, 2, 0), write(0x2330, 2, 0, 2), tick(), tick(OUT)],
        2,
        "output 2 keeps its last command: rule 5, its control (math 1) is in error [7330h:2 = 750; 2340h:2 = 5, 2341h:2 = 1; 6340h:2 = 0, 7341h:2 = 0]\n"
        "math 1 reads input 2, its input 2 [4600h:2 = 2, 4601h:2 = 2]\n"
        "input 2 is flagged [7100h:2 = 6000; 7148h:2 = 0, 7149h:2 = 5000]\n",
        0,
    ),
    (
        [*TWO_ERRORS, tick(), tick()],
        2,
        "output 2 is at fault FV: rule 5, its control (math 1) is in error [7330h:2 = 0; 2340h:2 = 5, 2341h:2 = 1; 6340h:2 = 1, 7341h:2 = 0]\n"
        "math 1 reads math 3 as the last tick left it, in error, its input 4 [4600h:4 = 5, 4601h:4 = 3]\n",
        0,
    ),
    ([tick()], 1, "output 1 is at 0: rule 6, its control (source 0, number 0: there is none) is not available [7330h:1 = 0; 2340h:1 = 0, 2341h:1 = 0]\n", 0),
    (
        [*pair(0x2360, 1, 6, 2), tick()],
        1,
        "output 1 is at override FV: rule 3, its override (constant 2) is on, at 1 as a whole number, REAL32 3F800000h"
        " [7330h:1 = 2000; 2360h:1 = 6, 2361h:1 = 2, 2362h:1 = 0; 2300h:1 = 2000]\n",
        0,
    ),
    ([tick()], 5, "there is no such output: there are 1 to 4\n", 1),
    ([tick(), write(0x2500, 1, 0, 2)], 1, "there was no tick since the start or the last accepted write\n", 1),
)


class Faulty(sessions.Unit):
    """A unit whose inputs break, whose math blocks divide by zero, and whose blocks read each other anyhow."""

    BLOCKS = (1, 2, 3, 6, 2, 8, 2)

    def wire(self):
        rng = self.rng
        yield from NO_DELAY
        for n in OUTPUTS:
            yield self.set(0x4500, n, 1)
            for i in OUTPUTS:
                base = 0x4500 + 0x100 * n
                yield from self.pair(self.names.entry(base, i), self.names.entry(base + 1, i), self.BLOCKS)
            for i in (1, 2, 3):
                yield self.set(0x4550 + 0x100 * n, i, rng.choice((0, 3, 3, 3, 4)))
        for z in range(1, 7):
            yield from self.pair(self.names.entry(0x3000 + 0x10 * z), self.names.entry(0x3001 + 0x10 * z), self.BLOCKS)
        for x in (1, 2):
            yield self.set(0x4000, x, 1)
            yield self.set(0x4002 + 0x100 * x, 1, rng.choice((0, 0, 1, 2)))
            for letter in (1, 2, 3):
                yield self.set(0x4001 + 0x100 * x, letter, rng.randint(1, 6))
        for n in OUTPUTS:
            yield from self.pair(self.names.entry(0x2340, n), self.names.entry(0x2341, n), (1, 1, 2, 4, 6, 4, 1))
            for source in (0x2350, 0x2360):
                if self.chance(30):
                    yield from self.pair(self.names.entry(source, n), self.names.entry(source + 1, n), (2, 3, 3, 3, 3, 3, 2))
                    yield self.set(source + 2, n, rng.randint(0, 1))

    def live(self):
        rng = self.rng
        for _ in range(6):
            for _ in range(rng.randint(1, 4)):
                yield tick([rng.choice((2500, 2500, 2500, 6000, -10)) for _ in OUTPUTS])
            if self.chance(50):
                yield self.set(0x2500, rng.randint(1, 4), rng.choice((0, 500, -3)))
            if self.chance(20):
                yield from self.any_write()

    def lines(self):
        yield from self.wire()
        yield from self.live()


def asked(rng, lines):
    """The lines, with questions behind ticks and behind what may take their answers away, and now and then an image."""
    for line in lines:
        yield line
        if line.startswith(b"T"):
            yield from OUTPUTS
        elif rng.randrange(4) == 0:
            yield rng.choice((1, 2, 3, 4, 0, 5, 255))


def faulty(seed):
    rng = random.Random("why %s" % seed)
    unit = Faulty(rng)
    return list(asked(rng, (line for line, _ in sessions.answered(unit.printer, unit.lines()))))


def usual(seed, count):
    rng = random.Random("usual %s" % seed)
    return list(asked(rng, (line for line, _ in sessions.random_session("why %s" % seed, count))))


def loads(seed):
    """An image loaded behind a tick takes the answer away, a damaged one does not."""
    rng = random.Random("loads %s" % seed)
    import images_cases

    configuration = images_cases.some_configuration(rng)
    image = images_model.image_of(configuration)
    damaged = image[:-1] + bytes((image[-1] ^ 0xFF,)) if rng.randrange(2) else image[:-1]
    refusal = images_model.read_image(damaged)[0]
    steps = [tick(), (damaged, None), *OUTPUTS, (image, configuration), *OUTPUTS, tick(OUT), *OUTPUTS]
    return steps if refusal else loads(seed + 1000)


def cases(seed, wirings, lines):
    """Title and steps of each session."""
    for title, steps, _, _ in BY_HAND:
        yield title, list(steps)
    for k in range(wirings):
        yield "faulty %s.%d" % (seed, k), faulty("%s.%d" % (seed, k))
    for k in range(20):
        yield "loads %d" % k, loads(k)
    for k in range(lines // 2000):
        yield "usual %s.%d" % (seed, k), usual("%s.%d" % (seed, k), 2000)
