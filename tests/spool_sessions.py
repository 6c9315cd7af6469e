"""Sessions for the spool product: levers and buttons on EC values that ask for the two coils, with the model in step.

Every session starts on a fresh product. A line of a session is a session's; a tuple of two numbers stands between them where
whoever calls the product lends other numbers as sent, which only C can do.
"""

import random

import model
import sessions

LINES_OF_ONE_SESSION = 400
LENT = (0, 0, 0, 1, -1, 2, -2, 255, 256, 1500, -1500, 32767, -32768)
CALM = (2500, 2500, 2500, 2500)


class Lever:
    """A product in use; each line has been answered by the model before the next is made."""

    def __init__(self, rng, lends):
        self.rng, self.lends = rng, lends
        self.product = model.Spool()
        self.names = self.product.controller.dictionary

    def set(self, index, sub, value):
        return sessions.write_line(self.names.entry(index, sub), value)

    def table(self, z, points):
        """X from EC 1 and these points, the last for all that are left; the first X falls, the others mostly rise, so the last of them are written first."""
        points = points + [points[-1]] * (11 - len(points))
        base = 0x3000 + 0x10 * z
        yield self.set(base, 0, 1)
        yield self.set(base + 1, 0, 1)
        for sub in (1, *range(11, 1, -1)):
            yield self.set(base + 5, sub, points[sub - 1][0])
        for sub in range(1, 12):
            yield self.set(base + 6, sub, points[sub - 1][1])

    def one_lever(self):
        """A coil a side, with a dead band between, as the product is meant; at times without one, or with both asked in the middle."""
        band = self.rng.choice((0, 1, 50, 50, 50, -50))
        yield from self.table(1, [(-1000, 1000), (-band, 0), (1000, 0)] if band >= 0 else [(-1000, 1000), (-band, 0)])
        yield from self.table(2, [(-1000, 0), (band, 0), (1000, 1000)] if band >= 0 else [(band, 0), (1000, 1000)])
        for coil in (1, 2):
            yield self.set(0x2340, coil, 3)
            yield self.set(0x2341, coil, coil)

    def two_buttons(self):
        """Each coil hangs on an EC value of its own."""
        for coil in (1, 2):
            yield self.set(0x2340, coil, 1)
            yield self.set(0x2341, coil, coil)

    def settings(self):
        rng = self.rng
        yield from rng.choice((self.one_lever, self.two_buttons))()
        for coil in (1, 2):
            for ramp in (0x2330, 0x2331):
                yield self.set(ramp, coil, rng.choice((0, 0, 0, 1, 2, 5, 20)))
            if rng.randrange(4) == 0:  # a coil that always asks, or that comes to 0 at once
                yield self.set(0x7321, coil, rng.choice((0, 1, 300)))
            if rng.randrange(4) == 0:
                yield self.set(0x2350, coil, 1)
                yield self.set(0x2351, coil, 3)
            if rng.randrange(4) == 0:
                yield self.set(0x2360, coil, 1)
                yield self.set(0x2361, coil, 4)
        for output in (3, 4):
            yield self.set(0x2340, output, 1)
            yield self.set(0x2341, output, rng.randint(1, 2))

    def moved(self):
        """The lever or a button goes somewhere."""
        rng = self.rng
        yield self.set(0x2500, rng.choice((1, 1, 1, 2, 2, 3, 4)), rng.choice((0, 0, 1, -1, 1000, -1000, rng.randint(-1200, 1200))))

    def ticks(self):
        samples = CALM if self.rng.randrange(5) else tuple(self.rng.randint(-100, 5200) for _ in range(4))
        for _ in range(self.rng.choice((1, 1, 1, 2, 3, 6))):
            yield sessions.tick_line(samples)

    def other_line(self):
        """A read of what the core commands, or a line that is none."""
        yield self.rng.choice((sessions.read_line(self.names.entry(0x7330, 1)), sessions.read_line(self.names.entry(0x7330, 2)), b"S 4001100000000000", b"?", b"O", b"T 0 0 0"))

    def lent(self):
        if self.lends:
            yield self.rng.choice(LENT), self.rng.choice(LENT)

    def forever(self):
        yield from self.settings()
        while True:
            yield from self.rng.choices((self.moved, self.ticks, self.other_line, self.lent, self.settings), (8, 10, 1, 4, 0.1))[0]()


def answered(product, lines):
    """Each line with the model's answer; a tuple is what the product has sent from now on, and answers nothing."""
    for line in lines:
        if isinstance(line, tuple):
            product.sent = list(line)
            yield line, None
        else:
            yield line, product.answer(line)


def plan(seed, lines, lends):
    """Sessions of so many lines in all."""
    for k in range(0, lines, LINES_OF_ONE_SESSION):
        lever = Lever(random.Random("%s.%d" % (seed, k)), lends)
        yield [pair for _, pair in zip(range(min(LINES_OF_ONE_SESSION, lines - k)), answered(lever.product, lever.forever()))]
