"""Sessions for the session program: seeded random ones, and one that walks every name and refusal.

A random session is aimed, not blind: a model runs in step with it, so that samples fall
on the present limits, chains are moved in an order that is mostly accepted and wired
blocks have something to read. Every session starts on a fresh unit.

    python3 sessions.py SEED LINES             one random session on standard output
    python3 sessions.py walk                   the session that walks every name
    python3 sessions.py ramps                  the session that walks request (i)
    python3 sessions.py long                   the session with the longest delays, 65,700 ticks
    python3 sessions.py 'long ramps'           the session with the longest ramps, 120,002 ticks
    python3 sessions.py --coverage SEED LINES  what the sessions of that plan reach, counted
"""

import pathlib
import random
import struct
import sys

import model

HERE = pathlib.Path(__file__).parent
LINES_OF_ONE_SESSION = 2000

# --------------------------------------------------------------------------- Lines

WRITE_COMMAND = {4: 0x23, 3: 0x27, 2: 0x2B, 1: 0x2F}


def frame_line(command, index, sub, data=bytes(4)):
    return b"S " + struct.pack("<BHB4s", command, index, sub, data).hex().upper().encode()


def read_line(entry):
    return frame_line(0x40, entry.index, entry.sub)


def write_line(entry, value):
    return frame_line(WRITE_COMMAND[entry.type.size], entry.index, entry.sub, entry.type.form.pack(value))


def untold_line(entry, value, junk=b"\xa5\x5a\xff"):
    """(ii): a write that does not tell its length, something behind the entry's own bytes."""
    return frame_line(model.UNTOLD, entry.index, entry.sub, (entry.type.form.pack(value) + junk)[:4])


def tick_line(samples):
    return b"T %d %d %d %d" % tuple(samples)


def fit16(value):
    return max(-32768, min(32767, value))


# Lines that print ?, each wrong in its own way.
BAD_LINES = (
    b"",
    b" ",
    b"?",
    b"-",
    b"S",
    b"T",
    b"S ",
    b"T ",
    b"X 4001100000000000",
    b"s 4001100000000000",
    b"t 0 0 0 0",
    b"S 400110000000000",
    b"S 40011000000000000",
    b"S 4001100000000000 ",
    b" S 4001100000000000",
    b"S  4001100000000000",
    b"S\t4001100000000000",
    b"S4001100000000000",
    b"S 40 01 10 00 00 00 00 00",
    b"S 400110000000000G",
    b"S 400110000000000:",
    b"S 400110000000000@",
    b"S 400110000000000/",
    b"S 2b15300296000000",
    b"S 2B153002c8000000",
    b"S 0x40011000000000",
    b"S 4001100000000000\r",
    b"S 40011000000\x0000000",
    b"S 4001100000000000\x00",
    b"S 40011000\xff0000000",
    b"S 2B15300\xef\xbc\x91000000000",
    b"T 0 0 0",
    b"T 0 0 0 0 0",
    b"T 0 0 0 0 ",
    b" T 0 0 0 0",
    b"T  0 0 0 0",
    b"T 0  0 0 0",
    b"T 0\t0 0 0",
    b"T0 0 0 0",
    b"T 0 0 0 0\r",
    b"T 0 0 0 0\x00",
    b"T +1 0 0 0",
    b"T - 0 0 0",
    b"T --1 0 0 0",
    b"T -1- 0 0 0",
    b"T 1.0 0 0 0",
    b"T 1e3 0 0 0",
    b"T 0x1 0 0 0",
    b"T 1_0 0 0 0",
    b"T A 0 0 0",
    b"T 0 0 0 /",
    b"T 0 0 0 :",
    b"T 000000 0 0 0",
    b"T 0 -000001 0 0",
    b"T 0 0 100000 0",
    b"T 32768 0 0 0",
    b"T 0 -32769 0 0",
    b"T 0 0 65536 0",
    b"T 0 0 0 99999",
    b"T -99999 0 0 0",
    b"T 0 0 0 -65536",
    b"T \xd9\xa1 0 0 0",
    b"O 0 0 0 0 00",
    b"S 4001100000000000 T 0 0 0 0",
    b"T 0 0 0 0" + 55 * b" ",  # 64 bytes
    b"T 0 0 0 0" + 56 * b" ",  # 65 bytes
    b"S 4001100000000000" + 46 * b"0",
    b"S 4001100000000000" + 47 * b"0",
    300 * b"S",
    5000 * b"T 0 0 0 0 ",
)

# Lines that look odd and are good all the same (OP 86).
ODD_GOOD_LINES = (
    b"T -0 0 0 0",
    b"T 00007 -00000 00000 -00001",
    b"T 32767 -32768 032 -7",
    b"T 2500 02500 -0 00000",
    b"S 4001100000FFFFFF",  # a read's data bytes are ignored (OP 15)
    b"S 2F00400101FFFFFF",  # a write's unused data bytes too
    b"S 8000000000000000",
    b"S 80123456789ABCDE",
)

# --------------------------------------------------------------------------- REAL32 constants


def real32_from_bits(bits):
    return struct.unpack("<f", struct.pack("<I", bits))[0]


NOT_FINITE = (0x7F800000, 0xFF800000, 0x7FC00000, 0xFFC00000, 0x7F800001, 0xFFFFFFFF, 0x7FFFFFFF, 0xFF812345)

REAL_BITS = (
    0x00000000,  # +0
    0x80000000,  # -0
    0x00000001,  # the least subnormal
    0x80000001,
    0x007FFFFF,  # the largest subnormal
    0x00800000,  # the least normal
    0x80800000,
    0x7F7FFFFF,  # the largest
    0xFF7FFFFF,
    0x3EFFFFFF,  # just below 0.5
    0x3F000000,  # 0.5
    0xBF000000,
    0x3F7FFFFF,  # just below 1
    0x3F800000,
    0xBF800000,
    0x40200000,  # 2.5
    0xC0200000,
    0x46FFFEFF,  # just below 32767.5
    0x46FFFF00,  # 32767.5
    0x47000000,  # 32768
    0xC7000000,  # -32768
    0xC7000080,  # -32768.5
    0xC7000081,
)


def some_real(rng):
    kind = rng.randrange(10)
    if kind < 3:
        return real32_from_bits(rng.choice(REAL_BITS))
    if kind < 5:
        return float(rng.randint(-200, 1200))
    if kind < 7:
        return rng.randint(-2000, 2000) + 0.5
    if kind == 7:
        return model.real32(rng.uniform(-3, 3))
    if kind == 8:
        return real32_from_bits(rng.randrange(1, 0x00800000) | rng.choice((0, 0x80000000)))
    bits = rng.getrandbits(32)
    return real32_from_bits(bits & ~0x00800000 if bits & 0x7F800000 == 0x7F800000 else bits)


# --------------------------------------------------------------------------- One random session

COUNT_OF_SOURCE = {0: 15, 1: 12, 2: 4, 3: 6, 4: 2, 5: 4, 6: 15}


class Unit:
    """A unit in random use, with the model that runs in step.

    A theme is a generator of lines. Each line has been answered by the model before the
    theme goes on, so a theme sees what its own writes did.
    """

    def __init__(self, rng):
        self.rng = rng
        self.printer = model.Printer()
        self.controller = self.printer.controller
        self.names = self.controller.dictionary
        self.read_only = [e for e in self.names.entries if not e.writable]
        self.writable = [e for e in self.names.entries if e.writable]
        self.condition_indexes = [
            0x4000 + 0x100 * x + 0x10 * letter + c for x in (1, 2) for letter in (1, 2, 3) for c in (1, 2, 3)
        ]

    # -- parts that the themes share

    def chance(self, percent):
        return self.rng.randrange(100) < percent

    def set(self, index, sub, value):
        return write_line(self.names.entry(index, sub), value)

    def some16(self):
        """An INTEGER16: mostly of the size that process values have, at times an end of the type."""
        rng = self.rng
        kind = rng.randrange(8)
        if kind < 4:
            return rng.randint(-200, 1300)
        if kind < 6:
            return rng.randint(-3000, 3000)
        if kind == 6:
            return rng.randint(-32768, 32767)
        return rng.choice((-32768, -32767, -1, 0, 1, 2, 32766, 32767))

    def pair(self, source_entry, number_entry, weights=(2, 8, 8, 6, 3, 6, 7)):
        rng = self.rng
        source = rng.choices(range(7), weights)[0]
        number = rng.randint(1, COUNT_OF_SOURCE[source]) if not self.chance(5) else rng.randrange(16)
        if source == 1 and self.chance(70):  # few EC values, so that several blocks hang on one
            number = rng.randint(1, 4)
        yield write_line(source_entry, source)
        yield write_line(number_entry, number)

    def move(self, entries, targets):
        """A whole chain to new values: rising ones from the top, then falling ones from the bottom."""
        wanted = list(zip(entries, targets))
        if self.chance(8):  # an order that is mostly refused
            for entry, target in wanted:
                yield write_line(entry, target)
            return
        rising = [(e, t) for e, t in reversed(wanted) if t > e.value]
        falling = [(e, t) for e, t in wanted if t < e.value]
        for entry, target in rising + falling:
            yield write_line(entry, target)

    def move_pair(self, lower_index, upper_index, sub, choose=None):
        choose = choose or self.some16
        low, high = sorted((choose(), choose()))
        if low == high and not self.chance(10):
            return
        if self.chance(12):
            high = min(low + 1, self.names.entry(upper_index, sub).high)
        yield from self.move((self.names.entry(lower_index, sub), self.names.entry(upper_index, sub)), (low, high))

    def sample(self, n):
        """A sample for one input, at its limits or inside."""
        rng, block = self.rng, self.controller.inputs[n]
        fv1, fv2 = block.fv1.value, block.fv2.value
        start, end, margin = block.start.value, block.end.value, block.hysteresis.value
        if self.chance(55):
            return rng.randint(fv1, fv2)
        if self.chance(8):
            return rng.randint(-32768, 32767)
        near = rng.choice((fv1, fv2, start, end, start + margin, end - margin, (fv1 + fv2) // 2, -32768, 32767))
        return fit16(near + rng.randint(-1, 1))

    def calm_samples(self):
        """One sample inside the clearing band of each input where there is one."""
        return [fit16((b.start.value + b.end.value) // 2) for b in self.controller.inputs]

    # -- themes: ticks and reads

    def ticks(self):
        hold = self.chance(40)
        samples = [self.sample(n) for n in range(4)]
        for _ in range(self.rng.choice((1, 1, 2, 3, 6, 15))):
            if not hold:
                samples = [self.sample(n) for n in range(4)]
            yield tick_line(samples)
            if self.chance(60):
                yield from self.reads()

    def reads(self):
        for _ in range(self.rng.choice((1, 1, 2, 4))):
            yield read_line(self.rng.choice(self.read_only))

    def read_everything(self):
        for entry in self.read_only:
            yield read_line(entry)

    def read_back(self):
        for _ in range(4):
            yield read_line(self.rng.choice(self.writable))

    # -- themes: values from outside

    def ec_values(self):
        rng = self.rng
        for _ in range(rng.randint(1, 4)):
            number = rng.randint(1, 4) if self.chance(70) else rng.randint(1, 12)
            kind = rng.randrange(4)
            if kind == 0:
                near = rng.choice(rng.choice(self.controller.tables).x[1:]).value + rng.randint(-1, 1)
            elif kind == 1:
                block = rng.choice(rng.choice(self.controller.math).inputs)
                near = rng.choice((block.scaling1, block.scaling2)).value + rng.randint(-1, 1)
            else:
                near = self.some16()
            yield self.set(0x2500, number, fit16(near))

    def constants(self):
        for _ in range(self.rng.randint(1, 3)):
            sub = self.rng.randint(3, 15)
            yield self.set(0x5010, sub, some_real(self.rng))
            if self.chance(15):
                yield frame_line(0x23, 0x5010, sub, struct.pack("<I", self.rng.choice(NOT_FINITE)))
            if self.chance(30):
                yield frame_line(0x40, 0x5010, sub)

    # -- themes: settings of one block

    def input_settings(self):
        rng, n = self.rng, self.rng.randint(1, 4)
        chain = [self.names.entry(index, n) for index in (0x7148, 0x7120, 0x7122, 0x7149)]
        if self.chance(50):
            yield from self.move(chain, self.input_span())
        if self.chance(40):
            yield self.set(0x7121, n, self.some16())
            yield self.set(0x7123, n, self.some16())
        if self.chance(40):
            yield self.set(0x2111, n, rng.choice((0, 1, 5, 50, 100, 400, 3000, 32767)))
        if self.chance(50):
            yield self.set(0x2112, n, rng.choice((0, 0, 1, 2, 3, 5, 1000, 60000)))
        if self.chance(25):
            yield self.set(0x2110, n, rng.randint(0, 1))

    def input_span(self):
        rng = self.rng
        if self.chance(12):
            return rng.choice(((-32768, -32768, 32767, 32767), (-32768, -1, 0, 32767), (32766, 32766, 32767, 32767)))
        start, fv1, fv2, end = sorted(rng.randint(-500, 5500) for _ in range(4))
        return start, fv1, max(fv2, fv1 + 1), max(end, fv1 + 1)

    def broken_input(self):
        """Out of the span for about as long as the delay, then back by way of the hysteresis."""
        rng, n = self.rng, self.rng.randrange(4)
        block = self.controller.inputs[n]
        yield self.set(0x2110, n + 1, 1)
        yield self.set(0x2112, n + 1, rng.choice((0, 1, 2, 3, 4, 7)))
        yield self.set(0x2111, n + 1, rng.choice((0, 1, 10, 100, 700, 32767)))
        if block.start.value <= -32768 or block.end.value >= 32767:
            yield from self.move(
                [self.names.entry(i, n + 1) for i in (0x7148, 0x7120, 0x7122, 0x7149)], self.input_span()
            )
        outside = rng.choice((block.start.value - 1, block.end.value + 1, rng.randint(-32768, 0), 32767))
        yield from self.stay(n, outside, max(0, block.delay.value % 100 + rng.choice((-1, 0, 1, 1, 2, 2))))
        if self.chance(35):  # the delay changes under the run, or under the flag
            yield self.set(0x2112, n + 1, rng.choice((0, 1, 20)))
            yield from self.stay(n, outside, 2)
        start, end, margin = block.start.value, block.end.value, block.hysteresis.value
        if self.chance(35):  # detect off ends a run and clears a flag, and the run starts anew
            yield self.set(0x2110, n + 1, 0)
            yield from self.stay(n, outside, 1)
            yield self.set(0x2110, n + 1, 1)
            yield from self.stay(n, outside, rng.choice((1, 2, block.delay.value % 100 + 1)))
        for near in rng.sample((start, start + margin - 1, end - margin + 1, end, start + margin, end - margin), 4):
            yield from self.stay(n, near, 1)

    def error_list(self):
        """(viii): inputs go out and come back, one or several on a tick; the list is read beyond its end, written to, now and then cleared."""
        rng = self.rng
        for n in rng.sample(range(1, 5), rng.randint(1, 4)):
            yield self.set(0x2110, n, 1)
            yield self.set(0x2112, n, rng.choice((0, 0, 1)))
            yield self.set(0x2111, n, rng.choice((0, 10)))
        for _ in range(rng.randint(1, 6)):
            outside = [fit16(block.end.value + 1) for block in self.controller.inputs]
            yield tick_line([rng.choice(pair) for pair in zip(outside, self.calm_samples())])
            if self.chance(30):
                yield rng.choice(rng.choice(error_list_writes()))
            if self.chance(40):
                yield frame_line(0x40, 0x1003, rng.randint(0, 9))
        yield from read_error_list()

    def stay(self, n, value, count):
        samples = self.calm_samples()
        samples[n] = fit16(value)
        for _ in range(count):
            yield tick_line(samples)
            if self.chance(40):
                yield from self.reads()
        yield frame_line(0x40, 0x7130, n + 1)

    def math_settings(self, n=None):
        rng, n = self.rng, n or self.rng.randint(1, 4)
        base = 0x4500 + 0x100 * n
        yield self.set(0x4500, n, 0 if self.chance(10) else 1)
        for k in rng.sample(range(1, 5), rng.randint(1, 4)):
            weights = (0, 8, 8, 3, 1, 4, 8) if k == 1 else (3, 8, 6, 3, 2, 5, 8)
            yield from self.pair(self.names.entry(base, k), self.names.entry(base + 1, k), weights)
            if self.chance(40):
                yield from self.move_pair(base + 0x20, base + 0x22, k)
            if self.chance(50):
                yield self.set(base + 0x40, k, rng.choice((100, 100, 50, 33, 7, 1, 0, -1, -50, -99, -100)))
            if k < 4:
                yield self.set(base + 0x50, k, rng.randint(0, 5))
        if self.chance(40):
            yield from self.move_pair(0x4521, 0x4523, n)
        yield from self.reads()

    def tiny_divisor(self):
        """Division by the smallest operands there are: infinities, underflow to 0, and 0 itself."""
        rng, n = self.rng, self.rng.randint(1, 4)
        base, constant = 0x4500 + 0x100 * n, rng.randint(3, 15)
        yield self.set(0x4500, n, 1)
        yield self.set(base, 1, 6)
        yield self.set(base + 1, 1, rng.choice((2, constant)))
        yield self.set(base, 2, 6)
        yield self.set(base + 1, 2, constant)
        low = rng.choice((0, 0, -1))
        yield from self.move([self.names.entry(base + i, 1) for i in (0x20, 0x22)], (0, 1))
        yield from self.move([self.names.entry(base + i, 2) for i in (0x20, 0x22)], (low, rng.choice((1, 1000))))
        yield self.set(base + 0x50, 1, 3)
        yield self.set(base + 0x40, 1, rng.choice((100, -100, 50)))
        yield self.set(base + 0x40, 2, rng.choice((100, -100, 50, 1, 0)))
        bits = rng.choice((0, 0x80000000, 1, 2, 0x7FFFFF, 0x800000, 0x00200000, 0x3F800000, rng.randrange(0x01000000)))
        yield self.set(0x5010, constant, real32_from_bits(bits))
        yield tick_line(self.calm_samples())
        yield frame_line(0x40, 0x4530, n)

    def math_to_the_bit(self):
        """Constants with all their bits, so that a rounding left out or done twice shows in 4530h."""
        rng, n = self.rng, self.rng.randint(1, 4)
        base = 0x4500 + 0x100 * n
        yield self.set(0x4500, n, 1)
        joined = rng.randint(1, 4)
        for k in range(1, joined + 1):
            yield self.set(base, k, 6)
            yield self.set(base + 1, k, 10 + k)
            yield from self.move_pair(base + 0x20, base + 0x22, k, lambda: rng.randint(-1000, 1000))
            yield self.set(base + 0x40, k, rng.randint(-100, 100) if k > 1 else rng.randint(1, 100))
            if k > 1:
                yield self.set(base + 0x50, k - 1, rng.choice((0, 0, 1, 2, 3, 4, 5)))
        yield from self.move_pair(0x4521, 0x4523, n, lambda: rng.choice((0, 0, rng.randint(-3000, 3000))))
        for _ in range(4):
            for k in range(1, joined + 1):
                block = self.controller.math[n - 1].inputs[k - 1]
                v = rng.uniform(block.scaling1.value, block.scaling2.value)
                yield self.set(0x5010, 10 + k, model.real32(v if self.chance(60) else v / 1000))
            yield tick_line(self.calm_samples())
            yield frame_line(0x40, 0x4530, n)

    def halves_of_a_constant(self):
        """A table so steep that the constant's rounding to INTEGER16 shows."""
        rng, z = self.rng, self.rng.randint(1, 6)
        base, constant = 0x3000 + 0x10 * z, rng.randint(3, 15)
        middle = rng.choice((0, 0, 1, -1, 2, rng.randint(-3000, 3000), 32762, -32763))
        yield self.set(base, 0, 6)
        yield self.set(base + 1, 0, constant)
        yield from self.move(self.names.array_of(base + 5), range(middle - 5, middle + 6))
        for sub, entry in enumerate(self.names.array_of(base + 6), 1):
            yield write_line(entry, 1000 * sub)
        for sub in range(2, 12):
            yield self.set(base + 4, sub, rng.choice((1, 2)))
        for _ in range(4):
            half = middle + rng.choice((-1.5, -0.5, 0.5, 1.5))
            bits = struct.unpack("<I", struct.pack("<f", half))[0] + rng.choice((-1, 0, 1))
            yield self.set(0x5010, constant, real32_from_bits(bits))
            yield tick_line(self.calm_samples())
            yield read_line(self.names.entry(base + 7))

    def halves_below_zero(self):
        """An input whose line meets halves on both sides of 0, rising or falling."""
        rng, n = self.rng, self.rng.randint(1, 4)
        start, run = rng.randint(-300, 300), 2 * rng.randint(1, 40)
        pv1 = rng.randint(-60, 10)
        chain = [self.names.entry(index, n) for index in (0x7148, 0x7120, 0x7122, 0x7149)]
        yield from self.move(chain, (start - 9, start, start + run, start + run + 9))
        yield self.set(0x7121, n, pv1)
        yield self.set(0x7123, n, pv1 + rng.choice((1, -1, 3, run // 2, -run // 2, 2 * run - 1)))
        for _ in range(4):
            samples = self.calm_samples()
            samples[n - 1] = start + rng.choice((run // 2, rng.randint(0, run)))
            yield tick_line(samples)
            yield frame_line(0x40, 0x7130, n)

    def feedback(self):
        """A math block that adds to itself, so that its result walks from tick to tick."""
        rng, n = self.rng, self.rng.randint(1, 4)
        base = 0x4500 + 0x100 * n
        yield self.set(0x4500, n, 1)
        yield self.set(base, 1, 6)
        yield self.set(base + 1, 1, 2)
        yield self.set(base, 2, 5)
        yield self.set(base + 1, 2, n)
        yield from self.move_pair(base + 0x20, base + 0x22, 1, lambda: rng.randint(0, 40))
        yield self.set(base + 0x50, 1, rng.randint(0, 5))
        for _ in range(rng.randint(2, 6)):
            yield tick_line([self.sample(i) for i in range(4)])
            yield frame_line(0x40, 0x4530, n)

    def table_settings(self, z=None):
        rng, z = self.rng, z or self.rng.randint(1, 6)
        base = 0x3000 + 0x10 * z
        yield from self.pair(self.names.entry(base), self.names.entry(base + 1))
        if self.chance(60):
            yield from self.move(self.names.array_of(base + 5), self.table_points())
        if self.chance(60):
            for entry in self.names.array_of(base + 6):
                yield write_line(entry, self.some16())
        if self.chance(60):
            for sub in range(2, 12):
                yield self.set(base + 4, sub, rng.choices((0, 1, 2), (1, 8, 5))[0])
        yield from self.ticks()
        yield read_line(self.names.entry(base + 7))

    def table_points(self):
        rng = self.rng
        kind = rng.randrange(5)
        if kind == 0:  # steps: many equal X
            return sorted(rng.choice((-100, 0, 250, 251, 900)) for _ in range(11))
        if kind == 1:
            return [100 * i + rng.randint(-50, 50) for i in range(11)]
        if kind == 2:
            return sorted(rng.choice((-32768, 32767, self.some16())) for _ in range(11))
        if kind == 3:
            return [2 * i for i in range(11)]
        return sorted(self.some16() for _ in range(11))

    def logic_settings(self, x=None):
        rng, x = self.rng, x or self.rng.randint(1, 2)
        base = 0x4000 + 0x100 * x
        yield self.set(0x4000, x, 0 if self.chance(12) else 1)
        for sub in (1, 2, 3):
            if self.chance(40):
                yield self.set(base + 1, sub, rng.randint(1, 6))
            if self.chance(60):
                yield self.set(base + 2, sub, rng.choices(range(5), (1, 3, 3, 3, 3))[0])
        for _ in range(rng.randint(2, 9)):
            yield from self.condition(base + 0x10 * rng.randint(1, 3) + rng.randint(1, 3))
        yield from self.ticks()
        yield frame_line(0x40, 0x4010, x)
        yield frame_line(0x40, 0x4020, x)

    def condition(self, index):
        entries = self.names.array_of(index)
        yield from self.pair(*entries[0:2])
        if self.chance(15):  # both arguments the same: equal, unless it is missing
            for first, second in zip(entries[0:2], entries[2:4]):
                yield write_line(second, first.value)
        else:
            yield from self.pair(*entries[2:4])
        yield write_line(entries[4], self.rng.randint(0, 5))

    def close_comparison(self):
        """One condition that alone decides: an EC value against a constant that is equal or just beside it."""
        rng, x = self.rng, self.rng.randint(1, 2)
        base, number, constant = 0x4000 + 0x100 * x, rng.randint(1, 12), rng.randint(3, 15)
        yield self.set(0x4000, x, 1)
        yield self.set(base + 2, 1, 2)
        for c in (2, 3):
            yield self.set(base + 0x10 + c, 1, 0)
        for sub, value in enumerate(rng.choice(((1, number, 6, constant), (6, constant, 1, number))), 1):
            yield self.set(base + 0x11, sub, value)
        for comparison in rng.sample(range(6), 3):
            yield self.set(base + 0x11, 5, comparison)
            value = self.some16()
            yield self.set(0x2500, number, value)
            yield self.set(0x5010, constant, value + rng.choice((0.0, 0.5, -0.5, 0.25, -1.0, 1.0)))
            yield tick_line(self.calm_samples())
            yield frame_line(0x40, 0x4010, x)

    def digits_entry(self):
        """(vii): of a source that gives whole numbers."""
        index, count = self.rng.choice(((0x2502, 4), (0x2502, 12), (0x6132, 4), (0x3003, 6), (0x3003, 6)))
        number = self.rng.randint(1, count)
        return self.names.entry(index + 0x10 * number) if index == 0x3003 else self.names.entry(index, number)

    def digits(self):
        for _ in range(self.rng.randint(1, 4)):
            yield write_line(self.digits_entry(), self.rng.randint(0, 3))
            if self.chance(40):  # as they stand when compared
                yield tick_line(self.calm_samples())
                yield frame_line(0x40, 0x4010, self.rng.randint(1, 2))

    def alone(self, x, *condition):
        """A's first condition alone decides; its comparison is written later."""
        base = 0x4000 + 0x100 * x
        yield self.set(0x4000, x, 1)
        for sub, operator in enumerate((2, 4, 4), 1):
            yield self.set(base + 2, sub, operator)
        for c in (2, 3):
            yield self.set(base + 0x10 + c, 1, 0)
        for index in (0x20, 0x30):
            yield self.set(base + index + 3, 1, 0)
        for sub, value in enumerate(condition, 1):
            yield self.set(base + 0x11, sub, value)

    def same_digits(self):
        """(vii): a whole number of any source against a received value that stands for the same decimal number, or for one just beside it."""
        rng, x, second = self.rng, self.rng.randint(1, 2), self.rng.randint(5, 12)
        source, first = rng.choice(((1, rng.randint(1, 4)), (2, rng.randint(1, 4)), (3, rng.randint(1, 6))))
        digits = {1: (0x2502, first), 2: (0x6132, first), 3: (0x3003 + 0x10 * first, 0)}[source]
        shown = self.names.entry(*{1: (0x2500, first), 2: (0x7130, first), 3: (0x3007 + 0x10 * first, 0)}[source])
        yield from self.alone(x, *rng.choice(((source, first, 1, second), (1, second, source, first))))
        for comparison in rng.sample(range(6), 6):
            d, e = rng.randint(0, 3), rng.randint(0, 3)
            if source == 1:
                yield write_line(shown, rng.choice((rng.randint(-32, 32) * 10**d, self.some16(), -32768, 32767)))
            same = shown.value * 10**e // 10**d
            for index, sub, value in ((*digits, d), (0x2502, second, e), (0x2500, second, fit16(same + rng.choice((0, 0, 1, -1))))):
                yield self.set(index, sub, value)
            yield self.set(0x4011 + 0x100 * x, 5, comparison)
            yield tick_line(self.calm_samples())
            yield frame_line(0x40, 0x4010, x)

    def digits_of_a_selection(self):
        """(vii): a logic block that is read by the other, or by itself, while its selection, its tables' digits and numbers change."""
        rng, x, y = self.rng, self.rng.randint(1, 2), self.rng.randint(1, 2)
        one, other = rng.sample(range(1, 7), 2)
        for z in (one, other):
            yield self.set(0x3000 + 0x10 * z, 0, 1)
            yield self.set(0x3001 + 0x10 * z, 0, 1)
        if x != y:  # A while EC 3 is above 0, else B
            yield from self.alone(y, 1, 3, 6, 1, 2)
            yield self.set(0x4002 + 0x100 * y, 2, 0)
        for sub, z in ((1, one), (2, other)):
            yield self.set(0x4001 + 0x100 * y, sub, z)
        yield from self.alone(x, *rng.choice(((4, y, 1, 2), (1, 2, 4, y))))
        for _ in range(rng.randint(3, 6)):
            yield self.set(0x4011 + 0x100 * x, 5, rng.randint(0, 5))
            yield self.set(0x2500, 3, rng.randint(0, 1))
            for z in rng.sample((one, other), rng.randint(0, 2)):
                yield self.set(0x3002 + 0x10 * z + rng.choice((0, 1, 1, 1)), 0, rng.randint(0, 3))
            if self.chance(30):  # what 4x01h names now is not what it named then
                yield self.set(0x4001 + 0x100 * y, rng.randint(1, 2), rng.choice((one, other)))
            shown = self.names.entry(0x4020, y).value
            yield self.set(0x2500, 2, fit16(rng.choice((shown, 10 * shown, 100 * shown, shown // 10)) + rng.randint(-1, 1)))
            yield self.set(0x2502, 2, rng.randint(0, 3))
            yield tick_line(self.calm_samples())
            for sub in (1, 2):
                yield frame_line(0x40, 0x4010, sub)

    def output_settings(self, n=None):
        rng, n = self.rng, n or self.rng.randint(1, 4)
        if self.chance(80):
            yield from self.pair(self.names.entry(0x2340, n), self.names.entry(0x2341, n), (1, 8, 8, 8, 4, 8, 6))
        for source, percent in ((0x2350, 50), (0x2360, 40)):
            if self.chance(percent):
                yield from self.pair(self.names.entry(source, n), self.names.entry(source + 1, n), (9, 6, 3, 3, 3, 3, 6))
                yield self.set(source + 2, n, rng.randint(0, 1))
        if self.chance(40):
            yield from self.move_pair(0x7320, 0x7322, n)
        if self.chance(40):
            yield from self.move_pair(0x7321, 0x7323, n, lambda: rng.choice((0, 1, 2500, rng.randint(0, 2500))))
        for index in (0x2330, 0x2331):
            if self.chance(60):
                yield self.set(index, n, rng.choice((0, 0, 0, 1, 2, 3, 7, 40, 333, 1000, 60000)))
        yield self.set(0x6340, n, rng.randint(0, 1))
        for index in (0x7341, 0x2300):
            if self.chance(40):
                yield self.set(index, n, rng.choice((0, 1, 2500, rng.randint(0, 2500))))
        yield from self.ticks()
        yield frame_line(0x40, 0x7330, n)

    def ramp_under_way(self):
        """(i): an output on its ramp, with all that may start its count again, or must not, between the ticks."""
        rng, n = self.rng, self.rng.randint(1, 4)
        ec, fv2 = rng.randint(5, 12), rng.choice((1, 7, 100, 1500, 2500))
        wiring = [self.names.entry(index, n) for index in (0x2340, 0x2341, 0x2350, 0x2360, 0x6340)]
        before = [entry.value for entry in wiring]
        for entry, value in zip(wiring, (1, ec, 0, 0, 0)):
            yield write_line(entry, value)
        yield from self.move_pair(0x7321, 0x7323, n, lambda: rng.choice((0, fv2, rng.randint(0, fv2))))
        yield from self.move((self.names.entry(0x7320, n), self.names.entry(0x7322, n)), (0, 1000))
        for index in (0x2330, 0x2331):
            yield self.set(index, n, rng.choice((1, 2, 3, 7, 13, 40, 333, 1000, 60000)))
        lever = rng.randint(0, 1000)
        yield self.set(0x2500, ec, lever)
        for _ in range(rng.choice((8, 20))):
            yield tick_line(self.calm_samples())
            if self.chance(40):  # a lever by random walk
                lever = fit16(lever + rng.choice((-900, -200, -30, -1, 1, 30, 200, 900)))
                yield self.set(0x2500, ec, lever)
            elif self.chance(25):
                yield from self.ramp_touched(n)
        for entry, value in zip(wiring, before):
            yield write_line(entry, value)

    def ramp_touched(self, n):
        """What a ramp's count hangs on, written otherwise, as it is, or there and back; or one tick under another rule."""
        rng = self.rng
        if self.chance(40):
            index, value = rng.choice(((0x2350, 6), (0x2360, 6), (0x2340, 0)))
            source, number = self.names.entry(index, n), self.names.entry(index + 1, n)
            before = (source.value, number.value)
            yield write_line(source, value)
            yield write_line(number, 1 if index == 0x2350 else 2)  # constant 1 is 0: enable off; constant 2 is 1: override on
            yield tick_line(self.calm_samples())
            yield write_line(source, before[0])
            yield write_line(number, before[1])
            return
        entry = self.names.entry(rng.choice((0x2330, 0x2331, 0x7321, 0x7323)), n)
        before = entry.value
        if self.chance(50):
            yield write_line(entry, max(entry.low, min(entry.high, before + rng.choice((-1, 1, 5)))))
        if self.chance(60):
            yield write_line(entry, before)

    def switches(self):
        """Blocks on and off, inputs detected or not, without touching anything else."""
        rng = self.rng
        for _ in range(rng.randint(1, 3)):
            index, count = rng.choice(((0x4000, 2), (0x4500, 4), (0x2110, 4), (0x2352, 4), (0x2362, 4), (0x6340, 4)))
            yield self.set(index, rng.randint(1, count), rng.choice((0, 1, 1)))
        if self.chance(50):  # what was read before a tick stays until the next one
            yield from self.reads()
            yield frame_line(0x40, 0x4530, rng.randint(1, 4))
            yield frame_line(0x40, 0x4010, rng.randint(1, 2))
        yield from self.ticks()

    def switched_by_minus_zero(self):
        """-0 is a number equal to 0: off, or on with response 1."""
        n, constant = self.rng.randint(1, 4), self.rng.randint(3, 15)
        yield self.set(0x5010, constant, -0.0)
        for index, value in ((0x2350, 6), (0x2351, constant), (0x2352, self.rng.randint(0, 1))):
            yield self.set(index, n, value)
        yield from self.ticks()

    def switched_off_under_a_reader(self):
        """A block that reads a later one sees the last tick's signal, also of a block since switched off."""
        rng, n, x = self.rng, self.rng.randint(1, 4), self.rng.randint(1, 2)
        base, z = 0x4500 + 0x100 * n, rng.randint(1, 6)
        yield self.set(0x4000, x, 1)
        yield self.set(0x4002 + 0x100 * x, 1, 0)  # table A always
        yield self.set(0x4001 + 0x100 * x, 1, z)
        yield self.set(0x3000 + 0x10 * z, 0, 1)
        yield self.set(0x3001 + 0x10 * z, 0, 1)
        yield self.set(0x4500, n, 1)
        yield self.set(base, 1, 4)
        yield self.set(base + 1, 1, x)
        for enable in (1, 1, 0, 0, 1):
            yield self.set(0x4000, x, enable)
            yield tick_line(self.calm_samples())
            yield frame_line(0x40, 0x4530, n)
            yield frame_line(0x40, 0x4020, x)

    def written_without_a_tick(self):
        """Settings change, no tick comes: every read-only entry keeps the last tick's value (OP 20)."""
        enables = [e for e in self.names.array_of(0x4000) + self.names.array_of(0x4500) if e.value]
        for entry in enables:
            yield write_line(entry, 0)
        yield self.set(0x7121, self.rng.randint(1, 4), self.some16())
        yield self.set(0x2500, 1, self.some16())
        for index in (0x4010, 0x4020, 0x4530, 0x7130, 0x7330):
            for entry in self.names.array_of(index):
                yield read_line(entry)
        for entry in enables:
            yield write_line(entry, 1)

    # -- themes: what is refused

    def any_write(self):
        """Any writable name: ends of its range, a step beyond, or anything its type can hold."""
        rng = self.rng
        for _ in range(rng.randint(1, 4)):
            entry = rng.choice(self.writable)
            if entry.type is model.REAL32:
                yield write_line(entry, some_real(rng))
                continue
            value = rng.choice(
                (entry.low, entry.high, entry.low - 1, entry.high + 1, entry.default, rng.randint(entry.low, entry.high))
            )
            yield write_line(entry, max(entry.type.low, min(entry.type.high, value)))

    def chain_edges(self):
        """A chain's member at its neighbours' values, one below and one above."""
        rng = self.rng
        entry = rng.choice([e for e in self.writable if e.above or e.below])
        for neighbour in (entry.above, entry.below):
            if neighbour:
                for step in (-1, 0, 1):
                    yield write_line(entry, fit16(neighbour[0].value + step))
        yield read_line(entry)

    def untold_writes(self):
        """(ii): any writable name by 22h: an end of its range, a step beyond, a neighbour's value, with any bytes behind it."""
        rng = self.rng
        for _ in range(rng.randint(1, 4)):
            entry = rng.choice(self.writable)
            if entry.type is model.REAL32:
                value = some_real(rng)
            else:
                near = [entry.low, entry.high, entry.low - 1, entry.high + 1, rng.randint(entry.low, entry.high)]
                near += [neighbour[0].value + rng.randint(-1, 1) for neighbour in (entry.above, entry.below) if neighbour]
                value = max(entry.type.low, min(entry.type.high, rng.choice(near)))
            yield untold_line(entry, value, rng.choice((bytes(3), b"\xff\xff\xff", rng.randbytes(3))))
            if self.chance(50):
                yield read_line(entry)
        if self.chance(20):
            yield frame_line(model.UNTOLD, 0x5010, rng.randint(3, 15), struct.pack("<I", rng.choice(NOT_FINITE)))

    def odd_frames(self):
        rng = self.rng
        for _ in range(rng.randint(1, 4)):
            entry = rng.choice(self.names.entries)
            command = rng.choice((0x23, 0x27, 0x2B, 0x2F, 0x40, 0x40, 0x80, 0x22, 0x22, 0x26, 0x2A, 0x2E, 0x21, 0x60, rng.randrange(256)))
            index = entry.index + rng.choice((0, 0, 0, 0, 1, -1, 0x100))
            sub = rng.choice((entry.sub, entry.sub, 0, 1, 12, 16, 255, rng.randrange(256)))
            data = rng.choice((bytes(4), b"\xff\xff\xff\xff", b"\x00\x00\x80\x7f", rng.randbytes(4)))
            yield frame_line(command, index & 0xFFFF, sub, data)
        if self.chance(30):
            yield b"S " + rng.randbytes(8).hex().upper().encode()

    def odd_lines(self):
        rng = self.rng
        yield from rng.sample(BAD_LINES[:-1], 3)
        if self.chance(50):
            yield rng.choice(ODD_GOOD_LINES)
        good = rng.choice((b"S 4030710100000000", b"T 2500 2500 2500 2500", b"S 2B00250107000000"))
        at = rng.randrange(len(good))
        yield rng.choice(
            (
                good[:at],
                good[:at] + bytes((rng.choice([b for b in range(256) if b != 10]),)) + good[at + 1 :],
                good[:at] + rng.choice((b" ", b"0", b"-", b"\r")) + good[at:],
                good[:at] + good[at + 1 :],
            )
        )

    # -- the whole

    def build(self):
        """A fresh unit wired through and through."""
        for theme, count in (
            (self.math_settings, 4),
            (self.table_settings, 6),
            (self.logic_settings, 2),
            (self.output_settings, 4),
        ):
            for number in range(1, count + 1):
                yield from theme(number)
        yield from self.input_settings()
        yield from self.ec_values()
        yield from self.constants()

    THEMES = (
        (45, ticks),
        (3, read_everything),
        (3, read_back),
        (16, ec_values),
        (8, constants),
        (5, input_settings),
        (8, broken_input),
        (3, error_list),
        (7, math_settings),
        (3, tiny_divisor),
        (4, math_to_the_bit),
        (2, halves_of_a_constant),
        (2, feedback),
        (2, halves_below_zero),
        (5, table_settings),
        (6, logic_settings),
        (2, close_comparison),
        (3, digits),
        (3, same_digits),
        (3, digits_of_a_selection),
        (8, output_settings),
        (8, switches),
        (2, written_without_a_tick),
        (2, switched_off_under_a_reader),
        (1, switched_by_minus_zero),
        (6, any_write),
        (3, chain_edges),
        (4, untold_writes),
        (7, odd_frames),
        (9, odd_lines),
    )

    def forever(self):
        if not self.chance(10):  # now and then a unit that starts as it came
            yield from self.build()
        themes = [theme for _, theme in self.THEMES]
        weights = [weight for weight, _ in self.THEMES]
        while True:
            yield from self.rng.choices(themes, weights)[0](self)


def answered(printer, lines):
    """Each line with the model's answer to it."""
    for line in lines:
        yield line, printer.answer(line)


def random_session(seed, count):
    unit = Unit(random.Random(str(seed)))
    for _, pair in zip(range(count), answered(unit.printer, unit.forever())):
        yield pair


# --------------------------------------------------------------------------- The walk


def values_to_try(entry):
    kind = entry.type
    if kind is model.REAL32:
        return [real32_from_bits(bits) for bits in REAL_BITS]
    tried = (entry.low, entry.high, entry.low - 1, entry.high + 1, entry.default)
    return [value for value in tried if kind.low <= value <= kind.high]


def walk_entry(entry):
    yield read_line(entry)
    data = entry.type.form.pack(entry.default) + entry.type.padding
    for size in (1, 2, 3, 4):
        yield frame_line(WRITE_COMMAND[size], entry.index, entry.sub, data)
    yield untold_line(entry, entry.default)
    if entry.writable:
        for value in values_to_try(entry):
            yield write_line(entry, value)
            yield read_line(entry)
            yield untold_line(entry, value)
            yield read_line(entry)
        yield write_line(entry, entry.default)


def walk_names(names):
    """Every name, sub 0 too: read, every size, the ends of its range, a step beyond."""
    for index in sorted(names.objects):
        subs = names.objects[index]
        for sub in sorted(subs):
            yield from walk_entry(subs[sub])
        for sub in (len(subs), 255):  # the first sub that is not there, and the last there could be
            for command in (0x40, 0x23, 0x2F, 0x22):
                yield frame_line(command, index, sub)
        for near in (index - 1, index + 1):
            if near not in names.objects:
                yield frame_line(0x40, near, 0)
                yield frame_line(0x2F, near, 1)
                yield frame_line(0x22, near, 1)


def walk_refusals():
    """The rows in their order: each frame would match a later row too."""
    for command in range(256):
        yield frame_line(command, 0x2110, 1)
        yield frame_line(command, 0x1000, 7)
        yield frame_line(command, 0x5010, 1, b"\x00\x00\xc0\x7f")
    for bits in NOT_FINITE:
        for sub in (0, 1, 2, 3, 15, 16):
            yield frame_line(0x23, 0x5010, sub, struct.pack("<I", bits))
            yield frame_line(0x22, 0x5010, sub, struct.pack("<I", bits))
    for index in (0x0000, 0x1000, 0x1018, 0x1F22, 0x3000, 0x3070, 0x4300, 0x4A00, 0xFFFF):
        yield frame_line(0x40, index, 0)
        yield frame_line(0x27, index, 0)


def walk_chains(names):
    """Every chain up from the top, down from the bottom, and at each step the order that is refused."""
    for z in range(1, 7):
        points = names.array_of(0x3005 + 0x10 * z)
        for entry in points[:-1]:
            yield write_line(entry, entry.above[0].value + 1)
        for entry in reversed(points):
            yield write_line(entry, entry.value + 500)
        for entry in points[1:]:
            yield write_line(entry, entry.below[0].value - 1)
        for entry in points:
            yield write_line(entry, entry.value - 500)
    for entry in names.configuration:
        for neighbour in (entry.above, entry.below):
            if neighbour:
                for step in (-1, 0, 1):
                    yield write_line(entry, fit16(neighbour[0].value + step))
                    yield untold_line(entry, fit16(neighbour[0].value + step))
                yield write_line(entry, entry.default)


def walk_default_delay():
    """The delay as delivered: flagged on out tick 1001, cleared by the band."""
    for sample in 1000 * (5001,) + (5001, 5000, 4901, 4900, 100, -1, 0):
        yield tick_line((2500, sample, 2500, 2500))
    yield frame_line(0x40, 0x7130, 2)


def walk_digits():
    """(vii): the example session, so that it runs wherever the walk does. The walk over the names puts back what it sets."""
    return (HERE / "examples" / "digits.stdin").read_bytes().splitlines()


def read_error_list():
    """(viii): the number kept, the eight, and a sub that is never there."""
    for sub in range(10):
        yield frame_line(0x40, 0x1003, sub)


def error_list_writes():
    """(viii): what leaves the list, to a sub that may be kept or not and to sub 0, every size and none told; and what clears it."""
    zero, one, high = bytes(4), b"\x01\x00\x00\x00", b"\x00\x01\x00\x00"
    leave = [frame_line(command, 0x1003, sub) for command in (0x23, 0x2F, 0x22) for sub in (1, 2, 8, 9)]
    leave += [frame_line(command, 0x1003, 0, data) for command in (0x23, 0x27, 0x2B) for data in (zero, one)]
    leave += [frame_line(command, 0x1003, 0, data) for command in (0x2F, 0x22) for data in (one, b"\xff" * 4)]
    clear = [frame_line(command, 0x1003, 0, data) for command in (0x2F, 0x22) for data in (zero, high)]
    return leave, clear


def walk_error_list():
    """(viii): what fills the list, what is answered of it, and what clears it."""

    def ticks(*flagged):
        """The inputs that are named go out, or stay out; the others are well inside."""
        for inputs in flagged:
            yield tick_line([6000 if n in inputs else 2500 for n in (1, 2, 3, 4)])

    def listed(*flagged):
        yield from ticks(*flagged)
        yield from read_error_list()

    for n in (1, 2, 3, 4):
        yield frame_line(0x2B, 0x2112, n)
    yield from read_error_list()  # no flagging yet: 1003h:1 is not there
    leave, clear = error_list_writes()
    yield from leave + clear  # an empty list is cleared too
    yield from listed({2})  # one; written to where it is kept and where none is
    yield from leave
    yield from listed({2}, {2})  # a flag that stays enters nothing
    yield from listed({2, 3, 1})  # two on one tick, while a third stays
    yield from listed(set())  # an entry stays when its input clears
    yield from listed({1, 2, 3, 4})  # four on one tick: seven
    for n in (3, 1, 4):  # eight, nine and ten
        yield from listed(set(), {n})
    yield from leave
    yield clear[0]  # cleared while flagged: 1001h stays, and the flag enters nothing
    yield frame_line(0x40, 0x1001, 0)
    yield from listed({4}, {4})
    yield from listed(set(), {4})  # flagged, cleared and flagged again
    yield from listed({4, 1})
    yield clear[3]  # by 22h: one byte counts
    yield from listed({4, 1}, set())
    for n in (1, 2, 3, 4):
        yield frame_line(0x2B, 0x2112, n, struct.pack("<I", 1000))


def walk(unit):
    yield from walk_digits()
    yield from walk_names(unit.names)
    yield from walk_error_list()
    yield from walk_refusals()
    yield from walk_chains(unit.names)
    yield from BAD_LINES
    yield from ODD_GOOD_LINES
    yield from walk_default_delay()
    yield from unit.read_everything()
    for entry in unit.names.configuration:
        yield read_line(entry)


def walk_session():
    unit = Unit(random.Random("walk"))
    return answered(unit.printer, walk(unit))


# --------------------------------------------------------------------------- Ramps


class Ramped:
    """(i), sentence by sentence: output 1 with its control from EC 1, 0..1000 on the line to FV1..FV2."""

    def __init__(self, unit):
        self.unit, self.samples = unit, [2500, 2500, 2500, 2500]

    def set(self, **values):
        """One write for each: up, down, fv1, fv2 and so on."""
        for name, value in values.items():
            yield self.unit.set(self.NAMES[name], 1, value)

    NAMES = {"up": 0x2330, "down": 0x2331, "fv1": 0x7321, "fv2": 0x7323, "lever": 0x2500, "control": 0x2340, "number": 0x2341}
    NAMES.update({"enable": 0x2350, "enable_number": 0x2351, "override": 0x2360, "override_number": 0x2361})
    NAMES.update({"override_fv": 0x2300, "mode": 0x6340, "fault": 0x7341, "delay": 0x2112})

    def ticks(self, count=1):
        for _ in range(count):
            yield tick_line(self.samples)

    def stand(self, at, **values):
        """At rest at a lever's target, then other settings."""
        yield from self.set(up=0, down=0, lever=at)
        yield from self.ticks()
        yield from self.set(**values)

    def whole(self):
        yield from self.set(control=1, number=1)
        for part in (self.by_the_paper, self.lever, self.stopped, self.direction, self.changes, self.rules, self.faults, self.limits, self.at_once, self.four):
            yield from part()

    def by_the_paper(self):
        """ "1500 over 1000 ms gives 1, 3, 4 and reaches 1500 at tick 1000"; "falling likewise" """
        for lever in (1000, 0):
            yield from self.set(lever=lever)
            yield from self.ticks(1001)

    def lever(self):
        """ "a moving one too", "a lever that is always moving would hold a slow output still": a target that moves at every tick."""
        rng = random.Random("lever")
        for lever, low, high in ((1000, 400, 1000), (0, 0, 600)):
            yield from self.stand(1000 - lever, up=700, down=900)
            for _ in range(150):
                yield from self.set(lever=rng.randint(low, high))
                yield from self.ticks()

    def stopped(self):
        """ "stopped at the target", and standing there it starts again: the next target lies further, the same way."""
        yield from self.stand(0, up=77, down=77)
        for lever, count in ((10, 1), (1000, 3), (60, 1), (20, 5), (0, 1), (10, 4), (1000, 3), (500, 40), (1000, 2), (900, 1), (901, 9), (100, 9)):
            yield from self.set(lever=lever)
            yield from self.ticks(count)

    def direction(self):
        """A change of direction counts even where nothing has moved yet (OP 97)."""
        yield from self.stand(500, up=60000, down=50000)
        for lever, count in ((900, 39), (100, 33), (900, 39), (901, 3), (100, 50), (101, 60), (500, 2), (900, 45)):
            yield from self.set(lever=lever)
            yield from self.ticks(count)

    def changes(self):
        """ "a change of .. FV1, FV2 or the ramp in use since the last tick": otherwise, as it is, there and back, and the other ramp."""
        for name, value, back in (("up", 998, 997), ("down", 5, 997), ("fv1", 1, 0), ("fv2", 1501, 1500)):
            yield from self.stand(0, up=997, down=997, lever=1000)
            for values in (value, back, None, value, value, back, None):
                yield from self.ticks(7)
                if values is None:  # there and back, between two ticks
                    yield from self.set(**{name: value})
                    yield from self.set(**{name: back})
                else:
                    yield from self.set(**{name: values})
            yield from self.ticks(7)

    def rules(self):
        """ "a tick under rules 1 to 6, starts the count again": one tick of each between, that leaves the command as it is where it can."""
        off, on = {"enable": 6, "enable_number": 1}, {"override": 6, "override_number": 2}
        for rule in (off, on, {"control": 0}):
            back = {name: value for name, value in (("enable", 0), ("override", 0), ("control", 1)) if name in rule}
            for override in (9, 5, 0):  # 9 is where four ticks lead
                yield from self.stand(0, up=613, down=613, lever=1000, override_fv=override)
                yield from self.ticks(4)
                yield from self.set(**rule)
                yield from self.ticks()
                yield from self.set(**back)
                yield from self.ticks(4)

    def faults(self):
        """Enable, override and control in error, in both modes: input 1 is flagged for one tick."""
        yield from self.set(delay=0)
        for name in ("enable", "override", "control"):
            for mode in (0, 1):
                number = name + "_number" if name != "control" else "number"
                yield from self.stand(0, up=613, down=613, lever=1000, mode=mode, fault=5)
                yield from self.ticks(4)
                yield from self.set(**{name: 2, number: 1})
                self.samples[0] = 5001
                yield from self.ticks()
                self.samples[0] = 2500
                yield from self.set(**{name: 1 if name == "control" else 0, number: 1})
                yield from self.ticks(6)

    def limits(self):
        """FV1 above 0 after rule 1, and an override FV outside FV1..FV2: the last command is limited (OP 101)."""
        yield from self.stand(0, fv1=300, up=350, down=350, lever=900, override_fv=2500, enable=6, enable_number=1)
        yield from self.ticks(2)
        yield from self.set(enable=0)
        yield from self.ticks(5)
        yield from self.set(override=6, override_number=2)
        yield from self.ticks(2)
        yield from self.set(override=0)
        yield from self.ticks(5)
        yield from self.set(fv1=0)

    def at_once(self):
        """ "Ramp 0 still goes at once", and a ramp of 1 arrives with its first tick."""
        for ramp in (0, 1, 2, 3):
            yield from self.set(up=ramp, down=ramp)
            for lever in (1000, 0, 1, 333, 999):
                yield from self.set(lever=lever)
                yield from self.ticks(2)

    def four(self):
        """Each output has a count of its own."""
        for n in (2, 3, 4):
            for index, value in ((0x2340, 1), (0x2341, n), (0x2330, 90 * n), (0x2331, 70 * n), (0x2500, 1000)):
                yield self.unit.set(index, n, value)
            yield from self.ticks(3)
        yield from self.set(up=450, down=450, lever=0)
        yield from self.ticks(20)


def ramp_session():
    unit = Unit(random.Random("ramps"))
    return answered(unit.printer, Ramped(unit).whole())


def lever_session(seed, count=1000):
    """Outputs on their ramps by chance."""
    unit = Unit(random.Random("levers %s" % seed))

    def lines():
        while True:
            yield from unit.ramp_under_way()

    for _, pair in zip(range(count), answered(unit.printer, lines())):
        yield pair


def long_ramps(unit):
    """Ramps beyond 15 and 16 bits of ticks and of current: the fitter's 10,000 ms, 32,768, 50,000 and 60,000 ms, up and down."""
    for n, ramp in ((1, 10000), (2, 32768), (3, 50000), (4, 60000)):
        for index, value in ((0x2340, 1), (0x2341, n), (0x2330, ramp), (0x2331, ramp), (0x7323, 1500 if n == 1 else 2500), (0x2500, 1000)):
            yield unit.set(index, n, value)
    for lever in (1000, 0):
        for n in (1, 2, 3, 4):
            yield unit.set(0x2500, n, lever)
        for _ in range(60001):
            yield tick_line((2500, 2500, 2500, 2500))


def long_ramp_session():
    unit = Unit(random.Random("long ramps"))
    return answered(unit.printer, long_ramps(unit))


# --------------------------------------------------------------------------- The longest delays


def long(unit):
    """Runs of out ticks beyond 15 and 16 bits: delays 60000, 32767, 32768 and 60000 a tick later."""
    for n, delay in ((1, 60000), (2, 32767), (3, 32768), (4, 60000)):
        yield unit.set(0x2112, n, delay)
    yield tick_line((5001, 5001, 5001, 2500))
    for count in range(2, 65700):
        # both sides in one run; at the counts that are read, above the end, where an unflagged PV is 1000
        yield tick_line((5001, 5001, -1 if count % 5 == 1 else 5001, 5001))
        if count in (32767, 32768, 32769, 60000, 60001, 60002, 65536):
            for n in (1, 2, 3, 4):
                yield frame_line(0x40, 0x7130, n)
    for n in (1, 2, 3, 4):  # only the inputs that came back are cleared
        samples = [2500 if k <= n else -1 for k in (1, 2, 3, 4)]
        yield tick_line(samples)


def long_session():
    unit = Unit(random.Random("long"))
    return answered(unit.printer, long(unit))


# --------------------------------------------------------------------------- The plan


def plan(seed, lines):
    """(title, session) by turns: the ramps, levers by chance and the walk, then random sessions, so many lines in all."""
    left, k = lines, 0
    for title, session in (("ramps", ramp_session()), ("levers %s" % seed, lever_session(seed)), ("walk", walk_session())):
        fixed = list(session)[:left]
        yield title, fixed
        left -= len(fixed)
    while left > 0:
        k += 1
        count = min(left, LINES_OF_ONE_SESSION)
        yield "%s.%d %d" % (seed, k, count), random_session("%s.%d" % (seed, k), count)
        left -= count


def main(arguments):
    if arguments[:1] == ["--coverage"] and len(arguments) == 3:
        import coverage_report

        return coverage_report.report(plan(arguments[1], int(arguments[2])))
    if arguments == ["walk"]:
        session = walk_session()
    elif arguments == ["long"]:
        session = long_session()
    elif arguments == ["ramps"]:
        session = ramp_session()
    elif arguments == ["long ramps"]:
        session = long_ramp_session()
    elif len(arguments) == 2:
        session = random_session(arguments[0], int(arguments[1]))
    else:
        print(__doc__)
        return 2
    for line, _ in session:
        sys.stdout.buffer.write(line + b"\n")
    return 0


if __name__ == "__main__":
    sys.exit(main(sys.argv[1:]))
