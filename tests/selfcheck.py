"""Checks the outside check itself, in a few seconds and without the product.

The model must give the paper's counts and bench examples, round as REAL32 does, agree
with the SDO client's own table of names and pass the client's walk; a request of document 02
must leave alone what does not touch it; the examples' expected outputs must be the model's.

    python3 selfcheck.py [PROGRAM]

With a PROGRAM the examples are run through that too.
"""

import fractions
import io
import pathlib
import random
import re
import struct
import sys

import compare
import model
import other_readings
import program
import sdo_client
import sessions

HERE = pathlib.Path(__file__).parent


class Bench:
    """A fresh unit on the bench, spoken to by numbers."""

    def __init__(self):
        self.controller = model.Controller()

    def write(self, index, sub, value, size=None):
        """The reply to a write; the size is the entry's own unless another is asked for."""
        data = value.to_bytes(4, "little", signed=value < 0)
        size = size or self.controller.dictionary.entry(index, sub).type.size
        command = {4: 0x23, 3: 0x27, 2: 0x2B, 1: 0x2F}[size]
        return self.controller.frame(struct.pack("<BHB", command, index, sub) + data)

    def read(self, index, sub=0):
        reply = self.controller.frame(struct.pack("<BHBI", 0x40, index, sub, 0))
        assert reply[0] in (0x43, 0x4B, 0x4F)
        return int.from_bytes(reply[4:], "little")

    def tick(self, sample=2500):
        self.controller.tick([sample] * 4)
        return self.controller.commands()

    def accepts(self, index, sub, value):
        return self.write(index, sub, value) == struct.pack("<BHBI", 0x60, index, sub, 0)

    def aborts(self, index, sub, value, size=None):
        """The abort's four code bytes as the paper prints them, low byte first."""
        reply = self.write(index, sub, value, size)
        assert reply[:4] == struct.pack("<BHB", 0x80, index, sub)
        return reply[4:].hex(" ")


def check_counts():
    """ "611 entries with 926 bytes of data", "5,207 bytes", and 661 words with the other names"""
    names = model.Dictionary()
    assert len(names.configuration) == 611
    assert sum(entry.type.size for entry in names.configuration) == 926
    assert 4 + sum(7 + entry.type.size for entry in names.configuration) == 5207
    assert len(names.entries) == 661
    return "611 entries, 926 bytes, 661 words"


def check_bench():
    """ "Examples from the bench. Fresh unit each time." """
    assert Bench().accepts(0x3015, 2, 200)
    assert Bench().write(0x3015, 2, 201).hex(" ") == "80 15 30 02 31 00 09 06"
    assert Bench().aborts(0x3015, 0, 1) == "02 00 01 06"
    assert Bench().aborts(0x3015, 12, 1, 2) == "11 00 09 06"
    assert Bench().aborts(0x3015, 2, 1, 1) == "13 00 07 06"
    assert Bench().accepts(0x7321, 1, 1499)
    assert Bench().aborts(0x7321, 1, 1500) == "31 00 09 06"
    for sample, pv in ((2500, 500), (501, 0), (502, 1)):
        bench = Bench()
        bench.tick(sample)
        assert bench.read(0x7130, 1) == pv
    assert check_bench_points() == 0xFFFF
    assert model.integer16(2.5) == 3
    assert check_bench_math() == 0x43FA0000
    assert check_bench_output() == [1, 0, 0, 0]
    return "14 bench examples"


def check_bench_points():
    """ "Points (0,-1), (2,0), x = 1: -1" """
    bench = Bench()
    source = ((0x3010, 0, 1), (0x3011, 0, 1), (0x2500, 1, 1))
    for index, sub, value in source + ((0x3015, 2, 2), (0x3016, 1, -1), (0x3016, 2, 0)):
        assert bench.accepts(index, sub, value)
    bench.tick()
    return bench.read(0x3017)


def check_bench_math():
    """ "Math 1 enabled with input 1 from EC 1 = 500: 43FA0000h" """
    bench = Bench()
    for index, sub, value in ((0x4500, 1, 1), (0x4600, 1, 1), (0x4601, 1, 1), (0x2500, 1, 500)):
        assert bench.accepts(index, sub, value)
    bench.tick()
    return bench.read(0x4530, 1)


def check_bench_output():
    """ "Output at rest, target 1500: 2 after one tick"; (i) "the bench example becomes 1" """
    bench = Bench()
    for index, sub, value in ((0x2340, 1, 1), (0x2341, 1, 1), (0x2500, 1, 1000)):
        assert bench.accepts(index, sub, value)
    return bench.tick()


# --------------------------------------------------------------------------- REAL32


def rounded_exactly(value):
    """The REAL32 nearest to a fraction, ties to even, by whole numbers alone."""
    size = abs(value)
    # The exponent of the last bit: near its place by the lengths, the least one for subnormals.
    exponent = max(-149, size.numerator.bit_length() - size.denominator.bit_length() - 24)
    while size >= fractions.Fraction(2) ** (exponent + 24):
        exponent += 1
    unit = fractions.Fraction(2) ** exponent
    whole = round(size / unit)  # Python rounds a fraction's half to even
    result = whole * unit
    if result >= fractions.Fraction(2) ** 128:
        return model.INFINITY if value > 0 else -model.INFINITY
    return float(result if value >= 0 else -result)


def some_operand(rng):
    """A finite REAL32, not so far from 1 as a rule, with now and then a subnormal."""
    exponent = rng.choice((0, 1, 2, 20, 100, 126, 127, 128, 140, rng.randint(1, 254)))
    return struct.unpack("<f", struct.pack("<I", rng.getrandbits(1) << 31 | exponent << 23 | rng.getrandbits(23)))[0]


def check_rounding(count=3000):
    """A double operation rounded to REAL32 is the exact result rounded once."""
    rng = random.Random("rounding")
    for _ in range(count):
        a, b = some_operand(rng), some_operand(rng)
        x, y = fractions.Fraction(a), fractions.Fraction(b)
        assert model.real32(a + b) == rounded_exactly(x + y)
        assert model.real32(a - b) == rounded_exactly(x - y)
        assert model.real32(a * b) == rounded_exactly(x * y)
        if b:
            assert model.real32(a / b) == rounded_exactly(x / y)
    return "%d REAL32 operations rounded exactly" % (4 * count)


# --------------------------------------------------------------------------- Client, examples, inputs


def check_tables_agree():
    """The model's names and the client's, typed in twice, are the same."""
    names, paper = model.Dictionary(), sdo_client.Paper()
    assert sum(map(len, names.objects.values())) == len(paper.names)
    for (index, sub), name in paper.names.items():
        entry = names.entry(index, sub)
        assert (entry.type.size, entry.writable) == (name.size, name.writable), entry
        assert entry.type.form.pack(entry.default) == name.bytes_of(name.default), entry
        if name.type != "real":
            assert (entry.low, entry.high) == (name.low, name.high), entry
        for mine, other in ((entry.above, name.above), (entry.below, name.below)):
            assert (mine and (mine[0].index, mine[0].sub, mine[1])) == (other and (other[0].index, other[0].sub, other[1]))
    assert len(paper.configuration) == 611
    return "two tables of %d names agree" % len(paper.names)


def check_client():
    good, text = sdo_client.check(str(HERE / "model.py"))
    assert good, text
    return "model through the SDO client: " + text


def check_examples(path):
    sessions = sorted((HERE / "examples").glob("*.stdin"))
    for session in sessions:
        printed, status = program.run(path, session.read_bytes())
        assert (printed, status) == (session.with_suffix(".stdout").read_bytes(), 0), session.name
    return "%d examples" % len(sessions)


def check_inputs():
    for data, expected in compare.STREAMS:
        assert b"".join(model.session(io.BytesIO(data))) == expected, data
    return "%d whole inputs" % len(compare.STREAMS)


def check_unanswered():
    """Row 1, which the session program cannot show but for 80h (OP 14)."""
    bench, good_write = Bench(), bytes.fromhex("2B153002C8000000")
    for frame, room in ((good_write[:7], 8), (good_write + b"\0", 8), (b"", 8), (good_write, 7), (good_write, 0)):
        assert bench.controller.frame(frame, room) is None
        assert bench.read(0x3015, 2) == 100
    return "row 1"


# --------------------------------------------------------------------------- Requests

DIGITS = [index.to_bytes(2, "little").hex().upper().encode() for index in (0x2502, 0x6132, *range(0x3013, 0x3073, 0x10))]

# The lines that touch a request: only with one of them may a session's answers be others than before it.
TOUCHES = {
    "i": lambda line: line[4:8] == b"4023",  # 2340h: an output without a control is never under rule 7
    "ii": lambda line: line.startswith(b"S 22"),
    "vii": lambda line: line.startswith(b"S ") and line[4:8] in DIGITS,
    "viii": lambda line: re.match(rb"S [0-9A-F]{2}0310", line),
}


def check_requests():
    """Lines that touch no request, in the sessions of a plan, are answered as without it."""
    assert tuple(TOUCHES) == model.REQUESTS
    planned = [[line + b"\n" for line, _ in session] for _, session in sessions.plan("requests", 30000)]
    for request, touches in TOUCHES.items():
        before = other_readings.changed_model('"%s",' % request, "")
        for lines in planned:
            others = [line for line in lines if not touches(line)]
            assert list(model.session(others)) == list(before.session(others)), request
    return "nothing else moves with (%s)" % "), (".join(TOUCHES)


def main(arguments):
    path = arguments[0] if arguments else str(HERE / "model.py")
    checks = (check_counts, check_bench, check_rounding, check_tables_agree, check_unanswered, check_inputs, check_requests)
    for check in checks + (check_client,):
        print("good: " + check())
    print("good: " + check_examples(path))
    return 0


if __name__ == "__main__":
    sys.exit(main(sys.argv[1:]))
