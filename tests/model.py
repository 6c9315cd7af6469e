"""An outside model of document 01 and of the requests of document 02 that have landed: the
dictionary, the frames, one tick and the session printer.

It is written from the papers alone and shares nothing with the product, so that a
mistake made in the one is not made in the other. It is meant to be read beside the
papers: the names are theirs, and a comment quotes the sentence a line stands for.
(OP n) names the open point whose reading is taken where a paper leaves two, (ii) the request.

    python3 model.py < session       prints what the session program must print
    python3 model.py spool < session the same of the spool product (iv)
"""

import fractions
import math
import operator
import re
import struct
import sys

# The requests that have landed. Without one, the model is the controller as it was before it.
REQUESTS = (
    "i",
    "ii",
    "vii",
    "viii",
)

# --------------------------------------------------------------------------- Numbers

INFINITY = float("inf")
_REAL32 = struct.Struct("<f")


def real32(exact_or_double):
    """The REAL32 nearest to the result of one operation.

    The operation was done in binary64 on REAL32 operands. For + - * / the second
    rounding, to binary32, then gives what one rounding would have given.
    """
    try:
        return _REAL32.unpack(_REAL32.pack(exact_or_double))[0]
    except OverflowError:  # struct refuses what rounds to an infinity
        return math.copysign(INFINITY, exact_or_double)


def limit(value, low, high):
    """ "A limit replaces only a value beyond it, so -0 stays." """
    if value < low:
        return low
    if value > high:
        return high
    return value


def nearest(numerator, denominator):
    """ "round the exact value to nearest, halves away from zero"; the denominator is above 0."""
    size = (2 * abs(numerator) + denominator) // (2 * denominator)
    return -size if numerator < 0 else size


def line(x, x1, y1, x2, y2):
    """The straight line through (x1, y1) and (x2, y2), x1 < x2: the value is rounded, not the increment."""
    run = x2 - x1
    return nearest(y1 * run + (x - x1) * (y2 - y1), run)


def integer16(number):
    """ "A REAL32 becomes INTEGER16 by nearest, halves away from zero, limited to -32768..32767." """
    if isinstance(number, int):
        return number
    return nearest(*limit(number, -32768.0, 32767.0).as_integer_ratio())


# --------------------------------------------------------------------------- Signals
# "A signal is a whole number, a REAL32, an error or not available." The first two are
# Python's int and float; the other two are these.


class _Named:
    def __init__(self, name):
        self.name = name

    def __repr__(self):
        return self.name


ERROR = _Named("error")
ABSENT = _Named("not available")


def is_number(signal):
    return signal is not ERROR and signal is not ABSENT


# --------------------------------------------------------------------------- Dictionary


class Type:
    def __init__(self, name, form, low, high):
        self.name, self.low, self.high = name, low, high
        self.form = struct.Struct(form)
        self.size = self.form.size
        # Good read: 43h, 4Bh or 4Fh for 4, 2, 1 bytes; then the name, the value, zeros.
        self.read_command = {4: 0x43, 2: 0x4B, 1: 0x4F}[self.size]
        self.padding = bytes(4 - self.size)


UNSIGNED8 = Type("UNSIGNED8", "<B", 0, 255)
UNSIGNED16 = Type("UNSIGNED16", "<H", 0, 65535)
INTEGER16 = Type("INTEGER16", "<h", -32768, 32767)
REAL32 = Type("REAL32", "<f", -INFINITY, INFINITY)
UNSIGNED32 = Type("UNSIGNED32", "<I", 0, 2**32 - 1)


class Kind:
    """ "type low..high = default"; no range given is the type's whole range (OP 7)."""

    def __init__(self, type, default, low=None, high=None):
        self.type, self.default = type, default
        self.low = type.low if low is None else low
        self.high = type.high if high is None else high


def u8(low, high, default):
    return Kind(UNSIGNED8, default, low, high)


def u16(low, high, default):
    return Kind(UNSIGNED16, default, low, high)


def i16(default, low=None, high=None):
    return Kind(INTEGER16, default, low, high)


D = u8(0, 3, 0)  # "D means UNSIGNED8 0..3 = 0"
SOURCE = u8(0, 6, 0)
NUMBER = u8(0, 15, 0)


class Entry:
    """One name: an index with a sub-index."""

    __slots__ = ("index", "sub", "type", "low", "high", "default", "value", "writable", "configuration", "below", "above")

    def __init__(self, index, sub, kind, writable, configuration):
        self.index, self.sub, self.type = index, sub, kind.type
        self.low, self.high = kind.low, kind.high
        self.default = self.value = kind.default
        self.writable, self.configuration = writable, configuration
        # The chain's neighbours as (entry, gap): the gap is 1 for <, 0 for <=.
        self.below = self.above = None

    def __repr__(self):
        return "%04Xh:%d" % (self.index, self.sub)


class Dictionary:
    def __init__(self):
        self.objects = {}  # index -> sub -> Entry
        self.entries = []  # every name but the arrays' sub 0
        self._configuration()
        self._not_configuration()
        self._chains()
        self.configuration = sorted((e for e in self.entries if e.configuration), key=lambda e: (e.index, e.sub))

    def entry(self, index, sub=0):
        return self.objects[index][sub]

    def array_of(self, index):
        """The entries from sub 1 on."""
        subs = self.objects[index]
        return [subs[sub] for sub in range(1, len(subs))]

    def var(self, index, kind, writable=True, configuration=True):
        """ "For a VAR, sub 0 is the value." """
        entry = Entry(index, 0, kind, writable, configuration)
        self.objects[index] = {0: entry}
        self.entries.append(entry)

    def array(self, index, kinds, writable=True, configuration=True):
        """ "For an ARRAY, sub 0 is the largest sub-index (UNSIGNED8, read only)." """
        subs = {0: Entry(index, 0, u8(0, 255, len(kinds)), False, False)}
        for sub, kind in enumerate(kinds, 1):
            subs[sub] = Entry(index, sub, kind, writable, configuration)
            self.entries.append(subs[sub])
        self.objects[index] = subs

    def _configuration(self):
        """The table of "Names", row by row."""
        var, array = self.var, self.array
        # 2502h:1-12, 2520h, 2522h: EC digits D; scaling 1, 2 (arrays all three, OP 1)
        array(0x2502, 12 * [D])
        array(0x2520, 12 * [i16(0)])
        array(0x2522, 12 * [i16(1000)])
        # 6132h: input digits D
        array(0x6132, 4 * [D])
        # 7120h .. 7123h: FV1, PV1, FV2, PV2
        for index, default in zip((0x7120, 0x7121, 0x7122, 0x7123), (500, 0, 4500, 1000)):
            array(index, 4 * [i16(default)])
        # 7148h, 7149h: span start, end
        array(0x7148, 4 * [i16(0)])
        array(0x7149, 4 * [i16(5000)])
        # 2110h, 2111h, 2112h: detect, hysteresis, delay
        array(0x2110, 4 * [u8(0, 1, 1)])
        array(0x2111, 4 * [i16(100, 0, 32767)])
        array(0x2112, 4 * [u16(0, 60000, 1000)])
        for z in range(1, 7):
            base = 0x3000 + 0x10 * z
            # 30z0h, 30z1h: X source, number; 30z2h, 30z3h: X, Y digits
            for low_digit, kind in enumerate((SOURCE, NUMBER, D, D)):
                var(base + low_digit, kind)
            # 30z4h: :1 axis type 0..0; :2-11 response
            array(base + 4, [u8(0, 0, 0)] + 10 * [u8(0, 2, 1)])
            # 30z5h, 30z6h: X, Y = 0, 100, .. 1000
            for index in (base + 5, base + 6):
                array(index, [i16(100 * i) for i in range(11)])
        # 4000h: logic enable
        array(0x4000, 2 * [u8(0, 1, 0)])
        for x in (1, 2):
            base = 0x4000 + 0x100 * x
            # 4x01h: table for A, B, C = 1,2,3 and 4,5,6; 4x02h: operator = 1,1,0
            array(base + 0x01, [u8(1, 6, 3 * x - 2 + i) for i in range(3)])
            array(base + 0x02, [u8(0, 4, default) for default in (1, 1, 0)])
            # 4x11h-13h, 21h-23h, 31h-33h: source, number, source, number, comparison
            for index in (0x11, 0x12, 0x13, 0x21, 0x22, 0x23, 0x31, 0x32, 0x33):
                array(base + index, [SOURCE, NUMBER, SOURCE, NUMBER, u8(0, 5, 0)])
        # 4500h, 4521h, 4523h, 4532h: math enable; scaling 1, 2 PV; digits
        array(0x4500, 4 * [u8(0, 1, 0)])
        array(0x4521, 4 * [i16(0)])
        array(0x4523, 4 * [i16(1000)])
        array(0x4532, 4 * [D])
        for y in (6, 7, 8, 9):
            base = 0x4000 + 0x100 * y
            # 4y00h, 01h, 02h, 20h, 22h, 40h: source, number, D, scaling 1, 2, gain
            kinds = (SOURCE, NUMBER, D, i16(0), i16(1000), i16(100, -100, 100))
            for index, kind in zip((0x00, 0x01, 0x02, 0x20, 0x22, 0x40), kinds):
                array(base + index, 4 * [kind])
            # 4y50h:1-3: operator
            array(base + 0x50, 3 * [u8(0, 5, 0)])
        # 6302h, 7320h, 7322h, 7321h, 7323h: D; PV1, PV2; FV1, FV2
        array(0x6302, 4 * [D])
        array(0x7320, 4 * [i16(0)])
        array(0x7322, 4 * [i16(1000)])
        array(0x7321, 4 * [i16(0, 0, 2500)])
        array(0x7323, 4 * [i16(1500, 0, 2500)])
        # 6340h, 7341h, 2300h: fault mode; fault FV, override FV
        array(0x6340, 4 * [u8(0, 1, 1)])
        array(0x7341, 4 * [i16(0, 0, 2500)])
        array(0x2300, 4 * [i16(2000, 0, 2500)])
        # 2330h, 2331h: ramp up, down
        array(0x2330, 4 * [u16(0, 60000, 1000)])
        array(0x2331, 4 * [u16(0, 60000, 1000)])
        # 2340h .. 2362h: control, enable, override; response for the last two
        for index in (0x2340, 0x2350, 0x2360):
            array(index, 4 * [SOURCE])
            array(index + 1, 4 * [NUMBER])
        for index in (0x2352, 0x2362):
            array(index, 4 * [u8(0, 1, 0)])

    def _not_configuration(self):
        """ "Not configuration, 0 at start but for 5010h" """
        zero16, zero8, zero_real = i16(0), u8(0, 255, 0), Kind(REAL32, 0.0)
        self.array(0x2500, 12 * [zero16], configuration=False)
        self.var(0x1001, zero8, False, False)
        for index, kinds in (
            (0x7100, 4 * [zero16]),
            (0x7130, 4 * [zero16]),
            (0x4010, 2 * [zero8]),
            (0x4020, 2 * [zero16]),
            (0x4530, 4 * [zero_real]),
            (0x7330, 4 * [zero16]),
        ):
            self.array(index, kinds, False, False)
        for z in range(1, 7):
            self.var(0x3007 + 0x10 * z, zero16, False, False)
        # 5010h: sub 0 is 15 (OP 4); :1 (0.0) and :2 (1.0) read only; :3-15 configuration
        self.array(0x5010, [zero_real, Kind(REAL32, 1.0)] + 13 * [zero_real])
        for sub in (1, 2):
            self.entry(0x5010, sub).writable = self.entry(0x5010, sub).configuration = False
        if "viii" in REQUESTS:
            self._error_list()

    def _error_list(self):
        """(viii): 1003h:1-8, and "Sub 0 (u8, 0 at start) is the number kept ..; unlike other arrays' it can be written" """
        self.array(0x1003, 8 * [Kind(UNSIGNED32, 0)], False, False)
        kept = self.objects[0x1003][0] = Entry(0x1003, 0, u8(0, 0, 0), True, False)
        self.entries.append(kept)

    def is_there(self, entry):
        """(viii): "a sub above the number kept gives 06090011h", to reads and writes (OP 127)"""
        return entry.index != 0x1003 or entry.sub <= self.entry(0x1003, 0).value

    def _chains(self):
        """ "Chains, true at all times" """
        for z in range(1, 7):
            points = self.array_of(0x3005 + 0x10 * z)
            for lower, upper in zip(points, points[1:]):
                self._link(lower, 0, upper)
        for lower, gap, upper in (
            (0x7148, 0, 0x7120),
            (0x7120, 1, 0x7122),
            (0x7122, 0, 0x7149),
            (0x2520, 1, 0x2522),
            (0x4620, 1, 0x4622),
            (0x4720, 1, 0x4722),
            (0x4820, 1, 0x4822),
            (0x4920, 1, 0x4922),
            (0x4521, 1, 0x4523),
            (0x7320, 1, 0x7322),
            (0x7321, 1, 0x7323),
        ):
            for low_entry, high_entry in zip(self.array_of(lower), self.array_of(upper)):
                self._link(low_entry, gap, high_entry)

    @staticmethod
    def _link(lower, gap, upper):
        lower.above = (upper, gap)
        upper.below = (lower, gap)


# --------------------------------------------------------------------------- Frames

READ = 0x40
WRITES = {0x23: 4, 0x27: 3, 0x2B: 2, 0x2F: 1}
UNTOLD = 0x22  # (ii): a write, "expedited, size not told"


def is_taken(command):
    """Whether order 2 lets the command byte pass; of those that tell no size 22h alone (OP 102)."""
    return command == READ or command in WRITES or (command == UNTOLD and "ii" in REQUESTS)


def length_of(command, entry):
    """How many bytes a write has; (ii): "The length is then the entry's own" """
    return WRITES.get(command, entry.type.size)


def abort_bytes(code):
    return code.to_bytes(4, "little")


def value_refusal(entry, command, data):
    """Rows 5 to 9 for a write to a known name; (ii): "order 6 never arises for it" """
    if not entry.writable:
        return 5, 0x06010002
    size = length_of(command, entry)
    if size > entry.type.size:
        return 6, 0x06070012
    if size < entry.type.size:
        return 6, 0x06070013
    # (viii): "another value at sub 0 gives 06090030h, after order 6" (0 is taken also where the list is empty, OP 128)
    if entry.index == 0x1003 and data[0] != 0:
        return "1003h:0", 0x06090030
    value = entry.type.form.unpack_from(data)[0]
    if entry.type is REAL32 and not math.isfinite(value):
        return 7, 0x06090030
    if value > entry.high:
        return 8, 0x06090031
    if value < entry.low:
        return 8, 0x06090032
    if entry.above is not None and value + entry.above[1] > entry.above[0].value:
        return 9, 0x06090031
    if entry.below is not None and value - entry.below[1] < entry.below[0].value:
        return 9, 0x06090032
    return None


def refusal(dictionary, frame):
    """The first of the rows 2 to 9 that matches, with its abort code; None for a good frame."""
    command = frame[0]
    if not is_taken(command):
        return 2, 0x05040001
    subs = dictionary.objects.get(frame[1] | frame[2] << 8)
    if subs is None:
        return 3, 0x06020000
    entry = subs.get(frame[3])
    if entry is None or not dictionary.is_there(entry):
        return 4, 0x06090011
    if command == READ:
        return None
    return value_refusal(entry, command, frame[4:])


def is_unanswered(frame, room):
    """Row 1: "frame not 8 long, reply buffer under 8, or command 80h" """
    return len(frame) != 8 or room < 8 or frame[0] == 0x80


def answer(dictionary, frame, room=8):
    """The reply's 8 bytes, or None; an accepted write changes its one entry."""
    if is_unanswered(frame, room):
        return None
    name = frame[1:4]
    refused = refusal(dictionary, frame)
    if refused is not None:
        return b"\x80" + name + abort_bytes(refused[1])
    entry = dictionary.objects[frame[1] | frame[2] << 8][frame[3]]
    kind = entry.type
    if frame[0] == READ:
        return bytes((kind.read_command,)) + name + kind.form.pack(entry.value) + kind.padding
    entry.value = kind.form.unpack_from(frame, 4)[0]
    return b"\x60" + name + bytes(4)


# --------------------------------------------------------------------------- Blocks


class Held:
    """An EC value or a constant, seen as a signal: always available (OP 25). A constant has no digits."""

    def __init__(self, entry, digits=None):
        self.entry, self.digits = entry, digits

    @property
    def signal(self):
        return self.entry.value


class Pair:
    """A source and a number: "a pair that names nothing is not available" """

    def __init__(self, blocks, source, number):
        self.blocks, self.source, self.number = blocks, source, number
        self.seen = ABSENT

    def signal(self):
        block = self.blocks.get((self.source.value, self.number.value))
        self.seen = ABSENT if block is None else block.signal  # as it is at the reader's own turn: (v) asks for it later
        return self.seen

    def decimal(self, number):
        """(vii): "the decimal numbers they stand for", by the digits of the source "as they stand when compared" """
        digits = self.blocks[self.source.value, self.number.value].digits
        return fractions.Fraction(number, 10**digits.value)


class ErrorList:
    """(viii): "Keep the last 8 flaggings beside the inputs, newest at sub 1" """

    def __init__(self, names):
        self.number, self.places = names.entry(0x1003, 0), names.array_of(0x1003)

    def enter(self, n):
        """ "code in the low half, input number in the high half; the code is FF00h" """
        kept = [place.value for place in self.places[: self.number.value]]
        kept = [n << 16 | 0xFF00] + kept[:7]
        for place, error in zip(self.places, kept):
            place.value = error
        self.number.value = len(kept)  # "the number kept and always agrees with the list"


class Input:
    def __init__(self, names, n):
        self.digits = names.entry(0x6132, n)
        self.sample, self.pv = names.entry(0x7100, n), names.entry(0x7130, n)
        self.fv1, self.pv1 = names.entry(0x7120, n), names.entry(0x7121, n)
        self.fv2, self.pv2 = names.entry(0x7122, n), names.entry(0x7123, n)
        self.start, self.end = names.entry(0x7148, n), names.entry(0x7149, n)
        self.detect, self.hysteresis = names.entry(0x2110, n), names.entry(0x2111, n)
        self.delay = names.entry(0x2112, n)
        self.run = 0  # ticks that were out, without a break
        self.flagged = False
        self.signal = ABSENT

    def step(self, sample):
        self.sample.value = sample  # "7100h is the sample."
        self.watch(sample)
        if self.flagged:  # "Flagged: signal is error and 7130h reads 0."
            self.signal, self.pv.value = ERROR, 0
        else:
            self.signal = self.pv.value = self.scaled(sample)

    def watch(self, sample):
        if not self.detect.value:  # a flagged input clears "with detect off"; no tick is out (OP 29)
            self.run, self.flagged = 0, False
            return
        start, end = self.start.value, self.end.value
        if sample < start or sample > end:  # "a sample below start or above end is out"
            self.run += 1
            if self.run >= self.delay.value + 1:
                self.flagged = True
            return
        self.run = 0
        margin = self.hysteresis.value
        if start + margin <= sample <= end - margin:
            self.flagged = False

    def scaled(self, sample):
        """The line through (FV1, PV1) and (FV2, PV2) "with the sample first limited to FV1..FV2" """
        fv1, fv2 = self.fv1.value, self.fv2.value
        return line(limit(sample, fv1, fv2), fv1, self.pv1.value, fv2, self.pv2.value)


def divide(running, operand):
    """ "Dividing by zero of either sign gives error." """
    if operand == 0.0:
        return ERROR
    return real32(running / operand)


# "0 add, 1 subtract, 2 multiply, 3 divide, 4 smaller, 5 larger (the running result where neither is)"
JOINS = (
    lambda running, operand: real32(running + operand),
    lambda running, operand: real32(running - operand),
    lambda running, operand: real32(running * operand),
    divide,
    lambda running, operand: operand if operand < running else running,
    lambda running, operand: operand if operand > running else running,
)


def join(number, running, operand):
    """One operator; "After every operator the result is limited to -1..1." """
    result = JOINS[number](running, operand)
    return result if result is ERROR else limit(result, -1.0, 1.0)


class MathInput:
    def __init__(self, names, blocks, y, k):
        base = 0x4000 + 0x100 * y
        self.pair = Pair(blocks, names.entry(base + 0x00, k), names.entry(base + 0x01, k))
        self.scaling1, self.scaling2 = names.entry(base + 0x20, k), names.entry(base + 0x22, k)
        self.gain = names.entry(base + 0x40, k)

    def operand(self, v):
        """ "(v - scaling 1) / (scaling 2 - scaling 1), limited to 0..1, times (gain / 100)", one rounding each"""
        scaling1 = float(self.scaling1.value)
        span = real32(self.scaling2.value - scaling1)
        part = limit(real32(real32(v - scaling1) / span), 0.0, 1.0)
        return real32(part * real32(self.gain.value / 100))


class Math:
    def __init__(self, names, blocks, n):
        y = n + 5  # "y=6..9 for math 1..4"
        self.enable, self.output = names.entry(0x4500, n), names.entry(0x4530, n)
        self.low, self.high = names.entry(0x4521, n), names.entry(0x4523, n)
        self.inputs = [MathInput(names, blocks, y, k) for k in range(1, 5)]
        self.operators = names.array_of(0x4050 + 0x100 * y)
        self.signal = ABSENT

    def step(self):
        self.signal = self.result()
        self.output.value = self.signal if is_number(self.signal) else 0.0

    def result(self):
        if not self.enable.value:
            return ABSENT
        signals = [one.pair.signal() for one in self.inputs]
        if signals[0] is ABSENT:  # before "Any input error" (OP 40)
            return ABSENT
        if any(signal is ERROR for signal in signals):
            return ERROR
        running = self.folded(signals)
        return ERROR if running is ERROR else self.at_the_end(running)

    def folded(self, signals):
        """ "Inputs join left to right, operator k before input k+1" """
        running = self.inputs[0].operand(signals[0])
        for k in (1, 2, 3):
            if signals[k] is ABSENT:  # "An unavailable input is skipped with its operator."
                continue
            running = join(self.operators[k - 1].value, running, self.inputs[k].operand(signals[k]))
            if running is ERROR:  # whatever follows (OP 45)
                return ERROR
        return running

    def at_the_end(self, running):
        """ "limited to 0..1, times (4523h - 4521h), plus 4521h, limited to that pair" """
        low, high = float(self.low.value), float(self.high.value)
        grown = real32(limit(running, 0.0, 1.0) * real32(high - low))
        return limit(real32(grown + low), low, high)


class Table:
    def __init__(self, names, blocks, z):
        base = 0x3000 + 0x10 * z
        self.pair = Pair(blocks, names.entry(base), names.entry(base + 1))
        # Lists with a place 0 that is not used, so that the paper's i is the place.
        # 30z4h:1 is the axis type and no response (OP 51).
        self.response = [None, None] + names.array_of(base + 4)[1:]
        self.x = [None] + names.array_of(base + 5)
        self.y = [None] + names.array_of(base + 6)
        self.digits = names.entry(base + 3)  # of Y, which is the table's signal
        self.output = names.entry(base + 7)
        self.signal = ABSENT

    def step(self):
        x = self.pair.signal()
        # "X in error or not available passes through."
        self.signal = self.curve(integer16(x)) if is_number(x) else x
        self.output.value = self.signal if is_number(self.signal) else 0

    def last_used(self):
        """m: "Points up to m are used: those before the first response 0." """
        for i in range(2, 12):
            if self.response[i].value == 0:
                return i - 1
        return 11

    def place(self, x, m):
        """ "the least i where x <= Xi", m + 1 where there is none"""
        for i in range(1, m + 1):
            if x <= self.x[i].value:
                return i
        return m + 1

    def curve(self, x):
        m = self.last_used()
        i = self.place(x, m)
        if i == 1:  # "x <= X1 gives Y1"
            return self.y[1].value
        if i > m:  # "x > Xm gives Ym"
            return self.y[m].value
        if self.response[i].value == 2:  # "response 2 is Yi"
            return self.y[i].value
        return line(x, self.x[i - 1].value, self.y[i - 1].value, self.x[i].value, self.y[i].value)


# Document 000, table 27: a condition's four results.
FALSE, TRUE, FAULT, NA = "False", "True", "Error", "N/A"

# "0 =, 1 not =, 2 >, 3 >=, 4 <, 5 <="
COMPARISONS = (operator.eq, operator.ne, operator.gt, operator.ge, operator.lt, operator.le)


class Condition:
    def __init__(self, names, blocks, index):
        source1, number1, source2, number2, self.comparison = names.array_of(index)
        self.argument1, self.argument2 = Pair(blocks, source1, number1), Pair(blocks, source2, number2)

    def verdict(self):
        a, b = self.argument1.signal(), self.argument2.signal()
        if a is ABSENT or b is ABSENT:  # "a missing argument is N/A" (first, OP 58)
            return NA
        if a is ERROR or b is ERROR:  # "else with an error argument, Error"
            return FAULT
        if isinstance(a, int) and isinstance(b, int) and "vii" in REQUESTS:
            # (vii): "two whole-number arguments are compared as the decimal numbers they stand for, exactly"
            a, b = self.argument1.decimal(a), self.argument2.decimal(b)
        # "both numbers compared as REAL32 as they stand": Python compares int and float
        # exactly, and an INTEGER16 is a REAL32 exactly. (vii): "A REAL32 argument is compared as before", the
        # other without its digits (OP 123).
        return TRUE if COMPARISONS[self.comparison.value](a, b) else FALSE


def holds(number, verdicts):
    """Operators 0 to 4 of document 000's tables 28 and 29."""
    one, two, three = (verdict is TRUE for verdict in verdicts)
    if number == 0:  # "0 always"
        return True
    if number == 1:  # "1 all three, N/A counts as true"
        return all(verdict is TRUE or verdict is NA for verdict in verdicts)
    if number == 2:  # "2 any"
        return one or two or three
    if number == 3:  # "3 (1 and 2) or 3"
        return (one and two) or three
    return (one or two) and three  # "4 (1 or 2) and 3"


class Logic:
    def __init__(self, names, blocks, tables, x):
        base = 0x4000 + 0x100 * x
        self.enable = names.entry(0x4000, x)
        self.selected, self.output = names.entry(0x4010, x), names.entry(0x4020, x)
        self.table_numbers, self.operators = names.array_of(base + 0x01), names.array_of(base + 0x02)
        # 4x1c for A, 4x2c for B, 4x3c for C (OP 3)
        self.conditions = [
            [Condition(names, blocks, base + 0x10 * letter + c) for c in (1, 2, 3)] for letter in (1, 2, 3)
        ]
        self.tables = tables
        self.signal = ABSENT

    @property
    def digits(self):
        """(vii): "those of the table that gave its signal, also where that signal is the last tick's": 4010h names it (OP 124)"""
        return self.tables[self.selected.value - 1].digits

    def step(self):
        letter = self.first_that_holds() if self.enable.value else None
        if letter is None:  # "None, or disabled: 4010h is 0, not available."
            self.selected.value, self.signal = 0, ABSENT
        else:  # "4010h is its table's number, the output that table's signal"
            self.selected.value = self.table_numbers[letter].value
            self.signal = self.tables[self.selected.value - 1].signal
        self.output.value = self.signal if is_number(self.signal) else 0

    def first_that_holds(self):
        """0, 1, 2 for A, B, C; None where none holds."""
        for letter in (0, 1, 2):
            verdicts = [condition.verdict() for condition in self.conditions[letter]]
            if holds(self.operators[letter].value, verdicts):
                return letter
        return None


# What an enable or an override says once its response is applied.
ON, OFF = _Named("on"), _Named("off")


class Switch:
    """Enable or override: "On means a number not 0; response 1 turns on and off round." """

    def __init__(self, pair, response):
        self.pair, self.response = pair, response

    def state(self):
        signal = self.pair.signal()
        if not is_number(signal):  # error or not available, whatever the response (OP 65)
            return signal
        return ON if (signal != 0) != (self.response.value == 1) else OFF


class Output:
    def __init__(self, names, blocks, n):
        def pair(source, number):
            return Pair(blocks, names.entry(source, n), names.entry(number, n))

        self.control = pair(0x2340, 0x2341)
        self.enable = Switch(pair(0x2350, 0x2351), names.entry(0x2352, n))
        self.override = Switch(pair(0x2360, 0x2361), names.entry(0x2362, n))
        self.pv1, self.pv2 = names.entry(0x7320, n), names.entry(0x7322, n)
        self.fv1, self.fv2 = names.entry(0x7321, n), names.entry(0x7323, n)
        self.fault_mode, self.fault_fv = names.entry(0x6340, n), names.entry(0x7341, n)
        self.override_fv = names.entry(0x2300, n)
        self.ramp_up, self.ramp_down = names.entry(0x2330, n), names.entry(0x2331, n)
        self.command = names.entry(0x7330, n)  # holds the last command until it is set
        self.count = None  # (i) "starts the count again": there is none, as on the first tick of all (OP 100)

    def step(self):
        rule = self.rule()
        if rule != 7:  # "a tick under rules 1 to 6"
            self.count = None
        self.command.value = self.commanded(rule)

    def rule(self):
        """ "First rule that applies" """
        enable = self.enable.state()
        if enable is OFF:
            return 1
        if enable is ERROR:
            return 2
        override = self.override.state()
        if override is ON:
            return 3
        if override is ERROR:
            return 4
        control = self.control.signal()
        if control is ERROR:
            return 5
        if control is ABSENT:
            return 6
        return 7

    def commanded(self, rule):
        if rule in (1, 6):
            return 0
        if rule in (2, 4, 5):
            return self.fault()
        if rule == 3:
            return self.override_fv.value
        return self.ramped(self.target())

    def fault(self):
        """ "mode 0 keeps the last command, mode 1 takes the fault FV" """
        return self.fault_fv.value if self.fault_mode.value == 1 else self.command.value

    def target(self):
        """Control "limited to PV1..PV2, on the line to FV1..FV2" """
        pv1, pv2 = self.pv1.value, self.pv2.value
        control = limit(integer16(self.control.signal()), pv1, pv2)
        return line(control, pv1, self.fv1.value, pv2, self.fv2.value)

    def ramped(self, target):
        """The last command, limited to FV1..FV2, moves toward the target; (i) by what a count's ticks make of the ramp."""
        fv1, fv2 = self.fv1.value, self.fv2.value
        last = limit(self.command.value, fv1, fv2)
        ramp = self.ramp_up.value if target > last else self.ramp_down.value
        if "i" not in REQUESTS:
            return self.stepped(target, last, ramp)
        if ramp == 0 or target == last:  # "Ramp 0 still goes at once"; at the target there is no direction (OP 97, 161)
            self.count = None
            return target
        # "a change of direction, FV1, FV2 or the ramp in use since the last tick": the values at the two ticks differ (OP 98, 99)
        terms = (target > last, fv1, fv2, ramp)
        if self.count is None or self.count.terms != terms:
            self.count = Count(terms, last)
        command = self.count.tick(target)
        if command == target:  # "Standing at the target after the last tick" (OP 95, 96)
            self.count = None
        return command

    def stepped(self, target, last, ramp):
        """Before (i): "by at most (FV2 - FV1) / ramp, rounded up; ramp 0 goes at once" """
        if ramp == 0:
            return target
        step = -((self.fv1.value - self.fv2.value) // ramp)
        return limit(target, last - step, last + step)


class Count:
    """(i): the ticks since a ramp began, and the command from which it moves (OP 94)."""

    def __init__(self, terms, start):
        self.terms, self.start, self.ticks = terms, start, 0

    def tick(self, target):
        """ "its movement after k ticks must be k x (FV2 - FV1) / ramp rounded down, stopped at the target; falling likewise" """
        rising, fv1, fv2, ramp = self.terms
        self.ticks += 1
        movement = math.floor(self.ticks * fractions.Fraction(fv2 - fv1, ramp))
        return min(self.start + movement, target) if rising else max(self.start - movement, target)


# --------------------------------------------------------------------------- Controller

# "Sources: 0 none, 1 EC, 2 input PV, 3 table, 4 logic, 5 math, 6 constant"
EC, INPUT_PV, TABLE, LOGIC, MATH, CONSTANT = 1, 2, 3, 4, 5, 6


class Controller:
    def __init__(self):
        names = self.dictionary = Dictionary()
        blocks = {}  # (source, number) -> what has the signal; filled below
        self.inputs = [Input(names, n) for n in range(1, 5)]
        self.math = [Math(names, blocks, n) for n in range(1, 5)]
        self.tables = [Table(names, blocks, z) for z in range(1, 7)]
        self.logic = [Logic(names, blocks, self.tables, x) for x in (1, 2)]
        self.outputs = [Output(names, blocks, n) for n in range(1, 5)]
        self.error_register = names.entry(0x1001)
        self.error_list = ErrorList(names) if "viii" in REQUESTS else None
        ec = [Held(entry, digits) for entry, digits in zip(names.array_of(0x2500), names.array_of(0x2502))]
        constants = [Held(entry) for entry in names.array_of(0x5010)]
        for source, row in (
            (EC, ec),
            (INPUT_PV, self.inputs),
            (TABLE, self.tables),
            (LOGIC, self.logic),
            (MATH, self.math),
            (CONSTANT, constants),
        ):
            blocks.update({(source, number): block for number, block in enumerate(row, 1)})

    def frame(self, frame, room=8):
        return answer(self.dictionary, frame, room)

    def tick(self, samples):
        """ "Order: inputs, math, tables, logic, outputs, each by number, then 1001h."

        Every block's signal stays until its next step, so "a block that reads a later
        block, or itself, sees the last tick's signal" with nothing more to do.
        """
        for n, (block, sample) in enumerate(zip(self.inputs, samples), 1):
            before = block.flagged
            block.step(sample)
            # a flagging: from not flagged to flagged (OP 126); "Two on one tick enter by input number"
            if self.error_list and block.flagged and not before:
                self.error_list.enter(n)
        for row in (self.math, self.tables, self.logic, self.outputs):
            for block in row:
                block.step()
        # "1001h is 21h while any input is flagged, else 0."
        self.error_register.value = 0x21 if any(block.flagged for block in self.inputs) else 0

    def commands(self):
        return [block.command.value for block in self.outputs]


# --------------------------------------------------------------------------- Session printer

_S_LINE = re.compile(rb"S ([0-9A-F]{16})")
_T_LINE = re.compile(rb"T (-?[0-9]{1,5}) (-?[0-9]{1,5}) (-?[0-9]{1,5}) (-?[0-9]{1,5})")


class Printer:
    def __init__(self):
        self.controller = Controller()

    def answer(self, text):
        """What one line, without its line end, prints, without its line end."""
        match = _S_LINE.fullmatch(text)
        if match:
            return self.reply(bytes.fromhex(match[1].decode()))
        match = _T_LINE.fullmatch(text)
        if match:
            samples = [int(field) for field in match.groups()]
            if all(-32768 <= sample <= 32767 for sample in samples):
                return self.ticked(samples)
        return b"?"  # "Any other line, empty or longer too, prints ?."

    def reply(self, frame):
        reply = self.controller.frame(frame)
        return b"-" if reply is None else reply.hex().upper().encode()

    def ticked(self, samples):
        """ "O, the four commands, 1001h as two hex digits" """
        self.controller.tick(samples)
        return b"O %d %d %d %d %02X" % (*self.controller.commands(), self.controller.error_register.value)


# --------------------------------------------------------------------------- The twin-coil spool product (iv)


def interlocked(commands, sent):
    """What the two coils are sent, of the core's commands and of what they were sent on the tick before."""
    sending = []
    for coil, other in ((0, 1), (1, 0)):
        command = commands[coil]
        asks = command > 0  # (OP 110)
        # "a coil goes above 0 only if the other was sent 0 on the tick before"
        waits = asks and sent[other] != 0
        # "If both ask while both are at 0, coil 1 wins."
        loses = coil == 1 and asks and commands[0] > 0 and sent[0] == 0 and sent[1] == 0
        sending.append(0 if waits or loses else command)  # "The coil that loses is sent 0."
    return sending


class Spool(Printer):
    """The product's session: the core's, but after O what the two coils are sent."""

    def __init__(self):
        super().__init__()
        self.sent = [0, 0]  # "Both start as sent 0."

    def ticked(self, samples):
        self.controller.tick(samples)
        commands = self.controller.commands()  # what the core has stays as it is (OP 107)
        self.sent = interlocked(commands, self.sent)
        return b"O %d %d %d %d %02X" % (*self.sent, *commands[2:], self.controller.error_register.value)  # (OP 108)


def session(lines, product=Printer):
    """What a session prints, line by line; a line comes with its line end, the last may lack it."""
    printer = product()
    for text in lines:
        yield printer.answer(text[:-1] if text.endswith(b"\n") else text) + b"\n"


def main():
    product = Spool if sys.argv[1:] == ["spool"] else Printer
    for printed in session(sys.stdin.buffer, product):  # binary, so LF alone ends a line (OP 87)
        sys.stdout.buffer.write(printed)


if __name__ == "__main__":
    main()
