"""An outside model of request (v), "Tell me why the coil is off", over model.py's controller.

It is written from document 02's paragraph and the open points alone. A block's pairs hold what it saw at its own turn, so
a trail is read off them: nothing is worked out again after the tick.
"""

import struct

import model
from model import ABSENT, CONSTANT, EC, ERROR, INPUT_PV, LOGIC, MATH, TABLE

NO_OUTPUT, NO_TICK = -1, -2
FLAGGED, DIVIDED, EARLIER = 1, 2, 3
KINDS = ("not available", "whole number", "REAL32", "error")


class Told:
    """Why an output has its command: the rule, the pair and the signal that decided it; for an error the steps and how they end."""

    def __init__(self, rule, pair, signal):
        self.rule, self.pair, self.signal = rule, pair, signal
        self.steps, self.end = [], None


def kind_of(signal):
    if signal is ABSENT:
        return 0
    if signal is ERROR:
        return 3
    return 1 if isinstance(signal, int) else 2


def value_bytes(signal):
    """ "a whole number sign-extended, a REAL32 by its bits, else 0", low byte first"""
    return struct.pack(("<i", "<i", "<f", "<i")[kind_of(signal)], signal if model.is_number(signal) else 0)


class Controller(model.Controller):
    """A controller that can be asked."""

    def __init__(self):
        super().__init__()
        self.ticked = False

    def frame(self, frame, room=8):
        """ "no tick since its start or last accepted write": any frame answered 60h (OP 112), also one that changes nothing (OP 165)"""
        reply = super().frame(frame, room)
        if reply is not None and reply[0] == 0x60:
            self.ticked = False
        return reply

    def tick(self, samples):
        super().tick(samples)
        self.ticked = True

    def load(self, configuration):
        """An image is loaded: values for the 611 entries, in their order. That is a write too."""
        for entry, value in zip(self.dictionary.configuration, configuration):
            entry.value = value
        self.ticked = False

    # ---- the answer

    def why(self, n):
        """Told, or the refusal's number: "output number outside 1..4; then a state with no tick since its start or last accepted write" """
        if not 1 <= n <= 4:
            return NO_OUTPUT
        if not self.ticked:
            return NO_TICK
        output = self.outputs[n - 1]
        rule = output.rule()
        # "the signal that decided it": rules 1, 2 enable; 3, 4 override; 5 to 7 control (OP 111)
        pair = output.enable.pair if rule <= 2 else output.override.pair if rule <= 4 else output.control
        told = Told(rule, named(pair), pair.seen)
        if pair.seen is ERROR:
            self.follow(told, told.pair, self.place(None))
        return told

    def place(self, pair):
        """Where in a tick the block that a pair names has its turn; the outputs come behind all blocks."""
        order = [(INPUT_PV, n) for n in (1, 2, 3, 4)] + [(MATH, n) for n in (1, 2, 3, 4)]
        order += [(TABLE, z) for z in range(1, 7)] + [(LOGIC, x) for x in (1, 2)]
        return order.index(pair) if pair else len(order)

    def follow(self, told, pair, reader):
        """The trail from a pair that the block with that turn saw in error."""
        told.steps.append(pair)
        if self.place(pair) >= reader:  # "Where the trail meets a signal taken from the last tick it stops there and says so"
            told.end = EARLIER
            return
        source, number = pair
        if source == INPUT_PV:
            assert self.inputs[number - 1].flagged
            told.end = FLAGGED
        elif source == MATH:
            self.follow_math(told, pair)
        elif source == TABLE:
            self.follow(told, named(self.tables[number - 1].pair), self.place(pair))
        else:  # "an error there comes only from the selected table" (OP 113)
            self.follow(told, (TABLE, self.logic[number - 1].selected.value), self.place(pair))

    def follow_math(self, told, pair):
        """ "Of several inputs in error the lowest-numbered is followed, and a division is named only where no input is in error." """
        for one in self.math[pair[1] - 1].inputs:
            if one.pair.seen is ERROR:
                self.follow(told, named(one.pair), self.place(pair))
                return
        told.end = DIVIDED


def named(pair):
    """The pair as it stands in the entries, also where it names nothing (OP 111)."""
    return pair.source.value, pair.number.value


def trail_bytes(told):
    """What stands in `trail` then; every byte behind stays."""
    said = bytes((*told.pair, kind_of(told.signal))) + value_bytes(told.signal)
    if told.signal is ERROR:
        said += bytes((len(told.steps), *(byte for step in told.steps for byte in step), told.end))
    return said


# ---- in words, for a technician

NAMES = {EC: "EC", INPUT_PV: "input", TABLE: "table", LOGIC: "logic", MATH: "math", CONSTANT: "constant"}
COUNTS = {EC: 12, INPUT_PV: 4, TABLE: 6, LOGIC: 2, MATH: 4, CONSTANT: 15}
ROLES = {1: "enable", 2: "enable", 3: "override", 4: "override", 5: "control", 6: "control", 7: "control"}


def said_pair(pair):
    source, number = pair
    if source not in NAMES:
        return "source %d, number %d" % pair
    return "%s %d" % (NAMES[source], number)


def is_there(pair):
    return 1 <= pair[1] <= COUNTS.get(pair[0], 0)


def said_value(signal):
    if isinstance(signal, int):
        return str(signal)
    return "%d as a whole number, REAL32 %08Xh" % (model.integer16(signal), struct.unpack("<I", struct.pack("<f", signal))[0])


def said_entries(names, entries):
    """Entries by index and sub; None stands for a semicolon."""
    texts = ["%04Xh%s = %d" % (at[0], ":%d" % at[1] if at[1] else "", names.entry(*at).value) if at else None for at in entries]
    return " [" + ", ".join(text or "" for text in texts).replace(", , ", "; ") + "]"


def said_command(controller, told, n):
    if told.rule in (2, 4, 5):
        return "keeps its last command" if controller.dictionary.entry(0x6340, n).value == 0 else "is at fault FV"
    return {3: "is at override FV", 7: "follows its control"}.get(told.rule, "is at 0")


def said_rule(controller, told, n):
    states = {1: "off, at ", 3: "on, at ", 6: "not available", 7: ""}
    state = states.get(told.rule, "in error") + (said_value(told.signal) if told.rule in (1, 3, 7) else "")
    base = {"enable": 0x2350, "override": 0x2360, "control": 0x2340}[ROLES[told.rule]]
    entries = [(0x7330, n), None, (base, n), (base + 1, n)]
    if told.rule <= 4:
        entries.append((base + 2, n))
    if told.rule == 3:
        entries += [None, (0x2300, n)]
    if told.rule in (2, 4, 5):
        entries += [None, (0x6340, n), (0x7341, n)]
    pair = said_pair(told.pair) + ("" if is_there(told.pair) else ": there is none")
    words = (n, said_command(controller, told, n), told.rule, ROLES[told.rule], pair, state)
    return "output %d %s: rule %d, its %s (%s) is %s" % words + said_entries(controller.dictionary, entries)


def said_step(controller, step, read, earlier):
    """That the block of a step reads the next; of a math block by which of its inputs."""
    names, (source, number) = controller.dictionary, step
    if source == LOGIC:
        return "%s selected %s" % (said_pair(step), said_pair(read)) + said_entries(names, [(0x4010, number)])
    text = "%s reads %s" % (said_pair(step), said_pair(read)) + (" as the last tick left it, in error" if earlier else "")
    if source == TABLE:
        return text + said_entries(names, [(0x3000 + 0x10 * number, 0), (0x3001 + 0x10 * number, 0)])
    base = 0x4500 + 0x100 * number
    i = next(i for i, one in enumerate(controller.math[number - 1].inputs, 1) if one.pair.seen is ERROR)
    assert named(controller.math[number - 1].inputs[i - 1].pair) == read
    return text + ", its input %d" % i + said_entries(names, [(base, i), (base + 1, i)])


def said_end(controller, step, end):
    source, number = step
    if end == FLAGGED:
        return said_pair(step) + " is flagged" + said_entries(controller.dictionary, [(0x7100, number), None, (0x7148, number), (0x7149, number)])
    base = 0x4550 + 0x100 * number
    return said_pair(step) + " divides by zero" + said_entries(controller.dictionary, [(base, 1), (base, 2), (base, 3)])


def words(controller, n):
    """The lines of `./run why`, and its status."""
    told = controller.why(n)
    if told == NO_OUTPUT:
        return ["there is no such output: there are 1 to 4"], 1
    if told == NO_TICK:
        return ["there was no tick since the start or the last accepted write"], 1
    lines = [said_rule(controller, told, n)]
    for k, (step, read) in enumerate(zip(told.steps, told.steps[1:]), 2):
        lines.append(said_step(controller, step, read, told.end == EARLIER and k == len(told.steps)))
    if told.end in (FLAGGED, DIVIDED):
        lines.append(said_end(controller, told.steps[-1], told.end))
    return lines, 0


class Printer(model.Printer):
    """A session's lines on a controller that can be asked."""

    def __init__(self):
        self.controller = Controller()
