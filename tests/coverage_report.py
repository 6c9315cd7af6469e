"""What a set of sessions reaches, counted: which rules, operators, verdicts, refusals and corners.

The model's small functions are wrapped from outside, so the model itself stays free of
counting. `EXPECTED` names everything that must happen at least once; what did not is
listed at the end and makes the report fail.
"""

import collections
import re

import model

counts = collections.Counter()

# A watcher looks at a pair by this, so that its glance is not counted as a read.
glance = model.Pair.signal


def hit(*words):
    counts[" ".join(str(word) for word in words)] += 1


def wrapped(owner, name, watcher):
    """Replace a function by one that calls it and shows arguments and result to the watcher."""
    plain = getattr(owner, name)

    def call(*arguments):
        result = plain(*arguments)
        watcher(result, *arguments)
        return result

    setattr(owner, name, call)


def kind_of(signal):
    if signal is model.ERROR:
        return "error"
    if signal is model.ABSENT:
        return "absent"
    return "REAL32" if isinstance(signal, float) else "whole"


# --------------------------------------------------------------------------- Frames and lines

SIDE = {0x06090031: "above", 0x06090032: "below", 0x06070012: "longer", 0x06070013: "shorter"}


def see_refusal(result, dictionary, frame):
    if result is None:
        return
    row, code = result
    if row in (6, 8, 9):
        hit("row", row, SIDE[code])
    else:
        hit("row", row)
    hit("abort %08Xh" % code)
    if row == 6 and frame[0] == 0x27:
        hit("three bytes refused")
    if frame[0] == 0x22:
        hit("22h row", row, SIDE[code]) if row in (8, 9) else hit("22h row", row)
    if row == 2 and frame[0] in (0x26, 0x2A, 0x2E):
        hit("row 2 %02Xh" % frame[0])


def see_answer(result, dictionary, frame, room=8):
    if result is None:
        hit("row 1 (80h)")
    elif result[0] != 0x80:
        hit("good answer %02Xh" % result[0])
        if frame[0] != 0x40:
            hit("good write %02Xh" % frame[0])
        if frame[0] == 0x22:
            size = dictionary.entry(frame[1] | frame[2] << 8, frame[3]).type.size
            hit("22h takes", size, "bytes")
            if any(frame[4 + size :]):
                hit("22h takes", size, "bytes and leaves others")


def see_line(result, printer, text):
    if result != b"?":
        hit("line", {79: "T", 45: "S without reply"}.get(result[0], "S with reply"))
        if text[:1] == b"T" and re.search(rb" -?0[0-9]", text):
            hit("line T with leading zeros")
        return
    hit("line ?")
    if not text:
        hit("? empty")
    elif len(text) > 64:
        hit("? longer than 64")
    elif len(text) == 64:
        hit("? of 64")
    elif text[-1:] == b"\r":
        hit("? CR")
    elif b"\0" in text:
        hit("? NUL")
    elif max(text) > 127:
        hit("? byte over 127")
    elif b"  " in text or text[:1] == b" " or text[-1:] == b" ":
        hit("? spaces")
    elif text[:2] == b"S " and len(text) == 18 and text[2:].upper() != text[2:]:
        hit("? lower case")
    elif text[:2] == b"S " and len(text) in (17, 19):
        hit("? one digit off")
    elif text[:2] == b"T ":
        see_bad_tick(text.split(b" ")[1:])


def see_bad_tick(fields):
    if len(fields) in (3, 5):
        hit("? T with", len(fields), "fields")
    elif len(fields) != 4:
        return
    elif any(field[:1] == b"+" for field in fields):
        hit("? plus sign")
    elif any(len(field.lstrip(b"-")) > 5 for field in fields):
        hit("? six digits")
    elif all(field.lstrip(b"-").isdigit() and field.count(b"-") < 2 for field in fields):
        hit("? no INTEGER16")


# --------------------------------------------------------------------------- Error list


def see_error_name(dictionary, frame, good):
    """(viii): what is asked of 1003h, and whether it is there."""
    kept, sub = dictionary.entry(0x1003, 0).value, frame[3]
    if sub > 8 or frame[0] not in (0x40, 0x23, 0x2F, 0x22):
        return
    what = "read" if frame[0] == 0x40 else "written"
    if sub:
        hit("1003h sub that is", "kept" if sub <= kept else "not kept", what)
    elif good and what == "written":
        hit("1003h cleared")


def watch_error_list():
    plain_frame, plain_tick = model.Controller.frame, model.Controller.tick

    def frame(self, frame, room=8):
        kept = self.error_list.number.value
        reply = plain_frame(self, frame, room)
        if frame[1:3] == b"\x03\x10":
            see_error_name(self.dictionary, frame, reply is not None and reply[0] == 0x60)
            if kept and not self.error_list.number.value and any(block.flagged for block in self.inputs):
                hit("1003h cleared while flagged")
        return reply

    def tick(self, samples):
        before, kept = [block.flagged for block in self.inputs], self.error_list.number.value
        plain_tick(self, samples)
        entered = sum(block.flagged > flagged for block, flagged in zip(self.inputs, before))
        if entered:
            hit("1003h enters", entered, "on one tick")
        if kept + entered > 8:
            hit("1003h loses the oldest")
        if kept and any(block.flagged < flagged for block, flagged in zip(self.inputs, before)):
            hit("1003h keeps what has cleared")
        if not kept and any(before) and not entered:
            hit("1003h stays empty under a flag")

    model.Controller.frame, model.Controller.tick = frame, tick


# --------------------------------------------------------------------------- Input


def watch_input():
    plain_watch, plain_scaled = model.Input.watch, model.Input.scaled

    def watch(self, sample):
        was_flagged, was_run = self.flagged, self.run
        plain_watch(self, sample)
        start, end, margin = self.start.value, self.end.value, self.hysteresis.value
        if not self.detect.value:
            hit("input detect off")
            if was_flagged:
                hit("input flag cleared by detect off")
            elif was_run:
                hit("input run ended by detect off")
        elif self.run:
            hit("input out below" if sample < start else "input out above")
            if self.flagged and not was_flagged:
                hit("input flag set", "with delay 0" if self.delay.value == 0 else "after a delay")
                if was_run > self.delay.value:
                    hit("input flag set by a lowered delay")
            elif not self.flagged and self.run == self.delay.value:
                hit("input run one short of the flag")
            if was_flagged and self.run <= self.delay.value:
                hit("input flag kept while the run is short")
        elif was_flagged and not self.flagged:
            hit("input flag cleared by the band")
            if sample == start + margin:
                hit("input flag cleared at start + hysteresis")
            if sample == end - margin:
                hit("input flag cleared at end - hysteresis")
        elif self.flagged:
            hit("input flag kept outside the band")
            if start + margin > end - margin:
                hit("input flag kept, band empty")
        elif was_run:
            hit("input run broken before the flag")

    def scaled(self, sample):
        if sample < self.fv1.value:
            hit("input limited to FV1")
        if sample > self.fv2.value:
            hit("input limited to FV2")
        if self.pv2.value < self.pv1.value:
            hit("input line falls")
        return plain_scaled(self, sample)

    model.Input.watch, model.Input.scaled = watch, scaled


# --------------------------------------------------------------------------- Numbers


def see_nearest(result, numerator, denominator):
    if 2 * (numerator % denominator) == denominator:
        hit("half", "below 0" if numerator < 0 else "above 0")


def see_integer16(result, number):
    if isinstance(number, float):
        if number > 32767:
            hit("REAL32 limited to 32767")
        elif number < -32768:
            hit("REAL32 limited to -32768")
        elif number % 1 == 0.5:
            hit("REAL32 half", "below 0" if number < 0 else "above 0")
        elif number != int(number):
            hit("REAL32 between whole numbers")


# --------------------------------------------------------------------------- Math


def see_join(result, number, running, operand):
    hit("math operator", number)
    if result is model.ERROR:
        hit("math division by", "-0" if str(operand) == "-0.0" else "+0")
        if running == 0:
            hit("math 0 / 0")
        return
    plain = model.JOINS[number](running, operand)
    if plain in (model.INFINITY, -model.INFINITY):
        hit("math infinity limited")
    elif plain > 1:
        hit("math operator", number, "limited to 1")
    elif plain < -1:
        hit("math operator", number, "limited to -1")
    if number in (4, 5):
        hit("math operator", number, "takes the", "operand" if result is operand else "running result")
    if running == operand == 0 and str(running) != str(operand):
        hit("math joins zeros of two signs")
    if 0 < abs(result) < 2.0**-126:
        hit("math subnormal result")


def see_operand(result, one, v):
    scaling1, scaling2 = one.scaling1.value, one.scaling2.value
    hit("math operand from", kind_of(v))
    if v < scaling1:
        hit("math operand limited to 0")
    elif v > scaling2:
        hit("math operand limited to 1")
    if one.gain.value < 0:
        hit("math negative gain")
    if result == 0 and v > scaling1 and one.gain.value != 0:
        hit("math operand underflows to 0")
    if str(result) == "-0.0":
        hit("math operand -0")


def see_math(result, block):
    if not block.enable.value:
        hit("math disabled")
        return
    signals = [glance(one.pair) for one in block.inputs]
    if signals[0] is model.ABSENT:
        hit("math input 1 missing")
        if model.ERROR in signals:
            hit("math input 1 missing, another in error")
    elif model.ERROR in signals:
        hit("math input in error")
    elif model.ABSENT in signals:
        hit("math input skipped")
        if signals[3] is not model.ABSENT:
            hit("math input skipped, a later one joins")
    hit("math result", kind_of(result))


def see_end(result, block, running):
    if running < 0:
        hit("math end limited to 0")
    if block.low.value < 0:
        hit("math pair below 0")
    if result != int(result):
        hit("math result with a fraction")


# --------------------------------------------------------------------------- Table


def see_table(result, table):
    x = glance(table.pair) if table.pair.source.value != 3 else None  # a table may have read itself
    if x is not None:
        hit("table X", kind_of(x))
    hit("table result", kind_of(table.signal))


def see_place(i, table, x, m):
    hit("table m =", "1" if m == 1 else "11" if m == 11 else "2..10")
    if i == 1:
        hit("table x <= X1")
        if x == table.x[1].value:
            hit("table x = X1")
    elif i > m:
        hit("table x > Xm")
    else:
        hit("table between, response", table.response[i].value)
        if x == table.x[i].value:
            hit("table x = Xi")
            if i < m and table.x[i + 1].value == x:
                hit("table x at a step of equal X")
        if table.y[i].value < table.y[i - 1].value:
            hit("table line falls")


# --------------------------------------------------------------------------- Logic


def see_verdict(verdict, condition):
    hit("logic verdict", verdict)
    if verdict in (model.TRUE, model.FALSE):
        hit("logic comparison", condition.comparison.value, verdict)
    arguments = glance(condition.argument1), glance(condition.argument2)
    if model.ABSENT in arguments and model.ERROR in arguments:
        hit("logic argument missing, the other in error")
    if verdict in (model.TRUE, model.FALSE) and {kind_of(argument) for argument in arguments} == {"whole"}:
        see_digits(verdict, condition, arguments)


def see_digits(verdict, condition, numbers):
    """(vii)"""
    pairs = condition.argument1, condition.argument2
    digits = [pair.blocks[pair.source.value, pair.number.value].digits.value for pair in pairs]
    if digits[0] != digits[1]:
        hit("digits differ, comparison", condition.comparison.value, verdict)
        exact = [number * 10 ** (3 - count) for number, count in zip(numbers, digits)]
        if exact[0] == exact[1] != 0:
            hit("digits differ, the same number" + (" below 0" if exact[0] < 0 else ""))
        if (exact[0] < exact[1]) != (numbers[0] < numbers[1]):
            hit("digits turn the comparison round")
        if sorted(digits) == [0, 3]:
            for end in (-32768, 32767):
                if end in numbers:
                    hit("digits 0 and 3 at", end)
        for pair in pairs:
            hit("digits of", SOURCE_NAMES[pair.source.value], "against other digits")


def see_holds(result, number, verdicts):
    hit("logic operator", number, "holds" if result else "fails")
    if number:
        for verdict in (model.FAULT, model.NA):
            if verdict in verdicts:
                hit("logic operator", number, "with", verdict)
    if number and list(verdicts) == 3 * [model.NA]:
        hit("logic operator", number, "all three N/A")


def see_logic(result, block):
    if not block.enable.value:
        hit("logic disabled")
    elif block.selected.value == 0:
        hit("logic none holds")
    else:
        hit("logic selected table", kind_of(block.signal))


def see_letter(letter, block):
    if letter is not None:
        hit("logic selects", "ABC"[letter])


# --------------------------------------------------------------------------- Output


SWITCH_NAMES = {0x2352: "enable", 0x2362: "override"}  # by the response's index


def see_switch(state, switch):
    signal, response = glance(switch.pair), switch.response.value
    name = SWITCH_NAMES[switch.response.index]
    if not model.is_number(signal):
        hit(name, kind_of(signal), "response", response)
        return
    hit(name, state.name, "response", response)
    if str(signal) == "-0.0":
        hit("switch on -0")
    elif 0 < abs(signal) < 0.5:
        hit("switch on a REAL32 under a half")
    elif signal < 0:
        hit("switch on a number below 0")


def see_commanded(result, output, rule):
    # 7330h still holds the last command: it is set after this.
    last, fv1, fv2 = output.command.value, output.fv1.value, output.fv2.value
    hit("output rule", rule)
    if rule in (2, 4, 5):
        hit("output rule", rule, "mode", output.fault_mode.value)
        if output.fault_mode.value == 0 and not fv1 <= last <= fv2:
            hit("output mode 0 keeps a command outside FV1..FV2")
    elif rule == 3 and not fv1 <= result <= fv2:
        hit("output override FV outside FV1..FV2")
    elif rule == 7:
        hit("output control", kind_of(glance(output.control)))


def see_ramped(result, output, target):
    last, fv1, fv2 = output.command.value, output.fv1.value, output.fv2.value
    limited = model.limit(last, fv1, fv2)
    if limited != last:
        hit("output last command limited to", "FV1" if limited == fv1 else "FV2")
    if target == limited:
        hit("output stands")
        return
    up = target > limited
    ramp = (output.ramp_up if up else output.ramp_down).value
    way = "up" if up else "down"
    if ramp == 0:
        hit("output at once", way)
        return
    hit("output ramp", way, "arrives" if result == target else "on its way")
    if (fv2 - fv1) % ramp:
        hit("output movement rounded down")
    if result == limited:
        hit("output count goes on and nothing moves", way)
    if output.count is not None and output.count.ticks == 1:
        hit("output count begins", way)
    elif output.count is not None:
        hit("output count goes on", way)


# --------------------------------------------------------------------------- Sources

READER = {0x30: "table", 0x41: "condition", 0x42: "condition", 0x46: "math", 0x47: "math", 0x48: "math", 0x49: "math"}
READER_OF_OUTPUT = {0x2340: "control", 0x2350: "enable", 0x2360: "override"}
SOURCE_NAMES = ("none", "EC", "input", "table", "logic", "math", "constant")


def see_pair(signal, pair):
    source, number, index = pair.source.value, pair.number.value, pair.source.index
    reader = READER_OF_OUTPUT.get(index) or READER[index >> 8]
    if (source, number) in pair.blocks:
        hit(reader, "reads", SOURCE_NAMES[source])
        see_last_tick(reader, source, number, index)
    elif source and number:
        hit("pair beyond the count,", SOURCE_NAMES[source])
    elif source:
        hit("pair with number 0")
    elif number:
        hit("pair with source 0 and a number")


def see_last_tick(reader, source, number, index):
    if reader == "table" and source == 3:
        z = index >> 4 & 15
        hit("table reads", "itself" if number == z else "a later table" if number > z else "an earlier table")
    elif reader == "math" and source == 5:
        n = (index >> 8 & 15) - 5
        hit("math reads", "itself" if number == n else "a later math" if number > n else "an earlier math")
    elif reader == "condition" and source == 4:
        x = index >> 8 & 15
        hit("logic reads", "itself" if number == x else "the later logic" if number > x else "the earlier logic")


# --------------------------------------------------------------------------- The report


def install():
    wrapped(model, "refusal", see_refusal)
    wrapped(model, "answer", see_answer)
    wrapped(model.Printer, "answer", see_line)
    watch_error_list()
    watch_input()
    wrapped(model, "nearest", see_nearest)
    wrapped(model, "integer16", see_integer16)
    wrapped(model, "join", see_join)
    wrapped(model.MathInput, "operand", see_operand)
    wrapped(model.Math, "result", see_math)
    wrapped(model.Math, "at_the_end", see_end)
    wrapped(model.Table, "step", see_table)
    wrapped(model.Table, "place", see_place)
    wrapped(model.Condition, "verdict", see_verdict)
    wrapped(model, "holds", see_holds)
    wrapped(model.Logic, "step", see_logic)
    wrapped(model.Logic, "first_that_holds", see_letter)
    wrapped(model.Switch, "state", see_switch)
    wrapped(model.Output, "commanded", see_commanded)
    wrapped(model.Output, "ramped", see_ramped)
    wrapped(model.Pair, "signal", see_pair)


def expected():
    """Everything that has to happen, by the paper's headings."""
    yield from ("row 1 (80h)", "row 2", "row 3", "row 4", "row 5", "row 6 longer", "row 6 shorter", "row 7")
    yield from ("row 8 above", "row 8 below", "row 9 above", "row 9 below", "three bytes refused")
    for code in "05040001 06020000 06090011 06010002 06070012 06070013 06090030 06090031 06090032".split():
        yield "abort %sh" % code
    yield from ("good answer %02Xh" % command for command in (0x43, 0x4B, 0x4F, 0x60))
    yield from ("good write %02Xh" % command for command in (0x23, 0x2B, 0x2F, 0x22))
    yield from ("22h takes %d bytes" % size for size in (1, 2, 4))
    yield from ("22h takes %d bytes and leaves others" % size for size in (1, 2))
    yield from ("22h row " + row for row in ("3", "4", "5", "7", "8 above", "8 below", "9 above", "9 below"))
    yield from ("row 2 %02Xh" % command for command in (0x26, 0x2A, 0x2E))
    yield from ("row 1003h:0", "22h row 1003h:0", "1003h cleared", "1003h cleared while flagged", "1003h loses the oldest")
    yield from ("1003h enters %d on one tick" % count for count in (1, 2, 3, 4))
    yield from ("1003h sub that is %s %s" % (kept, done) for kept in ("kept", "not kept") for done in ("read", "written"))
    yield from ("1003h keeps what has cleared", "1003h stays empty under a flag")
    yield from ("line T", "line S with reply", "line S without reply", "line ?", "line T with leading zeros")
    for what in "empty/longer than 64/of 64/CR/NUL/byte over 127/spaces/lower case/one digit off".split("/"):
        yield "? " + what
    for what in "T with 3 fields/T with 5 fields/plus sign/six digits/no INTEGER16".split("/"):
        yield "? " + what
    for what in (
        "detect off/flag cleared by detect off/run ended by detect off/out below/out above/flag set with delay 0/"
        "flag set after a delay/flag set by a lowered delay/run one short of the flag/flag kept while the run is short/"
        "flag cleared by the band/flag cleared at start + hysteresis/flag cleared at end - hysteresis/"
        "flag kept outside the band/flag kept, band empty/run broken before the flag/limited to FV1/limited to FV2/line falls"
    ).split("/"):
        yield "input " + what
    yield from ("half above 0", "half below 0", "REAL32 limited to 32767", "REAL32 limited to -32768")
    yield from ("REAL32 half above 0", "REAL32 half below 0", "REAL32 between whole numbers")
    yield from expected_of_math()
    yield from ("table X " + kind for kind in ("whole", "REAL32", "error", "absent"))
    yield from ("table result " + kind for kind in ("whole", "error", "absent"))
    for what in (
        "m = 1/m = 2..10/m = 11/x <= X1/x = X1/x > Xm/between, response 1/between, response 2/x = Xi/"
        "x at a step of equal X/line falls"
    ).split("/"):
        yield "table " + what
    yield from expected_of_logic()
    yield from expected_of_outputs()
    for reader in ("math", "table", "condition", "control", "enable", "override"):
        for source in SOURCE_NAMES[1:]:
            yield "%s reads %s" % (reader, source)
    for what in ("itself", "a later table", "an earlier table"):
        yield "table reads " + what
    for what in ("itself", "a later math", "an earlier math"):
        yield "math reads " + what
    for what in ("itself", "the later logic", "the earlier logic"):
        yield "logic reads " + what
    yield from ("pair beyond the count, " + source for source in SOURCE_NAMES[1:6])
    yield from ("pair with number 0", "pair with source 0 and a number")


def expected_of_math():
    for number in range(6):
        yield "math operator %d" % number
    for number, end in ((0, "1"), (0, "-1"), (1, "1"), (1, "-1"), (3, "1"), (3, "-1")):
        yield "math operator %d limited to %s" % (number, end)
    for number in (4, 5):
        for what in ("operand", "running result"):
            yield "math operator %d takes the %s" % (number, what)
    for what in (
        "division by +0/division by -0/infinity limited/joins zeros of two signs/subnormal result/"
        "operand from whole/operand from REAL32/operand limited to 0/operand limited to 1/negative gain/"
        "operand underflows to 0/operand -0/disabled/input 1 missing/input 1 missing, another in error/"
        "input in error/input skipped/input skipped, a later one joins/result REAL32/result error/result absent/"
        "end limited to 0/pair below 0/result with a fraction"
    ).split("/"):
        yield "math " + what
    yield "math 0 / 0"


def expected_of_logic():
    for verdict in (model.FALSE, model.TRUE, model.FAULT, model.NA):
        yield "logic verdict " + verdict
    for comparison in range(6):
        yield "logic comparison %d True" % comparison
        yield "logic comparison %d False" % comparison
    for verdict in (model.TRUE, model.FALSE):
        yield from ("digits differ, comparison %d %s" % (comparison, verdict) for comparison in range(6))
    yield from ("digits differ, the same number", "digits differ, the same number below 0", "digits turn the comparison round")
    yield from ("digits 0 and 3 at -32768", "digits 0 and 3 at 32767")
    yield from ("digits of %s against other digits" % name for name in SOURCE_NAMES[1:5])
    yield "logic operator 0 holds"
    for number in range(1, 5):
        for what in ("holds", "fails", "with Error", "with N/A", "all three N/A"):
            yield "logic operator %d %s" % (number, what)
    for what in (
        "argument missing, the other in error|disabled|none holds|selects A|selects B|selects C|"
        "selected table whole|selected table error|selected table absent"
    ).split("|"):
        yield "logic " + what


def expected_of_outputs():
    yield from ("output rule %d" % rule for rule in range(1, 8))
    for rule in (2, 4, 5):
        for mode in (0, 1):
            yield "output rule %d mode %d" % (rule, mode)
    for what in (
        "mode 0 keeps a command outside FV1..FV2/override FV outside FV1..FV2/control whole/control REAL32/"
        "last command limited to FV1/last command limited to FV2/stands/at once up/at once down/ramp up on its way/"
        "ramp up arrives/ramp down on its way/ramp down arrives/movement rounded down/count begins up/count begins down/"
        "count goes on up/count goes on down/count goes on and nothing moves up/count goes on and nothing moves down"
    ).split("/"):
        yield "output " + what
    for name in ("enable", "override"):
        for state in ("on", "off", "error", "absent"):
            for response in (0, 1):
                yield "%s %s response %d" % (name, state, response)
    yield from ("switch on -0", "switch on a REAL32 under a half", "switch on a number below 0")


def report(sessions):
    """Count over the sessions, print, and return 1 where something never happened."""
    install()
    lines = runs = 0
    for _, session in sessions:
        runs += 1
        lines += sum(1 for _ in session)
    names = dict.fromkeys(expected())
    for name in list(names) + sorted(set(counts) - set(names)):
        print("%9d  %s" % (counts[name], name))
    missing = [name for name in names if not counts[name]]
    for name in missing:
        print("MISSING    " + name)
    print("%d lines in %d sessions, %d of %d expected things reached" % (lines, runs, len(names) - len(missing), len(names)))
    return 1 if missing else 0
