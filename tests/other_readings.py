"""A test of the tests: would the sessions notice a product that is wrong?

Each row below is one way to build the controller otherwise: another reading of the paper
(OP n: the open point), a trap of the trade, or a plain slip. It is given as a change to
the model's text. The changed model is run on the same sessions, and the line at which it
first answers otherwise is printed. A change that no session notices fails the run.

    python3 other_readings.py [SEED [LINES]]
"""

import pathlib
import sys
import types

import sessions
import spool_sessions

SOURCE = pathlib.Path(__file__).with_name("model.py").read_text()

CHANGES = (
    # -- names and frames
    ("sub 0 of an array taken as its first element", "subs = {0: Entry(index, 0, u8(0, 255, len(kinds)), False, False)}", "subs = {0: Entry(index, 0, kinds[0], writable, configuration)}"),
    ("OP 4: sub 0 of 5010h is 13", "for sub in (1, 2):\n            self.entry(0x5010, sub).writable", "self.entry(0x5010, 0).value = 13\n        for sub in (1, 2):\n            self.entry(0x5010, sub).writable"),
    ("X points bound from below only", "if entry.above is not None and value", "if entry.above is not None and entry.index & 0xFF0F != 0x3005 and value"),
    ("OP 13: 7148h not in the chain", "(0x7148, 0, 0x7120),", ""),
    ("7148h < 7120h, strict", "(0x7148, 0, 0x7120)", "(0x7148, 1, 0x7120)"),
    ("7122h < 7149h, strict", "(0x7122, 0, 0x7149)", "(0x7122, 1, 0x7149)"),
    ("X points strictly rising", "self._link(lower, 0, upper)", "self._link(lower, 1, upper)"),
    ("FV1 = FV2 allowed", "(0x7321, 1, 0x7323)", "(0x7321, 0, 0x7323)"),
    ("EC scalings have no chain", "(0x2520, 1, 0x2522),", ""),
    ("OP 17: 27h is an unknown command", "0x27: 3, ", ""),
    ("before (ii): 22h is no command", '"ii",', ""),
    ("(ii): 22h is a write of four bytes", "WRITES.get(command, entry.type.size)", "WRITES.get(command, 4)"),
    ("(ii): all four bytes of 22h are one number", "    value = entry.type.form.unpack_from(data)[0]\n    if entry.type is REAL32", "    value = entry.type.form.unpack_from(data)[0]\n    if command == UNTOLD and entry.type is not REAL32: value = int.from_bytes(data, 'little', signed=True)\n    if entry.type is REAL32"),
    ("(ii): bytes behind the entry's own must be 0", "    if size < entry.type.size:\n", "    if command == UNTOLD and any(data[size:]):\n        return 6, 0x06070012\n    if size < entry.type.size:\n"),
    ("(ii): the last bytes of 22h count", "entry.value = kind.form.unpack_from(frame, 4)[0]", "entry.value = kind.form.unpack_from(frame, 8 - kind.size if frame[0] == UNTOLD else 4)[0]"),
    ("OP 102: 26h, 2Ah, 2Eh are taken too", "(command == UNTOLD and", "(command & 0xF3 == UNTOLD and"),
    ("OP 103: 22h writes what can only be read", "if not entry.writable:\n        return 5", "if not entry.writable and command != UNTOLD:\n        return 5"),
    ("OP 103: 22h is no command for a name that can only be read", "if not entry.writable:\n        return 5, 0x06010002", "if not entry.writable:\n        return (2, 0x05040001) if command == UNTOLD else (5, 0x06010002)"),
    ("OP 103: 22h is no command for an unknown name", "    if subs is None:\n        return 3, 0x06020000", "    if subs is None:\n        return (2, 0x05040001) if command == UNTOLD else (3, 0x06020000)"),
    ("OP 103: 22h goes past the range", "    if value > entry.high:\n        return 8, 0x06090031\n    if value < entry.low:", "    if value > entry.high and command != UNTOLD:\n        return 8, 0x06090031\n    if value < entry.low and command != UNTOLD:"),
    ("OP 103: 22h goes past the chain", "if entry.above is not None and value", "if entry.above is not None and command != UNTOLD and value"),
    ("OP 103: 22h takes a REAL32 that is not finite", "not math.isfinite(value):", "not math.isfinite(value) and command != UNTOLD:"),
    ("before (viii): no 1003h", '"viii",', ""),
    ("(viii): 1003h:0 can only be read", "Entry(0x1003, 0, u8(0, 0, 0), True, False)", "Entry(0x1003, 0, u8(0, 0, 0), False, False)"),
    ("(viii): 1003h:0 is the largest sub", "u8(0, 0, 0), True, False)\n        self", "u8(0, 0, 8), True, False)\n        self"),
    ("(viii): any value clears", "if entry.index == 0x1003 and data[0] != 0:", "if entry.index == 0x1003 and 0:"),
    ("(viii): any value clears, by 22h", "if entry.index == 0x1003 and data[0] != 0:", "if entry.index == 0x1003 and data[0] != 0 and command != UNTOLD:"),
    ("(viii): another value is above", 'return "1003h:0", 0x06090030', 'return "1003h:0", 0x06090031'),
    ("(viii): another value is told before its length", "    size = length_of(command, entry)\n", '    if entry.index == 0x1003 and data[0]:\n        return "1003h:0", 0x06090030\n    size = length_of(command, entry)\n'),
    ("OP 128: an empty list cannot be cleared", "if entry.index == 0x1003 and data[0] != 0:", "if entry.index == 0x1003 and (data[0] != 0 or entry.value == 0):"),
    ("OP 130: 22h to 1003h:0 has four bytes", "if entry.index == 0x1003 and data[0] != 0:", "if entry.index == 0x1003 and (any(data) if command == UNTOLD else data[0]):"),
    ("OP 127: a sub that is not kept reads 0", "    if entry is None or not dictionary.is_there(entry):", "    if entry is not None and command == READ and not dictionary.is_there(entry): entry.value = 0\n    if entry is None or command != READ and not dictionary.is_there(entry):"),
    ("OP 127: a sub that is not kept can only be read", "or not dictionary.is_there(entry):", "or command == READ and not dictionary.is_there(entry):"),
    ("OP 127: a sub that is kept can be written", "8 * [Kind(UNSIGNED32, 0)], False, False)", "8 * [Kind(UNSIGNED32, 0)], True, False)"),
    ("(viii): the number kept is there, one more is too", "entry.sub <= self.entry(0x1003, 0).value", "entry.sub <= self.entry(0x1003, 0).value + 1"),
    ("(viii): clearing leaves the oldest", "entry.value = kind.form.unpack_from(frame, 4)[0]", "entry.value = kind.form.unpack_from(frame, 4)[0] if entry.index != 0x1003 else min(entry.value, 1)"),
    ("(viii): clearing clears 1001h", "entry.value = kind.form.unpack_from(frame, 4)[0]", "entry.value = kind.form.unpack_from(frame, 4)[0]\n    if entry.index == 0x1003: dictionary.entry(0x1001).value = 0"),
    ("OP 18: infinity is above", "return 7, 0x06090030", "return 7, 0x06090031 if value > 0 else 0x06090030"),
    ("OP 19: length before read-only", "if not entry.writable:\n        return 5, 0x06010002\n    size = length_of(command, entry)\n    if size > entry.type.size:\n        return 6, 0x06070012", "size = length_of(command, entry)\n    if size > entry.type.size:\n        return 6, 0x06070012\n    if not entry.writable:\n        return 5, 0x06010002"),
    ("OP 8: -0 stored as +0", "entry.value = kind.form.unpack_from(frame, 4)[0]", "entry.value = kind.form.unpack_from(frame, 4)[0] + 0"),
    ("OP 8: subnormals stored as 0", "entry.value = kind.form.unpack_from(frame, 4)[0]", "entry.value = kind.form.unpack_from(frame, 4)[0]\n    if kind is REAL32 and abs(entry.value) < 2.0**-126: entry.value = 0.0"),
    ("80h is answered", " or frame[0] == 0x80", ""),
    ("an abort names 0", 'return b"\\x80" + name +', 'return b"\\x80\\0\\0\\0" +'),
    # -- one tick in general
    ("EC not available until written", "return self.entry.value", "return self.entry.value if self.entry.index != 0x2500 or self.entry.value else ABSENT"),
    ("numbers count from 0", "enumerate(row, 1)})", "enumerate(row)})"),
    ("OP 24: constants 1 and 2 are no sources", "(CONSTANT, constants)", "(CONSTANT, [None, None] + constants[2:])"),
    ("tables before math", "(self.math, self.tables, self.logic, self.outputs)", "(self.tables, self.math, self.logic, self.outputs)"),
    ("logic before tables", "(self.math, self.tables, self.logic, self.outputs)", "(self.math, self.logic, self.tables, self.outputs)"),
    ("outputs first", "(self.math, self.tables, self.logic, self.outputs)", "(self.outputs, self.math, self.tables, self.logic)"),
    ("each kind in falling order", "for block in row:\n                block.step()", "for block in reversed(row):\n                block.step()"),
    ("OP 20: 4530h cleared when math is switched off", "entry.value = kind.form.unpack_from(frame, 4)[0]", "entry.value = kind.form.unpack_from(frame, 4)[0]\n    if entry.index == 0x4500 and entry.value == 0: dictionary.entry(0x4530, entry.sub).value = 0.0"),
    ("OP 22: a block switched off is missing at once", "self.seen = ABSENT if block is None else block.signal", "self.seen = ABSENT if block is None or isinstance(block, (Math, Logic)) and not block.enable.value else block.signal"),
    ("OP 27: math entry keeps its last number", "self.output.value = self.signal if is_number(self.signal) else 0.0", "self.output.value = self.signal if is_number(self.signal) else self.output.value"),
    ("table entry keeps its last number", "self.signal = self.curve(integer16(x)) if is_number(x) else x\n        self.output.value = self.signal if is_number(self.signal) else 0", "self.signal = self.curve(integer16(x)) if is_number(x) else x\n        self.output.value = self.signal if is_number(self.signal) else self.output.value"),
    ("1001h stays", "if any(block.flagged for block in self.inputs) else 0", "if any(block.flagged for block in self.inputs) else self.error_register.value"),
    ("1001h from input 1 only", "any(block.flagged for block in self.inputs)", "self.inputs[0].flagged"),
    # -- whole numbers
    ("halves toward plus", "    size = (2 * abs(numerator) + denominator) // (2 * denominator)\n    return -size if numerator < 0 else size", "    return (2 * numerator + denominator) // (2 * denominator)"),
    ("halves to even", "    size = (2 * abs(numerator) + denominator) // (2 * denominator)\n    return -size if numerator < 0 else size", "    import fractions\n    return round(fractions.Fraction(numerator, denominator))"),
    ("cut off, not rounded", "(2 * abs(numerator) + denominator) // (2 * denominator)", "abs(numerator) // denominator"),
    ("the increment rounded, not the value", "return nearest(y1 * run + (x - x1) * (y2 - y1), run)", "return y1 + nearest((x - x1) * (y2 - y1), run)"),
    ("REAL32 cut off", "return nearest(*limit(number, -32768.0, 32767.0).as_integer_ratio())", "return int(limit(number, -32768.0, 32767.0))"),
    ("REAL32 to even", "return nearest(*limit(number, -32768.0, 32767.0).as_integer_ratio())", "return round(limit(number, -32768.0, 32767.0))"),
    ("REAL32 + 0.5 in REAL32", "return nearest(*limit(number, -32768.0, 32767.0).as_integer_ratio())", "return int(math.copysign(math.floor(real32(abs(limit(number, -32768.0, 32767.0)) + 0.5)), number))"),
    ("REAL32 wraps round", "return nearest(*limit(number, -32768.0, 32767.0).as_integer_ratio())", "return (nearest(*number.as_integer_ratio()) + 32768) % 65536 - 32768"),
    # -- input
    ("delay, not delay + 1", "self.run >= self.delay.value + 1", "self.run >= max(1, self.delay.value)"),
    ("delay + 2", "self.run >= self.delay.value + 1", "self.run >= self.delay.value + 2"),
    ("OP 29: run frozen while detect is off", "self.run, self.flagged = 0, False", "self.flagged = False"),
    ("OP 30: only equality flags", "self.run >= self.delay.value + 1", "self.run == self.delay.value + 1"),
    ("OP 31: flag follows the run", "if self.run >= self.delay.value + 1:\n                self.flagged = True", "self.flagged = self.run >= self.delay.value + 1"),
    ("OP 33: bounds wrap round", "self.run += 1\n", "self.run += 1\n            margin = self.hysteresis.value\n            if (start + margin + 32768) % 65536 - 32768 <= sample <= (end - margin + 32768) % 65536 - 32768:\n                self.flagged = False\n                return\n"),
    ("OP 21: a new delay starts the run again", "start, end = self.start.value, self.end.value\n", "start, end = self.start.value, self.end.value\n        if getattr(self, 'seen', None) != self.delay.value:\n            self.run = 0\n        self.seen = self.delay.value\n"),
    ("OP 34: one side is enough", "if start + margin <= sample <= end - margin", "if start + margin <= sample or sample <= end - margin"),
    ("hysteresis not used", "if start + margin <= sample <= end - margin", "if start <= sample <= end"),
    ("clearing band without its low end", "if start + margin <= sample", "if start + margin < sample"),
    ("clearing band without its high end", "<= sample <= end - margin", "<= sample < end - margin"),
    ("OP 37: run kept inside the span", "        self.run = 0\n        margin", "        margin"),
    ("OP 38: limited sample tested", "self.watch(sample)", "self.watch(limit(sample, self.fv1.value, self.fv2.value))"),
    ("start itself is out", "sample < start or", "sample <= start or"),
    ("end itself is out", "or sample > end:", "or sample >= end:"),
    ("flagged input keeps its PV", "self.signal, self.pv.value = ERROR, 0", "self.signal = ERROR"),
    ("detect off keeps the flag", "self.run, self.flagged = 0, False", "self.run = 0"),
    ("sample not limited", "line(limit(sample, fv1, fv2), fv1", "line(sample, fv1"),
    # -- error list
    ("OP 126: an entry leaves when its input clears", "                self.error_list.enter(n)\n", "                self.error_list.enter(n)\n            if self.error_list and before and not block.flagged:\n                left = [e.value for e in self.error_list.places[: self.error_list.number.value] if e.value >> 16 != n]\n                for e, v in zip(self.error_list.places, left): e.value = v\n                self.error_list.number.value = len(left)\n"),
    ("OP 126: a bit for each input", "n << 16 | 0xFF00", "1 << (n + 15) | 0xFF00"),
    ("(viii): inputs count from 0", "n << 16 | 0xFF00", "(n - 1) << 16 | 0xFF00"),
    ("(viii): halves exchanged", "n << 16 | 0xFF00", "0xFF00 << 16 | n"),
    ("(viii): code 1000h", "n << 16 | 0xFF00", "n << 16 | 0x1000"),
    ("OP 126: a flag that stays enters on every tick", "block.flagged and not before:", "block.flagged:"),
    ("OP 126: a clearing enters", "block.flagged and not before:", "block.flagged != before:"),
    ("OP 126: still flagged after a clear enters again", "block.flagged and not before:", "block.flagged and (not before or not self.error_list.number.value):"),
    ("OP 129: the lower number stands at sub 1", "enumerate(zip(self.inputs, samples), 1):", "reversed(list(enumerate(zip(self.inputs, samples), 1))):"),
    ("(viii): newest last", "[n << 16 | 0xFF00] + kept[:7]", "(kept + [n << 16 | 0xFF00])[-8:]"),
    ("(viii): the first eight stay", "[n << 16 | 0xFF00] + kept[:7]", "kept if len(kept) == 8 else [n << 16 | 0xFF00] + kept"),
    ("(viii): seven are kept", "+ kept[:7]", "+ kept[:6]"),
    ("(viii): the number counts on", "self.number.value = len(kept)", "self.number.value += 1"),
    # -- math
    ("OP 40: error before a missing input 1", "if signals[0] is ABSENT:  # before", "if signals[0] is ABSENT and ERROR not in signals:  # before"),
    ("OP 42: part x gain / 100", "real32(part * real32(self.gain.value / 100))", "real32(real32(part * self.gain.value) / 100)"),
    ("OP 42: gain x 0.01", "real32(self.gain.value / 100)", "real32(self.gain.value * real32(0.01))"),
    ("multiplied by the reciprocal", "real32(real32(v - scaling1) / span)", "real32(real32(v - scaling1) * real32(1 / span))"),
    ("v - scaling 1 not rounded", "real32(real32(v - scaling1) / span)", "real32((v - scaling1) / span)"),
    ("product with the gain not rounded", "return real32(part * real32(self.gain.value / 100))", "return part * real32(self.gain.value / 100)"),
    ("gain / 100 not rounded", "real32(part * real32(self.gain.value / 100))", "real32(part * (self.gain.value / 100))"),
    ("part not rounded", "limit(real32(real32(v - scaling1) / span), 0.0, 1.0)", "limit(real32(v - scaling1) / span, 0.0, 1.0)"),
    ("multiply and add in one rounding", "grown = real32(limit(running, 0.0, 1.0) * real32(high - low))", "grown = limit(running, 0.0, 1.0) * real32(high - low)"),
    ("joins in binary64", "real32(running + operand)", "running + operand"),
    ("part not limited", "limit(real32(real32(v - scaling1) / span), 0.0, 1.0)", "real32(real32(v - scaling1) / span)"),
    ("no limit after an operator", "return result if result is ERROR else limit(result, -1.0, 1.0)", "return result"),
    ("limited to 0..1 after an operator", "limit(result, -1.0, 1.0)", "limit(result, 0.0, 1.0)"),
    ("OP 43: an infinity is an error", "return real32(running / operand)", "return ERROR if math.isinf(real32(running / operand)) else real32(running / operand)"),
    ("OP 44: 0 / 0 is 0", "if operand == 0.0:\n        return ERROR", "if operand == 0.0:\n        return 0.0 if running == 0 else ERROR"),
    ("dividing by -0 is -infinity", "if operand == 0.0:\n        return ERROR", "if operand == 0.0:\n        return ERROR if math.copysign(1, operand) > 0 else -1.0"),
    ("OP 45: division by zero skips", "if running is ERROR:  # whatever follows (OP 45)\n                return ERROR", "if running is ERROR:\n                running = 1.0"),
    ("subnormal operands are zero", "return real32(part * real32(self.gain.value / 100))", "x = real32(part * real32(self.gain.value / 100))\n        return x if abs(x) >= 2.0**-126 else 0.0"),
    ("smaller and larger changed over", "operand if operand < running else running", "operand if operand > running else running"),
    ("a skipped input's operator is used by the next", "join(self.operators[k - 1].value, running", "join(self.operators[sum(s is not ABSENT for s in signals[:k]) - 1].value, running"),
    ("an unavailable input counts as 0", "if signals[k] is ABSENT:  # \"An", "if signals[k] is ABSENT and 0:  # \"An"),
    ("disabled math keeps its signal", "if not self.enable.value:\n            return ABSENT\n        signals", "if not self.enable.value:\n            return self.signal\n        signals"),
    # -- table
    ("responses counted from point 1", "[None, None] + names.array_of(base + 4)[1:]", "[None] + names.array_of(base + 4)[1:] + [names.array_of(base + 4)[10]]"),
    ("the point with response 0 is used", "return i - 1\n        return 11", "return i\n        return 11"),
    ("OP 54: last of equal X", "if x <= self.x[i].value:", "if x < self.x[i].value or (x == self.x[i].value and (i == m or self.x[i + 1].value != x)):"),
    ("OP 55: response 2 is the point before", "return self.y[i].value\n        return line", "return self.y[i - 1].value\n        return line"),
    ("beyond Xm: the line goes on to Y11", "return self.y[m].value", "return self.y[11].value"),
    ("an error X is not available", "if is_number(x) else x", "if is_number(x) else ABSENT"),
    # -- logic
    ("OP 3: conditions the other way", "base + 0x10 * letter + c) for c in (1, 2, 3)] for letter", "base + 0x10 * c + letter) for c in (1, 2, 3)] for letter"),
    ("OP 58: error before missing", "if a is ABSENT or b is ABSENT:", "if (a is ABSENT or b is ABSENT) and a is not ERROR and b is not ERROR:"),
    ("operator 1: N/A is false", "all(verdict is TRUE or verdict is NA for verdict", "all(verdict is TRUE for verdict"),
    ("operator 1: error is true", "all(verdict is TRUE or verdict is NA for verdict", "all(verdict is not FALSE for verdict"),
    ("operators 2 to 4: N/A is true", "(verdict is TRUE for verdict in verdicts)", "(verdict is TRUE or verdict is NA for verdict in verdicts)"),
    ("operators 2 to 4: error is true", "(verdict is TRUE for verdict in verdicts)", "(verdict is TRUE or verdict is FAULT for verdict in verdicts)"),
    ("operator 3: 1 and (2 or 3)", "(one and two) or three", "one and (two or three)"),
    ("operator 4: 1 or (2 and 3)", "(one or two) and three", "one or (two and three)"),
    ("OP 60: table A where none holds", "                return letter\n        return None", "                return letter\n        return 0"),
    ("OP 62: whole numbers compared", "[self.comparison.value](a, b)", "[self.comparison.value](integer16(a), integer16(b))"),
    ("OP 63: 4010h is 0 where the table has no number", "self.output.value = self.signal if is_number(self.signal) else 0\n\n    def first", "self.output.value = self.signal if is_number(self.signal) else 0\n        if not is_number(self.signal): self.selected.value = 0\n\n    def first"),
    ("disabled logic keeps its signal", "if letter is None:  # \"None", "if not self.enable.value:\n            pass\n        elif letter is None:  # \"None"),
    # -- (vii)
    ("before (vii): whole numbers compared as they stand", '"vii",', ""),
    ("(vii): digits exchanged", "self.argument1.decimal(a), self.argument2.decimal(b)", "self.argument2.decimal(a), self.argument1.decimal(b)"),
    ("(vii): the second's digits for both", "self.argument1.decimal(a), self.argument2", "self.argument2.decimal(a), self.argument2"),
    ("(vii): digits multiply", "fractions.Fraction(number, 10**digits.value)", "number * 10**digits.value"),
    ("(vii): what is behind the point is cut off", "fractions.Fraction(number, 10**digits.value)", "int(fractions.Fraction(number, 10**digits.value))"),
    ("(vii): rounded to the fewer digits", "return fractions.Fraction(number, 10**digits.value)", "return round(fractions.Fraction(number, 10**digits.value), 2)"),
    ("(vii): three digits count as two", "10**digits.value)", "10**min(2, digits.value))"),
    ("(vii): a table by 30z2h", "names.entry(base + 3)  # of Y", "names.entry(base + 2)  # of Y"),
    ("(vii): an input by 6302h", "self.digits = names.entry(0x6132, n)", "self.digits = names.entry(0x6302, n)"),
    ("(vii): every received value by 2502h:1", "Held(entry, digits) for entry, digits", "Held(entry, names.entry(0x2502, 1)) for entry, digits"),
    ("(vii): a logic block by the table for A", "self.tables[self.selected.value - 1].digits", "self.tables[self.table_numbers[0].value - 1].digits"),
    ("(vii): a logic block by the table of its own number", "self.tables[self.selected.value - 1].digits", "self.tables[self.conditions[0][0].comparison.index // 256 % 16 - 1].digits"),
    ("(vii): a logic block without digits", "return self.tables[self.selected.value - 1].digits", "return Entry(0, 0, D, False, False)"),
    ("OP 123: digits beside a REAL32 too", "        if isinstance(a, int) and isinstance(b, int) and", "        if isinstance(a, int) != isinstance(b, int):\n            a, b = (each.decimal(n) if isinstance(n, int) else n for each, n in ((self.argument1, a), (self.argument2, b)))\n        if isinstance(a, int) and isinstance(b, int) and"),
    ("OP 124: digits as they were when the signal was made", "return self.tables[self.selected.value - 1].digits\n\n    def step(self):\n", "return self.kept\n\n    def step(self):\n        self.step_now()\n        self.kept = Entry(0, 0, u8(0, 3, self.tables[self.selected.value - 1].digits.value), False, False)\n\n    def step_now(self):\n"),
    ("OP 124: the table that 4x01h names now", "return self.tables[self.selected.value - 1].digits\n\n    def step(self):\n", "return self.tables[self.kept.value - 1].digits\n\n    def step(self):\n        self.step_now()\n        self.kept = next((n for n in self.table_numbers if n.value == self.selected.value), self.selected)\n\n    def step_now(self):\n"),
    ("(vii): comparisons 4 and 5 as they stand", "isinstance(b, int) and \"vii\"", "isinstance(b, int) and self.comparison.value < 4 and \"vii\""),
    ("(vii): below zero as it stands", "isinstance(b, int) and \"vii\"", "isinstance(b, int) and a >= 0 and b >= 0 and \"vii\""),
    # -- output
    ("OP 64: on is rounded first", "(signal != 0)", "(integer16(signal) != 0)"),
    ("on is above 0", "(signal != 0)", "(signal > 0)"),
    ("OP 65: missing is off, then turned round", "if not is_number(signal):  # error", "if signal is ABSENT and self.pair.source.index == 0x2350: return ON if self.response.value == 0 else OFF\n        if not is_number(signal):  # error"),
    ("OP 65: missing override turned round is on", "if not is_number(signal):  # error", "if signal is ABSENT and self.pair.source.index == 0x2360: return ON if self.response.value == 1 else OFF\n        if not is_number(signal):  # error"),
    ("response also for an error", "if not is_number(signal):  # error", "if signal is ERROR and self.response.value == 1: return ON\n        if not is_number(signal):  # error"),
    ("OP 66: mode 0 limited to FV1..FV2", "else self.command.value\n", "else limit(self.command.value, self.fv1.value, self.fv2.value)\n"),
    ("fault modes changed over", "if self.fault_mode.value == 1 else", "if self.fault_mode.value == 0 else"),
    ("OP 67: last command not limited", "last = limit(self.command.value, fv1, fv2)", "last = self.command.value"),
    ("OP 68: ramps changed over", "if target > last else", "if target < last else"),
    ("before (i): the step is rounded up", '"i",', ""),
    ("(i): the increment rounded, not the movement", "math.floor(self.ticks * fractions.Fraction(fv2 - fv1, ramp))", "self.ticks * ((fv2 - fv1) // ramp)"),
    ("(i): the movement rounded up", "math.floor(self.ticks *", "math.ceil(self.ticks *"),
    ("(i): the movement rounded to nearest", "math.floor(self.ticks * fractions.Fraction(fv2 - fv1, ramp))", "nearest(self.ticks * (fv2 - fv1), ramp)"),
    ("(i): falling rounds the other way", "self.start - movement", "self.start + math.floor(-self.ticks * fractions.Fraction(fv2 - fv1, ramp))"),
    ("(i): over FV2 alone", "fractions.Fraction(fv2 - fv1, ramp)", "fractions.Fraction(fv2, ramp)"),
    ("(i): over the way to the target", "fractions.Fraction(fv2 - fv1, ramp)", "fractions.Fraction(abs(target - self.start), ramp)"),
    ("(i): the first tick moves nothing", "self.terms, self.start, self.ticks = terms, start, 0", "self.terms, self.start, self.ticks = terms, start, -1"),
    ("OP 94: movement from the end of the range", "self.count = Count(terms, last)", "self.count = Count(terms, fv1 if target > last else fv2)"),
    ("OP 95: standing at this tick's target", "        if command == target:  # \"Standing", "        if command == target and 0:  # \"Standing"),
    ("OP 96: movement is stored up at the target", "if ramp == 0 or target == last:  # \"Ramp 0 still", "if target == last and self.count is not None: return self.count.tick(target)\n        if ramp == 0 or target == last:  # \"Ramp 0 still"),
    ("OP 97: the direction does not matter", "terms = (target > last, fv1, fv2, ramp)\n        if self.count is None or self.count.terms != terms:\n            self.count = Count(terms, last)", "terms = (target > last, fv1, fv2, ramp)\n        if self.count is None or self.count.terms[1:] != terms[1:]:\n            self.count = Count(terms, last)\n        self.count.terms = terms"),
    ("OP 97: the direction told from what has moved", "        if self.count is None or self.count.terms != terms:\n", "        if self.count is not None and self.count.terms[0] != terms[0] and self.count.start == last: self.count.terms = terms\n        if self.count is None or self.count.terms != terms:\n"),
    ("(i): FV1 not compared", "self.count.terms != terms:\n            self.count = Count(terms, last)", "(self.count.terms[0],) + self.count.terms[2:] != (terms[0],) + terms[2:]:\n            self.count = Count(terms, last)\n        self.count.terms = terms"),
    ("(i): FV2 not compared", "self.count.terms != terms:\n            self.count = Count(terms, last)", "self.count.terms[:2] + self.count.terms[3:] != terms[:2] + terms[3:]:\n            self.count = Count(terms, last)\n        self.count.terms = terms"),
    ("(i): the ramp in use not compared", "self.count.terms != terms:\n            self.count = Count(terms, last)", "self.count.terms[:3] != terms[:3]:\n            self.count = Count(terms, last)\n        self.count.terms = terms"),
    ("(i): a changed target starts the count again", "if self.count is None or self.count.terms != terms:\n            self.count = Count(terms, last)", "if self.count is None or self.count.terms != terms or self.count.target != target:\n            self.count = Count(terms, last)\n        self.count.target = target"),
    ("OP 98: any accepted write starts the count again", "entry.value = kind.form.unpack_from(frame, 4)[0]", "entry.value = kind.form.unpack_from(frame, 4)[0]\n    if entry.index in (0x7321, 0x7323, 0x2330, 0x2331): entry.value = type('Fresh', (int,), {'__eq__': lambda a, b: a is b, '__hash__': int.__hash__})(entry.value)"),
    ("OP 99: the other ramp starts the count again", "self.count = Count(terms, last)", "self.count = Count(terms, last)\n        ramps = (self.ramp_up.value, self.ramp_down.value)\n        if getattr(self.count, 'ramps', ramps) != ramps: self.count = Count(terms, last)\n        self.count.ramps = ramps"),
    ("OP 99: the other ramp alone starts the count again", "terms = (target > last, fv1, fv2, ramp)", "terms = (target > last, fv1, fv2, self.ramp_down.value if target > last else self.ramp_up.value)"),
    ("(i): rules 1 to 6 keep the count", "if rule != 7:  # \"a tick", "if 0:  # \"a tick"),
    ("(i): rule 1 keeps the count", "if rule != 7:  # \"a tick", "if rule not in (1, 7):  # \"a tick"),
    ("(i): rule 2 keeps the count", "if rule != 7:  # \"a tick", "if rule not in (2, 7):  # \"a tick"),
    ("(i): rule 3 keeps the count", "if rule != 7:  # \"a tick", "if rule not in (3, 7):  # \"a tick"),
    ("(i): rule 4 keeps the count", "if rule != 7:  # \"a tick", "if rule not in (4, 7):  # \"a tick"),
    ("(i): rule 5 keeps the count", "if rule != 7:  # \"a tick", "if rule not in (5, 7):  # \"a tick"),
    ("(i): rule 6 keeps the count", "if rule != 7:  # \"a tick", "if rule not in (6, 7):  # \"a tick"),
    ("(i): only a command that is named otherwise ends a count", "if rule != 7:  # \"a tick", "if rule != 7 and self.commanded(rule) != self.command.value:  # \"a tick"),
    ("(i): ramp 0 does not move", "            self.count = None\n            return target\n        # \"a change", "            self.count = None\n            return last\n        # \"a change"),
    ("(i): a ramp lasts a tick longer", "terms = (target > last, fv1, fv2, ramp)", "terms = (target > last, fv1, fv2, ramp + 1)"),
    ("(i): counted in 8 bits", "self.ticks += 1\n", "self.ticks = (self.ticks + 1) % 256\n"),
    ("(i): the four outputs share one count", "        command = self.count.tick(target)", "        Output.count = self.count\n        del self.count\n        command = Output.count.tick(target)"),
    ("OP 70: override FV limited", "return self.override_fv.value", "return limit(self.override_fv.value, self.fv1.value, self.fv2.value)"),
    ("OP 71: override FV ramped", "return self.override_fv.value", "return self.ramped(self.override_fv.value)"),
    ("OP 71: off ramps down", "if rule in (1, 6):\n            return 0", "if rule in (1, 6):\n            return self.ramped(self.fv1.value) if rule == 1 else 0"),
    ("rule 6 takes the fault", "if rule in (1, 6):", "if rule == 6: return self.fault()\n        if rule == 1:"),
    ("override before enable", "return 1\n        if enable is ERROR:\n            return 2\n        override", "return 3 if self.override.state() is ON else 1\n        if enable is ERROR:\n            return 2\n        override"),
    ("control error before override", "if override is ON:\n            return 3", "if self.control.signal() is ERROR: return 5\n        if override is ON:\n            return 3"),
    ("control not limited to PV1..PV2", "limit(integer16(self.control.signal()), pv1, pv2)", "integer16(self.control.signal())"),
    # -- session printer
    ("OP 84: lower case accepted", "[0-9A-F]{16}", "[0-9A-Fa-f]{16}"),
    ("OP 86: -0 refused", "samples = [int", "if b\"-0\" in text: return b\"?\"\n            samples = [int"),
    ("OP 86: six digits accepted", "rb\"T (-?[0-9]{1,5})", "rb\"T (-?[0-9]{1,6})"),
    ("samples beyond INTEGER16 accepted", "if all(-32768 <= sample <= 32767 for sample in samples):", "if 1:"),
    ("OP 87: CR at the end accepted", "match = _S_LINE.fullmatch(text)", "text = text[:-1] if text[-1:] == b\"\\r\" else text\n        match = _S_LINE.fullmatch(text)"),
    ("a space at the end accepted", "match = _S_LINE.fullmatch(text)", "text = text.rstrip(b\" \")\n        match = _S_LINE.fullmatch(text)"),
    ("an empty line prints nothing", "return b\"?\"  #", "return b\"?\" if text else b\"\"  #"),
    ("1001h in decimal", "%02X\" % (*self", "%02d\" % (*self"),
)

# Of the spool product (iv), on sessions of its own.
OF_THE_SPOOL = (
    ("(iv): coil 2 wins", "loses = coil == 1 and asks and commands[0] > 0", "loses = coil == 0 and asks and commands[1] > 0"),
    ("(iv): neither wins", "loses = coil == 1 and asks and commands[0] > 0", "loses = asks and commands[other] > 0"),
    ("(iv): both win", "loses = coil == 1 and asks", "loses = False and asks"),
    ("(iv): coil 2 loses although it goes", "sent[0] == 0 and sent[1] == 0\n", "sent[0] == 0\n"),
    ("(iv): the other's present command counts", "waits = asks and sent[other] != 0", "waits = asks and commands[other] != 0"),
    ("(iv): less than 0 counts as sent 0", "waits = asks and sent[other] != 0", "waits = asks and sent[other] > 0"),
    ("(iv): both at less than 0 are at 0", "sent[0] == 0 and sent[1] == 0\n", "sent[0] <= 0 and sent[1] <= 0\n"),
    ("(iv): the coil that loses keeps its last", "0 if waits or loses else command", "sent[coil] if waits or loses else command"),
    ("(iv): a coil is held although the other rests", "waits = asks and sent[other] != 0", "waits = asks and (sent[other] != 0 or sent[coil] != 0)"),
    ("OP 105: a coil above 0 is held by nothing", "waits = asks and sent[other] != 0", "waits = asks and sent[coil] <= 0 and sent[other] != 0"),
    ("OP 106: what coil 1 is sent on this tick counts", "waits = asks and sent[other] != 0", "waits = asks and (sending[0] if coil else sent[1]) != 0"),
    ("OP 107: the core is held too", "commands = self.controller.commands()  # what the core has", "commands = self.controller.commands()\n        for output, number in zip(self.controller.outputs, interlocked(commands, self.sent)):\n            output.command.value = number  # what the core has"),
    ("OP 108: outputs 3 and 4 are interlocked too", "(*self.sent, *commands[2:],", "(*self.sent, *interlocked(commands[2:], [0, 0]),"),
    ("OP 178: the core's commands are printed", "(*self.sent, *commands[2:],", "(*commands,"),
)


def changed_model(old, new):
    if SOURCE.count(old) < 1:
        raise SystemExit("no such text in the model: " + old)
    module = types.ModuleType("changed")
    exec(compile(SOURCE.replace(old, new, 1), "changed", "exec"), module.__dict__)
    return module


def noticed_at(module, recorded, product="Printer"):
    """The number of the first line that the changed model answers otherwise, None where there is none."""
    count = 0
    for session in recorded:
        printer = getattr(module, product)()
        for line, answer in session:
            count += 1
            if isinstance(line, tuple):  # what the spool product has sent from now on
                printer.sent = list(line)
                continue
            try:
                came = printer.answer(line)
            except (ArithmeticError, AttributeError, TypeError, ValueError):
                return count  # a change that breaks the model is noticed too
            if came != answer:
                return count
    return None


def main(arguments):
    seed = arguments[0] if arguments else "1"
    lines = int(arguments[1]) if len(arguments) > 1 else 100000
    recorded = [list(session) for _, session in sessions.plan(seed, lines)]
    levers = list(spool_sessions.plan(seed, min(lines, 20000), lends=True))
    rows = [(row, recorded, "Printer") for row in CHANGES] + [(row, levers, "Spool") for row in OF_THE_SPOOL]
    missed = []
    for (title, old, new), on, product in rows:
        at = noticed_at(changed_model(old, new), on, product)
        print("%9s  %s" % (at or "MISSED", title), flush=True)
        if at is None:
            missed.append(title)
    print("%d of %d changes noticed within %d lines" % (len(rows) - len(missed), len(rows), lines))
    return 1 if missed else 0


if __name__ == "__main__":
    sys.exit(main(sys.argv[1:]))
