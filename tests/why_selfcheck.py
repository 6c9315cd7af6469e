"""Checks the check of why.py: each wrong reading of request (v) below must be noticed by its sessions.

    python3 why_selfcheck.py

A reading is a change to the text of why_model.py. What the changed model tells, by its bytes or in words, must differ from what the model
tells at some question of the sessions.
"""

import pathlib
import sys
import types

import why
import why_cases
import why_model

SOURCE = pathlib.Path(__file__).with_name("why_model.py").read_text()

CHANGES = (
    ("the highest-numbered input is followed", "for one in self.math[pair[1] - 1].inputs:", "for one in reversed(self.math[pair[1] - 1].inputs):"),
    ("a division is named although an input is in error", "if one.pair.seen is ERROR:\n                self", "if one.pair.seen is ERROR and 3 not in [o.value for o in self.math[pair[1] - 1].operators]:\n                self"),
    ("OP 115: the error by this tick's signals", "if one.pair.seen is ERROR:\n                self", "if one.pair.signal() is ERROR:\n                self"),
    ("OP 114: a block's own signal is followed", "if self.place(pair) >= reader:", "if self.place(pair) > reader or len(told.steps) > 16:"),
    ("OP 114: no signal is the last tick's", "if self.place(pair) >= reader:", "if len(told.steps) > 16:"),
    ("every signal is the last tick's", "if self.place(pair) >= reader:", "if self.place(pair) >= reader or len(told.steps) > 1:"),
    ("OP 164: the step of the last tick is left out", "            told.end = EARLIER\n", "            told.end = EARLIER\n            told.steps.pop()\n"),
    ("OP 112: an EC write leaves the answer", "if reply is not None and reply[0] == 0x60:", "if reply is not None and reply[0] == 0x60 and frame[2] != 0x25:"),
    ("OP 165: a write that changes nothing leaves the answer", "        reply = super().frame(frame, room)\n", "        before = [e.value for e in self.dictionary.entries]\n        reply = super().frame(frame, room)\n        if before == [e.value for e in self.dictionary.entries]:\n            return reply\n"),
    ("a refused write takes the answer away", "reply[0] == 0x60:", "reply[0] in (0x60, 0x80):"),
    ("a read takes the answer away", "reply[0] == 0x60:", "reply[0] != 0x80:"),
    ("a load leaves the answer", "            entry.value = value\n        self.ticked = False", "            entry.value = value"),
    ("at the start there was a tick", "super().__init__()\n        self.ticked = False", "super().__init__()\n        self.ticked = True"),
    ("no tick before no output", "if not 1 <= n <= 4:\n            return NO_OUTPUT\n        if not self.ticked:\n            return NO_TICK", "if not self.ticked:\n            return NO_TICK\n        if not 1 <= n <= 4:\n            return NO_OUTPUT"),
    ("output 0 is output 1", "if not 1 <= n <= 4:", "n = n or 1\n        if not 1 <= n <= 4:"),
    ("rule 6 told as 1", "rule = output.rule()", "rule = {6: 1}.get(output.rule(), output.rule())"),
    ("OP 111: control decides rules 3 and 4", "if rule <= 4 else output.control", "if rule <= 0 else output.control"),
    ("OP 111: override decides rule 2", "output.enable.pair if rule <= 2", "output.enable.pair if rule <= 1"),
    ("OP 111: a pair that names nothing is told as 0, 0", "told = Told(rule, named(pair), pair.seen)", "told = Told(rule, named(pair) if is_there(named(pair)) else (0, 0), pair.seen)"),
    ("OP 113: a logic block's first table", "(TABLE, self.logic[number - 1].selected.value)", "(TABLE, self.logic[number - 1].table_numbers[0].value)"),
    ("the deciding pair is no step", "self.follow(told, told.pair, self.place(None))", "self.follow(told, told.pair, self.place(None))\n            told.steps.pop(0)"),
    ("a flag told as a division", "told.end = FLAGGED", "told.end = DIVIDED"),
    ("tables before math", "order += [(TABLE, z) for z in range(1, 7)] + [(LOGIC, x) for x in (1, 2)]", "order = order[:4] + [(TABLE, z) for z in range(1, 7)] + order[4:] + [(LOGIC, x) for x in (1, 2)]"),
    ("a whole number is not sign-extended", 'struct.pack(("<i", "<i"', 'struct.pack(("<i", "<hxx"'),
    ("a REAL32 as a whole number", '"<i", "<f", "<i")[kind_of(signal)], signal if', '"<i", "<i", "<i")[kind_of(signal)], model.integer16(signal) if'),
    ("an error is kind 2", "    if signal is ERROR:\n        return 3", "    if signal is ERROR:\n        return 2"),
    ("words: fault modes changed over", "value == 0 else \"is at fault FV\"", "value == 1 else \"is at fault FV\""),
    ("words: the input not told", '", its input %d" % i', '""'),
    ("words: the last tick not told", '" as the last tick left it, in error" if earlier else ""', '""'),
)


def changed(old, new):
    assert SOURCE.count(old) == 1, (SOURCE.count(old), old)
    module = types.ModuleType("changed")
    exec(compile(SOURCE.replace(old, new), "changed", "exec"), module.__dict__)
    return module


def told(module, recorded):
    """What the module tells at each question, as bytes, then in words."""
    for _, steps in recorded:
        printer = module.Printer()
        for step in steps:
            if isinstance(step, bytes):
                printer.answer(step)
            elif isinstance(step, tuple) and step[1] is not None:
                printer.controller.load(why.values(step[1]))
            elif isinstance(step, int):
                answer = printer.controller.why(step)
                yield answer if isinstance(answer, int) else (answer.rule, module.trail_bytes(answer))
                yield module.words(printer.controller, step)


def noticed_at(module, recorded, expected):
    try:
        for k, (came, right) in enumerate(zip(told(module, recorded), expected), 1):
            if came != right:
                return k
    except (ArithmeticError, AssertionError, AttributeError, IndexError, RecursionError, StopIteration, RuntimeError, TypeError, ValueError, why_model.struct.error):
        return "broken"  # a change that breaks the model is noticed too
    return None


def main():
    recorded = list(why_cases.cases("selfcheck", 30, 2000))
    expected = list(told(why_model, recorded))
    missed = []
    for title, old, new in CHANGES:
        at = noticed_at(changed(old, new), recorded, expected)
        print("%9s  %s" % (at or "MISSED", title), flush=True)
        if at is None:
            missed.append(title)
    print("%d of %d wrong readings noticed in %d questions" % (len(CHANGES) - len(missed), len(CHANGES), len(expected) // 2))
    return 1 if missed else 0


if __name__ == "__main__":
    sys.exit(main())
