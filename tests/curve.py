"""The worked curve of docs/requests/xii-a-curve-that-never-dips.md: its picture and its numbers.

    python3 curve.py PROGRAM

The picture must be what its script draws of the note's entries. The entries are written to a unit by frames; then for each x of the
note's table EC 1 is set, a tick run and 3017h read, and for the REAL32 that it names a constant. What PROGRAM and the model print must
have the note's numbers. In the model the curve is walked x by x, too: it never dips.
"""

import importlib.util
import pathlib
import re
import struct
import sys

import model
import program
import sessions

REQUESTS = pathlib.Path(__file__).resolve().parent.parent / "docs" / "requests"
NOTE = REQUESTS / "xii-a-curve-that-never-dips.md"
TICK = sessions.tick_line((2500, 2500, 2500, 2500))


def drawing():
    """The script beside the note."""
    spec = importlib.util.spec_from_file_location("drawing", REQUESTS / "curve.py")
    module = importlib.util.module_from_spec(spec)
    spec.loader.exec_module(module)
    return module


def settings(names, entries):
    """The writes that make table 1 the note's: X from EC 1, and the X of the points that the note leaves out as its last, since X never falls."""
    yield sessions.write_line(names.entry(0x3010, 0), 1)
    yield sessions.write_line(names.entry(0x3011, 0), 1)
    last = entries[-1][0]
    for sub in range(11, 0, -1):  # upward, so from the last
        yield sessions.write_line(names.entry(0x3015, sub), entries[sub - 1][0] if sub <= len(entries) else last)
    for sub, (_, y, response) in enumerate(entries, 1):
        yield sessions.write_line(names.entry(0x3016, sub), y)
        if response is not None:
            yield sessions.write_line(names.entry(0x3014, sub), response)


def questions(names, text):
    """Of every number in the note: the write that brings x, a tick, the read, and what that must give."""
    output = names.entry(0x3017)
    for x, y in re.findall(r"^\| (-?\d+) \| (-?\d+) \|", text.split("| x | output |")[1], re.M):
        yield [sessions.write_line(names.entry(0x2500, 1), int(x)), TICK, sessions.read_line(output)], int(y)
    yield [sessions.write_line(names.entry(0x3010, 0), 6), sessions.write_line(names.entry(0x3011, 0), 3)], None
    for x, whole, y in re.findall(r"(\d+\.\d) counts as (\d+) and gives (\d+)", text):
        assert model.integer16(model.real32(float(x))) == int(whole)
        yield [sessions.write_line(names.entry(0x5010, 3), float(x)), TICK, sessions.read_line(output)], int(y)


def session(names, entries, text):
    """The lines, and what each must print."""
    lines = list(settings(names, entries))
    printed = [taken(line) for line in lines]
    for asked, y in questions(names, text):
        lines += asked
        printed += [b"O 0 0 0 0 00" if line == TICK else taken(line) for line in asked]
        if y is not None:
            printed[-1] = struct.pack("<BHBhH", 0x4B, 0x3017, 0, y, 0).hex().upper().encode()
    return lines, printed


def taken(line):
    return b"60" + line[4:10] + b"00000000"


def never_dips(lines):
    """In the model, from far below the first X to far beyond the last."""
    printer = model.Printer()
    for line in lines:
        printer.answer(line)
    table = printer.controller.tables[0]
    outputs = [table.curve(x) for x in range(-300, 1300)]
    return outputs == sorted(outputs)


def main(arguments):
    if len(arguments) != 1:
        print(__doc__)
        return 2
    script, text, names = drawing(), NOTE.read_text(), model.Dictionary()
    if script.picture() != (REQUESTS / "curve.svg").read_text():
        print("docs/requests/curve.svg is not what curve.py draws")
        return 1
    lines, expected = session(names, script.entries(), text)
    for path in (str(pathlib.Path(model.__file__)), arguments[0]):
        came, status = program.run(path, b"\n".join(lines))
        for line, wanted, answer in zip(lines, expected, came.splitlines()):
            if wanted != answer:
                print("%s: to %s expected %s, came %s" % (path, line.decode(), wanted.decode(), answer.decode()))
                return 1
        if len(came.splitlines()) != len(lines) or status != 0:
            print("%s: %d answers to %d lines, status %d" % (path, len(came.splitlines()), len(lines), status))
            return 1
    if not never_dips(settings(names, script.entries())):
        print("the model's curve dips")
        return 1
    print("the curve's picture is as drawn, and %d numbers are as written" % expected.count(b"O 0 0 0 0 00"))
    return 0


if __name__ == "__main__":
    sys.exit(main(sys.argv[1:]))
