"""The lever of docs/requests/iv-twin-coil-spool.md, played back and forth by the model, and its picture.

    python3 spool_picture.py > ../docs/requests/spool.svg

One lever on EC 1 through two tables, coil 1 below the dead band and coil 2 above it. The ramps are 50 mA a tick, which is 1000 mA over
20 ms whichever way a step that is no whole number would be rounded.
"""

import model
import sessions

BAND, END, RAMP = 50, 1000, 20
WAY = ((0, 4), (1000, 24), (-1000, 50), (0, 26), (700, 20), (40, 6), (-500, 20), (-40, 14))  # the lever goes there, and stays so many ticks
SWING = 250  # the most that it moves in a tick


def settings(names):
    """The lines that make it so: each table from EC 1; each coil from its table; the ramps."""

    def write(index, sub, value):
        return sessions.write_line(names.entry(index, sub), value)

    for z, points in ((1, ((-END, END), (-BAND, 0), (END, 0))), (2, ((-END, 0), (BAND, 0), (END, END)))):
        base = 0x3000 + 0x10 * z
        yield write(base, 0, 1)
        yield write(base + 1, 0, 1)
        for sub in (1, *range(11, 1, -1)):  # the first falls, the others rise
            yield write(base + 5, sub, points[min(sub, 3) - 1][0])
        for sub in range(1, 12):
            yield write(base + 6, sub, points[min(sub, 3) - 1][1])
        yield write(0x2340, z, 3)
        yield write(0x2341, z, z)
        yield write(0x7323, z, END)
        yield write(0x2330, z, RAMP)
        yield write(0x2331, z, RAMP)


def lever():
    """Where the lever stands on each tick."""
    at = 0
    for to, ticks in WAY:
        for _ in range(ticks):
            at += max(-SWING, min(SWING, to - at))
            yield at


def session(names):
    """The lines: the settings, then before each tick where the lever stands."""
    yield from settings(names)
    for at in lever():
        yield sessions.write_line(names.entry(0x2500, 1), at)
        yield sessions.tick_line((2500, 2500, 2500, 2500))


def played():
    """Of each tick where the lever stands, what the core commands, and what the coils are sent."""
    product = model.Spool()
    ticks, places = [], iter(lever())
    for line in session(product.controller.dictionary):
        answer = product.answer(line)
        assert answer[:2] in (b"60", b"O "), "%s is refused" % line
        if answer.startswith(b"O"):
            ticks.append((next(places), tuple(product.controller.commands()[:2]), tuple(product.sent)))
    return ticks


# --------------------------------------------------------------------------- The picture

WIDTH, EDGE, ACROSS, HIGH, GAP, TOP = 760, 64, 4, 120, 34, 24


def stairs(numbers, low, high, top, style):
    """One step a tick."""

    def place(number):
        return top + HIGH - (number - low) * HIGH / (high - low)

    words = ["M%d %g" % (EDGE, place(numbers[0]))]
    for tick, number in enumerate(numbers):
        words.append("V%gH%d" % (place(number), EDGE + ACROSS * (tick + 1)))
    return '<path class="%s" d="%s"/>' % (style, "".join(words))


def panel(top, title, low, high, marks, curves):
    yield '<text x="%d" y="%d">%s</text>' % (EDGE, top - 8, title)
    for mark in marks:
        deep = top + HIGH - (mark - low) * HIGH / (high - low)
        yield '<path class="grid" d="M%d %gH%d"/><text x="%d" y="%g" text-anchor="end">%d</text>' % (EDGE, deep, WIDTH - 10, EDGE - 6, deep + 4, mark)
    for numbers, style in curves:
        yield stairs(numbers, low, high, top, style)


STYLE = "text{font:12px sans-serif}path{fill:none}.grid{stroke:#ddd}.lever{stroke:#333;stroke-width:2}.one{stroke:#06c;stroke-width:2}.two{stroke:#d60;stroke-width:2}"
STYLE += ".both{fill:#eee}"


def picture():
    ticks = played()
    height = TOP + 3 * (HIGH + GAP)
    tops = [TOP + k * (HIGH + GAP) for k in range(3)]
    yield '<svg xmlns="http://www.w3.org/2000/svg" viewBox="0 0 %d %d">' % (WIDTH, height)
    yield "<style>%s</style>" % STYLE
    yield '<rect width="100%" height="100%" fill="#fff"/>'
    for tick, (_, _, sent) in enumerate(ticks):
        if sent == (0, 0):
            yield '<rect class="both" x="%d" y="%d" width="%d" height="%d"/>' % (EDGE + ACROSS * tick, tops[2], ACROSS, HIGH)
    yield from panel(tops[0], "the lever, EC 1", -1000, 1000, (-1000, 0, 1000), [([t[0] for t in ticks], "lever")])
    commands = [([t[1][0] for t in ticks], "one"), ([t[1][1] for t in ticks], "two")]
    yield from panel(tops[1], "what the core commands, mA: coil 1 blue, coil 2 orange", 0, 1000, (0, 500, 1000), commands)
    sent = [([t[2][0] for t in ticks], "one"), ([t[2][1] for t in ticks], "two")]
    yield from panel(tops[2], "what the coils are sent, mA; grey where both are at 0", 0, 1000, (0, 500, 1000), sent)
    for tick in range(0, len(ticks) + 1, 20):
        yield '<text x="%d" y="%d" text-anchor="middle">%s</text>' % (EDGE + ACROSS * tick, height - 14, "%d ms" % tick)
    yield "</svg>"


def text():
    return "\n".join(picture()) + "\n"


if __name__ == "__main__":
    print(text(), end="")
