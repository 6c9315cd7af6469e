"""Draws the worked curve of xii-a-curve-that-never-dips.md from the entries in its table, as a picture for that page.

    python3 docs/requests/curve.py > docs/requests/curve.svg

A full dot is a point that the curve passes through, an open one where it only begins behind a step; steps are dashed.
"""

import pathlib
import re

NOTE = pathlib.Path(__file__).with_name("xii-a-curve-that-never-dips.md")
LEFT, RIGHT, LOW, HIGH = -100, 1100, -100, 1050  # what is shown of X and Y
WIDTH, HEIGHT, EDGE, FOOT = 660, 420, 60, 50


def entries():
    """(X, Y, response) of each point, as the note's table has them; the first point has no response."""
    rows = re.findall(r"^\| (\d+) \| (-?\d+) \| (-?\d+) \|(?: (\d),.*)? \|$", NOTE.read_text(), re.M)
    assert [int(row[0]) for row in rows] == list(range(1, len(rows) + 1))
    return [(int(x), int(y), int(response) if response else None) for _, x, y, response in rows]


def used():
    """The points before the first response 0."""
    points = entries()
    return points[: next((k for k, point in enumerate(points) if point[2] == 0), len(points))]


def at(x, y):
    """The place of a point in the picture."""
    across = EDGE + (x - LEFT) * (WIDTH - EDGE - 10) / (RIGHT - LEFT)
    return across, HEIGHT - FOOT - (y - LOW) * (HEIGHT - FOOT - 10) / (HIGH - LOW)


def stroke(x1, y1, x2, y2, style):
    return '<path class="%s" d="M%g %gL%g %g"/>' % (style, *at(x1, y1), *at(x2, y2))


def dot(x, y, style):
    return '<circle class="%s" cx="%g" cy="%g" r="4"/>' % (style, *at(x, y))


def text(x, y, words, right=0, down=0, anchor="middle"):
    across, deep = at(x, y)
    return '<text x="%g" y="%g" text-anchor="%s">%s</text>' % (across + right, deep + down, anchor, words)


def axes():
    yield stroke(LEFT, LOW, RIGHT, LOW, "axis")
    yield stroke(LEFT, LOW, LEFT, HIGH, "axis")
    for mark in range(0, 1001, 200):
        yield stroke(mark, LOW, mark, HIGH, "grid") + text(mark, LOW, mark, down=18)
        yield stroke(LEFT, mark, RIGHT, mark, "grid") + text(LEFT, mark, mark, right=-8, down=4, anchor="end")
    yield text((LEFT + RIGHT) / 2, LOW, "x", down=40)
    yield text(LEFT, 500, "output", down=-40).replace("<text", '<text transform="rotate(-90 %g %g)"' % at(LEFT, 500))


def curve():
    points = used()
    yield stroke(LEFT, points[0][1], *points[0][:2], "curve")
    for (x1, y1, _), (x2, y2, response) in zip(points, points[1:]):
        if x1 == x2:  # nothing lies between equal X
            yield stroke(x1, y1, x2, y2, "step")
        elif response == 1:
            yield stroke(x1, y1, x2, y2, "curve")
        else:
            yield stroke(x1, y1, x1, y2, "step") + stroke(x1, y2, x2, y2, "curve") + dot(x1, y2, "open")
    yield stroke(*points[-1][:2], RIGHT, points[-1][1], "curve")
    for k, (x, y, _) in enumerate(points):
        yield dot(x, y, "open" if k and points[k - 1][0] == x else "full") + text(x, y, "point %d" % (k + 1), right=8, down=16, anchor="start")


STYLE = "text{font:12px sans-serif}.axis{stroke:#333}.grid{stroke:#ddd}.curve{stroke:#06c;stroke-width:2.5}.step{stroke:#06c;stroke-dasharray:4 4}"
STYLE += ".full{fill:#06c}.open{fill:#fff;stroke:#06c;stroke-width:1.5}"


def picture():
    head = '<svg xmlns="http://www.w3.org/2000/svg" viewBox="0 0 %d %d">' % (WIDTH, HEIGHT)
    return "\n".join([head, "<style>%s</style>" % STYLE, '<rect width="100%" height="100%" fill="#fff"/>', *axes(), *curve(), "</svg>\n"])


if __name__ == "__main__":
    print(picture(), end="")
