"""Mosaics by their geometry in dots. A dot belongs to an area where its middle is inside; no middle lies on an edge of any."""
import functools
import math
from collections.abc import Callable

WIDTH, HEIGHT = 12, 10
# Where the columns and rows of blocks end: two across of six dots, three down of three, four and three.
ACROSS, DOWN = (0, 6, 12), (0, 3, 7, 10)
COLUMNS = dict(zip("lcr", ACROSS))
# The quarters that meet in the middle, by the corners of their outer edge.
QUARTERS = {"left": "l0 l3", "upper": "l0 r0", "right": "r0 r3", "lower": "l3 r3"}
MIDDLE = (WIDTH / 2, HEIGHT / 2)
# The line on which thin lines run across, and how a dot's sides are to each other on a screen of 4 to 3.
LEVEL = 4
DOT = (2, 3)
FULL = (1 << WIDTH) - 1


def shape_where(holds):
    """The shape of the dots for which a function of the column and the line holds."""
    return tuple(sum(holds(x, y) << (WIDTH - 1 - x) for x in range(WIDTH)) for y in range(HEIGHT))


def rest_of(shape):
    return tuple(FULL & ~line for line in shape)


def mirrored(shape):
    return tuple(int(f"{line:012b}"[::-1], 2) for line in shape)


def turned_over(shape):
    return shape[::-1]


def block_of(x, y):
    """The number of a dot's block: two across, three down."""
    return 2 * sum(y >= edge for edge in DOWN[1:3]) + (x >= ACROSS[1])


def blocks(bits):
    """Some of the six blocks."""
    return shape_where(lambda x, y: bits >> block_of(x, y) & 1)


def parted(bits):
    """The same, each without its first and last column and without its last line, so that they don't touch."""
    def inside(x, y):
        return x not in (0, 5, 6, 11) and y + 1 not in DOWN
    return shape_where(lambda x, y: bits >> block_of(x, y) & inside(x, y))


def point_of(name):
    """A point of an edge: left, centre or right, and the row of blocks above it."""
    return COLUMNS[name[0]], DOWN[int(name[1])]


def side_of(start, end, point):
    """On which side of the line from start to end a point is: above 0, below 0, or on it."""
    return (end[0] - start[0]) * (point[1] - start[1]) - (end[1] - start[1]) * (point[0] - start[0])


def middle_of(x, y):
    return x + 0.5, y + 0.5


def slope(start, end, corner):
    """What lies on the corner's side of an edge; a middle on the edge itself is inside."""
    start, end, corner = map(point_of, (start, end, corner))
    inside = math.copysign(1, side_of(start, end, corner))
    return shape_where(lambda x, y: inside * side_of(start, end, middle_of(x, y)) >= 0)


def triangle(corners):
    """The triangle from the middle to an outer edge."""
    first, second = map(point_of, corners.split())
    inside = math.copysign(1, side_of(first, second, MIDDLE))
    edges = ((first, second, inside), (second, MIDDLE, inside), (MIDDLE, first, inside))
    return shape_where(lambda x, y: all(side * side_of(a, b, middle_of(x, y)) > 0 for a, b, side in edges))


def united(shapes):
    return tuple(map(lambda *lines: functools.reduce(int.__or__, lines), *shapes))


def quarters(*names):
    return united([triangle(QUARTERS[name]) for name in names])


def arm(letter):
    """A line from the middle to a side: two dots wide or one line high, with a capital one more on both sides."""
    more = letter.isupper()
    wide = range(5 - more, 7 + more)
    high = range(LEVEL - more, LEVEL + 1 + more)
    areas = {
        "u": lambda x, y: x in wide and y <= LEVEL,
        "d": lambda x, y: x in wide and y >= LEVEL,
        "l": lambda x, y: x <= 6 and y in high,
        "r": lambda x, y: x >= 5 and y in high,
    }
    return shape_where(areas[letter.lower()])


def lines(path):
    return united(map(arm, path))


def slant(upper):
    """A thin line from the middle of the left side to that of the upper or the lower one: two dots on each line."""
    height = LEVEL + 0.5 if upper else HEIGHT - LEVEL - 0.5

    def drawn(x, y):
        along = (LEVEL + 0.5 - y - 0.5 if upper else y + 0.5 - LEVEL - 0.5) / height
        at = round(along * MIDDLE[0])
        return along >= 0 and at - 1 <= x <= at
    return shape_where(drawn)


def slants(*pairs):
    """Thin lines between the middles of sides."""
    each = {"ul": slant(True), "dl": slant(False), "ur": mirrored(slant(True)), "dr": mirrored(slant(False))}
    return united([each[pair] for pair in pairs])


def distance(x, y):
    """How far a dot's middle is from the cell's, as a screen shows it, in parts of a dot's width."""
    return math.hypot(x + 0.5 - MIDDLE[0], (y + 0.5 - MIDDLE[1]) * DOT[1] / DOT[0])


def disc(radius):
    return shape_where(lambda x, y: distance(x, y) <= float(radius))


def ring(inner, outer):
    return shape_where(lambda x, y: float(inner) < distance(x, y) <= float(outer))


def bar(first, last):
    """Columns, from 1 on."""
    return shape_where(lambda x, y: int(first) <= x + 1 <= int(last))


def checks():
    """Squares of three dots, in lines of three, two, three and two."""
    return shape_where(lambda x, y: (x // 3 + sum(y >= edge for edge in (3, 5, 8))) % 2 == 0)


KINDS: dict[str, Callable[..., list[str]]] = {
    "slope": slope, "quarters": quarters, "lines": lines, "slants": slants, "disc": disc, "ring": ring, "bar": bar, "checks": checks,
}


def drawn(words):
    """The shape that a line of signs.txt names."""
    kind, *values = words.split()
    return KINDS[kind](*values)
