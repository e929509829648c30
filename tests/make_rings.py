#!/usr/bin/env python3
"""Makes the table of random rings and places that the test of polygon files goes through.

    tests/make_rings.py            writes crates/osm_polygons_tests/src/rings.rt anew
    tests/make_rings.py --check    says whether it differs from what would be written, and ends with status 1 then

A place is inside a ring where an odd number of the ring's edges pass its latitude further east. Here each crossing is
worked out as a fraction, so that nothing is shared with the program, which compares products and leaves out most edges.
The numbers come from a seed, so the table is the same at each run.
"""

import random
import sys
from fractions import Fraction
from pathlib import Path

TABLE = Path(__file__).resolve().parent.parent / "crates" / "osm_polygons_tests" / "src" / "rings.rt"

# Places stand on a grid of 25 lines each way, from -12 to 12 units; corners of rings on every second of them. A unit is
# half a degree, a nanodegree, or nearly 83 degrees, so that a product of two sides takes more than 64 bits.
HALF = 12
UNITS = [500_000_000] * 5 + [1, 82_999_999_999]

# How many rings are made of how many corners at most, and how far each is from the one before; None stands for anywhere.
KINDS = [(34, 9, None), (8, 40, None), (5, 130, 2), (2, 300, 2), (1, 1100, 2)]
PLACES = 20

HEAD = """\
//! Random rings, and places in and around them. This file is made: `tests/make_rings.py` writes it,
//! and works out by fractions which places are inside.

/// A ring: how many nanodegrees a unit is, its file, and places with whether they are inside. A
/// place is a letter for how far east and one for how far north it is, in units from `a`, which
/// stands for -12, and `+` inside or `-` outside.
pub(crate) type RingRow = (i64, &'static [u8], &'static [u8]);

#[rattlefmt::skip]
pub(crate) const RINGS: [RingRow; COUNT] = [
"""


def is_inside(ring, place):
    """Whether a place is inside a ring, by the definition."""
    east, north = place
    count = 0
    for (x, y), (next_x, next_y) in zip(ring, ring[1:] + ring[:1]):
        if (y <= north) != (next_y <= north):
            crossing = x + Fraction((north - y) * (next_x - x), next_y - y)
            count += crossing > east
    return count % 2 == 1


def ring_of(numbers, corners, reach):
    """A ring of at most `corners` corners, each within the reach of the one before."""

    def anywhere():
        return 2 * numbers.randint(-HALF // 2, HALF // 2)

    def near(at):
        return max(-HALF, min(HALF, at + 2 * numbers.randint(-reach // 2, reach // 2)))

    ring = [(anywhere(), anywhere())]
    while len(ring) < corners:
        x, y = ring[-1]
        ring.append((near(x), near(y)) if reach else (anywhere(), anywhere()))
    return ring


def places_of(numbers, ring):
    """Places on corners, at the height of corners, and in the middle of corners."""
    places = []
    for turn in range(PLACES):
        x, y = numbers.choice(ring)
        middle = [sum(numbers.choice(ring)[axis] for _ in range(4)) // 4 for axis in range(2)]
        places.append([(x, y), (numbers.randint(-HALF, HALF), y), tuple(middle)][min(turn // 4, 2)])
    return places


def degrees(nano):
    """A number of nanodegrees, in degrees."""
    text = f"{abs(nano) // 10**9}.{abs(nano) % 10**9:09}".rstrip("0").rstrip(".")
    return "-" * (nano < 0) + text


def literal(parts, indent):
    """Parts as one literal of bytes, folded at 96 columns."""
    lines, line = [], ""
    for part in parts:
        if line and len(indent) + 4 + len(line) + len(part) > 96:
            lines.append(line + "\\")
            line = ""
        line += part
    return f'\n{indent}'.join([f'b"{line}' if at == 0 else line for at, line in enumerate(lines + [line])]) + '"'


def row(numbers, unit, ring):
    points = [f"{degrees(x * unit)} {degrees(y * unit)}\\n" for x, y in ring]
    file = literal(["a\\n1\\n", *points, "END\\nEND\\n"], "     ")
    marks = []
    for x, y in places_of(numbers, ring):
        marks.append(chr(97 + HALF + x) + chr(97 + HALF + y) + "-+"[is_inside(ring, (x, y))])
    return f"    ({unit:_}, {file},\n     {literal(marks, '     ')}),\n"


def made():
    numbers = random.Random(10)
    rows = []
    for count, corners, reach in KINDS:
        for _ in range(count):
            least = 0 if corners < 10 else corners // 2
            size = corners if corners > 1000 else numbers.randint(max(least, 1), corners)
            rows.append(row(numbers, numbers.choice(UNITS) if corners < 100 else UNITS[0], ring_of(numbers, size, reach)))
    return HEAD.replace("COUNT", str(len(rows))) + "".join(rows) + "];\n"


def main(words):
    text = made()
    if words != ["--check"]:
        TABLE.write_text(text)
    elif not TABLE.is_file() or TABLE.read_text() != text:
        print(f"{TABLE.name} is not what tests/make_rings.py makes")
        return 1
    return 0


if __name__ == "__main__":
    sys.exit(main(sys.argv[1:]))
