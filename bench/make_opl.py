#!/usr/bin/env python3
"""Prints nodes, ways and relations as OPL lines: the same bytes for the same numbers and seed.

Usage: make_opl.py NODES WAYS RELATIONS [tags of each node, up to 6] [seed]

Ids rise. Coordinates have up to seven decimals, as OpenStreetMap has them. Each line has all metadata. Texts are
escaped as osmium escapes them.
"""
import sys
import time

MASK = (1 << 64) - 1
# The steps in one degree.
DEGREE = 10_000_000

USERS = ["mapper", "Anna Berg", "josé", "地図", "a,b=c@d", "night%shift", "survey_2009", "Österreich Import"]
NODE_TAGS = [
    ("amenity", ["restaurant", "bench", "drinking_water", "post_box"]),
    ("name", ["Zur Post", "Café de l'Europe", "Бар", "50% off", "Main Street 5"]),
    ("addr:housenumber", ["1", "12a", "7,9", "103"]),
    ("addr:street", ["High Street", "Rue de l'Église", "Straße 3", "Elm"]),
    ("opening_hours", ["Mo-Fr 08:00-18:00; Sa 09:00-12:00", "24/7", "Mo,We 10:00-12:00"]),
    ("website", ["https://example.org/?q=a&b=c", "http://example.com/map@home"]),
]
WAYS = ["residential", "service", "track", "footway", "secondary"]
ROLES = ["", "outer", "inner", "part", "stop entry"]
# What osmium writes as it is, beside letters and digits.
PLAIN = set("!\"#$&'()*+-./:;<>?[\\]^_`{|}~")


def numbers(seed):
    """SplitMix64, so that the bytes don't depend on the version of Python."""
    state = seed & MASK
    while True:
        state = (state + 0x9E3779B97F4A7C15) & MASK
        mixed = state
        mixed = ((mixed ^ (mixed >> 30)) * 0xBF58476D1CE4E5B9) & MASK
        mixed = ((mixed ^ (mixed >> 27)) * 0x94D049BB133111EB) & MASK
        yield mixed ^ (mixed >> 31)


def escaped(text):
    """The text as osmium writes it: what isn't plain as its code point, in two or more digits."""
    return "".join(c if c.isalnum() or c in PLAIN else f"%{ord(c):02x}%" for c in text)


def degrees(steps):
    """Steps as degrees, without zeros at the end of the decimals."""
    sign = "-" if steps < 0 else ""
    whole, rest = divmod(abs(steps), DEGREE)
    decimals = f"{rest:07}".rstrip("0")
    return f"{sign}{whole}.{decimals}" if decimals else f"{sign}{whole}"


def coordinate(number, limit):
    """A coordinate from -limit to limit degrees."""
    return degrees(number % (2 * limit * DEGREE + 1) - limit * DEGREE)


def tags(pairs):
    """Tags, parted by commas."""
    return ",".join(f"{escaped(key)}={escaped(value)}" for key, value in pairs)


USERS = [escaped(user) for user in USERS]
NODE_TAGS = [[tags([(key, value)]) for value in values] for key, values in NODE_TAGS]
ROLES = [escaped(role) for role in ROLES]


class Lines:
    """Draws the lines of a file, one after the other."""

    def __init__(self, seed, tags_of_a_node):
        self.draw = numbers(seed)
        self.tags = tags_of_a_node
        self.node_ids = []

    def metadata(self):
        """Version, changeset, time and user."""
        number = next(self.draw)
        second = 1_200_000_000 + number % 500_000_000
        stamp = time.strftime("%Y-%m-%dT%H:%M:%SZ", time.gmtime(second))
        person = number >> 40
        return f"v{1 + number % 9} dV c{second // 60} t{stamp} i{100 + person % 8} u{USERS[person % 8]}"

    def node(self, node):
        """A node at a place of its own."""
        number = next(self.draw)
        pairs = ",".join(values[(number >> at) % len(values)] for at, values in enumerate(NODE_TAGS[: self.tags]))
        lon = coordinate(next(self.draw), 180)
        lat = coordinate(next(self.draw), 90)
        return f"n{node} {self.metadata()} T{pairs} x{lon} y{lat}\n"

    def way(self, way, nodes):
        """A way over two to thirteen nodes."""
        number = next(self.draw)
        first = number % nodes
        refs = ",".join(f"n{1 + (first + step) % nodes}" for step in range(2 + (number >> 32) % 12))
        pairs = tags([("highway", WAYS[number % 5]), ("name", f"Way {number % 997}")])
        return f"w{way} {self.metadata()} T{pairs} N{refs}\n"

    def relation(self, relation, ways):
        """A relation of two to nine ways."""
        number = next(self.draw)
        members = ",".join(
            f"w{1 + (number + step) % ways}@{ROLES[(number >> step) % 5]}" for step in range(2 + (number >> 40) % 8)
        )
        return f"r{relation} {self.metadata()} T{tags([('type', 'route'), ('ref', str(number % 89))])} M{members}\n"


def main():
    if not 4 <= len(sys.argv) <= 6:
        sys.exit(__doc__)
    nodes, ways, relations = (int(word) for word in sys.argv[1:4])
    tags_of_a_node = int(sys.argv[4]) if len(sys.argv) > 4 else 0
    seed = int(sys.argv[5]) if len(sys.argv) > 5 else 1
    lines = Lines(seed, tags_of_a_node)
    write = sys.stdout.buffer.write
    for node in range(1, nodes + 1):
        write(lines.node(node).encode())
    for way in range(1, ways + 1):
        write(lines.way(way, max(nodes, 1)).encode())
    for relation in range(1, relations + 1):
        write(lines.relation(relation, max(ways, 1)).encode())


if __name__ == "__main__":
    main()
