"""What each built task gives of the streams that it takes, in plain Python over the lines that write-opl writes, to
compare the program with. A stream is a list of items and whether it ended whole; a fault is what is said of a task."""
import re
from collections import namedtuple
from fractions import Fraction

Item = namedtuple("Item", "line key version time tags nodes ways relations weight")
Stream = namedtuple("Stream", "items whole")
KINDS = "nwr"


def text_of(escaped):
    """The bytes of an escaped text."""
    return re.sub("%([0-9a-f]+)%", lambda it: chr(int(it[1], 16)), escaped).encode()


def item(line):
    """The item of a written line, which has each field of its kind."""
    fields = {field[0]: field[1:] for field in line.split(" ")[1:]}
    kind, number = line[0], int(line.split(" ")[0][1:])
    tags = [tuple(map(text_of, tag.split("=", 1))) for tag in filter(None, fields["T"].split(","))]
    refs = [int(ref[1:]) for ref in filter(None, fields.get("N", "").split(","))]
    members = [member.split("@", 1) for member in filter(None, fields.get("M", "").split(","))]
    texts = [text_of(fields["u"])] + [text for tag in tags for text in tag] + [text_of(role) for _, role in members]
    return Item(
        line=line,
        key=(KINDS.index(kind), number),
        version=int(fields["v"]),
        time=fields["t"],
        tags=tags,
        nodes=refs + [int(name[1:]) for name, _ in members if name[0] == "n"],
        ways=[int(name[1:]) for name, _ in members if name[0] == "w"],
        relations=[int(name[1:]) for name, _ in members if name[0] == "r"],
        weight=128 + 32 * (len(tags) + len(refs) + len(members)) + sum(map(len, texts)),
    )


def items(written):
    """The items of a written file."""
    return [item(line) for line in written.decode().splitlines()]


def lines(stream):
    """What write-opl and write-opl-change write."""
    return "".join(one.line + "\n" for one in stream.items).encode()


def is_deleted(one):
    return one.line.split(" ")[2] == "dD"


def summary(stream):
    """What write-summary writes."""
    if not stream.whole:
        return b""
    kinds = [[one for one in stream.items if one.key[0] == kind] for kind in range(3)]
    members = sum(one.line.count("@") for one in kinds[2])
    refs = sum(len(one.nodes) for one in kinds[1])
    numbers = [len(kind) for kind in kinds] + [sum(len(one.tags) for one in stream.items), refs, members]
    numbers.append(sum(one.weight for one in stream.items))
    words = "nodes ways relations tags refs members weight".split()
    return "".join(f"{word} {number}\n" for word, number in zip(words, numbers)).encode()


def in_blocks(stream, most):
    """What is read back of a PBF file: of a stream that broke off the last block of one kind is left out."""
    if stream.whole or not stream.items:
        return stream.items
    last, count = None, 0
    for one in stream.items:
        count = count + 1 if one.key[0] == last and count < most else 1
        last = one.key[0]
    return stream.items[:-count]


def tag_filter(stream, accept, kind, tests):
    """Tests are pairs of a key and its values, None for any."""

    def passes(one):
        if one.key[0] != KINDS.index(kind):
            return True
        matches = not tests or any(
            tag[0] == key and (values is None or tag[1] in values) for tag in one.tags for key, values in tests
        )
        return matches == accept

    return Stream([one for one in stream.items if passes(one)], stream.whole)


def used(stream, kind):
    """Of kind 0 the nodes that are used, of kind 1 the ways."""
    if not stream.whole:
        ends = [at for at, one in enumerate(stream.items) if one.key[0] == kind]
        return Stream(stream.items[: ends[0]] if ends else stream.items, False)
    ids = {number for one in stream.items for number in (one.nodes, one.ways)[kind]}
    return Stream([one for one in stream.items if one.key[0] != kind or one.key[1] in ids], True)


def sort(stream):
    return Stream(sorted(stream.items, key=lambda one: one.key), True) if stream.whole else Stream([], False)


def simplify(stream):
    if not stream.whole:
        return Stream([], False)
    last = {}
    for one in stream.items:
        last[one.key] = one
    return Stream(list(last.values()), True)


def append(first, second):
    return Stream(first.items + second.items, second.whole) if first.whole else first


def rising(stream):
    """Its items up to the first that doesn't come after the one before it, and that item's number, from 1, or None."""
    for at in range(1, len(stream.items)):
        if stream.items[at].key <= stream.items[at - 1].key:
            return stream.items[:at], at + 1
    return stream.items, None


def joined(streams, lay):
    """The two streams laid together, cut where one of them ends too early; and the fault, or None."""
    fronts = [rising(stream) for stream in streams]
    together = lay(fronts[0][0], fronts[1][0])
    short = [port for port in range(2) if not streams[port].whole or fronts[port][1]]
    if not short:
        return Stream(together, True), None
    lasts = {port: fronts[port][0][-1].key if fronts[port][0] else None for port in short}
    met = min(short, key=lambda port: (lasts[port] is not None, lasts[port] or (0, 0), port))
    least = lasts[met]
    cut = [one for one in together if one.key <= least] if least is not None else []
    out_of_order = fronts[met][1]
    return Stream(cut, False), out_of_order and f"input {met} item {out_of_order}: out of order"


def merge(streams, method):
    def rank(one):
        return {"version": (one.version, one.time), "timestamp": (one.time, one.version), "lastSource": ()}[method]

    def lay(first, second):
        chosen = {one.key: one for one in first}
        for one in second:
            if one.key not in chosen or rank(one) >= rank(chosen[one.key]):
                chosen[one.key] = one
        return [chosen[key] for key in sorted(chosen)]

    return joined(streams, lay)


def apply(streams):
    def lay(base, changes):
        there = {one.key: one for one in base}
        for one in changes:
            if is_deleted(one):
                there.pop(one.key, None)
            else:
                there[one.key] = one
        return [there[key] for key in sorted(there)]

    return joined(streams, lay)


# Areas. A place is a longitude and a latitude in whole nanodegrees, and an area a function that says whether it holds a
# place.


def nano(degrees):
    return int(Fraction(degrees) * 10**9)


def place(node):
    fields = {field[0]: field[1:] for field in node.line.split(" ")[1:]}
    return nano(fields["x"]), nano(fields["y"])


def box(left, right, bottom, top):
    return lambda at: left <= at[0] <= right and bottom <= at[1] <= top


def is_in_ring(ring, at):
    """Whether an odd number of edges pass the latitude of the place further east."""
    east, north = at
    count = 0
    for (x, y), (next_x, next_y) in zip(ring, ring[1:] + ring[:1]):
        if (y <= north) != (next_y <= north):
            count += x + Fraction((north - y) * (next_x - x), next_y - y) > east
    return count % 2 == 1


def polygon(sections):
    """Sections are pairs of whether the ring adds, and the ring. The last one that holds the place decides."""
    return lambda at: next((adds for adds, ring in reversed(sections) if is_in_ring(ring, at)), False)


NUMBER = re.compile(rb"([+-]?)([0-9]*)\.?([0-9]*)(?:[eE]([+-]?[0-9]{1,4}))?")


def degrees_of(text):
    """The nanodegrees of a number of at most 1,000 degrees, or None."""
    parts = NUMBER.fullmatch(text)
    if parts is None or not 1 <= len(parts[2] + parts[3]) <= 38:
        return None
    size = int(Fraction(int(parts[2] + parts[3])) * Fraction(10) ** (int(parts[4] or 0) - len(parts[3]) + 9))
    return None if size > 1000 * 10**9 else -size if parts[1] == b"-" else size


def read_polygon(file):
    """The sections of a polygon file, or the number of its first bad line."""
    lines = [line.strip(b" \t\r") for line in file.split(b"\n")]
    if not lines[-1]:
        lines.pop()
    sections, ring = [], None
    for number, line in enumerate(lines[1:], 2):
        if ring is None and line == b"END":
            return sections
        if ring is not None and line == b"END":
            sections.append(ring)
            ring = None
        elif line and ring is None:
            ring = line[:1] != b"!", []
        elif line:
            point = [degrees_of(part) for part in re.split(rb"[ \t]+", line)]
            if len(point) != 2 or None in point:
                return number
            ring[1].append(tuple(point))
    return len(lines) + 1


def inside_of(items, holds):
    """The ids of the nodes inside, and those of the ways that refer to one of them."""
    nodes = {one.key[1] for one in items if one.key[0] == 0 and holds(place(one))}
    return nodes, {one.key[1] for one in items if one.key[0] == 1 and nodes.intersection(one.nodes)}


def is_touched(relation, nodes, ways):
    return bool(nodes.intersection(relation.nodes) or ways.intersection(relation.ways))


def leads_to_touched(start, relations, nodes, ways):
    """Whether from the relations of this id, over members of members, a relation comes that is touched."""
    seen, left = set(), [start]
    while left:
        number = left.pop()
        for one in relations:
            if number not in seen and one.key[1] == number:
                if is_touched(one, nodes, ways):
                    return True
                left += one.relations
        seen.add(number)
    return False


def plain_area(items, holds):
    """The items kept where each is decided from what came up to it; each with the relations that were kept before."""
    kept, relations = [], set()
    for at, one in enumerate(items):
        nodes, ways = inside_of(items[: at + 1], holds)
        kind, number = one.key
        before = set(relations)
        if kind < 2:
            is_kept = number in (nodes, ways)[kind]
        else:
            is_kept = is_touched(one, nodes, ways) or bool(before.intersection(one.relations))
        if is_kept:
            kept.append((one, before))
            if kind == 2:
                relations.add(number)
    return kept


def held_area(items, holds, complete):
    """The items kept where all are known; each with the relations that are kept."""
    nodes, ways = inside_of(items, holds)
    all_relations = [one for one in items if one.key[0] == 2]
    ids = {one.key[1] for one in all_relations}
    relations = {number for number in ids if leads_to_touched(number, all_relations, nodes, ways)}
    if complete:
        nodes = nodes.union(*[one.nodes for one in items if one.key[0] == 1 and one.key[1] in ways])
    return [(one, relations) for one in items if one.key[1] in (nodes, ways, relations)[one.key[0]]]


def clipped(one, ids):
    """The item with those refs and members alone whose ids are among these, by kind."""
    *fields, last = one.line.split(" ")
    if one.key[0] == 0 or len(last) == 1:
        return one
    parts = [part for part in last[1:].split(",") if int(part[1:].split("@")[0]) in ids[part[0]]]
    return item(" ".join(fields + [last[0] + ",".join(parts)]))


def area(stream, holds, complete=False, cascading=False, clip=False):
    """What a task that cuts an area out gives, and its fault, or None."""
    kinds = [one.key[0] for one in stream.items]
    front = next((at for at in range(1, len(kinds)) if kinds[at] < kinds[at - 1]), len(kinds))
    fault = f"input 0 item {front + 1}: out of order" if front < len(kinds) else None
    items, whole = stream.items[:front], stream.whole and fault is None
    if complete or cascading:
        kept = held_area(items, holds, complete) if whole else []
    else:
        kept = plain_area(items, holds)
    nodes, ways = [{one.key[1] for one, _ in kept if one.key[0] == kind} for kind in range(2)]
    if clip:
        kept = [(clipped(one, {"n": nodes, "w": ways, "r": relations}), relations) for one, relations in kept]
    return Stream([one for one, _ in kept], whole), fault
