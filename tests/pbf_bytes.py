"""Makes the bytes of raw PBF files by hand: fields, messages, frames, blocks, and whole files as docs/FORMATS.md says
that they are written; and the lines of OPL of the same items. It shares nothing with the program that is tested with
it."""
from datetime import datetime, timezone
from collections import namedtuple

# An item. A place is (latitude, longitude) in nanodegrees; a member is (kind, id, role), its kind as the file has it: 0
# for a node, 1 for a way, 2 for a relation.
Node = namedtuple("Node", "id place tags meta")
Way = namedtuple("Way", "id refs tags meta")
Relation = namedtuple("Relation", "id members tags meta")
Meta = namedtuple("Meta", "version time changeset uid user", defaults=(0, 0, 0, 0, ""))


def node(number, place=(0, 0), tags=(), meta=Meta()):
    return Node(number, place, tuple(tags), meta)


def way(number, refs=(), tags=(), meta=Meta()):
    return Way(number, tuple(refs), tuple(tags), meta)


def relation(number, members=(), tags=(), meta=Meta()):
    return Relation(number, tuple(members), tuple(tags), meta)


def varint(value):
    """The shortest spelling of a number modulo 2^64."""
    value %= 1 << 64
    out = bytearray()
    while value > 127:
        out.append(value & 127 | 128)
        value >>= 7
    out.append(value)
    return bytes(out)


def zigzag(value, bits=64):
    """0, -1, 1, -2 as 0, 1, 2, 3."""
    value = wrapped(value, bits)
    return 2 * value if value >= 0 else -2 * value - 1


def wrapped(value, bits):
    """A number modulo 2^bits, as one with a sign."""
    value %= 1 << bits
    return value - (1 << bits) if value >> (bits - 1) else value


def deltas(values, bits=64):
    """Each number less the one before it, zigzagged."""
    return [zigzag(value - before, bits) for before, value in zip([0] + list(values), values)]


def number(field, value):
    """A field that is a varint."""
    return varint(field * 8) + varint(value)


def data(field, content):
    """A field of bytes, a text or a message."""
    if isinstance(content, str):
        content = content.encode()
    return varint(field * 8 + 2) + varint(len(content)) + content


def packed(field, values):
    """A packed list; nothing where it is empty."""
    return data(field, b"".join(map(varint, values))) if values else b""


def single(field, values):
    """The same list, each number a field of its own."""
    return b"".join(number(field, value) for value in values)


def wrong(field, wire):
    """A field of this wire type, with some content."""
    return varint(field * 8 + wire) + {0: b"\0", 1: bytes(8), 2: b"\0", 5: bytes(4)}[wire]


def framed(blob_header, blob):
    """A frame of a blob header and a blob that are made already."""
    return len(blob_header).to_bytes(4, "big") + blob_header + blob


def frame(kind, content):
    """A frame with raw content."""
    blob = data(1, content)
    return framed(data(1, kind) + number(3, len(blob)), blob)


def header(*features):
    """A frame with a header that asks for these features."""
    return frame("OSMHeader", b"".join(data(4, feature) for feature in features))


def block(content):
    """A frame with a block."""
    return frame("OSMData", content)


def table(*texts):
    """The string table of a block, the empty text first."""
    return data(1, b"".join(data(1, text) for text in ("",) + texts))


def group(content):
    """A group of a block."""
    return data(2, content)


KINDS = {Node: 0, Way: 1, Relation: 2}
HEAVIEST_RUN = 1 << 24


def weight(item):
    """128, the bytes of its texts, and 32 for each tag, ref and member."""
    texts = [item.meta.user] + [text for tag in item.tags for text in tag]
    parts = len(item.tags)
    if isinstance(item, Way):
        parts += len(item.refs)
    if isinstance(item, Relation):
        parts += len(item.members)
        texts += [role for _, _, role in item.members]
    return 128 + 32 * parts + sum(len(text.encode()) for text in texts)


def runs(items, batchlimit):
    """The items in runs of one kind, each of at most batchlimit items, and not too heavy together."""
    out = []
    heavy = 0
    for item in items:
        heavy += weight(item)
        if out and type(out[-1][0]) is type(item) and len(out[-1]) < batchlimit and heavy <= HEAVIEST_RUN:
            out[-1].append(item)
        else:
            out.append([item])
            heavy = weight(item)
    return out


def written(items, broken=False, batchlimit=8000, usedense=True, omitmetadata=False, granularity=100):
    """The file of a stream."""
    features = ["OsmSchema-V0.6"] + ["DenseNodes"] * usedense
    parts = runs(items, batchlimit)
    if broken:
        parts = parts[:-1]
    return header(*features) + b"".join(
        block(run_block(run, usedense, omitmetadata, granularity)) for run in parts
    )


def run_block(run, usedense, omitmetadata, granularity):
    """The block of a run."""
    texts = {"": 0}
    for item in run:
        used = [] if omitmetadata else [item.meta.user]
        used += [text for tag in item.tags for text in tag]
        if isinstance(item, Relation):
            used += [role for _, _, role in item.members]
        for text in used:
            texts.setdefault(text, len(texts))
    if isinstance(run[0], Node) and usedense:
        content = data(2, dense_nodes(run, texts, omitmetadata, granularity))
    else:
        field = {Node: 1, Way: 3, Relation: 4}[type(run[0])]
        content = b"".join(data(field, entity(item, texts, omitmetadata, granularity)) for item in run)
    unit = number(17, granularity) if granularity != 100 else b""
    return data(1, b"".join(data(1, text) for text in texts)) + data(2, content) + unit


def cut(nanodegrees, granularity):
    """Nanodegrees in units, cut toward zero."""
    units = abs(nanodegrees) // granularity
    return units if nanodegrees >= 0 else -units


def entity(item, texts, omitmetadata, granularity):
    """The message of one entity."""
    out = number(1, zigzag(item.id) if isinstance(item, Node) else item.id)
    out += packed(2, [texts[key] for key, _ in item.tags]) + packed(3, [texts[value] for _, value in item.tags])
    if not omitmetadata:
        meta = item.meta
        fields = (meta.version, meta.time, meta.changeset, meta.uid, texts[meta.user])
        out += data(4, b"".join(number(1 + at, value) for at, value in enumerate(fields)))
    if isinstance(item, Node):
        out += b"".join(number(8 + at, zigzag(cut(item.place[at], granularity))) for at in (0, 1))
    elif isinstance(item, Way):
        out += packed(8, deltas(item.refs))
    else:
        out += packed(8, [texts[role] for _, _, role in item.members])
        out += packed(9, deltas([its_id for _, its_id, _ in item.members]))
        out += packed(10, [kind for kind, _, _ in item.members])
    return out


def dense_nodes(run, texts, omitmetadata, granularity):
    """The message of the dense nodes of a run."""
    out = packed(1, deltas([item.id for item in run]))
    if not omitmetadata:
        metas = [item.meta for item in run]
        out += data(
            5,
            packed(1, [meta.version for meta in metas])
            + packed(2, deltas([meta.time for meta in metas]))
            + packed(3, deltas([meta.changeset for meta in metas]))
            + packed(4, deltas([meta.uid for meta in metas], 32))
            + packed(5, deltas([texts[meta.user] for meta in metas], 32)),
        )
    for field, at in ((8, 0), (9, 1)):
        out += packed(field, deltas([cut(item.place[at], granularity) for item in run]))
    if any(item.tags for item in run):
        keys_vals = []
        for item in run:
            for key, value in item.tags:
                keys_vals += [texts[key], texts[value]]
            keys_vals.append(0)
        out += packed(10, keys_vals)
    return out


def escaped(text):
    """A text as OPL has it."""
    return "".join(f"%{ord(one):x}%" if one <= " " or one in "%,=@\x7f" else one for one in text)


def degrees(nanodegrees):
    """Degrees in decimal, without zeros at the end."""
    whole, rest = divmod(abs(nanodegrees), 10**9)
    return "-" * (nanodegrees < 0) + f"{whole}" + (f".{rest:09}".rstrip("0") if rest else "")


def opl_text(items):
    """The lines of OPL of these items."""
    out = []
    for item in items:
        meta = item.meta
        moment = datetime.fromtimestamp(meta.time, timezone.utc).strftime("%Y-%m-%dT%H:%M:%SZ") if meta.time else ""
        tags = ",".join(f"{escaped(key)}={escaped(value)}" for key, value in item.tags)
        if isinstance(item, Node):
            rest = f"x{degrees(item.place[1])} y{degrees(item.place[0])}"
        elif isinstance(item, Way):
            rest = "N" + ",".join(f"n{ref}" for ref in item.refs)
        else:
            rest = "M" + ",".join(f"{'nwr'[kind]}{number}@{escaped(role)}" for kind, number, role in item.members)
        kind = "nwr"[KINDS[type(item)]]
        user = escaped(meta.user)
        out.append(f"{kind}{item.id} v{meta.version} dV c{meta.changeset} t{moment} i{meta.uid} u{user} T{tags} {rest}\n")
    return "".join(out).encode()
