"""The cases of tests/cases, for scripts that run them in ways of their own. tests/run says of what form they are."""
import re
from collections import namedtuple
from pathlib import Path

# A case: where it stands; its commands, lists of words, each but the last of which prepares for the one after it; and
# the files that are there before, with their bytes.
Case = namedtuple("Case", "name commands files")

BEFORE = b"as before"
COPY = ["--read-opl", "file=a", "--write-opl", "file=b"]
ESCAPE = re.compile(rb"\\(x[0-9a-fA-F]{1,2}|0[0-7]{0,3}|.)", re.S)
LETTERS = {b"n": b"\n", b"t": b"\t", b"r": b"\r", b"\\": b"\\"}


def bytes_of(text):
    """The bytes of a text with escapes, which ends at the first \\c."""

    def one(match):
        code = match[1]
        if code in LETTERS:
            return LETTERS[code]
        if code[:1] == b"x":
            return bytes([int(code[1:], 16)])
        if code[:1] == b"0":
            return bytes([int(code, 8) & 255])
        raise ValueError(f"an escape that isn't known: {match[0]}")

    parts = re.split(rb"((?:\\\\)*)\\c", text, maxsplit=1)
    return ESCAPE.sub(one, b"".join(parts[:2]))


def words_of(text):
    words = [word for word in re.split("[ \t]+", text) if word]
    return [b"" if word == "''" else bytes_of(word.encode(errors="surrogateescape")) for word in words]


def block_cases(lines):
    """The cases of a block, each with its words and files."""
    found, commands, words, files, written = [], [], [], {}, ["b"]
    kind = name = each = None
    source = "a"
    for line in lines:
        key, _, rest = line.partition(" ")
        rest = rest if key != "words:" else line[len("words:") :]
        if key in ("case:", "refused:"):
            kind, name = key, rest
        elif key == "words:":
            kind, name = kind or "words:", name or line
            words = words_of(rest)
            commands.append(words)
        elif key == "more:":
            words += words_of(rest)
        elif key == "each:":
            each = True
            for word in words_of(rest):
                found.append((f"{name}: {word.decode(errors='replace')}", [[one.replace(b"@", word) for one in words]]))
        elif key == "in:":
            source = rest
            files.setdefault(source, b"")
        elif key == "out:":
            written.append(rest)
        elif key == "stays:":
            written += rest.split()
        elif key in ("<", "<x"):
            if kind == "refused:":
                found.append((f"{name}: {rest}", rest.encode(errors="surrogateescape")))
                continue
            text = rest.encode(errors="surrogateescape") + b"\\n"
            if key == "<x":
                text = b"".join(b"\\x%02x" % byte for byte in bytes.fromhex(rest))
            files[source] = files.get(source, b"") + text
        elif key not in (">", ">x", "status:", "says:", "or:", "made:", "accepted:"):
            raise ValueError(f"no line of a case: {line}")
    copy = [word.encode() for word in COPY]
    old = {name: BEFORE for name in written}
    if kind == "refused:":
        return [Case(name, [copy], {**old, "a": bytes_of(text + b"\\n")}) for name, text in found]
    if kind == "words:":
        found = found if each else [(name, commands)]
        return [Case(name, commands, {**old, "a": b""}) for name, commands in found]
    held = {name: bytes_of(text) for name, text in (files or {"a": b""}).items()}
    return [Case(name, commands or [copy], {**old, **held})]


def blocks(lines):
    """The blocks of a file. A blank line ends one, and a line that begins another."""
    block = []
    for line in lines:
        begins = line.startswith(("case: ", "refused: "))
        begins |= line.startswith("words:") and bool(block) and not block[0].startswith("case: ")
        if block and (begins or not line):
            yield block
            block = []
        if line and not line.startswith("#"):
            block.append(line)
    if block:
        yield block


def cases(root):
    """All cases of all files below tests/cases."""
    found = []
    for path in sorted(Path(root, "tests", "cases").glob("**/*.cases")):
        for block in blocks(path.read_text(errors="surrogateescape").split("\n")):
            found += [case._replace(name=f"{path.name}: {case.name}") for case in block_cases(block)]
    return found
