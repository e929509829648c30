#!/usr/bin/env python3
"""Rewrites the escapes of OPL lines as osm-tasks writes them, from standard input to standard output.

Osmium escapes more characters, and writes at least two digits. Here a code point is an escape only where it is 0
to 32, 37, 44, 61, 64 or 127, without zeros before it.
"""
import re
import sys

ESCAPE = re.compile(rb"%([0-9a-fA-F]{1,8})%")
RESERVED = {37, 44, 61, 64, 127}


def rewritten(escape):
    """One escape in this form."""
    code = int(escape.group(1), 16)
    if code <= 32 or code in RESERVED:
        return b"%%%x%%" % code
    return chr(code).encode()


def main():
    for line in sys.stdin.buffer:
        sys.stdout.buffer.write(ESCAPE.sub(rewritten, line))


if __name__ == "__main__":
    main()
