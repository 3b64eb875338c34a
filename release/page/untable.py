#!/usr/bin/env python3
"""Drops the table of a module of WebAssembly that calls nothing through it.

    untable.py FROM TO

The linker writes an empty table, and it counts its places in 64 bits, which not every engine takes. A module
with elements, which a table is for, is refused.
"""
import sys
from pathlib import Path

HEAD = 8
TABLE, EXPORT, ELEMENT = 4, 7, 9
TABLE_KIND = 1


def number(data, at):
    """A number of LEB128 at this place, and the place behind it."""
    value = shift = 0
    while True:
        byte = data[at]
        at += 1
        value |= (byte & 127) << shift
        shift += 7
        if byte < 128:
            return value, at


def spelled(value):
    """The number as LEB128."""
    text = bytearray()
    while value > 127:
        text.append(value & 127 | 128)
        value >>= 7
    return bytes(text) + bytes([value])


def sections(module):
    """Each section: its number and what is in it."""
    at = HEAD
    while at < len(module):
        kind = module[at]
        size, start = number(module, at + 1)
        at = start + size
        yield kind, module[start:at]


def without_table(exports):
    """The section of exports without that of the table."""
    count, at = number(exports, 0)
    kept = []
    for _ in range(count):
        start = at
        size, at = number(exports, at)
        kind = exports[at + size]
        _, at = number(exports, at + size + 1)
        if kind != TABLE_KIND:
            kept.append(exports[start:at])
    return spelled(len(kept)) + b"".join(kept)


def main():
    source, target = map(Path, sys.argv[1:])
    module = source.read_bytes()
    found = list(sections(module))
    if ELEMENT in dict(found):
        sys.exit(f"{source} has elements in its table")
    text = module[:HEAD]
    for kind, body in found:
        if kind != TABLE:
            body = without_table(body) if kind == EXPORT else body
            text += bytes([kind]) + spelled(len(body)) + body
    target.write_bytes(text)


if __name__ == "__main__":
    main()
