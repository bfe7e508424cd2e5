#!/usr/bin/env python3
"""Gives a module's function table indices of 32 bits: table32.py IN.wasm OUT.wasm

The kit's linker makes a module whose memory and whose table both have indices of 64 bits. binaryen makes the memory one
of 32 bits; the version in Debian knows no table of 64 bits. So this is done first. The table's type and the place of its
elements are told with 32 bits, and each call through the table takes the lower half of its index. An index that the
table has is below the table's size, which is below 2^32, and so stays the same.

It is trusted that the table is used in no other way. All instructions are read; one that this file doesn't know, or
another that takes a table's index, is refused."""

import sys

from sections import CODE, ELEMENTS, TABLES, NotKnown, encoded, joined, number, only_one, sections

FUNCREF, I32_CONST, I64_CONST, WRAP = 0x70, 0x41, 0x42, b"\xa7"
BLOCKS = (0x02, 0x03, 0x04)
BR_TABLE, CALL_INDIRECT, SELECT, MORE = 0x0e, 0x11, 0x1c, 0xfc
F32_CONST, F64_CONST = 0x43, 0x44

# How many numbers follow each of the other instructions.
FOLLOWED_BY = {
    **dict.fromkeys((0x00, 0x01, 0x05, 0x0b, 0x0f, 0x1a, 0x1b, *range(0x45, 0xc5)), 0),
    **dict.fromkeys((*BLOCKS, 0x0c, 0x0d, 0x10, 0x20, 0x21, 0x22, 0x23, 0x24, 0x3f, 0x40, I32_CONST, I64_CONST), 1),
    **dict.fromkeys(range(0x28, 0x3f), 2),
}
# The same for those that begin with 0xfc: conversions without a trap, and memory.copy and memory.fill.
MORE_FOLLOWED_BY = {**dict.fromkeys(range(8), 0), 10: 2, 11: 1}


def skipped(data, at, count):
    """The place behind this many numbers."""
    for _ in range(count):
        _, at = number(data, at)
    return at


def behind(data, at):
    """The place behind the instruction that begins here."""
    code = data[at]
    if code in FOLLOWED_BY:
        return skipped(data, at + 1, FOLLOWED_BY[code])
    if code in (F32_CONST, F64_CONST):
        return at + (5 if code == F32_CONST else 9)
    if code == CALL_INDIRECT:
        return skipped(data, at + 1, 2)
    if code in (BR_TABLE, SELECT):
        count, at = number(data, at + 1)
        return skipped(data, at, count + (code == BR_TABLE))
    if code == MORE:
        code, at = number(data, at + 1)
        if code in MORE_FOLLOWED_BY:
            return skipped(data, at, MORE_FOLLOWED_BY[code])
        raise NotKnown(f"there is the instruction 0xfc {code}, which this file doesn't know")
    raise NotKnown(f"there is the instruction {code:#x}, which this file doesn't know")


def new_instructions(data, at):
    """The instructions from here to the end, with a wrap before each call through the table."""
    parts, begun = [], at
    while at < len(data):
        if data[at] == CALL_INDIRECT:
            parts += [data[begun:at], WRAP]
            begun = at
        at = behind(data, at)
    return b"".join(parts) + data[begun:]


def new_function(data):
    """A function's locals as they are, and its instructions."""
    kinds, at = number(data, 0)
    for _ in range(kinds):
        _, at = number(data, at)
        at += 1
    return data[:at] + new_instructions(data, at)


def new_code(body):
    count, at = number(body, 0)
    out = [encoded(count)]
    for _ in range(count):
        length, at = number(body, at)
        made = new_function(body[at:at + length])
        out += [encoded(len(made)), made]
        at += length
    return b"".join(out)


def new_table(body):
    """The one table, of functions. Bit 2 of its limits' first byte says that it has indices of 64 bits."""
    at = only_one(body, "tables")
    if body[at] != FUNCREF or body[at + 1] not in (0, 1, 4, 5):
        raise NotKnown("the table isn't one of functions, or its limits are of another form")
    return body[:at + 1] + bytes([body[at + 1] & 3]) + body[at + 2:]


def new_elements(body):
    """The one list of elements, whose place is a constant."""
    at = only_one(body, "lists of elements")
    if body[at] != 0 or body[at + 1] not in (I32_CONST, I64_CONST):
        raise NotKnown("the table's elements are told in another form")
    return body[:at + 1] + bytes([I32_CONST]) + body[at + 2:]


NEW = {TABLES: new_table, ELEMENTS: new_elements, CODE: new_code}


def with_table32(module):
    """The module, if its table has indices of 64 bits; one of 32 bits stays as it is."""
    parts = list(sections(module))
    tables = [body for kind, body in parts if kind == TABLES]
    if not tables or new_table(tables[0]) == tables[0]:
        return module
    return joined((kind, NEW[kind](body) if kind in NEW else body) for kind, body in parts)


def main():
    with open(sys.argv[1], "rb") as it:
        module = it.read()
    try:
        module = with_table32(module)
    except NotKnown as why:
        sys.exit(f"exhibit/wasm/table32.py: {why}")
    with open(sys.argv[2], "wb") as it:
        it.write(module)


if __name__ == "__main__":
    main()
