#!/usr/bin/env python3
"""Checks that a module is as the page relies on, and says its size: check_module.py FILE.wasm

It imports nothing, so it can do nothing but compute. It exports what exhibit/engine/inside.js calls. Its memory and its
table have indices of 32 bits, so that a browser needs no setting. Its stack lies below its data, so that one that
overflows leaves the memory, as heap.c says."""

import sys

from sections import (CODE, CUSTOM, DATA, DATA_COUNT, ELEMENTS, EXPORTS, FUNCTIONS, GLOBALS, IMPORTS, MEMORIES, START,
                      TABLES, TYPES, NotKnown, number, only_one, sections, text)

CALLED = {"crossbar5_answer": "function", "exhibit_take": "function", "exhibit_give_back": "function",
          "memory": "memory"}
# The linker exports it always.
ALLOWED = {**CALLED, "__heap_base": "global"}
KINDS = ("function", "table", "memory", "global")
KNOWN = {CUSTOM, TYPES, FUNCTIONS, TABLES, MEMORIES, GLOBALS, EXPORTS, ELEMENTS, CODE, DATA, DATA_COUNT}
I64, MUTABLE, I32_CONST, I64_CONST, END = 0x7e, 1, 0x41, 0x42, 0x0b


def check(fact, sentence):
    if not fact:
        raise NotKnown(sentence)


def exports(body):
    count, at = number(body, 0)
    found = {}
    for _ in range(count):
        name, at = text(body, at)
        kind = body[at]
        _, at = number(body, at + 1)
        found[name] = KINDS[kind] if kind < len(KINDS) else f"kind {kind}"
    return found


def check_exports(body):
    found = exports(body)
    for name, kind in CALLED.items():
        check(found.get(name) == kind, f"the module doesn't export the {kind} {name}")
    for name, kind in found.items():
        check(ALLOWED.get(name) == kind, f"the module exports the {kind} {name}, which nobody calls")


def check_limits(body, at, what):
    check(body[at] in (0, 1), f"the module's {what} has indices of 64 bits, or is shared")


def signed(data, at):
    """A constant of a module, and the place behind it."""
    value, behind = number(data, at)
    bits = 7 * (behind - at)
    return value - (1 << bits) if value >> (bits - 1) else value, behind


def stack_top(body):
    """Where the stack begins, from which it grows down: the first global, as the linker makes it."""
    _, at = number(body, 0)
    check((body[at], body[at + 1], body[at + 2]) == (I64, MUTABLE, I64_CONST), "the first global isn't the stack's top")
    top, at = signed(body, at + 3)
    check(body[at] == END and top > 0, "the stack's top isn't a constant above 0")
    return top


def check_data(body, top):
    """All data lies above the stack, at places that are constants."""
    count, at = number(body, 0)
    for _ in range(count):
        check((body[at], body[at + 1]) == (0, I32_CONST), "a piece of data isn't placed by a constant of 32 bits")
        place, at = signed(body, at + 2)
        check(body[at] == END and place >= top, "a piece of data lies in the stack")
        length, at = number(body, at + 1)
        at += length


def check_module(module):
    found = dict(sections(module))
    check(IMPORTS not in found, "the module asks for imports, which the page doesn't give it")
    check(START not in found, "the module has a start function, which was not expected")
    check(found.keys() <= KNOWN, f"the module has sections of the kinds {sorted(found.keys() - KNOWN)}")
    for kind, what in ((EXPORTS, "exports"), (MEMORIES, "memory"), (GLOBALS, "globals"), (CODE, "code")):
        check(kind in found, f"the module has no {what}")
    check_exports(found[EXPORTS])
    check_limits(found[MEMORIES], only_one(found[MEMORIES], "memories"), "memory")
    if TABLES in found:
        check_limits(found[TABLES], only_one(found[TABLES], "tables") + 1, "table")
    check_data(found.get(DATA, b"\0"), stack_top(found[GLOBALS]))


def main():
    with open(sys.argv[1], "rb") as it:
        module = it.read()
    try:
        check_module(module)
    except NotKnown as why:
        sys.exit(f"exhibit/wasm/check_module.py: {why}")
    print(f"the module has {len(module):,} bytes")


if __name__ == "__main__":
    main()
