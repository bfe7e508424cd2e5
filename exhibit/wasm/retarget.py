#!/usr/bin/env python3
"""Makes the text of an LLVM module for x86-64 Linux one for wasm64: retarget.py IN.ll OUT.ll EXPORT..

The kit can't yet compile this library for wasm64, since the library allocates by functions of C. So this takes what the
kit makes of the library for x86-64. The instructions of LLVM are the same for both targets. What differs stands at the
head of the module, and in the attributes of its functions:

- the target triple, and the data layout. Both layouts give all types that are used here the same sizes, alignments and
  offsets, and a pointer 64 bits. So what the kit has worked out for one, such as the size of an allocation, is right for
  the other.
- the probes of the stack, for Linux's guard page. heap.c says what takes their place.
- the processor's name. The functions also say that memcmp, bcmp and strlen aren't there to be called, as the kit's own
  code for wasm64 does.
- the exports' names.

It is trusted that nothing else differs. What could differ and can be seen is refused: intrinsics, types, address spaces
and assembly of x86, unknown attributes, and functions from outside but the three of the heap."""

import re
import sys

TRIPLE = "x86_64-unknown-linux-gnu"
LAYOUT = "e-m:e-p270:32:32-p271:32:32-p272:64:64-i64:64-i128:128-f80:128-n8:16:32:64-S128"
NEW_TRIPLE = "wasm64-unknown-unknown"
NEW_LAYOUT = "e-m:e-p:64:64-p10:8:8-p20:8:8-i64:64-i128:128-n32:64-S128-ni:1:10:20"

# What only one layout has: address spaces and a type that the module may not use, LLVM's default for pointers, and
# which integers are fast. What is left is the same, and says how all else is laid out.
ONLY_OLD = {"p270:32:32", "p271:32:32", "p272:64:64", "f80:128", "n8:16:32:64"}
ONLY_NEW = {"p:64:64", "p10:8:8", "p20:8:8", "n32:64", "ni:1:10:20"}

FROM_OUTSIDE = {"rattle_alloc", "rattle_realloc", "rattle_dealloc"}
NO_LIBRARY = '"no-builtin-bcmp" "no-builtin-memcmp" "no-builtin-strlen"'

OF_X86 = re.compile(r"\basm\b|\baddrspace\(|\bx86_\w+|@llvm\.x86\.\S*|\bthread_local\b|\bifunc\b")
QUOTED = re.compile(r'"[^"]*"')
ATTRIBUTE = re.compile(r'"([^"]*)"(?:="([^"]*)")?')
DECLARED = re.compile(r'^declare .*?@("[^"]*"|[\w.$]+)\(')


class NotKnown(Exception):
    """The module isn't as this file relies on."""


def check_layouts():
    left = set(LAYOUT.split("-")) - ONLY_OLD
    if left != set(NEW_LAYOUT.split("-")) - ONLY_NEW or "S128" not in left:
        raise NotKnown("the two data layouts differ in more than is harmless")


def value_of(lines, word):
    """What the module's head says after `target WORD = `."""
    found = [line for line in lines[:50] if line.startswith(f"target {word} = ")]
    if len(found) != 1:
        raise NotKnown(f"the module's head has {len(found)} lines for its target {word}, not one")
    return found[0].split('"')[1]


def check_head(lines):
    for word, known in (("triple", TRIPLE), ("datalayout", LAYOUT)):
        found = value_of(lines, word)
        if found != known:
            raise NotKnown(f"the module's target {word} is {found}, not {known}: look whether wasm64 still fits it")


def check_line(number, line):
    """Refuses what is of x86 alone, and functions from outside. Constants and names in quotes say nothing of that."""
    of_x86 = OF_X86.search(QUOTED.sub('""', line))
    if of_x86:
        raise NotKnown(f"line {number} of the module has '{of_x86[0]}', which wasm64 has not")
    declared = DECLARED.match(line)
    if declared and not declared[1].startswith("llvm.") and declared[1] not in FROM_OUTSIDE:
        raise NotKnown(f"the module calls {declared[1]}, which nothing gives it in a page")


def new_attribute(found):
    name, value = found[1], found[2]
    if name in ("probe-stack", "stack-probe-size"):
        return ""
    if name == "target-cpu" and value.startswith("x86-64"):
        return f'"target-cpu"="lime1" {NO_LIBRARY}'
    if (name, value) == ("frame-pointer", "all"):
        return found[0]
    raise NotKnown(f"a function has the attribute {found[0]}, which this file doesn't know")


def new_line(line):
    """The line as it is for wasm64."""
    if line.startswith("target triple = "):
        return f'target triple = "{NEW_TRIPLE}"'
    if line.startswith("target datalayout = "):
        return f'target datalayout = "{NEW_LAYOUT}"'
    if line.startswith("attributes #"):
        return ATTRIBUTE.sub(new_attribute, line)
    return line


def export(lines, name):
    """Gives the function of this name the attribute that makes it an export."""
    at = [i for i, line in enumerate(lines) if line.startswith("define ") and f" @{name}(" in line]
    if len(at) != 1 or not lines[at[0]].endswith(" {") or " internal " in lines[at[0]]:
        raise NotKnown(f"the module doesn't define a function {name} that others can call")
    lines[at[0]] = f'{lines[at[0]][:-2]} "wasm-export-name"="{name}" {{'


def retargeted(text, exports):
    lines = text.split("\n")
    check_layouts()
    check_head(lines)
    for number, line in enumerate(lines, 1):
        check_line(number, line)
    lines = [new_line(line) for line in lines]
    for name in exports:
        export(lines, name)
    return "\n".join(lines)


def main():
    source, target, *exports = sys.argv[1:]
    with open(source, encoding="utf-8") as it:
        text = it.read()
    try:
        text = retargeted(text, exports)
    except NotKnown as why:
        sys.exit(f"exhibit/wasm/retarget.py: {why}")
    with open(target, "w", encoding="utf-8") as it:
        it.write(text)


if __name__ == "__main__":
    main()
