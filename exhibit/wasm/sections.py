"""Reads and writes modules of WebAssembly: their sections and their numbers, as table32.py and inspect_module.py need
them. The format is that of the WebAssembly specification, with its proposals for a 64-bit memory and table."""

(CUSTOM, TYPES, IMPORTS, FUNCTIONS, TABLES, MEMORIES, GLOBALS, EXPORTS, START, ELEMENTS, CODE, DATA,
 DATA_COUNT) = range(13)
HEAD = b"\0asm\1\0\0\0"


class NotKnown(Exception):
    """The module isn't as these files rely on."""


def number(data, at):
    """An unsigned number in LEB128, and the place behind it."""
    value = shift = 0
    while True:
        byte = data[at]
        at += 1
        value |= (byte & 127) << shift
        shift += 7
        if byte < 128:
            return value, at


def encoded(value):
    out = bytearray()
    while value > 127:
        out.append(value & 127 | 128)
        value >>= 7
    out.append(value)
    return bytes(out)


def text(data, at):
    """A name, and the place behind it."""
    length, at = number(data, at)
    return data[at:at + length].decode(), at + length


def sections(module):
    """The sections of a module, each as its number and its bytes."""
    if module[:8] != HEAD:
        raise NotKnown("the file isn't a module of WebAssembly, version 1")
    at = 8
    while at < len(module):
        kind = module[at]
        length, at = number(module, at + 1)
        if at + length > len(module):
            raise NotKnown("the module is cut short")
        yield kind, module[at:at + length]
        at += length


def joined(parts):
    """The module with these sections."""
    return HEAD + b"".join(bytes([kind]) + encoded(len(body)) + body for kind, body in parts)


def only_one(body, what):
    """The place behind the count of a section that has one item."""
    count, at = number(body, 0)
    if count != 1:
        raise NotKnown(f"the module has {count} {what}, not one")
    return at
