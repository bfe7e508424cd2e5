#!/usr/bin/env python3
"""Tests that the steps of the second compilation change what they should, and refuse what they don't know: test_steps.py

Needs nothing but python3. exhibit/test_engine tests the module that they make."""

import unittest

import check_module
import retarget
import table32
from sections import CODE, DATA, ELEMENTS, EXPORTS, GLOBALS, IMPORTS, MEMORIES, TABLES, NotKnown, encoded, joined, sections

MODULE = f"""; ModuleID = 'module.bc'
source_filename = "rattle"
target datalayout = "{retarget.LAYOUT}"
target triple = "{retarget.TRIPLE}"

@static.0 = private unnamed_addr constant [24 x i8] c"asm addrspace( @llvm.x86.", align 1

define internal noundef i64 @"crate::asm"(i64 noundef %a0) #0 {{
  %r0 = call {{ i64, i64 }} @rattle_alloc(i64 %a0, i64 8)
  ret i64 %a0
}}

define void @crossbar5_answer(i32 noundef %a0) #0 {{
  ret void
}}

declare {{ i64, i64 }} @rattle_alloc(i64 noundef, i64 noundef) #1
declare void @llvm.trap() #1

attributes #0 = {{ nounwind "probe-stack"="inline-asm" "stack-probe-size"="3072" "target-cpu"="x86-64-v2" }}
attributes #1 = {{ nobuiltin nounwind }}
"""


def retargeted(text):
    return retarget.retargeted(text, ["crossbar5_answer"])


class Retarget(unittest.TestCase):
    def test_what_changes(self):
        before, after = MODULE.split("\n"), retargeted(MODULE).split("\n")
        changed = [line for old, line in zip(before, after, strict=True) if old != line]
        self.assertEqual(changed, [
            f'target datalayout = "{retarget.NEW_LAYOUT}"',
            f'target triple = "{retarget.NEW_TRIPLE}"',
            'define void @crossbar5_answer(i32 noundef %a0) #0 "wasm-export-name"="crossbar5_answer" {',
            f'attributes #0 = {{ nounwind   "target-cpu"="lime1" {retarget.NO_LIBRARY} }}',
        ])

    def test_what_is_refused(self):
        body = "  ret i64 %a0\n"
        for old, new in (
            (retarget.TRIPLE, "aarch64-unknown-linux-gnu"),
            ("i64:64-", "i64:32-"),
            ("target triple", "; target triple"),
            (body, f'  call void asm sideeffect "nop", ""()\n{body}'),
            (body, f"  %r1 = load i64, ptr addrspace(257) null\n{body}"),
            (body, f"  %r1 = call i32 @llvm.x86.sse42.crc32.32.8(i32 0, i8 0)\n{body}"),
            (body, f"  %r1 = alloca x86_fp80\n{body}"),
            ("declare void @llvm.trap()", "declare ptr @malloc(i64)"),
            ("declare void @llvm.trap()", 'declare ptr @"some name"(i64)'),
            ("@static.0 = private", "@static.0 = thread_local"),
            ('"target-cpu"="x86-64-v2"', '"target-cpu"="x86-64-v2" "target-features"="+avx"'),
            ('"target-cpu"="x86-64-v2"', '"target-cpu"="haswell"'),
            ("define void @crossbar5_answer", "define internal void @crossbar5_answer"),
            ("@crossbar5_answer", "@crossbar5_answers"),
        ):
            with self.subTest(new), self.assertRaises(retarget.NotKnown):
                self.assertIn(old, MODULE)
                retargeted(MODULE.replace(old, new))


def section(*items):
    return encoded(len(items)) + b"".join(items)


def function(*instructions):
    body = b"\0" + b"".join(instructions) + b"\x0b"
    return encoded(len(body)) + body


GET, CALL, CONST, LOAD, FILL = b"\x20\0", b"\x11\0\0", b"\x42\x80\x7f", b"\x29\3\x11", b"\xfc\x0b\0"
TABLE64, TABLE32, ELEMENTS64, ELEMENTS32 = b"\x70\5\3\3", b"\x70\1\3\3", b"\0\x42\1\x0b\1\0", b"\0\x41\1\x0b\1\0"


def wide(*instructions, table=TABLE64, elements=ELEMENTS64):
    return joined([(TABLES, section(table)), (ELEMENTS, section(elements)), (CODE, section(function(*instructions)))])


class Table32(unittest.TestCase):
    def test_what_changes(self):
        # The bytes of a constant that look like a call are none.
        before = wide(CONST, GET, CALL, LOAD, b"\x44" + b"\x11" * 8, FILL, GET, CALL)
        after = wide(CONST, GET, b"\xa7", CALL, LOAD, b"\x44" + b"\x11" * 8, FILL, GET, b"\xa7", CALL,
                     table=TABLE32, elements=ELEMENTS32)
        self.assertEqual(table32.with_table32(before), after)
        self.assertEqual(table32.with_table32(after), after)

    def test_what_is_refused(self):
        for flaw, module in (
            ("table.get", wide(b"\x25\0")),
            ("table.size", wide(b"\xfc\x10\0")),
            ("a vector", wide(b"\xfd\x0c")),
            ("a table of other things", wide(table=b"\x6f\5\3\3")),
            ("elements of another form", wide(elements=b"\1\0\1\0")),
            ("no module", b"\x7fELF" + bytes(20)),
            ("a module cut short", wide()[:-1]),
        ):
            with self.subTest(flaw), self.assertRaises(NotKnown):
                table32.with_table32(module)


def item(name, kind):
    return encoded(len(name)) + name.encode() + bytes([kind, 0])


RIGHT = {
    MEMORIES: section(b"\0\x11"),
    GLOBALS: section(b"\x7e\1\x42\x80\x80\xc0\0\x0b"),
    EXPORTS: section(item("memory", 2), *(item(name, 0) for name in
                                          ("crossbar5_answer", "exhibit_take", "exhibit_give_back"))),
    CODE: section(),
    DATA: section(b"\0\x41\x80\x80\xc0\0\x0b\1x"),
}


class CheckModule(unittest.TestCase):
    def check(self, **changed):
        parts = {**RIGHT, **{globals()[name]: body for name, body in changed.items()}}
        check_module.check_module(joined(sorted((kind, body) for kind, body in parts.items() if body is not None)))

    def test_what_is_refused(self):
        self.check()
        for flaw in (
            {"MEMORIES": section(b"\4\x11")},
            {"MEMORIES": section(b"\3\x11\x11")},
            {"TABLES": section(TABLE64)},
            {"IMPORTS": section(item("env", 0))},
            {"EXPORTS": section(item("memory", 2))},
            {"EXPORTS": encoded(5) + RIGHT[EXPORTS][1:] + item("run", 0)},
            {"GLOBALS": section(b"\x7f\1\x41\0\x0b")},
            {"DATA": section(b"\0\x41\x80\x80\x3f\x0b\1x")},
            {"DATA": section(b"\0\x42\x80\x80\xc0\0\x0b\1x")},
            {"CODE": None},
        ):
            with self.subTest(flaw), self.assertRaises(NotKnown):
                self.check(**flaw)

    def test_reading_what_was_written(self):
        self.assertEqual(dict(sections(joined(RIGHT.items()))), RIGHT)


if __name__ == "__main__":
    unittest.main()
