#!/usr/bin/env python3
"""Tests of tools/retarget_module.py: what it makes of each shape of an exported function, and what it refuses."""

import sys
import unittest
from pathlib import Path

sys.path.insert(0, str(Path(__file__).resolve().parent.parent.parent / "tools"))

from retarget_module import Refused, retarget  # noqa: E402

HEAD = 'target datalayout = "e-m:e"\ntarget triple = "x86_64-unknown-linux-gnu"\n\n'
TAIL = 'attributes #0 = { nounwind "probe-stack"="inline-asm" "stack-probe-size"="3072" "target-cpu"="x86-64" }\n'
INSIDE = "define internal i8 @\"a::b\"(i8 %a0) #0 {\nstart:\n  ret i8 %a0\n}\n\n"


def module(line, *body):
    return HEAD + INSIDE + line + " #0 {\nstart:\n" + "".join(f"  {text}\n" for text in body) + "}\n\n" + TAIL


def made(bits, line, *body):
    """The exported function for a machine, its lines without their indent."""
    text, names = retarget(module(line, *body), bits, False)
    assert names == ["@f"], names
    begin, end = text.index("define", text.index("a::b")), text.index("}\n\nattributes")
    return [part.strip() for part in text[begin:end].split("\n")]


class Shapes(unittest.TestCase):
    def test_narrow_results_are_extended(self):
        for kind, by32, by64 in (("i1", "zeroext i1", "zeroext i1"), ("i8", "zeroext i8", "zeroext i8"),
                                 ("i16", "zeroext i16", "zeroext i16"), ("i32", "i32", "signext i32")):
            for bits, wanted in ((32, by32), (64, by64)):
                line = made(bits, f"define noundef {kind} @f()", f"ret {kind} 1")[0]
                self.assertEqual(line, f"define noundef {wanted} @f() #0 {{")

    def test_wide_results_and_scalars_stay(self):
        for result in ("noundef i64", "noundef ptr", "void", "i64"):
            line = f"define {result} @f(ptr noundef %a0, i64 noundef %a1, i32 noundef %a2, i8 noundef %a3)"
            for bits in (32, 64):
                self.assertEqual(made(bits, line, "unreachable")[0], line + " #0 {")

    def test_a_struct_in_memory_goes_by_address(self):
        for bits in (32, 64):
            line = made(bits, "define void @f(ptr noundef byval([20 x i8]) align 4 %a0, i8 noundef %a1)", "ret void")[0]
            self.assertEqual(line, "define void @f(ptr noundef %a0, i8 noundef %a1) #0 {")

    def test_a_struct_in_two_registers(self):
        line = "define void @f(i8 noundef %a0, i64 %a1, i32 %a2)"
        body = ("%r1 = alloca [12 x i8], align 4", "store i64 %a1, ptr %r1, align 4",
                "%r2 = getelementptr i8, ptr %r1, i64 8", "store i32 %a2, ptr %r2, align 4", "ret void")
        self.assertEqual(made(64, line, *body)[0], line + " #0 {")
        by_address = made(32, line, *body)
        self.assertEqual(by_address[0], "define void @f(i8 noundef %a0, ptr noundef %a1.struct) #0 {")
        self.assertEqual(by_address[2:5], ["%a1 = load i64, ptr %a1.struct, align 4",
                                           "%a1.struct.high = getelementptr i8, ptr %a1.struct, i64 8",
                                           "%a2 = load i32, ptr %a1.struct.high, align 4"])

    def test_a_result_of_two_registers(self):
        line, body = "define { i64, i32 } @f(i8 noundef %a0)", ("%r1 = call { i64, i32 } @g()", "ret { i64, i32 } %r1")
        self.assertEqual(made(64, line, *body)[0], line + " #0 {")
        stored = made(32, line, *body)
        self.assertEqual(stored[0], "define void @f(ptr noundef %result, i8 noundef %a0) #0 {")
        self.assertEqual(stored[-2], "ret void")
        self.assertIn("store i32 %high.part, ptr %high.place, align 4", stored)

    def test_the_machine_is_not_named(self):
        text, _ = retarget(module("define void @f()", "ret void"), 32, False)
        self.assertNotIn("x86", text)
        self.assertNotIn("probe-stack", text)
        self.assertIn("attributes #0 = { nounwind }", text)
        text, _ = retarget(module("define void @f()", "ret void"), 32, True)
        self.assertIn("attributes #0 = { nounwind optsize }", text)

    def test_constants_of_bytes_stay(self):
        constant = '@static.0 = private unnamed_addr constant [3 x i8] c"0x\\00", align 1\n'
        for bits in (32, 64):
            text, _ = retarget(constant + module("define void @f()", "ret void"), bits, False)
            self.assertIn(constant, text)


class Refusals(unittest.TestCase):
    def refused(self, line, *body, text=None):
        for bits in (32, 64):
            with self.assertRaises(Refused):
                retarget(text or module(line, *body), bits, False)

    def test_shapes_not_met_so_far(self):
        self.refused("define float @f()", "ret float 0.0")
        self.refused("define i32 @f()", "ret i32 0")
        self.refused("define { i64, i64, i64 } @f()", "unreachable")
        self.refused("define void @f(float noundef %a0)", "ret void")
        self.refused("define void @f(i64 %a0)", "ret void")
        self.refused("define void @f(i64 %a0, i64 %a1)", "ret void")
        self.refused("define void @f(i128 noundef %a0)", "ret void")
        self.refused("define void @f(ptr noundef byval([12 x i8]) align 4 %a0)", "ret void")
        self.refused("define void @f(ptr noundef sret([24 x i8]) %a0)", "ret void")

    def test_what_depends_on_the_size_of_a_pointer(self):
        self.refused("define void @f(ptr noundef %a0)", "%r0 = ptrtoint ptr %a0 to i64", "ret void")
        self.refused("define void @f(i64 noundef %a0)", "%r0 = inttoptr i64 %a0 to ptr", "ret void")
        self.refused("define void @f(ptr noundef %a0)", "%r0 = getelementptr ptr, ptr %a0, i64 1", "ret void")
        self.refused("define void @f(ptr noundef %a0)", "%r0 = getelementptr inbounds { ptr, i64 }, ptr %a0, i64 1")
        self.refused("define void @f()", 'call void asm sideeffect "nop", ""()', "ret void")
        for data in ("constant [2 x ptr] zeroinitializer", "private unnamed_addr constant [2 x i16] zeroinitializer",
                     'private unnamed_addr global [1 x i8] c"0", align 1'):
            self.refused("", text=f"@static.0 = {data}\n" + module("define void @f()", "ret void"))

    def test_a_module_with_no_export(self):
        self.refused("", text=HEAD + INSIDE + TAIL)


if __name__ == "__main__":
    unittest.main()
