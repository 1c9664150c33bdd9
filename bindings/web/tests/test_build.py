#!/usr/bin/env python3
"""Tests what the build refuses: text of an LLVM module that isn't known, and scripts that can't be joined."""
import sys
import tempfile
import unittest
from pathlib import Path

sys.path.insert(0, str(Path(__file__).resolve().parents[1]))

import build_module
import build_page

GOOD = f'''source_filename = "x"
target datalayout = "{build_module.X86_LAYOUT}"
target triple = "x86_64-unknown-linux-gnu"
@text = constant [7 x i8] c"asm fp8"
declare ptr @rattle_alloc(i64, i64)
declare i64 @llvm.umin.i64(i64, i64) #1
define i32 @illcanon_frame(ptr %x) #0 {{
  ret i32 0
}}
attributes #0 = {{ nounwind memory(read) "probe-stack"="inline-asm" "target-cpu"="x86-64" }}
attributes #1 = {{ nosync nounwind willreturn memory(none) }}
'''


class Retargeting(unittest.TestCase):
    def refused(self, text, word):
        with self.assertRaisesRegex(build_module.Unknown, word):
            build_module.retargeted(text)

    def test_two_lines_and_attributes_are_changed(self):
        made = build_module.retargeted(GOOD)
        self.assertIn(f'target datalayout = "{build_module.LAYOUT}"\ntarget triple = "wasm64-unknown-unknown"\n', made)
        self.assertIn("attributes #0 = { nounwind memory(read) }", made)
        self.assertEqual(len(made.splitlines()), len(GOOD.splitlines()))

    def test_another_layout_or_triple(self):
        self.refused(GOOD.replace("i64:64", "i64:32"), "layout")
        self.refused(GOOD.replace("target triple", "; target triple"), "triple")

    def test_another_attribute(self):
        self.refused(GOOD.replace('"target-cpu"="x86-64"', '"stack-protector-guard"="tls"'), "stack-protector-guard")
        self.refused(GOOD.replace("nosync nounwind", "nosync naked nounwind"), "naked")
        self.refused(GOOD.replace("nosync nounwind", 'nosync "no-jump-tables" nounwind'), "no-jump-tables")

    def test_another_function(self):
        self.refused(GOOD + "declare i32 @puts(ptr)\n", "puts")
        self.refused(GOOD + "declare <4 x i32> @llvm.x86.sse2.x(<4 x i32>)\n", "llvm.x86")

    def test_another_word(self):
        line = "  ret i32 0\n"
        for text in ('  call void asm "nop", ""()\n', "  fence seq_cst\n", "  %y = fpext float 0.0 to x86_fp80\n", "  %y = cmpxchg ptr %x, i32 0, i32 1 seq_cst seq_cst\n"):
            self.refused(GOOD.replace(line, text + line), "word")
        self.refused(GOOD.replace("ptr %x", "ptr addrspace(1) %x"), "addrspace")


class Joining(unittest.TestCase):
    def joined(self, **scripts):
        with tempfile.TemporaryDirectory() as folder:
            for name, text in scripts.items():
                Path(folder, f"{name}.js").write_text(text)
            return build_page.joined(build_page.scripts(Path(folder, "main.js"), []))

    def test_a_script_comes_after_those_that_it_imports(self):
        made = self.joined(main='import { one } from "./low.js";\none();\n', low="export function one() {}\n")
        self.assertEqual(made, "function one() {}\none();\n")

    def test_a_name_is_declared_once(self):
        with self.assertRaises(SystemExit):
            self.joined(main='import { one } from "./low.js";\nconst two = 2;\n', low="export function one() {}\nfunction two() {}\n")

    def test_other_imports_and_exports(self):
        for line in ('import * as low from "./low.js";\n', "export default 7;\n", 'export { one } from "./low.js";\n'):
            with self.assertRaises(SystemExit):
                self.joined(main=line, low="export function one() {}\n")


if __name__ == "__main__":
    unittest.main()
