"""What tests/stack says of the archives as they are, and of small ones made here."""

import subprocess
import tempfile
import unittest
from pathlib import Path

STACK = Path(__file__).with_name("stack")


def said_of(*archives):
    done = subprocess.run([STACK, *archives], capture_output=True, text=True, check=False)
    return done.returncode, done.stdout


class Built(unittest.TestCase):
    def test_no_frame_of_the_archives_is_above_16_kib(self):
        status, text = said_of()
        self.assertEqual(status, 0, text)
        self.assertRegex(text, r"libprobe\.a: .*\(razidkot_probe_verify\)")


class Made(unittest.TestCase):
    def said(self, *functions):
        """The answer on an archive of functions, each a name and its instructions."""
        with tempfile.TemporaryDirectory() as folder:
            source, made = Path(folder) / "made.s", Path(folder) / "made.o"
            lines = []
            for name, *steps in functions:
                lines += [f'.section ".text.{name}","ax"', f'.globl "{name}"', f'"{name}":', *steps, "ret"]
            source.write_text("\n".join(lines) + "\n")
            subprocess.run(["cc", "-c", source, "-o", made], check=True)
            return said_of(made)

    def test_what_is_pushed_and_taken_and_used_below(self):
        taken = ["push %rbx", "sub $0x20,%rsp", "mov %rax,-0x18(%rsp)", "add $0x20,%rsp", "pop %rbx"]
        status, text = self.said(["leaf", *taken])
        self.assertEqual(status, 0)
        self.assertIn(f"the largest frame has {8 + 32 + 24} bytes (leaf)", text)
        self.assertIn(f"the deepest call takes {8 + 8 + 32 + 24} (leaf)", text)

    def test_taken_by_adding_a_negative_number(self):
        self.assertIn("has 128 bytes (f)", self.said(["f", "add $-128,%rsp", "sub $-128,%rsp"])[1])

    def test_a_way_through_calls(self):
        inner = ["inner", "sub $0x100,%rsp", "call memcpy", "add $0x100,%rsp"]
        outer = ["outer", "push %rbx", "call inner", "pop %rbx"]
        status, text = self.said(inner, outer)
        self.assertEqual(status, 0)
        self.assertIn(f"the deepest call takes {16 + 8 + 256 + 8} (outer); outside: memcpy", text)

    def test_a_frame_of_16_kib_and_one_above(self):
        self.assertEqual(self.said(["f", "sub $0x4000,%rsp", "add $0x4000,%rsp"])[0], 0)
        status, text = self.said(["f", "sub $0x4008,%rsp", "add $0x4008,%rsp"])
        self.assertEqual(status, 1)
        self.assertIn("a frame may have 16,384 bytes", text)

    def test_a_frame_of_any_size_is_unreadable(self):
        status, text = self.said(["f", "sub %rax,%rsp"])
        self.assertEqual(status, 1)
        self.assertIn("sub %rax,%rsp", text)

    def test_a_function_that_calls_itself_is_unreadable(self):
        status, text = self.said(["f", "call f"])
        self.assertEqual(status, 1)
        self.assertIn("f calls itself", text)

    def test_no_archive(self):
        status, text = said_of("nowhere.a")
        self.assertEqual(status, 1)
        self.assertIn("nowhere.a is missing", text)


if __name__ == "__main__":
    unittest.main()
