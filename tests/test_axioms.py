"""What tests/axioms says of crates, and of logs as rt and ./prove write them."""

import subprocess
import tempfile
import unittest
from pathlib import Path

AXIOMS = Path(__file__).with_name("axioms")
PROVED = "logic=proved functions=1 target=x86_64-unknown-linux-gnu sum=dac8208d650f15bf native=nat,char,string\n"
# What is said of a library below an archive stands before it.
BELOW = PROVED.replace(" target=x86_64-unknown-linux-gnu", "")
ASSUMING = PROVED.replace(" target", " axioms=1 target")


class Axioms(unittest.TestCase):
    def setUp(self):
        folder = tempfile.TemporaryDirectory()
        self.addCleanup(folder.cleanup)
        self.root = Path(folder.name)
        (self.root / "target/log").mkdir(parents=True)

    def crate(self, line, code="", root_file="lib.rt", log=None, ci="proved"):
        """A crate with what ./prove last said of it, and what rt ci did."""
        name = line.split(":")[0].split()[0]
        with (self.root / "crates.txt").open("a") as listed:
            listed.write(f"{line}\n")
        source = self.root / "crates" / name / "src"
        source.mkdir(parents=True)
        (source / root_file).write_text(code)
        with (self.root / "target/log/ci.say").open("a") as said:
            said.write(f"rt: {name} {ci}\n")
        if log is not None:
            (self.root / "target/log" / f"{name}.say").write_text(log)

    def said(self):
        done = subprocess.run([AXIOMS, self.root], capture_output=True, text=True, check=False)
        return done.returncode, done.stdout

    def refused(self, words):
        status, text = self.said()
        self.assertEqual(status, 1)
        self.assertEqual(text.count("\n"), 1, text)
        self.assertIn(words, text)

    def test_libraries_over_each_other_and_a_program_that_assumes(self):
        code = "ghost use Rattle.std.specs.Prelude.{length};\n// std::fs is not named.\nfn f() { std::num::wrapping_add_u64(1, 2); }\n"
        self.crate("wire:  # the bottom", code)
        self.crate("service: wire", "let core = wire::CORE;\n", ci="is kept: an earlier run on this machine proved the same files")
        self.crate("abi staticlib: wire service", log=BELOW + PROVED)
        self.crate("bill: service", "use std::fs::File;\nfn main(rt: HostRuntime) {}\n", "main.rt", log=ASSUMING)
        self.assertEqual(self.said(), (0, "axioms: none below the 3 library crates\n"))

    def test_a_library_that_names_what_reaches_c_functions(self):
        for code in ("use std::fs::File;", "fn f(rt: &HostRuntime) {}", "use core :: ptr;", "use std::{num, io};"):
            with self.subTest(code):
                self.setUp()
                self.crate("wire:", f"{code}\n")
                self.refused(f"wire may rest on contracts that nothing proves: {code}")

    def test_a_library_that_lists_the_kits_io(self):
        self.crate("x: io")
        self.refused("x is over io")

    def test_a_library_above_one_that_lists_the_kits_io(self):
        self.crate("x: io")
        self.crate("  y : x io")
        self.assertIn("y is over io", self.said()[1])

    def test_the_one_library_that_reads_files_for_programs(self):
        self.crate("wire:")
        self.crate("file_input: wire", "use std::fs::File;\n")
        self.crate("bill: file_input", "fn main(rt: HostRuntime) {}\n", "main.rt")
        self.assertEqual(self.said(), (0, "axioms: none below the 1 library crates\n"))
        self.crate("  above : wire file_input")
        self.refused("above is over file_input")

    def test_an_archive_that_counts_axioms(self):
        self.crate("abi staticlib:", log=BELOW + ASSUMING)
        self.refused("abi rests on assumed contracts")

    def test_an_archive_that_was_not_built_or_not_proved(self):
        for log in (None, BELOW + "logic=not-proved\n"):
            with self.subTest(log):
                self.setUp()
                self.crate("abi staticlib:", log=log)
                self.refused("abi: target/log/abi.say does not say that it is proved")

    def test_a_library_that_was_not_checked_or_not_proved(self):
        self.crate("wire:", ci="NOT PROVED")
        self.crate("stream:", ci="NOT PROVED: its library wire failed")
        status, text = self.said()
        self.assertEqual(status, 1)
        self.assertEqual(text.count("does not say that it is proved"), 2)


if __name__ == "__main__":
    unittest.main()
