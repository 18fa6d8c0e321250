"""bench/against with workers that make up their seconds, and the words that the scripts here take."""

import contextlib
import importlib.machinery
import importlib.util
import io
import subprocess
import sys
import tempfile
import unittest
from pathlib import Path

AGAINST = Path(__file__).with_name("against")
INSTRUCTIONS = Path(__file__).with_name("instructions")
WORKER = """import sys
assert sys.argv[1:] == ["turns"]
for row in {rows!r}:
    print(row)
print(flush=True)
for name in sys.stdin:
    with open({log!r}, "a") as log:
        log.write({side!r} + " " + name)
    print({seconds}, flush=True)
"""


def loaded():
    sys.dont_write_bytecode = True
    loader = importlib.machinery.SourceFileLoader("against", str(AGAINST))
    module = importlib.util.module_from_spec(importlib.util.spec_from_loader("against", loader))
    sys.modules["against"] = module
    loader.exec_module(module)
    return module


class Against(unittest.TestCase):
    def setUp(self):
        folder = tempfile.TemporaryDirectory()
        self.addCleanup(folder.cleanup)
        self.folder = Path(folder.name)
        self.log = self.folder / "log"
        self.against = loaded()

    def worker(self, side, rows, seconds):
        script = self.folder / f"{side}.py"
        script.write_text(WORKER.format(rows=rows, log=str(self.log), side=side, seconds=seconds))
        return [sys.executable, str(script)]

    def compared(self, before_rows, after_rows, rounds=3):
        before = self.worker("before", before_rows, "0.004")
        after = self.worker("after", after_rows, "0.003")
        return list(self.against.compared(before, after, rounds))

    def test_a_row_has_both_times_and_their_ratio(self):
        lines = self.compared(["1a Pings, full"], ["1a Pings, full"])
        self.assertEqual(lines[1].split(), "Pings, full 4.000 3.000 0.75 0.75 to 0.75".split())
        self.assertEqual(len(lines), 2)

    def test_sides_take_turns_and_the_first_round_is_not_counted(self):
        self.compared(["1a Pings"], ["1a Pings"], rounds=2)
        sides = [line.split()[0] for line in self.log.read_text().splitlines()]
        self.assertEqual(sides, ["after", "before", "before", "after", "after", "before"])

    def test_rows_of_one_side_are_named_and_left_out(self):
        lines = self.compared(["1a old", "1b both"], ["1b both", "1c new, full"])
        self.assertEqual([line.split()[0] for line in lines[1:]], ["both", "left", "left"])
        self.assertEqual(lines[2], "left out, before alone has them: old")
        self.assertEqual(lines[3], "left out, after alone has them: new, full")

    def test_a_row_whose_bytes_differ_is_marked(self):
        self.assertTrue(self.compared(["1a Pings"], ["1b Pings"])[1].endswith("its bytes differ"))

    def test_a_worker_that_ends_is_a_failure(self):
        with self.assertRaises(self.against.Failed):
            self.against.Worker([sys.executable, "-c", "pass"])

    def test_a_commit_without_client_has_no_archive_of_it(self):
        with contextlib.redirect_stderr(io.StringIO()) as said:
            self.assertEqual(self.against.archives(self.folder), ["abi", "probe"])
        self.assertEqual(said.getvalue(), "against: there is no client there: its rows are left out\n")
        (self.folder / "bindings/rust-client").mkdir(parents=True)
        self.assertEqual(self.against.archives(self.folder), ["abi", "probe", "client_abi"])

    def test_the_client_is_left_out_of_this_benchmark(self):
        manifest = self.folder / "Cargo.toml"
        before = AGAINST.with_name("Cargo.toml").read_text()
        manifest.write_text(before)
        self.against.leave_client_out(manifest)
        removed = [line for line in before.splitlines() if line not in manifest.read_text().splitlines()]
        self.assertEqual(removed, ['razidkot-client = { path = "../bindings/rust-client" }', 'default = ["client", "signatures"]'])
        with self.assertRaises(self.against.Failed):
            self.against.leave_client_out(manifest)

    def status(self, *words):
        return subprocess.run(words, check=False, capture_output=True).returncode

    def test_words_that_it_does_not_take(self):
        self.assertEqual(self.status(AGAINST, "--help"), 0)
        self.assertEqual(self.status(AGAINST), 2)
        self.assertEqual(self.status(AGAINST, "no-such-commit"), 2)
        self.assertEqual(self.status(AGAINST, "HEAD", "--rounds", "0"), 2)

    def test_help_of_the_counting_script(self):
        self.assertEqual(self.status(INSTRUCTIONS, "--help"), 0)


if __name__ == "__main__":
    unittest.main()
