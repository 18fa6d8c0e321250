"""What prove, bill and tests/checksums print and return, over an rt and a cargo of the test's own."""

import os
import shutil
import subprocess
import tempfile
import unittest
from pathlib import Path

REPOSITORY = Path(__file__).resolve().parent.parent
# All that the scripts run; no rt and no cargo but the test's own.
TOOLS = "awk bash cat cmp cp dirname find grep ls mkdir mktemp mv rm sed sh sha256sum sort tee xargs".split()
# Of a program all that rt says is on standard error.
PROVES = """
if [ "$*" = version ]; then echo kit 5 logic 09; exit; fi
[ "$1" = lib ] || exec 3>&1 >&2
echo "rt: chose --jobs 2 for wire"
echo "fn wire::bytes::clear: proved"
echo "logic=proved functions=1 sum=09"
echo "a note" >&2
"""
# rt runs a program that it has built, and ends with that program's status.
RUNS = PROVES + """
[ "$*" = run ] || exit 1
echo "rt: nothing has changed since the last proved build, by out/bill.stamp, so nothing is checked now" >&2
echo "rt: running out/bill; to give it other input, run that file yourself" >&2
[ "$(cat)" = "" ] || exit 1
echo "usage: bill" >&3
exit 2
"""
WRITES = """
[ "$*" = lib ] && [ "${PWD%/crates/abi}" != "$PWD" ] || exit 2
echo "rt: chose --jobs 2 for abi"
echo "logic=proved functions=2 sum=09"
mkdir -p out && echo archive >out/libabi.a
"""
LINES = "wire proved\nbill proved (unchanged since it was last proved)\ntarget/bin/bill written\n"
UNCHANGED = "bill proved (unchanged since it was last proved)\nabi proved (unchanged since it was last proved)\n"
FAILS = PROVES + 'echo "fn service::call: not proved"\nexit 3\n'


class Commands(unittest.TestCase):
    """A folder with the scripts, and one with all the programs that they can run."""

    def setUp(self):
        folder = tempfile.TemporaryDirectory()
        self.addCleanup(folder.cleanup)
        self.root = Path(folder.name) / "repository"
        self.path = Path(folder.name) / "path"
        for name in ["prove", "bill", "tests/checksums"]:
            copy = self.root / name
            copy.parent.mkdir(parents=True, exist_ok=True)
            shutil.copy(REPOSITORY / name, copy)
        self.path.mkdir()
        for name in TOOLS:
            (self.path / name).symlink_to(shutil.which(name))

    def program(self, path, text):
        path.parent.mkdir(parents=True, exist_ok=True)
        path.write_text(f"#!/bin/sh\n{text}\n")
        path.chmod(0o755)

    def on_path(self, name, text):
        self.program(self.path / name, text)

    def run_script(self, name, *words):
        environment = dict(os.environ, PATH=str(self.path))
        command = [self.root / name, *words]
        done = subprocess.run(command, capture_output=True, text=True, check=False, env=environment)
        return done.returncode, done.stdout, done.stderr


class Prove(Commands):
    def setUp(self):
        super().setUp()
        names = ["src/main.rt", "out/bill", "proofs/main/Answers.antt"]
        for name in ["crates.txt", *(f"crates/bill/{it}" for it in names), "crates/abi/src/lib.rt", "crates/wire/src/lib.rt"]:
            file = self.root / name
            file.parent.mkdir(parents=True, exist_ok=True)
            file.write_text(name)

    def test_a_short_line_for_each_crate_and_nothing_on_standard_output(self):
        self.on_path("rt", RUNS)
        self.assertEqual(self.run_script("prove", "bill"), (0, "", LINES))
        self.assertEqual((self.root / "target/bin/bill").read_text(), "crates/bill/out/bill")

    def test_the_words_are_rts(self):
        self.on_path("rt", PROVES + WRITES)
        said = "wire proved\nabi proved\ntarget/staticlib/libabi.a written\n"
        self.assertEqual(self.run_script("prove", "abi"), (0, "", said))
        self.assertEqual((self.root / "target/staticlib/libabi.a").read_text(), "archive\n")
        self.assertEqual((self.root / "target/log/abi.say").read_text().count("logic=proved"), 2)

    def test_crates_one_after_the_other(self):
        self.on_path("rt", f'if [ "$1" = run ]; then {RUNS} fi\n{PROVES}{WRITES}')
        status, out, err = self.run_script("prove", "bill", "abi")
        self.assertEqual((status, out), (0, ""))
        self.assertEqual(err, LINES + "wire proved\nabi proved\ntarget/staticlib/libabi.a written\n")

    def built(self):
        """Both are proved; after that rt fails."""
        self.on_path("rt", f'if [ "$1" = run ]; then {RUNS} fi\n{PROVES}{WRITES}')
        self.assertEqual(self.run_script("prove", "bill", "abi")[:2], (0, ""))
        self.on_path("rt", FAILS)

    def test_what_has_not_changed_is_left_alone(self):
        self.built()
        self.assertEqual(self.run_script("prove", "bill", "abi"), (0, "", UNCHANGED))

    def test_any_change_is_proved(self):
        for name in ["crates.txt", "crates/wire/src/lib.rt", "crates/wire/specs/new.antt", "crates/bill/proofs/main/Answers.antt", "target/bin/bill"]:
            with self.subTest(name):
                self.built()
                (self.root / name).parent.mkdir(exist_ok=True)
                (self.root / name).write_text("changed")
                self.assertEqual(self.run_script("prove", "bill")[0], 3)
        self.built()
        (self.root / "crates/bill/proofs/main/Answers.antt").unlink()
        self.assertEqual(self.run_script("prove", "bill")[0], 3)
        self.built()
        (self.root / "target/staticlib/libabi.a").unlink()
        self.assertEqual(self.run_script("prove", "abi")[0], 3)
        self.built()
        self.on_path("rt", FAILS.replace("kit 5", "kit 6"))
        self.assertEqual(self.run_script("prove", "abi")[0], 3)

    def test_what_failed_is_tried_again(self):
        self.built()
        (self.root / "crates.txt").write_text("changed")
        self.assertEqual(self.run_script("prove", "bill")[0], 3)
        (self.root / "crates.txt").write_text("crates.txt")
        self.assertEqual(self.run_script("prove", "bill")[0], 3)

    def test_what_another_command_has_built_is_noted(self):
        self.built()
        (self.root / "crates.txt").write_text("changed")
        self.assertEqual(self.run_script("prove", "--record", "bill", "abi"), (0, "", ""))
        self.assertEqual(self.run_script("prove", "bill", "abi"), (0, "", UNCHANGED))
        (self.root / "target/bin/bill").unlink()
        self.assertEqual(self.run_script("prove", "--record", "bill")[0], 2)

    def test_a_library_leaves_no_file(self):
        self.on_path("rt", PROVES)
        self.assertEqual(self.run_script("prove", "wire"), (0, "", "wire proved\n"))
        self.assertFalse((self.root / "target/staticlib").exists())

    def test_all_of_it_when_it_fails(self):
        self.on_path("rt", FAILS)
        for crate in ["bill", "abi"]:
            status, out, err = self.run_script("prove", crate)
            self.assertEqual((status, out), (3, ""))
            self.assertTrue(err.startswith("wire proved\nrt: chose"), err)
            for line in ["fn wire::bytes::clear: proved\n", "a note\n", "fn service::call: not proved\n"]:
                self.assertIn(line, err)
            self.assertFalse((self.root / "target/staticlib").exists() or (self.root / "target/bin").exists())

    def test_no_toolchain(self):
        status, out, err = self.run_script("prove", "bill")
        self.assertEqual((status, out), (2, ""))
        self.assertIn("rt, is not on the path", err)

    def test_no_such_crate(self):
        self.on_path("rt", PROVES)
        status, out, err = self.run_script("prove", "service")
        self.assertEqual((status, out, err), (2, "", "prove: there is no crate service\n"))
        self.assertEqual(self.run_script("prove")[0], 2)


class Bill(Commands):
    def setUp(self):
        super().setUp()
        (self.root / "crates/bill/src").mkdir(parents=True)
        (self.root / "crates/bill/src/main.rt").touch()
        (self.root / "crates.txt").touch()
        self.program(self.root / "crates/bill/out/bill", 'echo "taken 1 of $1, $2 and $3"')

    def test_the_programs_output_alone(self):
        self.on_path("rt", RUNS)
        status, out, err = self.run_script("bill", "a roster", "stream", "list")
        self.assertEqual((status, out), (0, "taken 1 of a roster, stream and list\n"))
        self.assertTrue(err.endswith(LINES), err)

    def test_a_program_that_is_not_proved_is_not_run(self):
        self.on_path("rt", FAILS)
        status, out, err = self.run_script("bill", "roster", "stream", "list")
        self.assertEqual((status, out), (3, ""))
        self.assertIn("fn service::call: not proved", err)

    def test_anything_but_three_files_is_bad_usage(self):
        self.on_path("rt", PROVES)
        files = ["roster", "stream", "list", "more"]
        for words in [[], files[:1], files[:2], files, ["--unproved", *files[:2]]]:
            status, out, err = self.run_script("bill", *words)
            self.assertEqual((status, out), (2, ""))
            self.assertTrue(err.startswith("usage: "), err)


class Unproved(Commands):
    """rt try runs on copies of the files that it is handed."""

    def setUp(self):
        super().setUp()
        (self.root / "crates/bill").mkdir(parents=True)
        (self.root / "roster").write_text("names")
        (self.root / "shipped").write_text("keys")
        self.files = [self.root / "roster", self.root / "no-stream", self.root / "shipped"]
        self.on_path("cargo", "echo taken 0")

    def said(self, rt=None):
        if rt is not None:
            self.on_path("rt", rt)
        return self.run_script("bill", "--unproved", *self.files)

    def test_the_second_programs_bill_that_the_tried_program_prints_too(self):
        words = 'try --data roster=$r --data list=$l -- roster stream list'
        takes = f'r=${{3#roster=}} l=${{5#list=}}; [ "$*" = "{words}" ] && [ "$(cat $r $l)" = nameskeys ]'
        where = '[ "${PWD%/crates/bill}" != "$PWD" ]'
        status, out, err = self.said(f"{takes} && {where} && echo taken 0 && echo run=ended >&2")
        self.assertEqual((status, out), (0, "taken 0\n"))
        self.assertIn("NOT PROVED: this is the bill of the second program", err)
        self.assertIn("compiled here without proof, prints the same", err)
        self.assertEqual(list((self.root / "crates/bill").iterdir()), [])

    def test_a_tried_program_that_prints_another_bill(self):
        status, out, err = self.said("echo taken 1")
        self.assertEqual((status, out), (1, ""))
        self.assertIn("taken 1\ntaken 0\n", err)
        self.assertIn("does not print the same", err)

    def test_programs_that_differ_print_no_bill(self):
        status, out, err = self.said("echo taken 0; echo FAIL: at byte 0 >&2; exit 1")
        self.assertEqual((status, out), (1, ""))
        self.assertIn("FAIL: at byte 0", err)
        self.assertIn("does not print the same", err)

    def test_without_rt_the_second_program_is_alone(self):
        status, out, err = self.said()
        self.assertEqual((status, out), (0, "taken 0\n"))
        self.assertIn("no other program was compared", err)
        self.assertIn("NOT PROVED", err)

    def test_a_second_program_that_does_not_build(self):
        self.on_path("cargo", "echo no such crate >&2; exit 101")
        self.assertEqual(self.said("true"), (101, "", "no such crate\n"))


class Checksums(Commands):
    def setUp(self):
        super().setUp()
        for name in ["staticlib/libabi.a", "staticlib/libclient_abi.a", "bin/bill", "bin/audit_program"]:
            file = self.root / "target" / name
            file.parent.mkdir(parents=True, exist_ok=True)
            file.write_text("abc")
        (self.root / "README.md").write_text("# Name\n\nThe toolchain: `kit 5 logic 09`, it says.\n")

    def test_a_line_for_each_file_and_the_toolchain(self):
        self.on_path("rt", "echo kit 5 logic 09")
        status, out, _ = self.run_script("tests/checksums")
        sum_of_abc = "ba7816bf8f01cfea414140de5dae2223b00361a396177a9cb410ff61f20015ad"
        files = ["staticlib/libabi.a", "staticlib/libclient_abi.a", "bin/bill", "bin/audit_program"]
        lines = [f"{sum_of_abc}  target/{name}" for name in files] + ["checksums: built by kit 5 logic 09"]
        self.assertEqual((status, out.splitlines()), (0, lines))

    def test_another_toolchain_is_said(self):
        self.on_path("rt", "echo kit 6 logic 0a")
        status, out, _ = self.run_script("tests/checksums")
        self.assertEqual(status, 0)
        self.assertIn("README's toolchain is another, kit 5 logic 09,", out)

    def test_a_file_that_is_missing_fails(self):
        self.on_path("rt", "echo kit 5 logic 09")
        (self.root / "target/bin/bill").unlink()
        self.assertNotEqual(self.run_script("tests/checksums")[0], 0)

    def test_a_readme_without_a_toolchain_fails(self):
        self.on_path("rt", "echo kit 5 logic 09")
        (self.root / "README.md").write_text("# Name\n")
        self.assertEqual(self.run_script("tests/checksums")[0], 1)


if __name__ == "__main__":
    unittest.main()
