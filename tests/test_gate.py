"""What .ci/run makes of what `rt ci` says; all other steps are the test's own, and pass."""

import os
import shutil
import subprocess
import tempfile
import unittest
from pathlib import Path

REPOSITORY = Path(__file__).resolve().parent.parent
TOOLS = "awk bash cp dirname grep mkdir mktemp rm sed sh tail tee".split()
STEPS = ["tests/reading-copy", "tests/archives", "tests/axioms", "tests/first-command", "tests/checksums"]
COMMANDS = {
    "rt": '[ "$*" = ci ] && [ -e crates.txt ] || exit 7\ncat ../said\nexit $(cat ../status)',
    "cargo": 'if [ "$1" = test ]; then echo "test result: ok. 5 passed; 0 failed; 0 ignored"; fi',
    "python3": 'echo "Ran 2 tests in 0.1s"; echo OK',
    **{name: "" for name in ("cc", "c++", "make", "pkg-config", "man", "openssl")},
}
OK = "rt: ok; handles allowed: none; must-fail edits: 12 refused{}; every proof and must-fail edit was done in this run\n35 passed, 0 failed\n"


class Gate(unittest.TestCase):
    def setUp(self):
        folder = tempfile.TemporaryDirectory()
        self.addCleanup(folder.cleanup)
        self.folder = Path(folder.name)
        self.root, self.path = self.folder / "repository", self.folder / "path"
        for name in ["test", ".ci/run"]:
            (self.root / name).parent.mkdir(parents=True, exist_ok=True)
            shutil.copy(REPOSITORY / name, self.root / name)
        (self.root / "crates.txt").touch()
        for name in STEPS:
            self.program(self.root / name, "")
        self.program(self.root / "proto/test", "echo proto: passed")
        self.path.mkdir()
        for name in [*TOOLS, "cat"]:
            (self.path / name).symlink_to(shutil.which(name))
        for name, text in COMMANDS.items():
            self.program(self.path / name, text)

    def program(self, path, text):
        path.parent.mkdir(parents=True, exist_ok=True)
        path.write_text(f"#!/bin/sh\n{text}\n")
        path.chmod(0o755)

    def last(self, said, status=0):
        """The status, and the last line."""
        (self.folder / "said").write_text(said)
        (self.folder / "status").write_text(str(status))
        done = subprocess.run(
            [self.root / ".ci/run"], capture_output=True, text=True, check=False, env=dict(os.environ, PATH=str(self.path))
        )
        return done.returncode, done.stdout.splitlines()[-1]

    def test_all_that_passed_is_counted(self):
        # 35 of rt ci, 5 of cargo, 2 in each of three folders, and six steps
        self.assertEqual(self.last(OK.format("")), (0, "52 passed, 0 failed"))
        self.assertTrue((self.root / "target/log/ci.say").exists())

    def test_what_fails_in_rt_ci_fails(self):
        self.assertEqual(self.last(OK.format(""), 1), (1, "not passed: rt ci"))
        self.assertEqual(self.last("rt: FAILED: wire\n34 passed, 1 failed\n", 1), (1, "not passed: rt ci"))

    def test_bad_edits_fail(self):
        for bad in (", 3 bad", ", 2 of them only by a limit, 1 bad"):
            status, line = self.last(OK.format(bad))
            self.assertEqual(status, 1)
            self.assertIn("bad must-fail edits", line)
        self.assertEqual(self.last(OK.format(", 2 of them only by a limit"))[0], 0)

    def test_an_end_that_is_another_fails(self):
        self.assertEqual(self.last("35 passed, 0 failed\n")[0], 1)
        self.assertEqual(self.last(OK.format("") + "more\n")[0], 1)
        self.assertEqual(self.last("rt: ok; handles allowed: none\n0 passed, 0 failed\n")[0], 1)

    def test_another_step_that_fails_fails(self):
        for name in STEPS:
            with self.subTest(name):
                self.program(self.root / name, "exit 1")
                status, line = self.last(OK.format(""))
                self.assertEqual(status, 1)
                self.assertTrue(line.startswith(f"not passed: {name}"), line)
                self.program(self.root / name, "")


if __name__ == "__main__":
    unittest.main()
