"""docs/landings/times on two commits of a scratch repository, over a prover of the test's own."""

import re
import subprocess
import tempfile
import unittest
from pathlib import Path

from test_moved import ENVIRONMENT

TIMES = Path(__file__).with_name("times")
# A prover that writes down what it proves and in which clone, wants what is below proved, and refuses what says `wrong`.
RATTLE = """#!/bin/sh
[ "$2" = --crate-name ] && [ "$4" = src/lib.rt ] || exit 2
name=$3 made= kind=$1 jobs=
while [ $# != 0 ]; do
  case $1 in
  --extern) [ -d "${2#*=}" ] || exit 2 ;;
  --jobs) jobs=$2 ;;
  --crate-type) kind=$kind-$2 ;;
  -o) made=$2 ;;
  esac
  shift
done
echo "$(basename "$(cd ../.. && pwd)") $name jobs $jobs" >>"$PROVED"
if grep -q wrong src/lib.rt; then echo "$name NOT PROVED"; exit 1; fi
case $name-$kind in
high-check-staticlib) [ -z "$made" ] ;;
high-* | *-check*) exit 2 ;;
*) mkdir -p "$made" ;;
esac
"""
BASE = {
    "crates.txt": "# From the bottom.\nlow:\nbeside: json\ngone: low\nhigh staticlib: low beside  # the last\n",
    **{f"crates/{crate}/src/lib.rt": f"{crate}\n" for crate in ("low", "beside", "gone", "high")},
}
NEW = {
    **{path: text for path, text in BASE.items() if "gone" not in path},
    "crates.txt": "low:\nbeside: json\nhigh staticlib: low beside\ntop: low\n",
    "crates/low/src/lib.rt": "lower\n",
    "crates/beside/must-fail/x.edit": "Not looked at by a check.\n",
    "crates/top/src/lib.rt": "top\n",
}


class Times(unittest.TestCase):
    def setUp(self):
        folder = tempfile.TemporaryDirectory()
        self.addCleanup(folder.cleanup)
        self.root = Path(folder.name) / "repository"
        self.log = Path(folder.name) / "proved"
        path = Path(folder.name) / "path"
        path.mkdir()
        for library in ("std", "json"):
            (Path(folder.name) / "kit/rlibs" / f"{library}.rlib").mkdir(parents=True)
        for name, text in (("rattle", RATTLE), ("rt", f"#!/bin/sh\n[ $* = doc ] && echo {folder.name}/kit/START-HERE.md\n")):
            (path / name).write_text(text)
            (path / name).chmod(0o755)
        self.environment = {**ENVIRONMENT, "PATH": f"{path}:{ENVIRONMENT['PATH']}", "PROVED": str(self.log)}
        subprocess.run(["git", "init", "--quiet", self.root], env=ENVIRONMENT, check=True)
        self.base, self.new = self.commit(BASE), self.commit(NEW)

    def git(self, *words):
        options = {"cwd": self.root, "env": ENVIRONMENT, "check": True, "stdout": subprocess.PIPE, "text": True}
        return subprocess.run(["git", *words], **options).stdout.strip()

    def commit(self, files):
        self.git("rm", "-r", "--quiet", "--ignore-unmatch", ".")
        for path, text in files.items():
            (self.root / path).parent.mkdir(parents=True, exist_ok=True)
            (self.root / path).write_text(text)
        self.git("add", ".")
        self.git("commit", "--quiet", "-m", "a commit")
        return self.git("rev-parse", "HEAD")

    def said(self, *words):
        """The status, the rows without their seconds, and what was proved."""
        done = subprocess.run([TIMES, *words], cwd=self.root, env=self.environment, check=False, capture_output=True, text=True)
        rows = re.sub(r"\d+\.\d", "s", done.stdout).splitlines()[2:]
        proved = self.log.read_text().splitlines() if self.log.exists() else []
        return done.returncode, rows, [line.removesuffix(" jobs 1") for line in proved]

    def test_crate_by_crate_and_by_turns(self):
        status, rows, proved = self.said(self.base)
        self.assertEqual(status, 0)
        both = [f"| {crate} | s | s |" for crate in ("low", "beside", "high")]
        self.assertEqual(rows, [*both, "| top | – | s |", "| gone | s | – |", "| together | s | s |"])
        self.assertEqual(proved, [f"{side} {crate}" for crate in ("low", "beside", "high") for side in ("base", "new")] + ["new top", "base gone"])

    def test_what_is_the_same_with_all_below_it_is_proved_once(self):
        status, rows, proved = self.said("--same-once", self.base, self.new)
        self.assertEqual((status, rows[1]), (0, "| beside | s | s |"))
        self.assertEqual(proved, ["base low", "new low", "base beside", "base high", "new high", "new top", "base gone"])

    def test_some_crates_over_what_is_below_them(self):
        status, rows, proved = self.said("--crates", "high", self.base)
        self.assertEqual((status, rows), (0, ["| high | s | s |", "| together | s | s |"]))
        self.assertEqual(proved, [f"{side} {crate}" for side in ("base", "new") for crate in ("low", "beside", "high")])

    def test_a_crate_that_is_not_proved_is_said_and_not_timed(self):
        wrong = self.commit({**NEW, "crates/low/src/lib.rt": "wrong\n"})
        done = subprocess.run([TIMES, self.base, wrong], cwd=self.root, env=self.environment, check=False, capture_output=True, text=True)
        self.assertEqual((done.returncode, done.stderr), (1, "low NOT PROVED\n"))
        self.assertNotIn("low", done.stdout)

    def test_what_is_no_commit_or_no_crate_is_refused(self):
        self.assertEqual(self.said("no-commit")[0], 2)
        self.assertEqual(self.said("--crates", "none", self.base)[0], 1)


if __name__ == "__main__":
    unittest.main()
