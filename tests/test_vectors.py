"""The made signatures of tests/vectors are what make.py writes from the kept keys."""

import subprocess
import sys
import unittest
from pathlib import Path

VECTORS = Path(__file__).resolve().parent / "vectors"


class Vectors(unittest.TestCase):
    def test_the_made_files_are_what_make_py_writes(self):
        done = subprocess.run([sys.executable, "-B", VECTORS / "make.py", "--check"], check=False, capture_output=True, text=True)
        self.assertEqual((done.returncode, done.stdout, done.stderr), (0, "", ""))


if __name__ == "__main__":
    unittest.main()
