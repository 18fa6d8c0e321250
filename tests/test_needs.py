"""What the archives need from outside is what the pages say: docs/INTEGRATOR.md, docs/AUDITOR.md."""

import subprocess
import unittest
from pathlib import Path

BUILT = Path(__file__).resolve().parent.parent / "target/staticlib"


def needed(name):
    """The names that an archive leaves to the linker."""
    done = subprocess.run(["nm", "--undefined-only", BUILT / f"lib{name}.a"], capture_output=True, text=True, check=True)
    return {line.split()[1] for line in done.stdout.splitlines() if line.split()[:1] == ["U"]}


class Needs(unittest.TestCase):
    def test_the_service_needs_memcpy_and_memset(self):
        self.assertEqual(needed("abi"), {"memcpy", "memset"})

    def test_the_client_needs_memset(self):
        self.assertEqual(needed("client_abi"), {"memset"})
