"""tests/reading-copy on crates made for it: what it lets pass, and what it refuses."""

import importlib.machinery
import importlib.util
import sys
import tempfile
import unittest
from pathlib import Path

sys.dont_write_bytecode = True
HERE = Path(__file__).resolve().parent
LOADER = importlib.machinery.SourceFileLoader("reading_copy", str(HERE / "reading-copy"))
SPEC = importlib.util.spec_from_loader("reading_copy", LOADER)
copy = importlib.util.module_from_spec(SPEC)
LOADER.exec_module(copy)

CLAIMS = "use Rattle.keys.specs.Key.{Key}\n\nabbrev pub Holds : Type 0\nHolds = (key : Key) → key ≡ key\n"
LAWS = "use Rattle.keys.specs.Claims.{Holds}\nuse Rattle.wire.proofs.ListLaws.{Sized}\n\npub holds : Holds\nunfolding Key\nholds key = refl\n"
PAGE = "`Holds`, proved as `holds` of `keys/proofs/KeyLaws.antt`"


class ReadingCopy(unittest.TestCase):
    def faults(self, claims=CLAIMS, laws=LAWS, page=PAGE):
        with tempfile.TemporaryDirectory() as folder:
            crates = Path(folder)
            (crates / "keys/specs").mkdir(parents=True)
            (crates / "keys/proofs").mkdir()
            (crates / "keys/specs/Claims.antt").write_text(claims)
            (crates / "keys/proofs/KeyLaws.antt").write_text(laws)
            return copy.names_hidden(crates) + copy.claims_unproved(crates) + copy.theorems_beyond(crates, page)

    def test_a_claim_that_is_a_theorems_type_passes(self):
        self.assertEqual(self.faults(), [])

    def test_a_claim_that_names_a_proof_is_refused(self):
        for module in ("keys.specs.code.Read", "wire.proofs.ListLaws", "keys.proofs.KeyLaws"):
            with self.subTest(module):
                self.assertEqual(len(self.faults(claims=f"use Rattle.{module}.{{Told}}\n" + CLAIMS)), 1)

    def test_a_claim_that_no_theorem_has_as_its_type_is_refused(self):
        laws = LAWS.replace("pub holds : Holds", "pub holds : (key : Key) → key ≡ key")
        self.assertEqual(self.faults(laws=laws), ["keys/specs/Claims.antt: no theorem has the type Holds"])

    def test_a_theorems_type_that_names_what_proofs_define_is_refused(self):
        own = LAWS.replace("pub holds", "abbrev pub Told : Type 0\nTold = Holds\n\npub all_hold : Holds\nall_hold = holds\n\npub holds").replace("holds : Holds\nunfolding", "holds : Told\nunfolding")
        other = LAWS.replace("pub holds : Holds", "pub all_hold : Holds\nall_hold key = refl\n\npub holds : (bytes : List ℕ)\n    → Sized 3 bytes")
        for laws, name in ((own, "Told"), (other, "Sized")):
            with self.subTest(name):
                self.assertEqual(self.faults(laws=laws), [f"keys/proofs/KeyLaws.antt: the type of holds names {name}"])

    def test_a_theorem_that_a_page_names_and_that_is_not_there_is_refused(self):
        self.assertEqual(self.faults(page="proved as `held`"), ["no theorem is called held"])


if __name__ == "__main__":
    unittest.main()
