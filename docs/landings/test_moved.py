"""docs/landings/moved on two commits of tiny crates in a scratch repository."""

import os
import subprocess
import tempfile
import unittest
from pathlib import Path

MOVED = Path(__file__).with_name("moved")
# Nobody's settings, and a name of its own.
ENVIRONMENT = {
    **{name: value for name, value in os.environ.items() if not name.startswith("GIT_")},
    "GIT_CONFIG_GLOBAL": os.devnull,
    "GIT_CONFIG_NOSYSTEM": "1",
    **{f"GIT_{who}_{what}": "test" for who in ("AUTHOR", "COMMITTER") for what in ("NAME", "EMAIL")},
}

NUMBERS = """-- Numbers.
use Prim.Native.Nat.{ℕ, _+_}
use Rattle·wire·specs.specs.Lists.{padded}

-- the first
abbrev pub one : ℕ
one = 1

infixr 10 _plus_
unfoldable pub _plus_ : ℕ → ℕ → ℕ
_plus_ m n = m + n

module _ {A : Type 0} (a : A) where
  -- the same
  unfoldable pub same : (n : ℕ) → A
  same n = a

pub record Pair : Type 0 where
  pub left : ℕ  -- the one
  pub right : ℕ

unfoldable pub pairOf : ℕ → Pair
pairOf n = record { left = n; right = "-- n" }
"""

CODE = """// Adding.
use crate::wide;
ghost use mathlib.Core.Path.{_≡_};
ghost use Rattle·a·specs.specs.Numbers.{one};

pub struct Sum { total: u64 }

// Adds one.
pub fn more(n: u64) -> u64
    requires { ⌜ n < 10 ⌝ }
    ensures { λ r. ⌜ r ≡ n + one ⌝ }
{
    // one more than `fn less`
    if n == b'{' as u64 { n + 1 } else { n + 1 }
}

fn less(n: u64) -> u64
    ensures { λ r. ⌜ r ≡ n ⌝ }
{
    n
}
"""

LAWS = """-- Laws.
use Rattle·a·specs.specs.Numbers.{one}

helper : one ≡ 1
helper = refl

pub one-is : (n : ℕ)
    → one ≡ 1
unfolding one
one-is n = helper

abbrev pub Holds : ℕ → Type 0
Holds n = n ≡ n
"""

# Clauses as today's Rattle has them.
CLAUSES = """ghost use Rattle.a.specs.Numbers.{one};

pub fn most(n: u64) -> u64
    requires* { owned n }
    ensures low { n ≤ result }
    ensures high { result ≤ n + one }
{
    if n == 0 { 1 } else { n }
}
"""

BASE = {
    "crates/a/specs/Numbers.antt": NUMBERS,
    "crates/a/src/lib.rt": CODE,
    "crates/a/proofs/Laws.antt": LAWS,
    "crates/a/proofs/more/Proof.antt": "pub more-spec : Spec\nmore-spec = refl\n",
    "crates/b/specs/Lists.antt": "abbrev pub two : ℕ\ntwo = 2\n",
}


class Moved(unittest.TestCase):
    def setUp(self):
        folder = tempfile.TemporaryDirectory()
        self.addCleanup(folder.cleanup)
        self.root = Path(folder.name)
        self.git("init", "--quiet")
        self.base = self.commit(BASE)

    def git(self, *words):
        options = {"cwd": self.root, "env": ENVIRONMENT, "check": True, "stdout": subprocess.PIPE, "text": True}
        return subprocess.run(["git", *words], **options).stdout.strip()

    def commit(self, files):
        self.git("rm", "-r", "--quiet", "--cached", "--ignore-unmatch", ".")
        for path, text in files.items():
            (self.root / path).parent.mkdir(parents=True, exist_ok=True)
            (self.root / path).write_text(text)
        self.git("add", "--", *files)
        self.git("commit", "--quiet", "--allow-empty", "-m", "files")
        return self.git("rev-parse", "HEAD")

    def said(self, changes):
        """What is printed of the base and of its files with these changes; one that is None is removed."""
        files = {path: text for path, text in {**BASE, **changes}.items() if text is not None}
        new = self.commit(files)
        options = {"cwd": self.root / "crates", "env": ENVIRONMENT, "check": True, "stdout": subprocess.PIPE, "text": True}
        return subprocess.run([MOVED, self.base, new], **options).stdout

    def edited(self, path, *replacements):
        text = BASE[path]
        for old, new in replacements:
            self.assertIn(old, text)
            text = text.replace(old, new)
        return {path: text}

    def numbers(self, *replacements):
        return self.said(self.edited("crates/a/specs/Numbers.antt", *replacements))

    def code(self, *replacements):
        return self.said(self.edited("crates/a/src/lib.rt", *replacements))

    def laws(self, *replacements):
        return self.said(self.edited("crates/a/proofs/Laws.antt", *replacements))

    def test_clauses_with_names_and_a_star(self):
        files = lambda text: {"crates/a/src/lib.rt": text, "crates/a/proofs/most/Answers.antt": "returns c = search rules\n"}
        self.base = self.commit({**BASE, **files(CLAUSES)})
        self.assertIn("nothing moved: a, b\n", self.said(files(CLAUSES.replace("{ n }", "{ n + 0 }"))))
        for clause in ("owned n", "n ≤ result", "result ≤ n + one"):
            text = self.said(files(CLAUSES.replace(clause, f"{clause} + 0")))
            self.assertIn("public contracts  0 added, 1 changed, 0 removed, 0 unchanged\n    changed: most\n", text)
        self.assertIn("laws              0 added, 0 changed, 0 removed, 2 unchanged\n", text)
        self.assertIn("nothing moved: a, b\n", self.said(files(CLAUSES.replace("Rattle.a.specs.Numbers", "Rattle.b.specs.Numbers"))))

    def test_nothing(self):
        text = self.said({})
        self.assertIn("nothing moved: a, b\n", text)
        self.assertIn("reading copy      0 added, 0 changed, 0 removed, 6 unchanged\n", text)
        self.assertIn("public contracts  0 added, 0 changed, 0 removed, 1 unchanged\n", text)
        self.assertIn("other contracts   0 added, 0 changed, 0 removed, 1 unchanged\n", text)
        self.assertIn("laws              0 added, 0 changed, 0 removed, 2 unchanged\n", text)

    def test_comments_imports_and_layout_are_no_part_of_a_definition(self):
        text = self.numbers(
            ("-- the first", "-- the first number {- of all -}"),
            ("Rattle·wire·specs.specs.Lists.{padded}", "Rattle·lists.specs.Lists.{padded, put}"),
            ("pub left : ℕ  -- the one", "pub left :\n      ℕ"),
            ("record { left = n; right = \"-- n\" }", "record {\n  left = n;\n  right = \"-- n\";\n}"),
        )
        self.assertIn("nothing moved: a, b\n", text)

    def test_changed_equations_signatures_and_fields(self):
        text = self.numbers(
            ("one = 1", "one = 2"), ("(n : ℕ) → A", "(m : ℕ) → A"), ("pub right", "pub second"), ("-- n\" }", "-- m\" }")
        )
        self.assertIn("reading copy      0 added, 4 changed, 0 removed, 1 unchanged\n", text)
        self.assertIn("    changed: Numbers.Pair, Numbers.one, Numbers.pairOf, Numbers.same\n", text)
        self.assertIn("nothing moved: b\n", text)

    def test_spaces_in_a_text_count(self):
        self.assertIn("    changed: Numbers.pairOf\n", self.numbers(("\"-- n\"", "\"--  n\"")))

    def test_parameters_of_the_module_and_fixities_count(self):
        text = self.numbers(("(a : A) where", "(b : A) where"), ("infixr 10", "infixl 10"))
        self.assertIn("    changed: Numbers._plus_, Numbers.same\n", text)

    def test_added_and_removed(self):
        text = self.numbers(("abbrev pub one : ℕ\none = 1\n", "abbrev pub three : ℕ\nthree = 3\n"))
        self.assertIn("reading copy      1 added, 0 changed, 1 removed, 4 unchanged\n", text)
        self.assertIn("    added: Numbers.three\n    removed: Numbers.one\n", text)

    def test_moved_to_another_crate(self):
        two = "-- It stands here.\n" + BASE["crates/b/specs/Lists.antt"]
        text = self.said({"crates/b/specs/Lists.antt": None, "crates/c/specs/Two.antt": two})
        self.assertIn("    moved b/specs/Lists.antt → c/specs/Two.antt: two\n", text)
        self.assertIn("b\n  moved away: 1 to c\n", text)
        self.assertIn("reading copy      0 added, 0 changed, 0 removed, 6 unchanged, 1 of these moved\n", text)

    def test_changed_and_moved(self):
        text = self.said({"crates/b/specs/Lists.antt": None, "crates/c/specs/Two.antt": "abbrev pub two : ℕ\ntwo = 1 + 1\n"})
        self.assertIn("    changed and moved b/specs/Lists.antt → c/specs/Two.antt: two\n", text)
        self.assertIn("reading copy      0 added, 1 changed, 0 removed, 5 unchanged\n", text)

    def test_files_outside_the_reading_copy(self):
        two = BASE["crates/b/specs/Lists.antt"]
        folder = self.said({"crates/b/specs/Lists.antt": None, "crates/b/specs/code/Lists.antt": two})
        self.assertIn("moved b/specs/Lists.antt → b/specs/code/Lists.antt (reading copy → other specs): two\n", folder)
        words = self.said({"crates/b/specs/Lists.antt": "-- Lists. No part of the\n-- reading copy.\n" + two})
        self.assertIn("    moved (reading copy → other specs): two\n", words)
        self.assertIn("other specs       0 added, 0 changed, 0 removed, 1 unchanged, 1 of these moved\n", words)

    def test_a_body_is_no_part_of_a_contract(self):
        text = self.code(
            ("{ n + 1 } else", "{ 11 } else"),
            ("// Adds one.", "// Adds."),
            ("    n\n", "    n + 0\n"),
            ("more(n: u64)", "more(\n    n: u64,\n)"),
            ("{ total: u64 }", "{\n    total: u64,\n}"),
        )
        self.assertIn("nothing moved: a, b\n", text)

    def test_changed_contracts_and_types(self):
        text = self.code(("n < 10", "n < 11"), ("r ≡ n ⌝", "r ≡ 0 ⌝"), ("total: u64", "total: u32"))
        self.assertIn("  public contracts  0 added, 1 changed, 0 removed, 0 unchanged\n    changed: more\n", text)
        self.assertIn("  other contracts   0 added, 1 changed, 0 removed, 0 unchanged\n    changed: less\n", text)
        self.assertIn("  types             0 added, 1 changed, 0 removed, 0 unchanged\n    changed: Sum\n", text)

    def test_texts_that_changed_are_printed_where_they_are_asked_for(self):
        new = self.commit({**BASE, **self.edited("crates/a/specs/Numbers.antt", ("one = 1", "one = 2"))})
        options = {"cwd": self.root, "env": ENVIRONMENT, "check": True, "stdout": subprocess.PIPE, "text": True}
        text = subprocess.run([MOVED, "--texts", self.base, new], **options).stdout
        self.assertIn("      - abbrev pub one : ℕ one = 1\n      + abbrev pub one : ℕ one = 2\n", text)

    def test_a_function_that_becomes_public(self):
        text = self.code(("fn less(", "pub fn less("))
        self.assertIn("    moved (other contracts → public contracts): less\n", text)

    def test_methods_and_exports(self):
        whole = 'impl Sum {\n    fn less(self) -> u64 { 1 }\n}\n#[no_mangle]\npub extern "C" fn less_still(n: u64) -> u64 { n }\n'
        text = self.said({**self.edited("crates/a/src/lib.rt", ("// Adding.", "pub mod sums;")), "crates/a/src/sums.rt": whole})
        self.assertIn("  public contracts  1 added, 0 changed, 0 removed, 1 unchanged\n    added: sums::less_still\n", text)
        self.assertIn("    added: sums::Sum::less\n", text)

    def test_functions_of_a_private_module_are_not_public(self):
        root = self.edited("crates/a/src/lib.rt", ("// Adding.", "mod deep;"))
        text = self.said({**root, "crates/a/src/deep.rt": "pub fn f() {}\n"})
        self.assertIn("  other contracts   1 added, 0 changed, 0 removed, 1 unchanged\n    added: deep::f\n", text)

    def test_a_proof_is_lines_and_a_statement_is_not(self):
        proof = self.laws(("one-is n = helper", "one-is n =\n    helper"), ("helper = refl", "helper = sym refl"))
        self.assertIn("a\n  proof lines       3 added, 2 removed\n", proof)
        statement = self.laws(("→ one ≡ 1", "→ one ≡ one"), ("n ≡ n", "n ≡ 0"))
        self.assertIn("  laws              0 added, 2 changed, 0 removed, 0 unchanged\n", statement)
        self.assertIn("    changed: Laws.Holds, Laws.one-is\n", statement)

    def test_a_file_of_proofs_that_moved_has_no_changed_lines(self):
        text = self.said({"crates/a/proofs/Laws.antt": None, "crates/b/proofs/Laws.antt": LAWS})
        self.assertIn("    moved a/proofs/Laws.antt → b/proofs/Laws.antt: Holds, one-is\n", text)
        self.assertIn("all crates\n", text)
        self.assertIn("  proof lines       0 added, 0 removed\n", text)

    def test_what_is_no_commit_is_refused(self):
        done = subprocess.run([MOVED, "no-commit"], cwd=self.root, env=ENVIRONMENT, check=False, capture_output=True)
        self.assertEqual(done.returncode, 2)


if __name__ == "__main__":
    unittest.main()
