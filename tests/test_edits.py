"""The must-fail edits, without the prover: each says what it is and fits its crate, and every one that a page names is there."""

import re
import tempfile
import unittest
from pathlib import Path

ROOT = Path(__file__).resolve().parent.parent
NAMED = re.compile(r"\b([a-z0-9_]+)/must-fail/([a-z0-9_]+)\b")


def edits(root):
    return sorted(root.glob("crates/*/must-fail/*.edit"))


def pages(root):
    """All but the landing notes, which tell of edits that were retired since."""
    return sorted([*root.glob("*.md"), *root.glob("docs/*.md")])


def missing(root):
    """The edits that a page names and that are not there."""
    named = {(page.name, *found) for page in pages(root) for found in NAMED.findall(page.read_text())}
    return [f"{page}: {crate}/{edit}" for page, crate, edit in sorted(named) if not (root / f"crates/{crate}/must-fail/{edit}.edit").exists()]


def untold(root):
    """The edits whose first line is no comment that is a sentence: rt check names a line that is neither read nor a comment."""
    return [edit.stem for edit in edits(root) if not re.match(r"# \S.* .*\.\n", edit.read_text())]


def fault(edit):
    """Why rt could not apply the edit; None if it can."""
    crate, texts, file, old = edit.parent.parent, {}, None, None
    for line in edit.read_text().splitlines():
        word, _, rest = line.partition(" ")
        if word == "file:":
            file = rest
            if file not in texts and not (crate / file).is_file():
                return f"there is no {file}"
            texts.setdefault(file, (crate / file).read_text())
        elif word == "old:":
            old = rest
        elif word == "new:":
            count = texts[file].count(old) if file and old else 0
            if count != 1:
                return f"its text stands {count} times in {file}: {old}"
            texts[file], old = texts[file].replace(old, rest), None
    changed = [file for file, text in texts.items() if text != (crate / file).read_text()]
    return None if changed else "it changes nothing"


def unfit(root):
    return [f"{edit.stem}: {fault(edit)}" for edit in edits(root) if fault(edit)]


class Edits(unittest.TestCase):
    def test_every_edit_that_a_page_names_is_there(self):
        self.assertEqual(missing(ROOT), [])

    def test_every_first_line_says_what_the_wrong_program_does(self):
        self.assertEqual(untold(ROOT), [])

    def test_every_text_that_is_replaced_stands_once_in_its_file(self):
        self.assertEqual(unfit(ROOT), [])
        self.assertGreater(len(edits(ROOT)), 90)


class Faults(unittest.TestCase):
    """Each of the three can fail: a scratch repository with one good edit, and one that is not."""

    def setUp(self):
        folder = tempfile.TemporaryDirectory()
        self.addCleanup(folder.cleanup)
        self.root = Path(folder.name)
        self.write("crates/a/src/x.rt", "first: 7\nsecond: 7\n")
        self.write("crates/a/must-fail/good.edit", "# The first is eight.\nfile: src/x.rt\nold: first: 7\nnew: first: 8\n")
        self.write("docs/PAGE.md", "See `a/must-fail/good`.\n")

    def write(self, name, text):
        (self.root / name).parent.mkdir(parents=True, exist_ok=True)
        (self.root / name).write_text(text)

    def edit(self, name, text):
        self.write(f"crates/a/must-fail/{name}.edit", text)

    def test_a_good_one(self):
        self.assertEqual((missing(self.root), untold(self.root), unfit(self.root)), ([], [], []))

    def test_pages_that_name_edits_that_are_gone(self):
        self.write("docs/PAGE.md", "See `a/must-fail/retired` and `a/must-fail/good`.\n")
        self.write("README.md", "See `crates/b/must-fail/good.edit`.\n")
        self.write("docs/landings/01.md", "Then there was `a/must-fail/earlier`.\n")
        self.assertEqual(missing(self.root), ["PAGE.md: a/retired", "README.md: b/good"])

    def test_first_lines_that_say_nothing(self):
        rest = "file: src/x.rt\nold: second: 7\nnew: second: 8\n"
        lines = {
            "bare": "",
            "empty": "\n",
            "word": "# Wrong.\n",
            "unended": "# The second is eight\n",
            "unmarked": "The second is eight.\n",
            "said": "# The second is eight.\n",
        }
        for name, line in lines.items():
            self.edit(name, line + rest)
        self.assertEqual(untold(self.root), ["bare", "empty", "unended", "unmarked", "word"])

    def test_texts_that_stand_nowhere_or_twice(self):
        self.edit("absent", "# It is nine.\nfile: src/x.rt\nold: third: 7\nnew: third: 9\n")
        self.edit("twice", "# It is nine.\nfile: src/x.rt\nold: : 7\nnew: : 9\n")
        self.edit("undone", "# It is nine.\nfile: src/x.rt\nold: first: 7\nnew: 9\nold: 9\nnew: first: 7\n")
        self.edit("astray", "# It is nine.\nfile: src/y.rt\nold: first: 7\nnew: 9\n")
        self.edit("blank", "# It is nine.\n")
        self.assertEqual(
            unfit(self.root),
            [
                "absent: its text stands 0 times in src/x.rt: third: 7",
                "astray: there is no src/y.rt",
                "blank: it changes nothing",
                "twice: its text stands 2 times in src/x.rt: : 7",
                "undone: it changes nothing",
            ],
        )


if __name__ == "__main__":
    unittest.main()
