"""AUDITOR's table of the reading copy has every file of it once, with its lines, and the sentence above it counts them.

    tests/test_auditor.py --write    puts the numbers in
"""

import re
import sys
import unittest
from pathlib import Path

TOP = Path(__file__).resolve().parent.parent
PAGE = TOP / "docs/AUDITOR.md"
ROW = re.compile(r"^\| (`[a-z_]+/specs/[^|]*) \| ([\d, ]+) \|", re.MULTILINE)
TOTAL = re.compile(r"(lists them: )[\d,]+( files, )[\d,]+( lines, of which )[\d,]+( are blank or name what is used\.)")


def reading_copy():
    """The files that an auditor reads."""
    files = (path.relative_to(TOP / "crates") for path in TOP.glob("crates/*/specs/*.antt"))
    return {path for path in files if path.name not in ("Lib.antt", "code.antt") and path.parts[0] != "probe"}


def lines(path):
    return (TOP / "crates" / path).read_text().splitlines()


def files_of(cell):
    """The files that a row names; one without a folder is in that of the file before it."""
    folder = None
    for name in re.findall(r"`([^`]+)`", cell):
        path = Path(name) if "/" in name else folder / name
        folder = path.parent
        yield path


def counted(text):
    """The page with its numbers as they are now."""
    text = ROW.sub(lambda row: f"| {row[1]} | {', '.join(str(len(lines(path))) for path in files_of(row[1]))} |", text)
    every = [line for path in reading_copy() for line in lines(path)]
    thin = [line for line in every if line == "" or line.startswith(("use ", "pub use "))]
    total = rf"\g<1>{len(reading_copy())}\g<2>{len(every):,}\g<3>{len(thin):,}\g<4>"
    return TOTAL.sub(total, text)


class Auditor(unittest.TestCase):
    def test_every_file_of_the_reading_copy_stands_in_the_table_once(self):
        named = [path for row in ROW.finditer(PAGE.read_text()) for path in files_of(row[1])]
        self.assertEqual(sorted(named), sorted(reading_copy()))

    def test_the_numbers_are_right(self):
        text = PAGE.read_text()
        self.assertEqual(len(TOTAL.findall(text)), 1)
        self.assertEqual(text, counted(text), "tests/test_auditor.py --write puts the numbers in")


if __name__ == "__main__":
    if sys.argv[1:] == ["--write"]:
        PAGE.write_text(counted(PAGE.read_text()))
    else:
        unittest.main()
