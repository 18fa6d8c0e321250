"""What `rt ci` calls the prover with for one crate, from nothing, over libraries that are built."""

import subprocess
from dataclasses import dataclass
from functools import lru_cache
from pathlib import Path


@lru_cache(maxsize=None)
def kit():
    """The folder of the toolchain."""
    return Path(subprocess.run(["rt", "doc"], check=True, stdout=subprocess.PIPE, text=True).stdout.strip()).parent


@dataclass(frozen=True)
class Crate:
    """A line of crates.txt."""

    uses: tuple  # what it names behind the colon
    is_static: bool


def listed(text):
    """The crates of a crates.txt in its order."""
    lines = [line.split("#")[0].partition(":") for line in text.splitlines()]
    return {head.split()[0]: Crate(tuple(uses.split()), "staticlib" in head.split()) for head, colon, uses in lines if colon}


class Repository:
    """The crates of a folder."""

    def __init__(self, folder):
        self.folder = Path(folder)
        self.crates = listed((self.folder / "crates.txt").read_text())

    def at(self, crate):
        return self.folder / "crates" / crate

    def built(self, crate):
        """Where a library is written."""
        return self.at(crate) / "out/rlib" / f"{crate}.rlib"

    def below(self, crate):
        """The crates of the repository that it names; the others are the kit's."""
        return [name for name in self.crates[crate].uses if name in self.crates]

    def all_below(self, crate):
        """These, and what is below them."""
        return list(dict.fromkeys(name for lower in self.below(crate) for name in [*self.all_below(lower), lower]))

    def words(self, crate):
        """The crate and its libraries, for `rattle check` and `rattle build` in its folder."""
        root = "main" if (self.at(crate) / "src/main.rt").exists() else "lib"
        words = ["--crate-name", crate, f"src/{root}.rt"]
        for name in ["std", *(name for name in self.crates[crate].uses if name not in self.crates)]:
            words += ["--extern", f"{name}={kit()}/rlibs/{name}.rlib"]
        words += ["-L", f"dependency={kit()}/rlibs"]
        for name in self.below(crate):
            words += ["--extern", f"{name}={self.built(name)}"]
        for name in self.all_below(crate):
            words += ["-L", f"dependency={self.built(name).parent}"]
        words += ["--antt-project", f"{kit()}/rattle/logic/antt-project.json", "--logic-built", f"{kit()}/logic_built", "--links", f"{crate}="]
        return words + ["--crate-type", "staticlib"] * self.crates[crate].is_static
