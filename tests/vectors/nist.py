#!/usr/bin/env python3
"""Prints the SHA-256 entries of one of NIST's SigVer15 files: the lines that a check needs, as they stand there.

    python3 tests/vectors/nist.py SigVer15_186-3.rsp > tests/vectors/SigVer15_186-3.rsp
"""

import pathlib
import sys


def kept(lines):
    wanted = False
    for line in lines:
        name = line.split(" = ")[0]
        if name == "SHAAlg":
            wanted = line == "SHAAlg = SHA256"
        if line.startswith("#") or name in ("[mod", "n"):
            yield line
        elif wanted and name in ("SHAAlg", "e", "Msg", "S", "Result"):
            yield line


def main():
    lines = pathlib.Path(sys.argv[1]).read_text().splitlines()
    for line in kept(line.rstrip() for line in lines):
        if line.startswith(("[", "n =", "SHAAlg")):
            print()
        print(line)


if __name__ == "__main__":
    main()
