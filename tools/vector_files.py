#!/usr/bin/env python3
"""vector_files.py FILE..: whether files of vectors (tests/vectors/README.md) are whole.

Each line must be `HEX => answer`, or have the rooms behind its text (`HEX words=W bytes=B => answer`), with lower-case
digits, and end in a line feed. A file that is named in counts.txt, in
the folder where it stands, must have as many lines as are said there; any other at least one.
Prints how many vectors each file has. The exit status is 0 where all are whole.
"""
import argparse
import os
import re

LINE = re.compile(r"((?:[0-9a-f]{2})*)((?: words=[0-9]+ bytes=[0-9]+)?) => (.+)\n")
COUNTS = "counts.txt"


class Broken(Exception):
    """What is wrong with a file."""


def counts(folder):
    """How many vectors each file of a folder has, as its counts.txt says."""
    path = os.path.join(folder, COUNTS)
    if not os.path.exists(path):
        return {}
    with open(path, encoding="ascii") as lines:
        return {name: int(count) for name, count in map(str.split, lines)}


def read(path):
    """The lines of a file as (all before the arrow, the text, the answer)."""
    vectors = []
    with open(path, encoding="ascii", newline="\n") as lines:
        for number, line in enumerate(lines, 1):
            m = LINE.fullmatch(line)
            if not m:
                raise Broken(f"{path}:{number}: no vector: {line[:80]!r}")
            vectors.append((m[1] + m[2], bytes.fromhex(m[1]), m[3]))
    folder, name = os.path.split(path)
    said = counts(folder).get(name)
    if not vectors or said not in (None, len(vectors)):
        raise Broken(f"{path}: {len(vectors)} vectors" + (f", and {COUNTS} says {said}" if said else ""))
    return vectors


def main():
    parser = argparse.ArgumentParser(description=__doc__, formatter_class=argparse.RawDescriptionHelpFormatter)
    parser.add_argument("files", metavar="FILE", nargs="+")
    for path in parser.parse_args().files:
        try:
            print(f"{len(read(path))} vectors in {path}")
        except (OSError, ValueError, Broken) as e:
            parser.exit(1, f"{e}\n")


if __name__ == "__main__":
    main()
