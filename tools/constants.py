#!/usr/bin/env python3
"""constants.py: whether the header and the Rust wrapper have the numbers of the code.

Each number is said once in the code, in the header for callers in C and in the wrapper for callers in Rust; or it is a sum of
such numbers. Prints each, with the places that say it where they differ. The exit status is 0 where all say the same.
"""
import argparse
import os
import re
import sys

# what it is, and where it is said: a file, and the text around the number
PLACES = [
    ("words in a record", [
        ("crates/records/src/lib.rt", r"^pub const RECORD_WORDS: usize = ([0-9_]+);$"),
        ("include/tokenglade.h", r"^#define TOKENGLADE_RECORD_WORDS ([0-9]+)$"),
        ("examples/tokenglade.rs", r"^pub const RECORD_WORDS: usize = ([0-9_]+);$"),
    ]),
    ("words of a state", [
        ("crates/driver/src/held.rt", r"^pub const HELD_WORDS: usize = ([0-9_]+);$"),
        ("include/tokenglade.h", r"^#define TOKENGLADE_STATE ([0-9]+)$"),
        ("examples/tokenglade.rs", r"^const STATE_WORDS: usize = ([0-9_]+);$"),
    ]),
    ("records that a stream is lent", [
        ("crates/stream/src/lib.rt", r"^pub const LEAST_RECORDS: usize = ([0-9_]+);$"),
        ("include/tokenglade.h", r"^#define TOKENGLADE_STREAM_WORDS \(\(size_t\)([0-9]+) \* TOKENGLADE_RECORD_WORDS\)$"),
        ("examples/tokenglade.rs", r"^const STREAM_WORDS: usize = ([0-9_]+) \* RECORD_WORDS;$"),
    ]),
    ("words of a job's state", [
        ("crates/job/src/lib.rt", r"^pub const JOB_WORDS: usize = ([A-Z_]+ \+ [A-Z_]+);$"),
        ("include/tokenglade.h", r"^#define TOKENGLADE_JOB_STATE ([0-9]+)$"),
        ("examples/tokenglade.rs", r"^const JOB_WORDS: usize = ([0-9_]+);$"),
    ]),
    ("words of a seed", [
        ("crates/tokenglade/src/lib.rt", r"^    seed: &mut \[u32; ([0-9]+)\],$"),
        ("include/tokenglade.h", r"^void tokenglade_job\(.* uint32_t seed\[([0-9]+)\]"),
        ("examples/tokenglade.rs", r"^const SEED_WORDS: usize = ([0-9]+);$"),
    ]),
    ("words of a closing record", [
        ("crates/tokenglade/src/lib.rt", r"^    closing: &mut \[u32; ([0-9]+)\],$"),
        ("include/tokenglade.h", r"^void tokenglade_job\(.* uint32_t closing\[([0-9]+)\]"),
        ("examples/tokenglade.rs", r"^const CLOSING_WORDS: usize = ([0-9]+);$"),
    ]),
    ("the largest seed", [
        ("crates/yaml_job/specs/Job.antt", r"^most_seed = ([0-9_]+)$"),
        ("include/tokenglade.h", r" plain numbers from 0 to ([0-9]+): digits"),
        ("include/tokenglade_names.h", r"^TOKENGLADE_REFUSAL\(72, .* from 0 to ([0-9,]+), "),
    ]),
]

# where the code says the parts of a sum
PARTS = {
    "HELD_WORDS": ("crates/driver/src/held.rt", r"^pub const HELD_WORDS: usize = ([0-9_]+);$"),
    "OWN_WORDS": ("crates/job/src/own.rt", r"^pub\(crate\) const OWN_WORDS: usize = ([0-9_]+);$"),
}


def said(root, path, pattern):
    """The one number that a file says there, or the sum."""
    with open(os.path.join(root, path), encoding="utf-8") as text:
        found = re.findall(pattern, text.read(), re.M)
    if len(found) != 1:
        sys.exit(f"{path}: {len(found)} lines like {pattern}")
    return sum(number(root, path, part) for part in found[0].split(" + "))


def number(root, path, part):
    if part[0].isdigit():
        return int(re.sub("[_,]", "", part))
    if part not in PARTS:
        sys.exit(f"{path}: {part} is not known")
    return said(root, *PARTS[part])


def main():
    argparse.ArgumentParser(description=__doc__, formatter_class=argparse.RawDescriptionHelpFormatter).parse_args()
    root = os.path.join(os.path.dirname(os.path.abspath(__file__)), "..")
    differ = 0
    for name, places in PLACES:
        numbers = [(said(root, path, pattern), path) for path, pattern in places]
        same = len({n for n, _ in numbers}) == 1
        differ += not same
        print(f"{name}: " + (str(numbers[0][0]) if same else ", ".join(f"{n} in {path}" for n, path in numbers)))
    sys.exit(1 if differ else 0)


if __name__ == "__main__":
    main()
