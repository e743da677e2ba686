#!/usr/bin/env python3
"""job_sheets.py SEED COUNT

Random job sheets, on which two readers can be compared: prints COUNT lines `HEX words=W bytes=B`, the same ones for the same
SEED. Two in five or so are done; others have a slip in their fields, list or numbers, some damaged text, or rooms that are
too small. Lists of some 2,000 seeds, which can meet 51, are among them.
"""
import argparse
import random

FIELDS = ["sample", "panel", "seeds"]
STRANGE = ["Sample", "seed", "seeds ", "panels", "x", ""]
KEYS = ["{}", "{}", "{}", "'{}'", '"{}"']
TEXTS = ["a", "S-17", "a b", "'it''s'", '"\\u00e9\\L"', "''", '""', '"a\n  b"', "7", "~", "\u00e9\u65e5"]
BLOCK_TEXTS = ["|\n  a\n  b", ">-\n  a\n\n  b", "|+\n  a\n", "|"]
NO_TEXTS = ["", "[a]", "{}", "&a b", "!t b", "*a", "- a", "\n- a", "a: b", "a\n  b", "@", "'a' b"]
NO_SEEDS = ["00", "01", "4294967296", "42949672950", "99999999999999999999", "+1", "-1", "1.0", "0x1", "1_0", "x", "'1'", '"1"',
            "\u0661", "1 2", "", "[1]", "{}", "1: 2", "? 1", ": 1", "&a 1", "!t 1", "*a", "1 # c\n  2", "1\n  2", "|", "@", "-"]
NO_LISTS = ["1", "'[1]'", "{}", "\n- 1", "\n  - 1", "&a [1]", "!t [1]", "*a", ""]
FRONTS = ["---\n", "--- ", "%YAML 1.2\n", "\ufeff", "- ", "? ", "x\n"]
BACKS = ["\n---\n", "\n...\n", "\nx\n", "\n- x\n", "\nx: y\n", " x", "]", "\n[1]\n"]
PIECES = [",", ":", ": ", "\n", " ", "  ", "#", "[", "]", "{", "}", "'", '"', "-", "? ", "\t", "\r", "0", "a", "&a ", "\ufeff",
          "\0", "@"]
# between a name and its value
COLONS, NO_COLONS = [": ", ": ", ": ", " : ", ":\n  ", ": # c\n  "], [":", "", " #"]
LEAST_WORDS = 52_800


class Sheet:
    """`r.random() < slips` is a slip."""

    def __init__(self, r):
        self.r, self.slips = r, r.choice([0, 0, 0.05, 0.1, 0.2])
        self.braces = r.random() < 0.25
        self.end = r.choice(["\n", "\n", "\n", "\r\n", "\r"])

    def slip(self):
        return self.r.random() < self.slips

    def number(self):
        top = self.r.choice([9, 99, 10**6, 2**32 - 1])
        return str(self.r.choice([0, 2**32 - 1]) if self.r.random() < 0.1 else self.r.randint(0, top))

    def one(self, good, wrong):
        return self.r.choice(wrong if self.slip() else good)

    def listed(self):
        if self.slip():
            return self.r.choice(NO_LISTS)
        count = self.r.randint(2_035, 2_055) if self.r.random() < 0.02 else self.r.choice([0, 1, 2, 3, 5, 9, 40])
        numbers = [self.r.choice(NO_SEEDS) if self.slip() else self.number() for _ in range(count)]
        comma = self.r.choice([",", ", ", " , ", ",\n  ", ", # c\n  ", "\t,\t"])
        last = self.r.choice(["", "", "", comma]) if count else self.one([""], [","])
        start, end = self.r.choice(["[", "[ ", "[\n  ", "[ # c\n  "]), self.r.choice(["]", " ]", "\n  ]"])
        return start + comma.join(numbers) + last + end

    def value(self, name):
        if name == "seeds":
            return self.listed()
        return self.one(TEXTS if self.braces else TEXTS + BLOCK_TEXTS, NO_TEXTS)

    def key(self, name):
        if name and self.r.random() < 0.1:
            return f'"\\x{ord(name[0]):02x}{name[1:]}"'
        return self.r.choice(KEYS).format(name)

    def field(self, name):
        if self.r.random() < 0.1:
            return "? " + self.key(name) + (" : " if self.braces else "\n: ") + self.value(name)
        return self.key(name) + self.one(COLONS, NO_COLONS) + self.value(name)

    def mapping(self, names):
        fields = list(map(self.field, names))
        if self.braces:
            return "{" + self.r.choice([", ", ",\n ", " , # c\n "]).join(fields) + self.r.choice(["}", " }", ",}", "\n}"])
        return self.r.choice(["\n", "\n", " # c\n", "\n\n"]).join(fields)

    def text(self):
        names = self.r.sample(FIELDS, 3)
        if self.slip():
            names.insert(self.r.randint(0, 3), self.r.choice(FIELDS + STRANGE))
        if self.slip():
            del names[self.r.randrange(len(names))]
        text = self.one(["", "", "# c\n"], FRONTS) + self.mapping(names) + self.one(["", "\n", "\n# c\n"], BACKS)
        return text.replace("\n", self.end)


def damaged(r, text):
    place = r.randint(0, len(text))
    return r.choice([
        text[:place],
        text[:place] + r.choice(PIECES) + text[place:],
        text[:place] + text[place + r.randint(1, 4):],
        text[:place] + text[r.randint(0, len(text)):],
    ])


def line(r):
    text = Sheet(r).text()
    while r.random() < 0.2:
        text = damaged(r, text)
    data = text.encode()
    if r.random() < 0.01:
        data += bytes([r.randint(0x80, 0xFF)])
    words = LEAST_WORDS if r.random() < 0.97 else r.choice([0, LEAST_WORDS - 1, LEAST_WORDS + 11])
    room = 3 * len(data) // 2 if r.random() < 0.9 else r.randint(0, len(data))
    return f"{data.hex()} words={words} bytes={room}"


def main():
    parser = argparse.ArgumentParser(description=__doc__, formatter_class=argparse.RawDescriptionHelpFormatter)
    parser.add_argument("seed", metavar="SEED", type=int)
    parser.add_argument("count", metavar="COUNT", type=int)
    args = parser.parse_args()
    r = random.Random(args.seed)
    for _ in range(args.count):
        print(line(r))


if __name__ == "__main__":
    main()
