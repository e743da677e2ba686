#!/usr/bin/env python3
"""texts.py FOLDER [BYTES]: writes the benchmark's texts, each of about BYTES bytes (default 1,048,576, the most that is scanned)."""
import os, random, sys


def repeated(piece, size, head="", tail=""):
    """Copies of what `piece` gives for 0, 1, 2, .. as long as they fit."""
    out, used, n = [head], len((head + tail).encode()), 0
    while True:
        p = piece(n)
        used += len(p.encode())
        if used > size:
            return "".join(out) + tail
        out.append(p)
        n += 1


def texts(size):
    r = random.Random(1)
    word = lambda: "".join(r.choice("abcdefghijklmnopqrstuvwxyz") for _ in range(r.randint(3, 9)))
    greek = lambda: "".join(r.choice("αβγδεζηθικλμνξοπρστυφχψω") for _ in range(r.randint(3, 9)))
    return {
        "seeds": repeated(lambda n: f"{r.randint(0, 2**32 - 1)}, ", size, "sample: 7\npanel: b\nseeds: [", "1]\n"),
        "block": repeated(lambda n: f"- name: {word()} {word()}\n  site: {word()}\n  counts:\n    - {n}\n    - {n * 7}\n", size),
        "flow": repeated(lambda n: "{a: [b, {c: d}], e: [[f], g]}, ", size, "[", "1]\n"),
        "escapes": repeated(lambda n: '- "\\x41\\u00e9 ' + word() + '\\n\\t\\"' + word() + '\\U0001F600"\n', size),
        "quoted": repeated(lambda n: f"- '{word()} {word()} {word()}'\n- \"{word()} {word()} {word()} {word()}\"\n", size),
        "literals": repeated(lambda n: f"- |\n  {word()} {word()} {word()} {word()}\n  {word()} {word()} {word()} {word()} {word()}\n\n  {word()} {word()}\n", size),
        "multibyte": repeated(lambda n: f"- {greek()} {greek()}: {greek()}\n", size),
        "comments": repeated(lambda n: f"- {word()} # {word()} {word()} {word()} {word()}\n# {word()} {word()} {word()}\n", size),
        "one-character": repeated(lambda n: "a,", size, "[", "a]\n"),
        "bracket-keys": repeated(lambda n: "[" * 120 + "a" + "]: b" * 120 + ",\n", size, "[", "a]\n"),
        "colons": repeated(lambda n: "? a\n: b\n", size),
        "deep-dashes": repeated(lambda n: "- " * 250 + "a\n", size),
        "empty-brackets": repeated(lambda n: "{}, [], ", size, "[", "a]\n"),
        "one-scalar": repeated(lambda n: "a", size),
        "blank-lines": repeated(lambda n: " " * 79 + "\n", size),
        "one-cjk-scalar": repeated(lambda n: chr(0x4E00 + n % 20000), size),
        "quotes-in-quotes": repeated(lambda n: "''", size, "'", "'\n"),
        "markers": repeated(lambda n: "---\n", size),
        "dashes": repeated(lambda n: "-\n", size),
        "quoted-flow": repeated(lambda n: f'{{"name": "{word()}", "value": {n}, "sites": ["{word()}", "{word()}"]}}, ', size, "[", "1]\n"),
        "tags": repeated(lambda n: f"- !!{word()} &{word()} {word()}\n- *{word()}\n", size),
        "commas": repeated(lambda n: ", ", size, "[a", "]\n"),
        "one-quoted-scalar": repeated(lambda n: word() + " ", size, "'", "'\n"),
    }


def main():
    folder, size = sys.argv[1], int(sys.argv[2]) if len(sys.argv) > 2 else 1_048_576
    os.makedirs(folder, exist_ok=True)
    for name, text in texts(size).items():
        with open(os.path.join(folder, name + ".yaml"), "wb") as f:
            f.write(text.encode())


main()
