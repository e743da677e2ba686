#!/usr/bin/env python3
"""Spells the repository's own definitions and lemmas as today's Rattle does: words in snake case, so 'record-words' becomes 'record_words'.

usage: tools/spell.py [--list]        at the top of the repository, once, behind port.py

It turns each name with a dash that a file of specs/, or a lemma file of proofs/, declares or binds, in those files, in the clauses of .rt files
and in the proofs of functions. Names that a file takes from Rattle's own library keep their dashes, as do the names of goals. In comments a name
turns in backquotes, and bare where the file's own text has it. --list prints the names and writes nothing. A line 'look:' has a name that its file
has in the new spelling already: fields of two records may be spelled alike, other names may not.
"""

import os
import re
import sys

NAME = r"[^\s(){}.;,@\"«»\[\]`]+"
DASHED = re.compile(r"(?<![\w'-])[A-Za-z_][\w']*(?:-[\w']+)+(?![\w-])")
KIT = re.compile(r"use ((?:Rattle\.(?:std|core|io|os|libc)|mathlib|native|lib|Prim|borrow|denote|seplogic|base|contract|mir|prog|sound|types)\b[\w.]*)\.\{([^}]*)\}")
QUIET = re.compile(r'(?<![^\s(){}.;,])--[^\n]*|"(?:\\.|[^"\\\n])*"')
RUST_QUIET = re.compile(r"//[^\n]*|b?\"(?:\\.|[^\"\\])*\"|b?'(?:\\x..|\\.|[^'\\\n])'", re.S)
GOALS = re.compile(r"^(Need|After|Then|Else|At|In|Goes|Before|Start|Loop|Carried|Lts)-")


def files(root):
    for folder, dirs, names in os.walk(os.path.join(root, "crates")):
        dirs[:] = sorted(d for d in dirs if d not in ("out", "must-fail"))
        for name in sorted(names):
            if name.endswith((".antt", ".rt")):
                yield os.path.join(folder, name)


def is_of_function(path):
    return re.search(r"/proofs/.+/(Proof|Answers|Invariants)\.antt$", path) is not None


def read(path):
    with open(path, encoding="utf-8") as f:
        return f.read()


def parts(text, quiet):
    """The text in pieces: (piece, whether it is code)."""
    at = 0
    for it in quiet.finditer(text):
        yield text[at : it.start()], True
        yield it[0], False
        at = it.end()
    yield text[at:], True


def code_of(text, path):
    quiet = RUST_QUIET if path.endswith(".rt") else QUIET
    return " ".join(piece for piece, is_code in parts(text, quiet) if is_code)


def of_the_kit(text):
    names = set()
    for it in KIT.finditer(text):
        for item in it[2].split(","):
            names.add(item.strip().split(" as ")[-1].strip())
    return names


def table(root):
    """The names that turn: all that the definitions and lemmas of the repository have with a dash, but for the kit's."""
    names, kit = set(), set()
    for path in files(root):
        if path.endswith(".antt"):
            kit |= of_the_kit(read(path))
    for path in files(root):
        if path.endswith(".antt") and not is_of_function(path):
            text = read(path)
            names |= {w for w in DASHED.findall(code_of(text, path)) if not GOALS.match(w)} - of_the_kit(text)
    return {w: w.replace("-", "_") for w in sorted(names)}, kit


def turned(path, text, names):
    own = of_the_kit(text)
    has = set(DASHED.findall(code_of(text, path)))
    rows = {w: n for w, n in names.items() if w not in own}
    of_function = is_of_function(path)
    out = []
    for piece, is_code in parts(text, RUST_QUIET if path.endswith(".rt") else QUIET):
        if is_code:
            new = DASHED.sub(lambda it: goal_or(it, piece, rows, of_function), piece)
        elif piece.startswith(("--", "//")):
            new = re.sub(r"`[^`\n]*`", lambda it: DASHED.sub(lambda w: rows.get(w[0], w[0]), it[0]), piece)
            new = DASHED.sub(lambda w: rows.get(w[0], w[0]) if w[0] in has else w[0], new)
        else:
            new = piece
        out.append(new)
    return "".join(out)


def goal_or(it, piece, rows, of_function):
    """In the proof of a function a name behind a dot, or one at a line's head that is given a goal, is Rattle's."""
    if of_function:
        if piece[: it.start()].endswith("."):
            return it[0]
    return rows.get(it[0], it[0])


def clashes(root, names):
    for path in files(root):
        if not path.endswith(".antt") or is_of_function(path):
            continue
        text = code_of(read(path), path)
        words = set(re.findall(r"(?<![\w'.-])[A-Za-z_][\w']*(?![\w'-])", text))
        for w in sorted(set(DASHED.findall(text))):
            if w in names and names[w] in words:
                yield f"{path}: {w} and {names[w]}"


def main(argv):
    names, kit = table(".")
    if "--list" in argv:
        print("\n".join(f"{w} {n}" for w, n in names.items()))
        return 0
    for line in clashes(".", names):
        print("look: " + line)
    count = 0
    for path in files("."):
        text = read(path)
        new = turned(path, text, names)
        if new != text:
            with open(path, "w", encoding="utf-8") as f:
                f.write(new)
            count += 1
    print(f"{len(names)} names, {count} files")
    return 0


if __name__ == "__main__":
    sys.exit(main(sys.argv[1:]))
