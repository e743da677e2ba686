#!/usr/bin/env python3
"""differences.py [--random N]

Holds docs/DIFFERENCES.md against the vectors, by tools/model.py, where each difference is a switch:
- the model, all switches off, gives the answers of tests/vectors;
- each row is so: its last cell is the model's answer with all switches off, the cell before it saphyr-parser's, as
  tests/vectors/crate.txt has it (of a text that is not there: the model's with all switches on), and the two differ by
  the switch that the row is named after. Each switch has a row;
- each text of tests/vectors/crate.txt, which has saphyr-parser's answers, either agrees or is under listed differences:
  the model gives saphyr-parser's answer by switches that have rows.
Prints what is not so; each name with the number of texts that need it; and how many texts agree, are under a listed
difference, are under none. --random N scans N random texts too, which must come to an answer.
The exit status is 0 where all is so.
"""
import argparse
import os
import random
import re
import sys
from collections import Counter, namedtuple

import model
import vector_files

ROOT = os.path.dirname(os.path.dirname(os.path.abspath(__file__)))
VECTORS = os.path.join(ROOT, "tests", "vectors")
CRATE = os.path.join(VECTORS, "crate.txt")
DIFFERENCES = os.path.join(ROOT, "docs", "DIFFERENCES.md")
NAMES = os.path.join(ROOT, "include", "tokenglade_names.h")
SIGNS = {"\\|": "|", "⏎": "\n", "⇥": "\t", "BOM": model.BOM, "<NUL>": "\0"}
# longer lists of tokens, and longer texts, are written as their length
MOST_WRITTEN = 20
PIECES = [*"abc01 \t\n\r-?:,[]{}#&*!|>'\"%@`~\\.<+é€", model.BOM, "- ", ": ", "? ", "\n ", "\n  ", "---", "...", " #",
          "%C3%A9", "\r\n", "|\n", "\\x41", "a: ", "\n- "]

Row = namedtuple("Row", "name rule text there here")
# number is None where saphyr-parser refuses
Refusal = namedtuple("Refusal", "number mark")


def named(what):
    """The names that the header has for kinds or styles, by number."""
    with open(NAMES, encoding="ascii") as header:
        return {int(n): name for n, name in re.findall(rf'TOKENGLADE_{what}\((\d+), "(.*)"\)', header.read())}


KINDS, STYLES = named("KIND"), named("STYLE")


def unwritten(text):
    """The text that a row writes with signs."""
    return re.sub("|".join(map(re.escape, SIGNS)), lambda m: SIGNS[m[0]], text)


def written(text):
    """A token's text with signs. From U+3000 on characters are written by their codes."""
    if not 0 < len(text) <= MOST_WRITTEN:
        return f"{len(text)} characters" if text else "empty"
    signs = {sign: name for name, sign in SIGNS.items()}
    return "`" + "".join(signs.get(c) or (c if c < "\u3000" else f"U+{ord(c):04X}") for c in text) + "`"


def written_token(token):
    kind, start, end, *texts, style = token
    at = str(start[0]) + (f"..{end[0]}" if end != start else "")
    said = [f"{KINDS[kind]}@{at}"] + ([STYLES[style]] if style else [])
    return " ".join(said + [written(text) for text in texts if text is not None])


def written_answer(got):
    """An answer as cells have it, without StreamStart and StreamEnd."""
    if isinstance(got, Refusal):
        return f"{got.number or 'refused'} at ({','.join(map(str, got.mark))})"
    if len(got) > MOST_WRITTEN:
        return f"{len(got)} tokens"
    return ", ".join(map(written_token, got[1:-1])) or "no tokens"


def read_rows():
    """The rows of all tables, and the lines that are none."""
    rows, wrong = [], []
    with open(DIFFERENCES, encoding="utf-8") as lines:
        table = [line.rstrip() for line in lines if line.startswith("|")]
    for line in table:
        cells = [cell.strip() for cell in re.split(r"(?<!\\)\|", line)[1:-1]]
        text = re.fullmatch(r"`(.+)`(?: ([\d,]+) times)?", cells[2]) if len(cells) == 5 else None
        if text:
            times = int((text[2] or "1").replace(",", ""))
            cells[2] = (unwritten(text[1]) * times).encode()
            rows.append(Row(*cells))
        elif cells[-1] not in ("01", "---"):
            wrong.append(f"no row: {line}")
    return rows, wrong


def crate_answer(told):
    """A line of crate.txt as the model answers it. Of a version it has the minor number only."""
    if told.startswith("E "):
        return Refusal(None, tuple(map(int, told.split()[1:4])))
    tokens = []
    for token in told.split(";")[1:]:
        *words, one, other = token.split(" ")
        kind, *marks, style, minor, _ = map(int, words)
        one, other = (None if t[3:] == "-" else bytes.fromhex(t[3:]).decode() for t in (one, other))
        if kind == model.VERSION_DIRECTIVE:
            other = minor
        tokens.append((kind, tuple(marks[:3]), tuple(marks[3:]), one, other, style))
    return tokens


def answer(text, on):
    """The model's tokens or refusal."""
    try:
        return model.scan(text, on)
    except model.Refused as r:
        return Refusal(r.number, r.mark)


def alike(a, b):
    """Refusals are compared by their marks, versions by their minor numbers."""
    if isinstance(a, Refusal) or isinstance(b, Refusal):
        return isinstance(a, Refusal) and isinstance(b, Refusal) and a.mark == b.mark
    return [seen(t) for t in a] == [seen(t) for t in b]


def seen(token):
    return token[:3] + (None,) + token[4:] if token[0] == model.VERSION_DIRECTIVE else token


def needed(text, wanted):
    """Switches that give the wanted answer, of which none can be left out; None where all together do not."""
    on = model.SWITCHES
    if not alike(answer(text, on), wanted):
        return None
    left = None
    while left != on:
        left = on
        for switch in sorted(on):
            if alike(answer(text, on - {switch}), wanted):
                on = on - {switch}
    return on


def answer_there(text, crate):
    """What saphyr-parser answers: what is on file, or what the model has. A NUL is refused, if nothing before it is."""
    if text in crate:
        return crate[text]
    before, nul, _ = text.partition(b"\0")
    got = answer(before, model.SWITCHES)
    if nul or isinstance(got, Refusal):
        return Refusal(None, got.mark if isinstance(got, Refusal) else model.mark_behind(before.decode()))
    return got


def wrong_row(row, crate):
    """What is not so in a row."""
    here, there = answer(row.text, model.NONE), answer_there(row.text, crate)
    bad = [f"{cell} should be {written_answer(got)}"
           for got, cell in ((there, row.there), (here, row.here)) if written_answer(got) != cell]
    if bool(row.name) == alike(here, there):
        bad.append("the answers agree" if row.name else "the answers differ")
    elif row.name in model.SWITCHES and row.name not in (needed(row.text, there) or ()):
        bad.append("differs without it")
    return bad


def wrong_vectors():
    """The texts of which the model does not give 01's answer."""
    names = [name for name in sorted(vector_files.counts(VECTORS)) if name not in ("crate.txt", "stream.txt", "jobs.txt")]
    return [f"model: {name}: {text.hex()}" for name in names
            for _, text, told in vector_files.read(os.path.join(VECTORS, name)) if model.answer(text) != told]


def compare(crate, names):
    """How many texts agree, are under listed differences, are under none; which switches they need; what is wrong."""
    count, uses, wrong = Counter(), Counter(), []
    for text, wanted in crate.items():
        if alike(answer(text, model.NONE), wanted):
            count["agree"] += 1
            continue
        on = needed(text, wanted)
        uses.update(on or ())
        if on and on <= names:
            count["listed"] += 1
        else:
            count["none"] += 1
            wrong.append(f"under none: {text.hex()}" + (f", needs {' '.join(sorted(on - names))}" if on else ""))
    return count, uses, wrong


def scan_random(n):
    for _ in range(n):
        text = "".join(random.choices(PIECES, k=random.randint(1, 24))).encode()
        answer(text, model.NONE)
        answer(text, model.SWITCHES)
    print(f"{n} random texts scanned")


def main():
    parser = argparse.ArgumentParser(description=__doc__, formatter_class=argparse.RawDescriptionHelpFormatter)
    parser.add_argument("--random", metavar="N", type=int, default=0)
    options = parser.parse_args()
    try:
        wrong = wrong_vectors()
        crate = {text: crate_answer(told) for _, text, told in vector_files.read(CRATE)}
    except vector_files.Broken as e:
        sys.exit(str(e))
    rows, no_rows = read_rows()
    names = {}
    for row in rows:
        if row.name:
            names.setdefault(row.name, row.rule)
    wrong += no_rows
    wrong += [f"no row has the name {name}" for name in sorted(model.SWITCHES - names.keys())]
    wrong += [f"row {row.name}: {row.text[:40]!r}: {what}" for row in rows for what in wrong_row(row, crate)]
    count, uses, under_none = compare(crate, names.keys())
    wrong += under_none
    for line in wrong:
        print(line)
    for name, rule in names.items():
        print(f"{name} {uses[name] if name in model.SWITCHES else 'not compared':>12}  {rule}")
    if options.random:
        scan_random(options.random)
    print(f"{count['agree']} agree, {count['listed']} under a listed difference, {count['none']} under none")
    sys.exit(1 if wrong else 0)


main()
