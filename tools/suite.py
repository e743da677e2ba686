#!/usr/bin/env python3
"""suite.py CASES ANSWERS: holds docs/SUITE.md against the library, which is run on the public YAML test suite.

CASES has a case on each line: its id, `valid` or `error`, the input in hex. ANSWERS is the program of tests/answers.c.
Prints the tables of that page: how many cases are accepted, and each valid one that is refused, with number and mark.
Then what the page has otherwise. The exit status is 0 where it has all of it so.
"""
import argparse, os, re, subprocess, sys
from collections import Counter

ROOT = os.path.dirname(os.path.dirname(os.path.abspath(__file__)))
PAGE = os.path.join(ROOT, "docs", "SUITE.md")
CASE = re.compile(r"(\S+) (valid|error) ?((?:[0-9a-f]{2})*)\n")
KINDS = {"valid": "valid", "error": "not valid"}


def read_cases(path):
    with open(path, encoding="ascii", newline="\n") as lines:
        cases = [(line, CASE.fullmatch(line)) for line in lines]
    for number, (line, case) in enumerate(cases, 1):
        if not case:
            sys.exit(f"{path}:{number}: no case: {line[:80]!r}")
    return [case.groups() for _, case in cases]


def answers(program, texts):
    said = subprocess.run([program], input="".join(t + "\n" for t in texts), stdout=subprocess.PIPE, text=True)
    lines = [line.split(" => ") for line in said.stdout.splitlines()]
    if said.returncode != 0 or [text for text, _ in lines] != texts:
        sys.exit(f"{program} gave no answer to each case")
    return [answer for _, answer in lines]


def shown(text):
    """A text on one line, as docs/DIFFERENCES.md writes them."""
    s = bytes.fromhex(text).decode("utf-8", "replace")
    return s.replace("\n", "⏎").replace("\t", "⇥").replace("|", "\\|")


def said_otherwise(rows):
    """The rows that the page does not have, and those of its rows that are not so. It leaves out parts of long texts, so
    of a case only id and refusal are compared."""
    with open(PAGE, encoding="utf-8") as page:
        cells = [[c.strip() for c in re.split(r"(?<!\\)\|", line)[1:-1]] for line in page if line.startswith("|")]
    counts = {tuple(c) for c in cells if c[0] in KINDS.values()}
    refused = {(c[0], c[2]) for c in cells if len(c) == 4 and re.fullmatch(r"\d+ at \(.*\)", c[2])}
    return sorted(rows ^ (counts | refused))


def main():
    parser = argparse.ArgumentParser(description=__doc__, formatter_class=argparse.RawDescriptionHelpFormatter)
    parser.add_argument("cases", metavar="CASES")
    parser.add_argument("answers", metavar="ANSWERS")
    options = parser.parse_args()
    cases = read_cases(options.cases)
    said = answers(options.answers, [text for _, _, text in cases])
    counts = Counter((kind, answer[0]) for (_, kind, _), answer in zip(cases, said))
    rows = {(name, str(counts[kind, "A"]), str(counts[kind, "R"])) for kind, name in KINDS.items()}
    print("| Cases | accepted | refused |\n|---|---|---|")
    for row in sorted(rows, reverse=True):
        print("| " + " | ".join(row) + " |")
    print("\n| Valid case | Text | Refused with |\n|---|---|---|")
    for (name, kind, text), answer in zip(cases, said):
        if kind == "valid" and answer[0] == "R":
            number, *mark = answer.split()[1:]
            rows.add((name, f"{number} at ({','.join(mark)})"))
            print(f"| {name} | `{shown(text)}` | {number} at ({','.join(mark)}) |")
    otherwise = said_otherwise(rows)
    for row in otherwise:
        print(f"docs/SUITE.md and the library differ: {' | '.join(row)}")
    sys.exit(1 if otherwise else 0)


main()
