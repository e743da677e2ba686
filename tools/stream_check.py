#!/usr/bin/env python3
"""stream_check.py FILE [--max N] [--batch N] [--jobs N]

Holds the definition of one token at a time (crates/yaml_stream) against a file of vectors. A line is
    HEX words=W bytes=B => N|records|bytes in hex|answer|answer
with W words and B bytes lent, N tokens given, and `E` or `R number index line col` as the answer of the call behind the
last token, and once more of the next call. Each line becomes an equation about `hear`, computed by `refl`: the records,
the texts, the answer. That each answer comes again is a theorem (Answers). Options, output and exit status are
definition_check.py's. Texts of some thousand bytes pass the prover's step limit and are told as differing: --max 1100.
"""
import re, sys

sys.dont_write_bytecode = True
from definition_check import CRATES, check, numbers

STREAM = {**CRATES, "theorems": " ".join(CRATES), "yaml_stream": " ".join(["theorems", *CRATES])}
HEAD = """-- Vectors, as equations that are computed.
use Prim.Native.Nat.{ℕ}
use mathlib.Core.List.{List, [], ◌∷◌}
use mathlib.Core.Path.{◌≡◌, refl}
use Rattle.yaml_text.specs.declared.Mark.{Mark}
use Rattle.yaml_lexeme.specs.Token.{texts}
use Rattle.yaml_lexeme.specs.Record.{records}
use Rattle.yaml_scan.specs.Scan.{standard}
use Rattle.yaml_scan.specs.Open.{all_open}
use Rattle.yaml_stream.specs.Stream.{Heard, Next, ended, fresh, hear, refusal}
use Rattle.yaml_stream.specs.Open.{stream_open}

record Shown : Type 0 where
  words : List ℕ
  bytes : List ℕ
  last : Next

abbrev shown : Heard → Shown
shown h = record { words = records 0 h.tokens; bytes = texts h.tokens; last = h.last }
"""


def equation(name, front, text, said):
    """The declaration for one line."""
    words, room = re.fullmatch(r"\S* words=(\d+) bytes=(\d+)", front).groups()
    given, records, decoded, last, again = said.split("|")
    if last != again:
        raise ValueError(f"two answers behind the last token: {front} => {said}")
    if last == "E":
        answer = "ended"
    else:
        number, index, line, col = last.split()[1:]
        answer = f"refusal {number} (record {{ index = {index}; line = {line}; col = {col} }})"
    flat = [w for r in records.split(";") for w in r.split()]
    left = f"shown (hear standard {room} {int(given) + 1} (fresh standard {numbers(text)} {words}))"
    right = f"record {{ words = {numbers(flat)}; bytes = {numbers(bytes.fromhex(decoded))}; last = {answer} }}"
    return f"{name} : {left} ≡ {right}\nunfolding all_open stream_open\n{name} = refl\n"


if __name__ == "__main__":
    check(__doc__, STREAM, HEAD, equation)
