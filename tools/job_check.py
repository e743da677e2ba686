#!/usr/bin/env python3
"""job_check.py FILE [--max N] [--batch N] [--jobs N]

Holds the definition of the job reader (crates/yaml_job) against a file of vectors. A line is
    HEX words=W bytes=B => seed:count,seed:count..|done count
    HEX words=W bytes=B => seed:count,seed:count..|not number index line col count
with W words and B bytes lent, the seeds handed over, each with its running count, and the closing record. Each line
becomes an equation about `follow`, with one call more than there are seeds, computed by `refl`. That the closing record
comes again is a theorem (Calls). Options, output and exit status are definition_check.py's. As in stream_check.py, texts
of some thousand bytes are too much for the prover: --max 300.
"""
import re, sys

sys.dont_write_bytecode = True
from definition_check import check, numbers
from stream_check import STREAM

JOB = {**STREAM, "yaml_job": " ".join(STREAM)}
HEAD = """-- Vectors, as equations that are computed.
use Prim.Native.Nat.{ℕ}
use mathlib.Core.List.{List, [], ◌∷◌}
use mathlib.Core.Path.{◌≡◌, refl}
use Rattle.yaml_text.specs.declared.Mark.{Mark}
use Rattle.yaml_scan.specs.Scan.{standard}
use Rattle.yaml_scan.specs.Open.{all_open}
use Rattle.yaml_stream.specs.Open.{stream_open}
use Rattle.yaml_job.specs.declared.Closing.TheVariants.{Done, NotDone}
use Rattle.yaml_job.specs.declared.JobAnswer.TheVariants.{Closed}
use Rattle.yaml_job.specs.Job.{follow, job, talk}
use Rattle.yaml_job.specs.Open.{job_open}
"""


def equation(name, front, text, said):
    """The declaration for one line."""
    words, room = re.fullmatch(r"\S* words=(\d+) bytes=(\d+)", front).groups()
    handed, closing = said.split("|")
    seeds = [seed.split(":") for seed in handed.split(",") if seed]
    if closing.startswith("done "):
        record = f"Done {closing.split()[1]}"
    else:
        number, index, line, col, count = closing.split()[1:]
        record = f"NotDone {number} (record {{ index = {index}; line = {line}; col = {col} }}) {count}"
    left = f"follow standard {room} {len(seeds) + 1} (job standard {numbers(text)} {words})"
    right = f"talk {numbers(f'({v}, {n})' for v, n in seeds)} (Closed ({record}))"
    return f"{name} : {left} ≡ {right}\nunfolding all_open stream_open job_open\n{name} = refl\n"


if __name__ == "__main__":
    check(__doc__, JOB, HEAD, equation)
