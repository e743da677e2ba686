#!/usr/bin/env python3
"""job_model.py [FILE]

A model of the job reader (02, Ask 14), over the tokens of stream_model.py, to compare with. For each line of FILE, or of
standard input, which begins `HEX words=W bytes=B`, it prints that and the answer, as tests/vectors/README.md has it for
jobs.txt; what stands behind ` => ` in a line that is read is left out.

It is the shape of a job sheet, written as functions that each read a part of it; a token is asked for where a part wants it:

    job    = S ( bm field* be | '{' fields? '}' ) Z
    fields = field ( ',' field )* ','?
    field  = K name V value             each name once
    value  = text                       of sample and panel
           | '[' seeds? ']'             of seeds
    seeds  = seed ( ',' seed )* ','?
"""
import re
import sys

import model
import stream_model

FIELDS = ("sample", "panel", "seeds")
DECIMAL = re.compile(r"0|[1-9][0-9]{0,9}")
MOST_SEED = 4_294_967_295


class Reader:
    """`here` is the token that was met last, and fits no part yet; `seeds` are those handed over."""

    def __init__(self, tokens):
        self.tokens, self.here, self.met, self.seeds = tokens, None, [], []

    def ask(self):
        self.here = next(self.tokens)

    def kind(self):
        return self.here[0]

    def text(self):
        return self.here[3]

    def refuse(self, number):
        raise model.Refused(number, self.here[1])

    def misplaced(self):
        self.refuse(71 if self.kind() == model.STREAM_END and len(self.met) < len(FIELDS) else 73)

    def want(self, kind):
        """That a token of this kind stands here; the next one is asked for by who wants it."""
        if self.kind() != kind:
            self.misplaced()

    def job(self):
        self.ask()
        self.want(model.STREAM_START)
        self.ask()
        if self.kind() == model.FLOW_MAPPING_START:
            self.listed(model.FLOW_MAPPING_END, self.field)
        else:
            self.want(model.BLOCK_MAPPING_START)
            self.ask()
            while self.kind() != model.BLOCK_END:
                self.field()
                self.ask()
        self.ask()
        self.want(model.STREAM_END)
        if len(self.met) < len(FIELDS):
            self.refuse(71)

    def listed(self, end, part):
        """Parts with commas between, up to the bracket's end; a comma may stand behind the last."""
        self.ask()
        while self.kind() != end:
            part()
            self.ask()
            if self.kind() == end:
                return
            self.want(model.FLOW_ENTRY)
            self.ask()

    def field(self):
        self.want(model.KEY)
        self.ask()
        self.want(model.SCALAR)
        name = self.text()
        if name not in FIELDS or name in self.met:
            self.refuse(70)
        self.met.append(name)
        self.ask()
        self.want(model.VALUE)
        self.ask()
        if name == "seeds":
            self.want(model.FLOW_SEQUENCE_START)
            self.listed(model.FLOW_SEQUENCE_END, self.seed)
        else:
            self.want(model.SCALAR)

    def seed(self):
        self.want(model.SCALAR)
        if self.here[5] != model.PLAIN or not DECIMAL.fullmatch(self.text()) or int(self.text()) > MOST_SEED:
            self.refuse(72)
        self.seeds.append(int(self.text()))


def answer(data, words, room):
    reader = Reader(iter(()))
    try:
        reader.tokens = stream_model.Stream(data, words, room).take()
        reader.job()
        closing = "done"
    except model.Refused as r:
        closing = "not %d %d %d %d" % (r.number, *r.mark)
    handed = ",".join(f"{seed}:{count}" for count, seed in enumerate(reader.seeds, 1))
    return f"{handed}|{closing} {len(reader.seeds)}"


if __name__ == "__main__":
    stream_model.answer_lines(answer)
