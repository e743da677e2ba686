#!/usr/bin/env python3
"""stream_model.py [FILE]

A model of taking tokens one at a time, over the scanner of model.py, to compare with. For each line of FILE, or of
standard input, which begins `HEX words=W bytes=B`, it prints that and the answer, as tests/vectors/README.md has it for
stream.txt; what stands behind ` => ` in a line that is read is left out.
"""
import sys

import model

MOST_WAITING, LEAST_RECORDS, RECORD_WORDS = 4_096, 4_400, 12


class Scanner(model.Scanner):
    """`used` counts the bytes of all texts so far."""
    used = 0

    def put(self, kind, start, end, one=None, other=None, style=0):
        super().put(kind, start, end, one, other, style)
        self.used += len(model.records(self.tokens[-1:])[1])


class Stream:
    """`scanner.tokens` has all that was built; `given` of them were given, the others wait."""

    def __init__(self, data, words, room):
        text = model.decode(data, model.NONE)
        if words // RECORD_WORDS < LEAST_RECORDS:
            raise model.Refused(52, model.ORIGIN)
        self.scanner, self.room, self.given, self.ended = Scanner(text, model.NONE), room, 0, False
        self.scanner.put(model.STREAM_START, model.ORIGIN, model.ORIGIN)

    def waits_for_key(self):
        """Whether nothing waits, or the first that does is a possible key of some level."""
        if self.ended:
            return False
        return self.given == len(self.scanner.tokens) or any(k and k[1] == self.given for k in self.scanner.simple_keys)

    def step(self):
        scanner = self.scanner
        self.ended = not scanner.fetch_next_token()
        if scanner.used > self.room:
            raise model.Refused(5, model.ORIGIN)
        if len(scanner.tokens) - self.given > MOST_WAITING and self.waits_for_key():
            # where the token ends that was scanned; behind '?' the scanner has read on
            raise model.Refused(51, scanner.tokens[-1][2])

    def take(self):
        """The tokens that are given, one after the other."""
        while True:
            while self.waits_for_key():
                self.step()
            if self.given == len(self.scanner.tokens):
                return
            self.given += 1
            yield self.scanner.tokens[self.given - 1]


def answer(data, words, room):
    tokens, last = [], "E"
    try:
        for token in Stream(data, words, room).take():
            tokens.append(token)
    except model.Refused as r:
        last = "R %d %d %d %d" % (r.number, *r.mark)
    listed, used = model.records(tokens)
    return f"{len(tokens)}|{';'.join(' '.join(map(str, w)) for w in listed)}|{used.hex()}|{last}|{last}"


def answer_lines(answer):
    """Prints the lines of the file that the argument names, or of standard input, each with its answer."""
    lines = open(sys.argv[1], encoding="ascii") if len(sys.argv) > 1 else sys.stdin
    for line in lines:
        head = line.rstrip("\n").split(" => ")[0]
        text, words, room = head.split(" ")
        words, room = int(words.removeprefix("words=")), int(room.removeprefix("bytes="))
        sys.stdout.write(f"{head} => {answer(bytes.fromhex(text), words, room)}\n")


if __name__ == "__main__":
    answer_lines(answer)
