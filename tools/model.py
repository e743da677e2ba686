#!/usr/bin/env python3
"""model.py [FILE]

A model of 01's scanner to compare with, in the shape of saphyr-parser's. For each line of FILE, or of standard input,
which is a text in hex, it prints `HEX => answer` as in tests/vectors/README.md; what stands behind ` => ` in a line that
is read is left out. Rooms are always large enough: 4 and 5 are not answered.

As a module: `scan(bytes, on)` gives the tokens or raises Refused. `on` names differences of docs/DIFFERENCES.md, in
which the model then does as saphyr-parser ("the crate") does. With none it is 01, with all (SWITCHES) saphyr-parser.
"""
import re
import sys

SWITCHES = frozenset("S1 S2 S3 P1 P2 P3 P4 P5 P6 R1 R2 T1 T2 T3 T4 V1 V2 V3 V4 V5 C1 C2 C3 C4 C5 C6 C7 C8 "
                     "G1 G2 G3 M1 Q1 B1 B2 U1 L1 L2".split())
NONE = frozenset()
MOST_BYTES, MOST_LEVELS, MOST_ENTRIES = 1_048_576, 255, 255
# the number of a refusal that 01 does not have
UNNUMBERED = 0

(STREAM_START, STREAM_END, VERSION_DIRECTIVE, TAG_DIRECTIVE, DOCUMENT_START, DOCUMENT_END, BYTE_ORDER_MARK,
 BLOCK_SEQUENCE_START, BLOCK_MAPPING_START, BLOCK_END, FLOW_SEQUENCE_START, FLOW_SEQUENCE_END, FLOW_MAPPING_START,
 FLOW_MAPPING_END, BLOCK_ENTRY, FLOW_ENTRY, KEY, VALUE, ALIAS, ANCHOR, TAG, SCALAR, RESERVED_DIRECTIVE) = range(1, 24)
PLAIN, SINGLE_QUOTED, DOUBLE_QUOTED, LITERAL, FOLDED = range(1, 6)

# The text is followed by NULs, which stand for its end: no text that is scanned holds one (3).
BOM, BLANK, BREAK, FLOW = "\ufeff", " \t", "\r\n", ",[]{}"
BREAKZ, BLANK_OR_BREAKZ = BREAK + "\0", BLANK + BREAK + "\0"
STRAY = "@`%" + BOM
ORIGIN = (0, 1, 0)

ONE_BREAK = re.compile(r"\r\n?|\n")
SPACES = re.compile(r" *")
BLANKS = re.compile(r"[ \t]*")
LINE = re.compile(r"[^\r\n\0]*")
LINE_TO_BOM = re.compile(r"[^\r\n\0\ufeff]*")
MARKER = re.compile(r"(---|\.\.\.)(?=[ \t\r\n\0])")
NON_SPACE = re.compile(r"[^ \t\r\n\0\ufeff]*")
ANCHOR_CHARS = re.compile(r"[^ \t\r\n\0\ufeff,\[\]{}]*")
ALPHA = re.compile(r"[0-9A-Za-z_-]*")
DIGITS = re.compile(r"[0-9]*")
# without '%', which begins an escape
URI_CHARS = re.compile(r"[-0-9A-Za-z#;/?:@&=+$,_.!~*'()\[\]]*")
TAG_CHARS = re.compile(r"[-0-9A-Za-z#;/?:@&=+$_.~*'()]*")
# the highest lead byte of a length, by its leading bits; 0: it leads none
LENGTHS = ((0x7F, 1), (0xBF, 0), (0xDF, 2), (0xEF, 3), (0xF7, 4), (0xFF, 0))
OCTET = re.compile(r"%([0-9A-Fa-f]{2})")
HEADER = re.compile(r"([+-])([0-9]?)|([0-9])([+-]?)|")
QUOTED_CHARS = {"'": re.compile(r"[^ \t\r\n\0']*"), '"': re.compile(r'[^ \t\r\n\0"\\]*')}
ESCAPES = {"0": "\0", "a": "\a", "b": "\b", "t": "\t", "\t": "\t", "n": "\n", "v": "\v", "f": "\f", "r": "\r",
           "e": "\x1b", " ": " ", '"': '"', "/": "/", "\\": "\\", "N": "\x85", "_": "\xa0", "L": "\u2028", "P": "\u2029"}
HEX_ESCAPES = {"x": re.compile(r"[0-9A-Fa-f]{2}"), "u": re.compile(r"[0-9A-Fa-f]{4}"), "U": re.compile(r"[0-9A-Fa-f]{8}")}
# P4: its last word is '-'
DASH_LAST = re.compile(r"(?:^|[ \t])-\Z")
# T2: tabs alone behind ':'; or blanks that end at a byte order mark, which the crate refuses before it goes on
TABS_AFTER_COLON = re.compile(r"\t+(?=[0-9A-Za-z_-])|\t[ \t]*(?=\ufeff)")


def plain_line(flow, bom):
    """What a plain scalar takes of a line (K7); bom: also at a byte order mark it goes on (P5)."""
    ends = r" \t\r\n\0" + (r",\[\]{}" if flow else "")
    run = rf"(?:[^:{ends}{'' if bom else BOM}]+|:(?![{ends}]))+"
    return re.compile(rf"{run}(?:[ \t]+(?!#){run})*")


PLAIN_LINE = {(flow, bom): plain_line(flow, bom) for flow in (False, True) for bom in (False, True)}


class Refused(Exception):
    def __init__(self, number, mark):
        self.number, self.mark = number, mark


class Level:
    """A bracket: whether ':' and '?' came in its entry, and whether a pair is open in it (K5)."""
    __slots__ = ("sequence", "colon", "question", "pair")

    def __init__(self, sequence):
        self.sequence, self.colon, self.question, self.pair = sequence, False, False, False


def is_scalar_value(code):
    return code < 0xD800 or 0xDFFF < code < 0x110000


class Scanner:
    """A place in the text: `i` is its index, `home` the index of its line's column 0."""

    def __init__(self, text, on):
        self.text, self.on = text + "\0\0\0\0", on
        self.i, self.line, self.home = 0, 1, 0
        # only blanks stand between the line's start and here
        self.leads = True
        self.simple_key_allowed = True
        # of each level (required, number of its token, mark), or None
        self.simple_keys = [None]
        # entries are (old indent, whether it ends in BlockEnd)
        self.indent, self.indents = -1, []
        self.levels = []
        # the index directly after a quoted scalar's or closing bracket's span
        self.adjacent = -1
        # P2: the mark of a comment behind a plain scalar
        self.interrupted = None
        # (kind, start, end, first text, second text, style)
        self.tokens = []

    def scan(self):
        self.put(STREAM_START, ORIGIN, ORIGIN)
        while self.fetch_next_token():
            if "Q1" in self.on:
                self.stale_simple_keys()
        return self.tokens

    # places

    def mark(self):
        return (self.i, self.line, self.i - self.home)

    def col(self):
        return self.i - self.home

    def refuse(self, number, mark=None):
        raise Refused(number, mark or self.mark())

    def take(self, run):
        """The text that the expression matches here, passed over."""
        at, self.i = self.i, run.match(self.text, self.i).end()
        return self.text[at:self.i]

    def skip_break(self):
        """Past the break, if one stands here."""
        m = ONE_BREAK.match(self.text, self.i)
        if m:
            self.i = self.home = m.end()
            self.line += 1
            self.leads = True

    def put(self, kind, start, end, one=None, other=None, style=0):
        self.tokens.append((kind, start, end, one, other, style))

    def put_before(self, number, kind, mark):
        self.tokens.insert(number, (kind, mark, mark, None, None, 0))

    # gaps (K1)

    def skip_to_next_token(self):
        text = self.text
        while True:
            blanks = self.take(BLANKS)
            c = text[self.i]
            if self.leads and "\t" in blanks and c not in "#\r\n\0":
                self.check_leading_tab(self.i - len(blanks) + blanks.index("\t"))
            if c == "#":
                if not (self.leads or text[self.i - 1] in BLANK or "C8" in self.on):
                    self.refuse(44)
                self.take(LINE)
            elif c in BREAK:
                self.skip_break()
                self.simple_key_allowed = self.simple_key_allowed or not self.levels
            else:
                break
        if self.interrupted:
            self.check_interrupted()

    def check_leading_tab(self, tab):
        col = tab - self.home
        if "T1" in self.on:
            if self.indents and col < self.indent:
                self.refuse(45)
        elif not self.levels:
            self.refuse(45, (tab, self.line, col))

    def check_interrupted(self):
        """P2: a comment, and on the next line what could be more of the plain scalar before it."""
        mark, self.interrupted = self.interrupted, None
        c, n = self.text[self.i], self.text[self.i + 1]
        if self.line != mark[1] + 1 or self.col() <= self.indent:
            return
        if c != "\0" and not MARKER.match(self.text, self.i) and not (c == ":" and n in BLANK_OR_BREAKZ):
            self.refuse(UNNUMBERED, mark)

    def skip_ws_to_eol(self):
        """The blanks and comment behind a token; answers the blanks."""
        blanks = self.take(BLANKS)
        c = self.text[self.i]
        if c == "#":
            if not blanks:
                self.refuse(44)
            self.take(LINE)
        elif c == BOM and "B2" in self.on:
            self.refuse(43)
        return blanks

    def skip_yaml_whitespace(self):
        """Spaces, breaks and comments; whether any was there."""
        at = self.i
        while True:
            c = self.text[self.i]
            if c == " ":
                self.take(SPACES)
            elif c in BREAK:
                self.skip_break()
            elif c == "#":
                self.take(LINE)
            else:
                return self.i > at

    # simple keys (K2)

    def save_simple_key(self):
        if self.simple_key_allowed:
            required = not self.levels and self.indent == self.col() and self.indents[-1][1]
            self.simple_keys[-1] = (required, len(self.tokens), self.mark())

    def remove_simple_key(self):
        key = self.simple_keys[-1]
        if key and key[0]:
            self.refuse(41)
        self.simple_keys[-1] = None

    def stale_simple_keys(self):
        key = self.simple_keys[-1]
        if key and not self.levels and (key[2][1] < self.line or key[2][0] + 1024 < self.i):
            self.remove_simple_key()

    # indents (K4, K6)

    def stack_indent(self, indent, ends):
        if len(self.indents) == MOST_ENTRIES and "L1" not in self.on:
            self.refuse(48)
        self.indents.append((self.indent, ends))
        self.indent = indent

    def roll_indent(self, kind, mark, number):
        """Rolls to the mark's column; the start token goes in before the token of that number."""
        if self.levels:
            return
        if self.indent <= mark[2]:
            self.unroll_non_block_indents()
        if self.indent < mark[2]:
            self.stack_indent(mark[2], True)
            self.put_before(number, kind, mark)

    def roll_one_col_indent(self):
        if not self.levels and self.indents and self.indents[-1][1]:
            self.stack_indent(self.indent + 1, False)

    def unroll_indent(self, col):
        while self.indent > col and not self.levels:
            self.indent, ends = self.indents.pop()
            if ends:
                self.put(BLOCK_END, self.mark(), self.mark())

    def unroll_non_block_indents(self):
        """Only the top entry can be one that ends no block."""
        if self.indents and not self.indents[-1][1]:
            self.indent = self.indents.pop()[0]

    # the choice of a token (K3)

    def fetch_next_token(self):
        """Whether it was another than the last."""
        self.skip_to_next_token()
        self.stale_simple_keys()
        self.unroll_indent(self.col())
        c = self.text[self.i]
        if c == "\0":
            self.fetch_stream_end()
            return False
        if self.col() == 0 and self.fetch_at_column_0(c):
            return True
        if self.col() < self.indent:
            self.refuse(42)
        self.leads = False
        self.fetch_by_indicator(c, self.text[self.i + 1])
        return True

    def fetch_at_column_0(self, c):
        """Whether a token stood here that stands at column 0 only."""
        if MARKER.match(self.text, self.i):
            self.fetch_document_indicator(c)
        elif c == "%" and (not self.levels or "C5" in self.on):
            self.fetch_directive()
        elif c == BOM and not self.levels:
            self.fetch_byte_order_mark()
        else:
            return False
        return True

    def fetch_by_indicator(self, c, n):
        if c in "[{":
            self.fetch_flow_collection_start(c)
        elif c in "]}":
            self.fetch_flow_collection_end(c)
        elif c == "-" and n in BLANK_OR_BREAKZ:
            self.fetch_block_entry()
        elif c == "?" and n in BLANK_OR_BREAKZ:
            self.fetch_key()
        elif c == ":" and self.takes_colon(n):
            self.fetch_value(n)
        elif c in "*&":
            self.fetch_anchor(c)
        elif c == "!":
            self.fetch_tag()
        elif c in "'\"":
            self.fetch_flow_scalar(c)
        elif self.starts_no_token(c, n):
            self.refuse(43)
        elif c == ",":
            self.fetch_flow_entry()
        elif c in "|>" and not self.levels:
            self.fetch_block_scalar(c)
        else:
            self.fetch_plain_scalar()

    def starts_no_token(self, c, n):
        if not self.levels:
            return c in STRAY or (c == "," and "C1" not in self.on)
        if c in "|>":
            return "C6" not in self.on
        if c == "?" and n in FLOW:
            return "C7" not in self.on
        return c in STRAY or (c == "-" and n in FLOW)

    # stream, documents, byte order marks

    def fetch_stream_end(self):
        if self.levels and "C3" not in self.on:
            self.refuse(47)
        if self.col() > 0:
            self.line, self.home = self.line + 1, self.i
        for key in self.simple_keys:
            if key and key[0]:
                self.refuse(41)
        self.unroll_indent(-1)
        self.put(STREAM_END, self.mark(), self.mark())

    def leave_blocks(self):
        self.unroll_indent(-1)
        self.remove_simple_key()

    def fetch_document_indicator(self, c):
        if self.levels and "C4" not in self.on:
            self.refuse(47)
        self.leave_blocks()
        self.simple_key_allowed = self.leads = False
        start = self.mark()
        self.i += 3
        self.put(DOCUMENT_START if c == "-" else DOCUMENT_END, start, self.mark())
        if c == ".":
            self.skip_ws_to_eol()
            if self.text[self.i] not in BREAKZ:
                self.refuse(49)

    def fetch_byte_order_mark(self):
        self.leave_blocks()
        self.simple_key_allowed = True
        start = self.mark()
        self.i, self.home = self.i + 1, self.home + 1
        self.put(BYTE_ORDER_MARK, start, self.mark())

    # brackets and ',' (K6)

    def put_bracket(self, kind):
        """The character here, with the blanks and comment behind it."""
        start = self.mark()
        self.i += 1
        self.skip_ws_to_eol()
        self.put(kind, start, self.mark())

    def fetch_flow_collection_start(self, c):
        self.save_simple_key()
        self.roll_one_col_indent()
        if len(self.levels) == MOST_LEVELS:
            self.refuse(28)
        self.levels.append(Level(c == "["))
        self.simple_keys.append(None)
        self.simple_key_allowed = True
        self.put_bracket(FLOW_SEQUENCE_START if c == "[" else FLOW_MAPPING_START)

    def fetch_flow_collection_end(self, c):
        sequence = c == "]"
        if not self.levels or (self.levels[-1].sequence != sequence and "C2" not in self.on):
            self.refuse(47)
        self.remove_simple_key()
        self.simple_keys.pop()
        if self.levels.pop().pair and sequence:
            self.put(FLOW_MAPPING_END, self.mark(), self.mark())
        self.simple_key_allowed = False
        self.put_bracket(FLOW_SEQUENCE_END if sequence else FLOW_MAPPING_END)
        self.adjacent = self.i

    def fetch_flow_entry(self):
        self.remove_simple_key()
        self.simple_key_allowed = True
        if self.levels:
            self.end_entry(self.levels[-1])
        self.put_bracket(FLOW_ENTRY)

    def end_entry(self, level):
        if level.pair:
            self.put(FLOW_MAPPING_END, self.mark(), self.mark())
        level.question = level.question and not level.pair and "V5" in self.on
        level.colon = level.pair = False

    # '-' and '?' (K4), ':' (K5)

    def fetch_block_entry(self):
        if self.levels or not self.simple_key_allowed:
            self.refuse(46)
        start = self.mark()
        self.roll_indent(BLOCK_SEQUENCE_START, start, len(self.tokens))
        self.remove_simple_key()
        self.i += 1
        end = self.mark()
        self.check_after_entry(self.skip_ws_to_eol())
        if "S1" in self.on:
            start = end = self.mark()
        self.put(BLOCK_ENTRY, start, end)

    def check_after_entry(self, blanks):
        c, n = self.text[self.i], self.text[self.i + 1]
        if "T3" in self.on and "\t" in blanks and c == "-" and n in BLANK_OR_BREAKZ:
            self.refuse(UNNUMBERED)
        if "R2" in self.on and c in BREAK + FLOW:
            self.roll_one_col_indent()

    def fetch_key(self):
        if not self.levels and not self.simple_key_allowed:
            self.refuse(46)
        start = self.mark()
        self.roll_indent(BLOCK_MAPPING_START, start, len(self.tokens))
        self.remove_simple_key()
        self.simple_key_allowed = not self.levels
        if self.levels:
            self.levels[-1].question = True
        self.i += 1
        end = self.mark()
        spaced = self.skip_yaml_whitespace()
        if "T4" in self.on and (not spaced or self.text[self.i] == "\t"):
            self.refuse(UNNUMBERED)
        self.put(KEY, start, self.mark() if "S2" in self.on else end)

    def takes_colon(self, n):
        return n in BLANK_OR_BREAKZ or bool(self.levels) and (n in FLOW or self.i == self.adjacent)

    def begin_pair(self):
        """Notes the ':' in its entry; whether it begins a pair."""
        if not self.levels:
            return False
        level = self.levels[-1]
        begins = level.sequence and not level.question and (not level.colon or "V3" in self.on)
        level.colon, level.pair = True, level.pair or begins
        return begins

    def fetch_value(self, n):
        start, key = self.mark(), self.simple_keys[-1]
        pair = self.begin_pair()
        self.check_value(n, pair and key and key[2][1] < self.line)
        if not (key or self.levels or self.simple_key_allowed):
            self.refuse(46)
        _, number, mark = key or (False, len(self.tokens), start)
        if key:
            self.put_before(number, KEY, mark)
        if pair:
            self.put_before(number, FLOW_MAPPING_START, mark)
        self.roll_indent(BLOCK_MAPPING_START, mark, number)
        if "R1" in self.on:
            self.roll_one_col_indent()
        self.simple_keys[-1] = None
        self.simple_key_allowed = not (key or self.levels)
        self.i += 1
        self.put(VALUE, start, start if "S3" in self.on else self.mark())

    def check_value(self, n, key_above):
        """What the crate refuses at or behind ':' and 01 does not."""
        if "V1" in self.on and self.levels and n in "[{" and self.i != self.adjacent:
            self.refuse(UNNUMBERED)
        tabs = TABS_AFTER_COLON.match(self.text, self.i + 1)
        if "T2" in self.on and tabs:
            self.refuse(UNNUMBERED, (tabs.end(), self.line, tabs.end() - self.home))
        if "V2" in self.on and key_above:
            self.refuse(UNNUMBERED)

    # plain scalars (K7)

    def fetch_plain_scalar(self):
        self.save_simple_key()
        self.simple_key_allowed = False
        if "P3" in self.on:
            self.unroll_non_block_indents()
            if self.levels and self.col() <= self.indent:
                self.refuse(42)
        start = self.mark()
        string, end = self.scan_plain_line(), self.mark()
        if "P1" in self.on:
            string, end = self.scan_plain_lines(string, start)
        self.put(SCALAR, start, end, string, None, PLAIN)
        self.look_behind_plain(end)

    def scan_plain_line(self):
        string = self.take(PLAIN_LINE[bool(self.levels), "P5" in self.on])
        if "P4" in self.on and self.levels and self.text[self.i] in FLOW and DASH_LAST.search(string):
            self.i -= 1
            self.refuse(UNNUMBERED)
        return string

    def scan_plain_lines(self, string, start):
        """P1: on over the lines that follow."""
        end, indent = self.mark(), self.block_indent() + 1
        while True:
            breaks = self.skip_plain_breaks(start, indent)
            if not breaks or not self.plain_goes_on(indent):
                return string, end
            self.leads = False
            string += "\n" * (breaks - 1) or " "
            string += self.scan_plain_line()
            end = self.mark()

    def block_indent(self):
        """The indent without an entry that ends no block."""
        return self.indents[-1][0] if self.indents and not self.indents[-1][1] else self.indent

    def skip_plain_breaks(self, start, indent):
        """Over blanks and breaks; how many breaks."""
        text, breaks = self.text, 0
        while text[self.i] in " \t\r\n":
            if text[self.i] in BREAK:
                self.skip_break()
                breaks += 1
            elif text[self.i] == "\t" and breaks and self.col() < indent:
                self.skip_ws_to_eol()
                if text[self.i] not in BREAKZ:
                    self.refuse(45, start)
            else:
                self.i += 1
        return breaks

    def plain_goes_on(self, indent):
        if self.text[self.i] == "#" or (not self.levels and self.col() < indent):
            return False
        if self.col() == 0 and MARKER.match(self.text, self.i):
            return False
        return PLAIN_LINE[bool(self.levels), "P5" in self.on].match(self.text, self.i) is not None

    def look_behind_plain(self, end):
        """A break behind it allows a simple key (in flow by P6), which no gap meets where P1 has read it."""
        at = BLANKS.match(self.text, end[0]).end()
        if self.text[at] in BREAK:
            self.simple_key_allowed = not self.levels or "P6" in self.on
        elif self.text[at] == "#" and "P2" in self.on and not self.levels:
            self.interrupted = (at, self.line, at - self.home)

    # quoted scalars (33 to 40)

    def fetch_flow_scalar(self, quote):
        self.save_simple_key()
        self.simple_key_allowed = False
        start, string = self.mark(), []
        self.i += 1
        while True:
            self.check_quoted_line(start)
            joined = self.scan_quoted_chars(quote, start, string)
            if self.text[self.i] == quote:
                break
            string.append(self.fold_quoted_breaks(joined))
        self.i += 1
        self.leads = False
        self.skip_ws_to_eol()
        if not self.fits_after_quoted(start):
            self.refuse(40)
        self.put(SCALAR, start, self.mark(), "".join(string), None, SINGLE_QUOTED if quote == "'" else DOUBLE_QUOTED)
        if "V4" in self.on:
            self.skip_to_next_token()
        self.adjacent = self.i

    def check_quoted_line(self, start):
        if self.col() == 0 and MARKER.match(self.text, self.i):
            self.refuse(33, start)
        if self.text[self.i] == "\0":
            self.refuse(34, start)
        if self.col() < self.indent:
            self.refuse(35, start)

    def scan_quoted_chars(self, quote, start, string):
        """Up to a blank, a break, the end or the closing quote; whether an escaped break ended it."""
        text = self.text
        while True:
            string.append(self.take(QUOTED_CHARS[quote]))
            c, n = text[self.i], text[self.i + 1]
            if c == "'" and n == "'" and quote == "'":
                string.append("'")
                self.i += 2
            elif c != "\\":
                return False
            elif n in BREAK:
                self.i += 1
                self.skip_break()
                return True
            else:
                string.append(self.scan_escape(n, start))

    def scan_escape(self, n, start):
        self.i += 2
        if n in ESCAPES:
            return ESCAPES[n]
        if n not in HEX_ESCAPES:
            self.refuse(37, start)
        digits = HEX_ESCAPES[n].match(self.text, self.i)
        if not digits:
            self.refuse(38, start)
        self.i = digits.end()
        code = int(digits[0], 16)
        if not is_scalar_value(code):
            self.refuse(39, start)
        return chr(code)

    def fold_quoted_breaks(self, joined):
        """What the blanks and breaks here become; joined: an escaped break came before them."""
        text, breaks = self.text, 0
        if not joined:
            blanks = self.take(BLANKS)
            if text[self.i] not in BREAK:
                return blanks
            self.skip_break()
        while text[self.i] in " \t\r\n":
            if text[self.i] in BREAK:
                self.skip_break()
                breaks += 1
            else:
                if text[self.i] == "\t" and self.col() < self.indent:
                    self.refuse(36)
                self.i += 1
        return "\n" * breaks if joined or breaks else " "

    def fits_after_quoted(self, start):
        c = self.text[self.i]
        if c == ":":
            return bool(self.levels) or start[1] == self.line
        return c in BREAKZ or bool(self.levels) and c in ",]}"

    # block scalars (K7, 29 to 32)

    def fetch_block_scalar(self, c):
        self.save_simple_key()
        self.simple_key_allowed = True
        self.unroll_non_block_indents()
        start, style = self.mark(), LITERAL if c == "|" else FOLDED
        chomping, increment = self.scan_block_header(start)
        column = max(self.indent, 0) + increment
        reached, breaks = self.skip_block_scalar_indent(column if increment else len(self.text))
        if not increment:
            column = max(reached, self.indent + 1)
        if self.text[self.i] == "\0":
            string = self.no_content(chomping, breaks, start)
        else:
            self.check_first_column(column)
            start = self.mark()
            string = self.scan_block_content(style, chomping, column, breaks)
        self.leads = True
        self.put(SCALAR, start, self.mark(), string, None, style)

    def scan_block_header(self, start):
        """Chomping ('+', '-' or none) and the indentation indicator, 0 for none; past the header's line."""
        self.i += 1
        m = HEADER.match(self.text, self.i)
        self.i = m.end()
        chomping, digit = m[1] or m[4], m[2] or m[3]
        if digit == "0":
            self.refuse(29, start)
        self.skip_ws_to_eol()
        if self.text[self.i] not in BREAKZ:
            self.refuse(30, start)
        self.skip_break()
        if self.text[self.i] == "\t":
            self.refuse(31, start)
        return chomping, int(digit or 0)

    def skip_block_scalar_indent(self, column):
        """Over empty lines, and spaces up to the column; the largest column that they reach, and how many lines."""
        text, reached, breaks = self.text, 0, 0
        while True:
            while text[self.i] == " " and self.col() < column:
                self.i += 1
            reached = max(reached, self.col())
            if text[self.i] not in BREAK:
                return reached, breaks
            self.skip_break()
            breaks += 1

    def no_content(self, chomping, breaks, start):
        if chomping != "+":
            return ""
        part = self.line > start[1] and self.col() > 0
        return "\n" if part and not breaks else "\n" * breaks

    def check_first_column(self, column):
        if self.text[self.i] == BOM and "G2" not in self.on:
            return
        if self.col() == 0 and MARKER.match(self.text, self.i) and "G3" not in self.on:
            return
        if self.indent < self.col() < column:
            self.refuse(32)

    def opens_content(self):
        if self.text[self.i] in BREAKZ + BOM:
            return False
        m = self.col() == 0 and MARKER.match(self.text, self.i)
        return not m or m[1] == "---" and "G1" in self.on

    def scan_block_content(self, style, chomping, column, breaks):
        """The text, from the first content line on; breaks: empty lines before it."""
        text, string, line_break, blank = self.text, [], "", False
        while self.col() == column and self.opens_content():
            before, blank = blank, text[self.i] in BLANK
            if style == FOLDED and line_break and not before and not blank:
                string.append("\n" * breaks or " ")
            else:
                string.append(line_break + "\n" * breaks)
            string.append(self.take(LINE_TO_BOM if "B1" in self.on else LINE))
            line_break, breaks = "", 0
            if text[self.i] not in BREAK:
                break
            self.skip_break()
            line_break, (_, breaks) = "\n", self.skip_block_scalar_indent(column)
        if chomping != "-":
            string.append(line_break)
            if text[self.i] == "\0" and self.col() >= max(column, 1):
                string.append("\n")
        if chomping == "+":
            string.append("\n" * breaks)
        return "".join(string)

    # anchors, tags (K8), directives

    def fetch_anchor(self, c):
        self.save_simple_key()
        self.simple_key_allowed = False
        start = self.mark()
        self.i += 1
        name = self.take(ANCHOR_CHARS)
        if not name:
            self.refuse(27, start)
        self.put(ALIAS if c == "*" else ANCHOR, start, self.mark(), name)

    def fetch_tag(self):
        self.save_simple_key()
        self.simple_key_allowed = False
        start = self.mark()
        handle, suffix = self.scan_tag(start)
        c = self.text[self.i]
        if c not in BLANK_OR_BREAKZ and not (self.levels and c in FLOW):
            self.refuse(26, start if "M1" in self.on else self.mark())
        self.put(TAG, start, self.mark(), handle, suffix)

    def scan_tag(self, start):
        self.i += 1
        if self.text[self.i] == "<":
            return "", self.scan_verbatim_tag(start)
        name = self.take(ALPHA)
        if self.text[self.i] == "!":
            self.i += 1
            suffix = self.scan_uri(TAG_CHARS, start)
            if not suffix:
                self.refuse(25, start)
            return f"!{name}!", suffix
        suffix = name + self.scan_uri(TAG_CHARS, start)
        return ("!", suffix) if suffix else ("", "!")

    def scan_verbatim_tag(self, start):
        self.i += 1
        uri = self.scan_uri(URI_CHARS, start)
        if self.text[self.i] != ">":
            self.refuse(20, start)
        self.i += 1
        return uri

    def scan_uri(self, run, start):
        string = [self.take(run)]
        while self.text[self.i] == "%":
            string.append(self.scan_uri_escapes(start))
            string.append(self.take(run))
        return "".join(string)

    def scan_uri_escapes(self, start):
        """One character of percent escapes."""
        octets = [self.scan_octet(start)]
        length = next(n for lead, n in LENGTHS if octets[0] <= lead)
        if length == 0:
            self.refuse(22, start)
        while len(octets) < length:
            octets.append(self.scan_octet(start))
            if octets[-1] & 0xC0 != 0x80:
                self.refuse(23, start)
        try:
            return joined_octets(octets) if "U1" in self.on else bytes(octets).decode()
        except ValueError:
            self.refuse(24, start)

    def scan_octet(self, start):
        m = OCTET.match(self.text, self.i)
        if not m:
            self.refuse(21, start)
        self.i = m.end()
        return int(m[1], 16)

    def fetch_directive(self):
        self.leave_blocks()
        self.simple_key_allowed = False
        start = self.mark()
        self.i += 1
        name_mark, name = self.mark(), self.take(NON_SPACE)
        if not name:
            self.refuse(10, name_mark)
        if self.text[self.i] not in BLANK_OR_BREAKZ:
            self.refuse(11, name_mark)
        if name == "YAML":
            self.scan_version_directive(start)
        elif name == "TAG":
            self.scan_tag_directive(start)
        else:
            parameters = " ".join(re.findall(r"[^ \t]+", self.take(LINE_TO_BOM)))
            self.put(RESERVED_DIRECTIVE, start, self.mark(), name, parameters)
        self.skip_ws_to_eol()
        if self.text[self.i] not in BREAKZ:
            self.refuse(15, start)
        self.skip_break()

    def scan_version_directive(self, start):
        self.take(BLANKS)
        major = self.scan_version_number(start)
        if self.text[self.i] != ".":
            self.refuse(13, start)
        self.i += 1
        minor = self.scan_version_number(start)
        self.put(VERSION_DIRECTIVE, start, self.mark(), major, minor)

    def scan_version_number(self, start):
        digits = self.take(DIGITS)
        if not digits:
            self.refuse(12, start)
        if len(digits) > 9:
            self.refuse(14, start)
        return int(digits)

    def scan_tag_directive(self, start):
        self.take(BLANKS)
        handle = self.scan_tag_handle(start)
        self.take(BLANKS)
        at = self.i
        if self.text[at] != "!" and not (self.text[at] == "%" or TAG_CHARS.match(self.text, at).end() > at):
            self.refuse(18, start)
        prefix = self.scan_uri(URI_CHARS, start)
        if self.text[self.i] not in BLANK_OR_BREAKZ:
            self.refuse(19, start)
        self.put(TAG_DIRECTIVE, start, self.mark(), handle, prefix)

    def scan_tag_handle(self, start):
        if self.text[self.i] != "!":
            self.refuse(16, start)
        self.i += 1
        name = self.take(ALPHA)
        if self.text[self.i] == "!":
            self.i += 1
            return f"!{name}!"
        if name:
            self.refuse(17, start)
        return "!"


def joined_octets(octets):
    """U1: the octets joined by shifting 8."""
    code = int.from_bytes(octets, "big")
    if not is_scalar_value(code):
        raise ValueError
    return chr(code)


def mark_behind(text):
    lines = ONE_BREAK.split(text)
    return (len(text), len(lines), len(lines[-1]))


def decode(data, on):
    """The characters, or refusals 1 to 3."""
    if len(data) > MOST_BYTES and "L2" not in on:
        raise Refused(1, ORIGIN)
    try:
        text, number = data.decode(), None
    except UnicodeDecodeError as e:
        text, number = data[:e.start].decode(), 2
    if "\0" in text:
        text, number = text[:text.index("\0")], 3
    if number:
        raise Refused(number, mark_behind(text))
    return text


def scan(data, on=NONE):
    return Scanner(decode(data, on), on).scan()


def records(tokens):
    """The 12 words of each token, and the decoded bytes."""
    words, texts, used = [], [], 0
    for kind, start, end, one, other, style in tokens:
        values = (one, other, 0, 0)
        if kind != VERSION_DIRECTIVE:
            values = ()
            for text in (one, other):
                values += (0, 0) if text is None else (used, len(text.encode()))
                used += values[-1]
                texts.append(text or "")
        words.append((kind, *start, *end, *values, style))
    return words, "".join(texts).encode()


def answer(data):
    """The answer of 01, as tests/vectors/README.md has it."""
    try:
        words, used = records(scan(data))
    except Refused as r:
        return "R %d %d %d %d" % (r.number, *r.mark)
    listed = ";".join(" ".join(map(str, w)) for w in words)
    return f"A {len(words)} {len(used)}|{listed}|{used.hex()}"


def main():
    lines = open(sys.argv[1], encoding="ascii") if len(sys.argv) > 1 else sys.stdin
    for line in lines:
        text = line.split(" => ")[0].strip()
        sys.stdout.write(f"{text} => {answer(bytes.fromhex(text))}\n")


if __name__ == "__main__":
    main()
