/* Tokens of a YAML text, and the seeds of a job sheet, within lent room.
   A text is lent whole. It has at most 1,048,576 bytes: a longer one is refused, with number 1.
   tokenglade_names.h has words for kinds, styles and refusals; docs/RULES.md has the rules. */
#ifndef TOKENGLADE_H
#define TOKENGLADE_H

#include <stddef.h>
#include <stdint.h>

#ifdef __cplusplus
extern "C" {
#endif

/* Words in a record: kind, start (index, line, column), end, offset and length of the first text, of the second, style. A version directive (kind 3) has
   no text: its major and minor number stand in place of offset and length of the first. */
#define TOKENGLADE_RECORD_WORDS 12

/* Room that is always enough for a text of c characters (c <= b) and b bytes. */
#define TOKENGLADE_WORDS(c) ((2 * (size_t)(c) + 3) * TOKENGLADE_RECORD_WORDS)
#define TOKENGLADE_BYTES(b) (3 * (size_t)(b) / 2)

/* Scans a text of any bytes into room of any length, and returns in every case.
   answer[0] is 0 where the text is accepted: words then holds answer[4] records, bytes holds answer[5] decoded bytes, all behind them is zero, and
   answer[1] to answer[3] are 0.
   Else answer[0] is the refusal's number; answer[1] to answer[3] are the index, line and column of its mark, and both rooms are all zero.
   At 4 (words) and 5 (bytes) the room was too small, and answer[4] and answer[5] say what is needed. At any other refusal they are 0.
   text, words, bytes and answer must not overlap; a pointer may be anything where its length is 0.
   It takes some 10 KB of stack, whatever the text, and no other memory. It keeps nothing between calls: threads may call it at the same time, each with
   words, bytes and answer of its own; they may share the text. */
void tokenglade_scan(const uint8_t *text, size_t text_len, uint32_t *words, size_t words_len, uint8_t *bytes, size_t bytes_len, uint32_t answer[6]);

/* One token at a time. */

/* Words that tokenglade_next keeps from call to call: a state. All zero it is a fresh one. */
#define TOKENGLADE_STATE 1809

/* Words that it must be lent, for a text of any length: 4,400 records. Up to 4,096 tokens may wait there, one step of the scan may bring some 256
   more, and up to 31 more are kept there that can be given at once. */
#define TOKENGLADE_STREAM_WORDS ((size_t)4400 * TOKENGLADE_RECORD_WORDS)

/* Gives the next token of a text, and returns in every case.

   Begin with a state of zeros. Zero it again to start anew, with the same text or another. What words and bytes hold at first does not matter.
   At each later call state, words and bytes must hold what the last call left there, the text must be the same, and so must the three lengths. All of
   them may have moved to other addresses. Where a length changes, a larger one too, nothing is promised of what a call says.

   A token: token is its record, answer is all zero. Its texts stand in bytes, at the offsets that the record has, and stay there. What stands in bytes
   behind the texts of the tokens given may be anything.
   Ended: token and answer are all zero. It comes behind StreamEnd, and again at each later call.
   Refused: token is all zero, answer[0] is the number, answer[1] to answer[3] are the index, line and column of its mark. It comes again at each later
   call. Tokens given before stay valid, with their texts. Tokens that were scanned and still wait are never given.
   answer[4] is always 0; it is kept for a byte place.
   A text is accepted when its StreamEnd (kind 2) was given, and only then.

   Where tokenglade_scan accepts the text, the tokens given are its tokens, in order. Refusals are those of tokenglade_scan, with these differences:
   - 1, 2 and 3 come at the first call, before any token; then 52, at index 0, line 1, column 0, where words holds fewer than
     TOKENGLADE_STREAM_WORDS.
   - A token that counts as a possible key waits, and all behind it wait too, while the scan goes on. A rule that is broken meanwhile is the answer at
     once.
   - 51: more than 4,096 tokens wait, the first one counted, and the first one still counts as a possible key. A bracket that stands where a key may
     stand ("[1, 2]: x") counts as one until the scan goes on behind its end, even where a ':' there would come too late to make it a key: on a later line,
     or more than 1,024 characters on. So does a tag or an anchor in front of it. A text that is one JSON value of more than 4,096 tokens, StreamStart and
     StreamEnd not counted, therefore gets 51: use tokenglade_scan.
     51 never comes for a list of plain scalars with commas between, however long, that begins on one line with its key, which is not empty, and ':', where
     no bracket is open around them ("seeds: [1, 2, .."). The mark is where the scan stands. 51 comes ahead of rules that are broken further on.
   - 5: the texts of the tokens scanned so far are more than bytes holds; at index 0, line 1, column 0. It does not say how many bytes are needed.
     TOKENGLADE_BYTES(b) is always enough.
   - 4 never comes.

   Whatever state, words, bytes and text hold, and whatever lengths they have, a call returns: nothing outside state, words, bytes, token and answer is
   written, and nothing outside them and text is read. But where they are not as said above, what it says may be anything: tokens without end, ended without
   StreamEnd, or any number, kind, style, mark, offset and length. A text of c characters has at most 2 c + 3 tokens: stop there where a state may be damaged.
   state, text, words, bytes, token and answer must not overlap; a pointer may be anything where its length is 0.
   It takes some 2.5 KB of stack, whatever the text, and no other memory. Threads may call it at the same time, each with a state, words, bytes, token and
   answer of its own; they may share the text. */
void tokenglade_next(uint32_t state[TOKENGLADE_STATE], const uint8_t *text, size_t text_len, uint32_t *words, size_t words_len, uint8_t *bytes, size_t bytes_len, uint32_t token[TOKENGLADE_RECORD_WORDS], uint32_t answer[5]);

/* The seeds of a job sheet, one at a time. */

/* Words that tokenglade_job keeps from call to call: a state. All zero it is a fresh one. It is not a state of tokenglade_next. */
#define TOKENGLADE_JOB_STATE 1820

/* Hands over the next seed of a job sheet, or says how the job ended, and returns in every case.

   A job sheet is one mapping with the fields sample, panel and seeds, each once, in any order. sample and panel hold one scalar each, of any style,
   empty too; their texts are not handed over here (tokenglade_next gives them). seeds holds a list in brackets of
   plain numbers from 0 to 4294967295: digits, without a leading zero but for 0 itself, with commas between; one more comma may end the list. Names may
   be quoted. Comments and blank lines may stand wherever YAML has them. Nothing else has a place: no document marker, directive or byte order mark, no
   anchor, tag or alias. Write it so, in block form, with the list on its key's line:
       sample: S-17
       panel: P-3
       seeds: [1, 22, 333]
   So written, a list of seeds and commas never meets 51, however long it is. In braces ({sample: S-17, ..}) it can: the outer bracket counts as a possible
   key, no seed is handed over before the whole of it was scanned, and from some 2,040 seeds on the answer is 51. A list on a line of its own, or behind
   "? seeds", a break and ':', counts as a possible key itself, and gets 51 from 2,048 seeds on. So does a list within the list.

   Begin each sheet with a state of zeros: a state that is left from another sheet says again how that one ended, done too. What words and bytes hold at
   first does not matter. Whoever wants to be sure counts the seeds and compares with closing[1].
   At each later call state, words and bytes must hold what the last call left there, the text must be the same, and so must the three lengths. All of
   them may have moved to other addresses. words and bytes are lent as to tokenglade_next: TOKENGLADE_STREAM_WORDS (with fewer the answer is 52) and, always
   enough, TOKENGLADE_BYTES(b) (5).

   A seed: closing is all zero, seed[0] is the seed, seed[1] how many were handed over with it: 1 at the first.
   Done: closing[0] is 1, closing[1] is the count of all seeds handed over, all else in closing and seed is 0. StreamEnd was reached, nothing was refused, and
   each entry of the list was handed over. An empty list is a list: its job is done with count 0. Whoever must have a seed has to look at the count.
   Not done: closing[0] is 2, closing[1] is the count of all seeds handed over, closing[2] is the refusal's number, closing[3] to closing[5] are the
   index, line and column of its mark, seed is all zero. Seeds handed over before stay valid.
   Done and not done come again at each later call. closing[6] is always 0; it is kept for a byte place.
   A job is done when closing[0] was 1, and only then: that seeds came says nothing of those behind them.

   The refusals are those of tokenglade_next, and 70 to 73, at the start of a token that it gave; whichever is met first is the one:
   - 70: a field that is none of the three, or came before; at its name.
   - 71: the text ends and a field is missing; at StreamEnd.
   - 72: an entry of the list that is a scalar and no such number.
   - 73: any other token that has no place where it stands; where a value is missing, at what stands there instead.

   Whatever state, words, bytes and text hold, and whatever lengths they have, a call returns: nothing outside state, words, bytes, seed and closing is
   written, and nothing outside them and text is read. But where they are not as said above, what it says may be anything: seeds without end, or done where
   nothing is. closing[0] 2 with number 0 comes only there. It is no closing record, tells nothing of the job, and need not come again. A text of b bytes has
   fewer than b seeds: stop there where a state may be damaged.
   state, text, words, bytes, seed and closing must not overlap; a pointer may be anything where its length is 0.
   It takes some 2.5 KB of stack, whatever the text, and no other memory. Threads may call it at the same time, each with a state, words, bytes, seed and
   closing of its own; they may share the text. */
void tokenglade_job(uint32_t state[TOKENGLADE_JOB_STATE], const uint8_t *text, size_t text_len, uint32_t *words, size_t words_len, uint8_t *bytes, size_t bytes_len, uint32_t seed[2], uint32_t closing[7]);

#ifdef __cplusplus
}
#endif

#endif
