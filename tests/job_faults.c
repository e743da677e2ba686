// The job reader of the library with a fault, to see that the checks notice it; FAULT says which. The library's own function is `real_job` here.
#include <string.h>
#include "tokenglade.h"

void real_job(uint32_t *state, const uint8_t *text, size_t text_len, uint32_t *words, size_t words_len, uint8_t *bytes, size_t bytes_len, uint32_t *seed, uint32_t *closing);

void tokenglade_job(uint32_t *state, const uint8_t *text, size_t text_len, uint32_t *words, size_t words_len, uint8_t *bytes, size_t bytes_len, uint32_t *seed, uint32_t *closing) {
    static uint32_t *before;
    static volatile uint8_t seen;
    uint32_t none[TOKENGLADE_JOB_STATE] = { 0 }, first = words_len ? words[words_len - 1] : 0;
    int fresh = !memcmp(state, none, sizeof none), moved = !fresh && state != before, strange = state[TOKENGLADE_JOB_STATE - 11] > 12;
    before = state;
    real_job(state, text, text_len, words, words_len, bytes, bytes_len, seed, closing);
    switch (FAULT) {
    case 1: // a seed is left out
        if (seed[1] == 2)
            real_job(state, text, text_len, words, words_len, bytes, bytes_len, seed, closing);
        break;
    case 2: // another seed
        if (seed[0] == 4294967295)
            seed[0] = 0;
        break;
    case 3: // another running count
        if (seed[1] > 2)
            seed[1]--;
        break;
    case 4: // another count at the end
        if (closing[0] == 1)
            closing[1]++;
        break;
    case 5: // done with a field missing
        if (closing[2] == 71) {
            memset(closing, 0, 7 * sizeof *closing);
            closing[0] = 1;
        }
        break;
    case 6: // done once only
        if (closing[0] == 1)
            memset(state, 0, TOKENGLADE_JOB_STATE * sizeof *state);
        break;
    case 7: // not done once only
        if (closing[0] == 2)
            memset(state, 0, TOKENGLADE_JOB_STATE * sizeof *state);
        break;
    case 8: // a scanner's refusal has another mark
        if (closing[2] == 47)
            closing[5]++;
        break;
    case 9: // 72 in place of 73
        if (closing[2] == 73)
            closing[2] = 72;
        break;
    case 10: // 51 is passed over
        if (closing[2] == 51)
            closing[2] = 47;
        break;
    case 11: // 52 has a count
        if (closing[2] == 52)
            closing[1] = 1;
        break;
    case 12: // a seed beside a closing record
        if (closing[0] == 2)
            seed[0] = 1;
        break;
    case 13: // a word before the lent ones
        if (closing[0] == 1)
            words[-1] = 0;
        break;
    case 14: // a byte before the lent ones
        if (closing[0] == 1)
            bytes[-1] = 0;
        break;
    case 15: // a word before the state
        if (closing[0] == 1)
            state[-1] = 0;
        break;
    case 16: // a word behind the lent ones
        if (closing[0] == 1)
            words[words_len] = 0;
        break;
    case 17: // a byte behind the lent ones
        if (closing[0] == 1)
            bytes[bytes_len] = 0;
        break;
    case 18: // a word behind the state
        if (closing[0] == 1)
            state[TOKENGLADE_JOB_STATE] = 0;
        break;
    case 19: // a word behind the seed
        seed[2] = 0;
        break;
    case 20: // a word behind the closing record
        closing[7] = 0;
        break;
    case 21: // a byte behind the text is read
        seen = text[text_len];
        break;
    case 22: // the text is written
        if (closing[0] == 1)
            ((uint8_t *)text)[0] = '@';
        break;
    case 23: // what words held at first is seen
        if (fresh && first % 16 == 5 && closing[0] == 0)
            seed[0]++;
        break;
    case 24: // what is lent must not move
        if (moved && closing[0] == 0)
            seed[0]++;
        break;
    case 25: // no such closing record, of a state that is rubbish
        if (strange)
            closing[0] = 3;
        break;
    case 26: // the last word of a closing record
        closing[6] = closing[0] == 2;
        break;
    case 27: // done and a mark
        closing[4] = closing[0] == 1 ? 1 : closing[4];
        break;
    case 28: // refused in room enough
        if (closing[0] == 1 && bytes_len == 3 * text_len / 2)
            closing[0] = 2, closing[2] = 5, closing[4] = 1;
        break;
    case 29: // 5 is passed over
        if (closing[2] == 5)
            closing[2] = 0, closing[4] = 0, closing[0] = 1;
        break;
    case 30: // done before the last seed
        if (seed[1] == 3)
            closing[0] = 1, closing[1] = 2, seed[0] = seed[1] = 0;
        break;
    case 31: // a seed that no vector has
        if (seed[0] == 13)
            seed[0]++;
    }
}
