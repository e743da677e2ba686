// The stream of the library with a fault, to see that tests/stream.c and tests/stream_answers.c notice it; FAULT says which.
// The library's own function is `real_next` here.
#include <string.h>
#include "tokenglade.h"

void real_next(uint32_t *state, const uint8_t *text, size_t text_len, uint32_t *words, size_t words_len, uint8_t *bytes, size_t bytes_len, uint32_t *token, uint32_t *answer);

void tokenglade_next(uint32_t *state, const uint8_t *text, size_t text_len, uint32_t *words, size_t words_len, uint8_t *bytes, size_t bytes_len, uint32_t *token, uint32_t *answer) {
    uint32_t none[TOKENGLADE_STATE] = { 0 };
    int fresh = !memcmp(state, none, sizeof none);
    real_next(state, text, text_len, words, words_len, bytes, bytes_len, token, answer);
    switch (FAULT) {
    case 1: // a token is left out
        if (token[0] == 16)
            real_next(state, text, text_len, words, words_len, bytes, bytes_len, token, answer);
        break;
    case 2: // a span
        if (token[0] == 17)
            token[4]++;
        break;
    case 3: // a text is written over
        if (token[0] == 2 && bytes_len)
            bytes[0] ^= 1;
        break;
    case 4: // a word behind the lent ones
        if (token[0] == 12)
            words[words_len] = 0;
        break;
    case 5: // a byte behind the lent ones
        if (token[0] == 22)
            bytes[bytes_len] = 0;
        break;
    case 6: // 51 once only
        if (answer[0] == 51)
            memset(state, 0, TOKENGLADE_STATE * sizeof *state);
        break;
    case 7: // the end once only
        if (token[0] == 2)
            memset(state, 0, TOKENGLADE_STATE * sizeof *state);
        break;
    case 8: // 52 is not told
        if (fresh && answer[0] == 52)
            answer[0] = 0, answer[2] = 0;
        break;
    case 9: // 51 has another mark
        if (answer[0] == 51)
            answer[1] += 100000;
        break;
    case 10: // 5 where it does not belong
        if (token[0] == 2 && bytes_len == 3 * text_len / 2) {
            memset(token, 0, TOKENGLADE_RECORD_WORDS * sizeof *token);
            answer[0] = 5, answer[2] = 1;
        }
        break;
    case 11: // a token and an answer
        answer[4] = token[0] == 22;
        break;
    case 12: // a word behind the record
        token[TOKENGLADE_RECORD_WORDS] = 0;
        break;
    case 13: // a word behind the state
        if (token[0] == 10)
            state[TOKENGLADE_STATE] = 0;
        break;
    case 14: // another refusal than the one call's
        if (answer[0] == 47)
            answer[3]++;
    }
}
