// stream_answers: for each line of standard input, which begins `HEX words=W bytes=B`, prints that, ` => ` and what tokenglade_next gives in rooms of
// W words and B bytes, as tests/vectors/README.md has it. At any other line it ends with status 2.
#include <stdio.h>
#include <string.h>
#include "tokenglade.h"
#include "vector.h"

enum { LONGEST = 1 << 21 };
static char line[2 * LONGEST];
static uint8_t text[LONGEST], bytes[TOKENGLADE_BYTES(LONGEST)];
static uint32_t state[TOKENGLADE_STATE], words[1 << 20], token[TOKENGLADE_RECORD_WORDS], answer[5];
static size_t text_len, words_len, bytes_len;

static int call(void) {
    tokenglade_next(state, text, text_len, words, words_len, bytes, bytes_len, token, answer);
    return token[0] != 0;
}

static size_t count_tokens(void) {
    size_t n = 0;
    memset(state, 0, sizeof state);
    while (call())
        n++;
    return n;
}

// How many bytes hold the texts up to this token. A version directive (kind 3) has numbers there.
static uint32_t used_behind(uint32_t used) {
    if (token[0] == 3)
        return used;
    return used + token[8] + token[10];
}

// How many bytes hold the texts of the tokens.
static uint32_t print_tokens(void) {
    uint32_t used = 0;
    memset(state, 0, sizeof state);
    for (size_t n = 0; call(); n++) {
        for (size_t i = 0; i < TOKENGLADE_RECORD_WORDS; i++)
            printf("%s%u", i ? " " : n ? ";" : "", token[i]);
        used = used_behind(used);
    }
    return used;
}

static void print_answer(void) {
    if (answer[0])
        printf("|R %u %u %u %u", answer[0], answer[1], answer[2], answer[3]);
    else
        printf("|E");
}

static void print_taken(void) {
    printf("%zu|", count_tokens());
    uint32_t used = print_tokens();
    printf("|");
    for (uint32_t i = 0; i < used; i++)
        printf("%02x", bytes[i]);
    print_answer();
    call();
    print_answer();
    printf("\n");
}

int main(void) {
    for (size_t number = 1; fgets(line, sizeof line, stdin); number++) {
        int head = 0;
        text_len = read_text(line, number, text, LONGEST);
        if (sscanf(line + 2 * text_len, " words=%zu bytes=%zu%n", &words_len, &bytes_len, &head) != 2 || words_len > sizeof words / sizeof *words || bytes_len > sizeof bytes) {
            fprintf(stderr, "line %zu: no rooms: %.60s\n", number, line + 2 * text_len);
            return 2;
        }
        printf("%.*s => ", (int)(2 * text_len) + head, line);
        print_taken();
    }
    if (ferror(stdin)) {
        perror("standard input");
        return 2;
    }
    return end_of_output();
}
