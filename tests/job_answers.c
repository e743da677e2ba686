// job_answers: for each line of standard input, which begins `HEX words=W bytes=B`, prints that, ` => ` and what tokenglade_job gives in rooms of W words
// and B bytes, as tests/vectors/README.md has it for jobs.txt. At any other line it ends with status 2.
#include <stdio.h>
#include <string.h>
#include "tokenglade.h"
#include "vector.h"

enum { LONGEST = 1 << 21 };
static char line[2 * LONGEST];
static uint8_t text[LONGEST], bytes[TOKENGLADE_BYTES(LONGEST)];
static uint32_t state[TOKENGLADE_JOB_STATE], words[1 << 20], seed[2], closing[7];
static size_t text_len, words_len, bytes_len;

// Whether a seed was handed over.
static int call(void) {
    tokenglade_job(state, text, text_len, words, words_len, bytes, bytes_len, seed, closing);
    return closing[0] == 0;
}

static void print_closing(void) {
    if (closing[0] == 1)
        printf("|done %u", closing[1]);
    else
        printf("|not %u %u %u %u %u", closing[2], closing[3], closing[4], closing[5], closing[1]);
}

// The closing record is printed again where it is another at the next call. A text has fewer seeds than bytes.
static void print_job(void) {
    uint32_t first[7];
    memset(state, 0, sizeof state);
    for (size_t n = 0; call() && n < text_len; n++)
        printf("%s%u:%u", n ? "," : "", seed[0], seed[1]);
    print_closing();
    memcpy(first, closing, sizeof first);
    call();
    if (memcmp(first, closing, sizeof first))
        print_closing();
    printf("\n");
}

int main(void) {
    for (size_t number = 1; fgets(line, sizeof line, stdin); number++) {
        int head = 0;
        text_len = read_text(line, number, text, LONGEST);
        if (sscanf(line + 2 * text_len, " words=%zu bytes=%zu%n", &words_len, &bytes_len, &head) != 2 || words_len > sizeof words / sizeof *words || bytes_len > sizeof bytes) {
            fprintf(stderr, "line %zu: no rooms: %.60s\n", number, line + 2 * text_len);
            return 2;
        }
        printf("%.*s => ", (int)(2 * text_len) + head, line);
        print_job();
    }
    if (ferror(stdin)) {
        perror("standard input");
        return 2;
    }
    return end_of_output();
}
