// list FILE: prints the tokens of a sheet, or why and where it was refused. The exit status is 0, at a refusal 1, and 2 where it can't be read or printed.
#include "print.h"

static int list(const uint8_t *text, size_t len) {
    size_t bytes_len = TOKENGLADE_BYTES(len);
    uint32_t *words = malloc(TOKENGLADE_WORDS(len) * sizeof *words);
    uint8_t *bytes = malloc(bytes_len + 1);
    uint32_t answer[6];
    if (!words || !bytes) {
        fprintf(stderr, "no memory for the tokens of %zu bytes\n", len);
        free(words);
        free(bytes);
        return 2;
    }
    tokenglade_scan(text, len, words, TOKENGLADE_WORDS(len), bytes, bytes_len, answer);
    if (answer[0])
        print_refusal(answer);
    for (uint32_t i = 0; !answer[0] && i < answer[4]; i++)
        print_token(words + (size_t)i * TOKENGLADE_RECORD_WORDS, bytes, bytes_len);
    free(words);
    free(bytes);
    return answer[0] ? 1 : 0;
}

int main(int argc, char **argv) {
    return tell_sheet(argc, argv, "list", list);
}
