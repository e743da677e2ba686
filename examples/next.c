// next FILE: prints the tokens of a sheet as they come, then why and where it was refused, if it was. The exit status is 0, at a refusal 1, and 2 where it
// can't be read or printed. Beside the text it wants room for 4,400 records and for the decoded text, however many tokens there are.
#include "print.h"

static int next(const uint8_t *text, size_t len) {
    static uint32_t state[TOKENGLADE_STATE], words[TOKENGLADE_STREAM_WORDS];
    uint32_t token[TOKENGLADE_RECORD_WORDS], answer[5], last = 0;
    size_t bytes_len = TOKENGLADE_BYTES(len);
    uint8_t *bytes = malloc(bytes_len + 1);
    if (!bytes) {
        fprintf(stderr, "no memory for the text of %zu bytes\n", len);
        return 2;
    }
    for (;;) {
        tokenglade_next(state, text, len, words, TOKENGLADE_STREAM_WORDS, bytes, bytes_len, token, answer);
        if (token[0] == 0)
            break;
        print_token(token, bytes, bytes_len);
        last = token[0];
    }
    free(bytes);
    if (answer[0]) {
        print_refusal(answer);
        return 1;
    }
    // ended: only behind StreamEnd (2) is the text accepted
    if (last != 2) {
        fprintf(stderr, "the tokens ended without StreamEnd\n");
        return 2;
    }
    return 0;
}

int main(int argc, char **argv) {
    return tell_sheet(argc, argv, "next", next);
}
