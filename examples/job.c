// job FILE: prints the seeds of a job sheet as they are handed over, one a line; then, as the last line, `done COUNT` or `not done NUMBER LINE COLUMN COUNT`,
// and why in words on standard error. The exit status is 0, where the job is not done 1, 2 where the sheet can't be read or printed, and 4 where it is done and
// its list is empty.
#include "print.h"
#include <string.h>

static int job(const uint8_t *text, size_t len) {
    static uint32_t state[TOKENGLADE_JOB_STATE], words[TOKENGLADE_STREAM_WORDS];
    uint32_t seed[2], closing[7];
    size_t bytes_len = TOKENGLADE_BYTES(len);
    uint8_t *bytes = malloc(bytes_len + 1);
    if (!bytes) {
        fprintf(stderr, "no memory\n");
        return 2;
    }
    // a state that is not zero is that of another sheet, and says again how that ended
    memset(state, 0, sizeof state);
    for (;;) {
        tokenglade_job(state, text, len, words, TOKENGLADE_STREAM_WORDS, bytes, bytes_len, seed, closing);
        if (closing[0])
            break;
        printf("%u\n", seed[0]);
    }
    free(bytes);
    uint32_t count = closing[1], number = closing[2], line = closing[4], column = closing[5] + 1;
    if (closing[0] == 1) {
        printf("done %u\n", count);
        return count ? 0 : 4;
    }
    fprintf(stderr, "not done (%u) at line %u, column %u: %s; seeds before: %u\n", number, line, column, NAMED(REFUSALS, number), count);
    printf("not done %u %u %u %u\n", number, line, column, count);
    return 1;
}

int main(int argc, char **argv) {
    return tell_sheet(argc, argv, "job", job);
}
