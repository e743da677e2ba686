// What the examples in C share: a sheet is read, and tokens and refusals are printed. Inline is what not all of them use.
#ifndef PRINT_H
#define PRINT_H

#include <stdio.h>
#include <stdlib.h>
#include "tokenglade.h"

static const char *const KINDS[] = {
#define TOKENGLADE_KIND(number, name) [number] = name,
#include "tokenglade_names.h"
};
static const char *const STYLES[] = {
#define TOKENGLADE_STYLE(number, name) [number] = name,
#undef TOKENGLADE_KIND
#include "tokenglade_names.h"
};
static const char *const REFUSALS[] = {
#define TOKENGLADE_REFUSAL(number, words) [number] = words,
#undef TOKENGLADE_STYLE
#include "tokenglade_names.h"
};

// The words for a number. A damaged state may bring any number, and any offset and length below.
#define NAMED(list, number) named(list, sizeof list / sizeof *list, number)
static const char *named(const char *const *list, size_t count, uint32_t number) {
    return number < count && list[number] ? list[number] : "unknown";
}

// The text whose offset and length are the words at `w`.
static inline void print_text(const uint32_t *w, const uint8_t *bytes, size_t bytes_len) {
    if (w[0] > bytes_len || w[1] > bytes_len - w[0]) {
        printf(" (outside the bytes)");
        return;
    }
    const uint8_t *text = bytes + w[0];
    printf(" \"");
    for (uint32_t i = 0; i < w[1]; i++) {
        if (text[i] < 32 || text[i] == 127 || text[i] == '"' || text[i] == '\\')
            printf("\\x%02x", text[i]);
        else
            putchar(text[i]);
    }
    putchar('"');
}

// Columns are printed from 1, as editors count them.
static inline void print_token(const uint32_t *w, const uint8_t *bytes, size_t bytes_len) {
    uint32_t kind = w[0];
    printf("%u:%u-%u:%u %s", w[2], w[3] + 1, w[5], w[6] + 1, NAMED(KINDS, kind));
    if (kind == 3)
        printf(" %u.%u", w[7], w[8]);
    if (kind == 22)
        printf(" %s", NAMED(STYLES, w[11]));
    if (kind == 4 || (kind >= 19 && kind <= 23))
        print_text(w + 7, bytes, bytes_len);
    if (kind == 4 || kind == 21 || kind == 23)
        print_text(w + 9, bytes, bytes_len);
    putchar('\n');
}

static inline void print_refusal(const uint32_t *answer) {
    printf("refused (%u) at line %u, column %u: %s\n", answer[0], answer[2], answer[3] + 1, NAMED(REFUSALS, answer[0]));
}

// Reads the file that the arguments name, and lets `tell` print it; the exit status. A pipe that nobody reads any more ends the program by SIGPIPE.
static int tell_sheet(int argc, char **argv, const char *name, int (*tell)(const uint8_t *, size_t)) {
    // a byte more than is scanned, so that a longer file is refused too
    static uint8_t text[1048577];
    FILE *file = argc == 2 ? fopen(argv[1], "rb") : NULL;
    if (!file) {
        if (argc == 2)
            perror(argv[1]);
        else
            fprintf(stderr, "usage: %s FILE\n", name);
        return 2;
    }
    size_t len = fread(text, 1, sizeof text, file);
    if (ferror(file)) {
        perror(argv[1]);
        return 2;
    }
    fclose(file);
    int status = tell(text, len);
    if (fflush(stdout) || ferror(stdout)) {
        perror("standard output");
        return 2;
    }
    return status;
}

#endif
