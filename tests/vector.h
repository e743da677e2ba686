// Texts in hex, with which lines of vectors begin (tests/vectors/README.md).
#ifndef VECTOR_H
#define VECTOR_H

#include <stdint.h>
#include <stdio.h>
#include <stdlib.h>
#include <string.h>

static unsigned digit_value(char c) {
    return c <= '9' ? c - '0' : c - 'a' + 10;
}

// The text of a line that ends behind it or goes on with ` => ` or ` words=`; its length. Any other line, one that is cut, and a text of more than `most` bytes end the program.
static size_t read_text(const char *line, size_t number, uint8_t *text, size_t most) {
    size_t digits = strspn(line, "0123456789abcdef"), len = digits / 2;
    const char *rest = line + digits;
    if (digits % 2 || len > most || !strchr(rest, '\n') || (*rest != '\n' && strncmp(rest, " => ", 4) && strncmp(rest, " words=", 7))) {
        fprintf(stderr, "line %zu: no text in lower-case hex of up to %zu bytes: %.60s\n", number, most, line);
        exit(2);
    }
    for (size_t i = 0; i < len; i++)
        text[i] = (uint8_t)(digit_value(line[2 * i]) * 16 + digit_value(line[2 * i + 1]));
    return len;
}

// Ends the program where what it printed was not written.
static int end_of_output(void) {
    if (fflush(stdout) == 0 && !ferror(stdout))
        return 0;
    perror("standard output");
    return 2;
}

#endif
