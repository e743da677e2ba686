// answers: for each line of standard input, which is a text in hex or begins with one and ` => `, prints `HEX => ` and the entry's answer, as
// tests/vectors/README.md has them. At any other line it ends with status 2.
#include <stdio.h>
#include "tokenglade.h"
#include "vector.h"

enum { LONGEST = 1 << 21 };
static char line[2 * LONGEST];
static uint8_t text[LONGEST], bytes[TOKENGLADE_BYTES(LONGEST)];
static uint32_t words[TOKENGLADE_WORDS(LONGEST)];

static void print_records(uint32_t count) {
    for (size_t i = 0; i < (size_t)count * TOKENGLADE_RECORD_WORDS; i++)
        printf("%s%u", i == 0 ? "" : i % TOKENGLADE_RECORD_WORDS ? " " : ";", words[i]);
}

static void print_answer(const uint32_t a[6]) {
    if (a[0] != 0) {
        printf("R %u %u %u %u\n", a[0], a[1], a[2], a[3]);
        return;
    }
    printf("A %u %u|", a[4], a[5]);
    print_records(a[4]);
    printf("|");
    for (uint32_t i = 0; i < a[5]; i++)
        printf("%02x", bytes[i]);
    printf("\n");
}

int main(void) {
    uint32_t answer[6];
    for (size_t number = 1; fgets(line, sizeof line, stdin); number++) {
        size_t n = read_text(line, number, text, LONGEST);
        tokenglade_scan(text, n, words, TOKENGLADE_WORDS(n), bytes, TOKENGLADE_BYTES(n), answer);
        printf("%.*s => ", (int)(2 * n), line);
        print_answer(answer);
    }
    if (ferror(stdin)) {
        perror("standard input");
        return 2;
    }
    return end_of_output();
}
