// The texts of the random drivers, those of vectors among them; and what every list of tokens keeps.
#ifndef TEXTS_H
#define TEXTS_H

#include <stddef.h>
#include <stdint.h>
#include <stdio.h>
#include <stdlib.h>
#include <string.h>
#include "tokenglade.h"
#include "vector.h"

enum { LONGEST = 1 << 16, GUARD = 64, MOST_TEXTS = 8192 };
static const uint32_t WORD_GUARD = 0xA5A5A5A5;
static const uint8_t BYTE_GUARD = 0x5A;

struct text { size_t len; uint8_t bytes[LONGEST]; };

// The texts of the vectors, each as long as it is.
static struct text *good[MOST_TEXTS];
static size_t good_count;
static uint64_t state;
// What was lent last.
static size_t lent_words, lent_bytes;

static uint64_t next(void) {
    state ^= state << 13;
    state ^= state >> 7;
    state ^= state << 17;
    return state;
}

static size_t below(size_t n) {
    return n == 0 ? 0 : next() % n;
}

static void fail(const struct text *t, const char *what) {
    printf("%s, words %zu, bytes %zu, text ", what, lent_words, lent_bytes);
    for (size_t i = 0; i < t->len; i++)
        printf("%02x", t->bytes[i]);
    printf("\n");
    exit(1);
}

// Texts.

static void random_bytes(struct text *t) {
    t->len = below(64);
    for (size_t i = 0; i < t->len; i++)
        t->bytes[i] = (uint8_t)next();
}

static const char *const PIECES[] = {
    "a", "b", "0", "key", " ", "  ", "\t", "\n", "\r\n", "\r", "\n  ", "- ", "? ", ": ", ":", ",", ", ", "[", "]", "{", "}", "'", "\"", "'a'", "\"b\"",
    "|", ">", "|\n  a\n", ">-\n a\n b\n", "|2+", "#", " # c", "!", "!!t", "!<u>", "!h!%41", "&a", "*a", "%", "%YAML 1.2\n", "%TAG ! b\n", "%X y z\n", "---", "...", "\n---\n",
    "\n...\n", "\\", "\\n", "\\x41", "\\u00e9", "\\U0001F600", "@", "`", "\xc3\xa9", "\xe2\x82\xac", "\xf0\x9f\x98\x80", "\xef\xbb\xbf", "\xc2\x85", "-", "?", "1, 2, 3",
};

static void random_yaml(struct text *t) {
    size_t count = below(below(20) == 0 ? 400 : 24);
    t->len = 0;
    for (size_t i = 0; i < count; i++) {
        const char *piece = PIECES[below(sizeof PIECES / sizeof *PIECES)];
        size_t n = strlen(piece);
        if (t->len + n > LONGEST)
            return;
        memcpy(t->bytes + t->len, piece, n);
        t->len += n;
    }
}

static void cut_out(struct text *t) {
    size_t at = below(t->len), n = below(t->len - at) + 1;
    memmove(t->bytes + at, t->bytes + at + n, t->len - at - n);
    t->len -= n;
}

static void put_in(struct text *t, const uint8_t *from, size_t n) {
    size_t at = below(t->len + 1);
    if (t->len + n > LONGEST)
        return;
    memmove(t->bytes + at + n, t->bytes + at, t->len - at);
    memcpy(t->bytes + at, from, n);
    t->len += n;
}

static void damage(struct text *t) {
    const struct text *other = good[below(good_count)];
    size_t from = below(other->len);
    const char *piece = PIECES[below(sizeof PIECES / sizeof *PIECES)];
    switch (below(4)) {
    case 0: if (t->len) t->bytes[below(t->len)] = (uint8_t)next(); break;
    case 1: if (t->len) cut_out(t); break;
    case 2: put_in(t, (const uint8_t *)piece, strlen(piece)); break;
    default: put_in(t, other->bytes + from, other->len - from);
    }
}

static void damaged(struct text *t) {
    const struct text *from = good[below(good_count)];
    memcpy(t, from, offsetof(struct text, bytes) + from->len);
    for (size_t i = below(4) + 1; i > 0; i--)
        damage(t);
}

static void read_good(const char *path) {
    static char line[1 << 20];
    static struct text t;
    FILE *f = fopen(path, "r");
    if (!f) {
        perror(path);
        exit(2);
    }
    for (size_t number = 1; fgets(line, sizeof line, f); number++) {
        t.len = read_text(line, number, t.bytes, LONGEST);
        size_t size = offsetof(struct text, bytes) + t.len;
        if (good_count == MOST_TEXTS || !(good[good_count] = malloc(size))) {
            fprintf(stderr, "%s: more than %zu texts\n", path, good_count);
            exit(2);
        }
        memcpy(good[good_count++], &t, size);
    }
    if (ferror(f)) {
        perror(path);
        exit(2);
    }
    fclose(f);
}

// A number that is all of an argument.
static unsigned long long number(const char *s) {
    char *end;
    unsigned long long n = strtoull(s, &end, 10);
    if (*s < '0' || *s > '9' || *end) {
        fprintf(stderr, "no number: %s\n", s);
        exit(2);
    }
    return n;
}

// Checks the texts of vectors and random ones, as the arguments of the program tell. A check says whether the text was accepted.
static int check_texts(int argc, char **argv, int (*check_vector)(const struct text *), int (*check)(const struct text *)) {
    static void (*const kinds[])(struct text *) = { random_bytes, random_yaml, damaged };
    size_t scanned[3] = { 0 }, accepted[3] = { 0 };
    static struct text t;
    if (argc < 4) {
        fprintf(stderr, "usage: %s SEED COUNT VECTORS...\n", argv[0]);
        return 2;
    }
    state = number(argv[1]) * 0x9E3779B97F4A7C15 + 1;
    unsigned long long count = number(argv[2]);
    for (int i = 3; i < argc; i++)
        read_good(argv[i]);
    if (good_count == 0) {
        fprintf(stderr, "no vectors\n");
        return 2;
    }
    for (size_t i = 0; i < good_count; i++)
        check_vector(good[i]);
    for (unsigned long long left = count; left > 0; left--) {
        size_t k = left % 8 == 0 ? 0 : 1 + left % 2;
        kinds[k](&t);
        accepted[k] += check(&t);
        scanned[k]++;
    }
    printf("vectors %zu, random bytes %zu (%zu accepted), random YAML %zu (%zu), damaged %zu (%zu): nothing broken\n", good_count, scanned[0], accepted[0], scanned[1], accepted[1], scanned[2], accepted[2]);
    return end_of_output();
}

// Tokens.

// Kinds 8 and 9 start a block, 10 ends it; 11 and 12, 13 and 14 are flow sequences and flow mappings.
static size_t nest(const struct text *t, uint32_t kind, uint32_t *open, size_t depth) {
    if (kind == 8 || kind == 9)
        open[depth++] = 10;
    else if (kind == 11 || kind == 13)
        open[depth++] = kind + 1;
    else if (kind == 10 || kind == 12 || kind == 14) {
        if (depth == 0 || open[depth - 1] != kind)
            fail(t, "an end closes no start of its kind");
        depth--;
    } else if (kind == 2 && depth != 0)
        fail(t, "a start is open at StreamEnd");
    return depth;
}

static void check_text(const struct text *t, uint32_t offset, uint32_t len, uint32_t *used) {
    if (len == 0)
        return;
    if (offset != *used)
        fail(t, "a text is not behind the one before it");
    *used += len;
}

// The bytes of the texts of a list, or of a beginning of one.
static uint32_t check_tokens(const struct text *t, const uint32_t *records, size_t count) {
    static uint32_t open[2 * LONGEST + 3];
    size_t depth = 0;
    uint32_t end = 0, used = 0;
    for (size_t i = 0; i < count; i++) {
        const uint32_t *w = records + i * TOKENGLADE_RECORD_WORDS;
        if (w[0] < 1 || w[0] > 23)
            fail(t, "a kind is not one of 01's");
        if (w[1] < end || w[4] < w[1])
            fail(t, "a span is not in order");
        end = w[4];
        depth = nest(t, w[0], open, depth);
        // A version directive (kind 3) has numbers there.
        check_text(t, w[7], w[0] == 3 ? 0 : w[8], &used);
        check_text(t, w[9], w[10], &used);
    }
    return used;
}

static size_t characters(const struct text *t) {
    size_t n = 0;
    for (size_t i = 0; i < t->len; i++)
        n += (t->bytes[i] & 0xC0) != 0x80;
    return n;
}

#endif
