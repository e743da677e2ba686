// fuzz SEED COUNT VECTORS: scans COUNT random and damaged texts in rooms of many sizes, and checks what every answer must keep.
// Prints the first text that breaks a check and exits with 1; else how many texts of each kind were scanned. Each text of VECTORS is scanned too, as it is.
#include <stdio.h>
#include <string.h>
#include "texts.h"
#include "tokenglade.h"

enum { WORDS = (2 * LONGEST + 3) * TOKENGLADE_RECORD_WORDS, BYTES = 3 * LONGEST / 2 };
struct room { uint32_t words[WORDS + 2 * GUARD]; uint8_t bytes[BYTES + 2 * GUARD]; size_t words_len, bytes_len; uint32_t answer[6]; };

static struct room whole, part;

static void lend(struct room *r, size_t words_len, size_t bytes_len) {
    r->words_len = lent_words = words_len;
    r->bytes_len = lent_bytes = bytes_len;
    for (size_t i = 0; i < words_len + 2 * GUARD; i++)
        r->words[i] = WORD_GUARD;
    memset(r->bytes, BYTE_GUARD, bytes_len + 2 * GUARD);
}

static void scan(struct room *r, const struct text *t, size_t words_len, size_t bytes_len) {
    lend(r, words_len, bytes_len);
    tokenglade_scan(t->bytes, t->len, r->words + GUARD, words_len, r->bytes + GUARD, bytes_len, r->answer);
    for (size_t i = 0; i < GUARD; i++) {
        if (r->words[i] != WORD_GUARD || r->words[GUARD + words_len + i] != WORD_GUARD)
            fail(t, "a word outside the room was written");
        if (r->bytes[i] != BYTE_GUARD || r->bytes[GUARD + bytes_len + i] != BYTE_GUARD)
            fail(t, "a byte outside the room was written");
    }
}

static void check_zero(const struct room *r, const struct text *t, size_t words_from, size_t bytes_from) {
    for (size_t i = words_from; i < r->words_len; i++)
        if (r->words[GUARD + i] != 0)
            fail(t, "an unused word is not zero");
    for (size_t i = bytes_from; i < r->bytes_len; i++)
        if (r->bytes[GUARD + i] != 0)
            fail(t, "an unused byte is not zero");
}

// With room enough: neither 4 nor 5.
static void check_whole(const struct text *t) {
    size_t c = characters(t);
    scan(&whole, t, (2 * c + 3) * TOKENGLADE_RECORD_WORDS, 3 * t->len / 2);
    const uint32_t *a = whole.answer;
    if (a[0] != 0) {
        if (a[0] == 4 || a[0] == 5)
            fail(t, "4 or 5 in room enough");
        check_zero(&whole, t, 0, 0);
        return;
    }
    if (a[4] > 2 * c + 3 || 2 * (size_t)a[5] > 3 * t->len)
        fail(t, "more tokens or bytes than demand 3 allows");
    check_zero(&whole, t, (size_t)a[4] * TOKENGLADE_RECORD_WORDS, a[5]);
    if (check_tokens(t, whole.words + GUARD, a[4]) != a[5])
        fail(t, "texts and D differ");
}

// In any other room: the same refusal, 4, 5, or the same tokens.
static void check_part(const struct text *t, size_t words_len, size_t bytes_len) {
    const uint32_t *a = whole.answer;
    scan(&part, t, words_len, bytes_len);
    uint32_t number = a[0] != 0 ? a[0] : words_len / TOKENGLADE_RECORD_WORDS < a[4] ? 4 : bytes_len < a[5] ? 5 : 0;
    if (part.answer[0] != number || part.answer[4] != a[4] || part.answer[5] != a[5])
        fail(t, "another answer in another room");
    if (number != 0) {
        uint32_t line = number == 4 || number == 5 ? 1 : a[2];
        if (part.answer[1] != a[1] || part.answer[2] != line || part.answer[3] != a[3])
            fail(t, "another mark in another room");
        check_zero(&part, t, 0, 0);
        return;
    }
    check_zero(&part, t, (size_t)a[4] * TOKENGLADE_RECORD_WORDS, a[5]);
    if (memcmp(part.words + GUARD, whole.words + GUARD, (size_t)a[4] * TOKENGLADE_RECORD_WORDS * 4) || memcmp(part.bytes + GUARD, whole.bytes + GUARD, a[5]))
        fail(t, "other tokens in another room");
}

static int check(const struct text *t) {
    check_whole(t);
    size_t words = (size_t)whole.answer[4] * TOKENGLADE_RECORD_WORDS, bytes = whole.answer[5];
    check_part(t, 0, 0);
    check_part(t, below(words + 2 * TOKENGLADE_RECORD_WORDS), below(bytes + 4));
    check_part(t, words, bytes);
    if (words)
        check_part(t, words - 1, bytes + below(4));
    if (bytes)
        check_part(t, words + below(TOKENGLADE_RECORD_WORDS), bytes - 1);
    return whole.answer[0] == 0;
}

int main(int argc, char **argv) {
    return check_texts(argc, argv, check, check);
}
