// stream SEED COUNT VECTORS: takes the tokens of COUNT random and damaged texts one at a time, in rooms from too small to ample, and holds them against
// the one call; and calls with a state and words that no call left so. Each text of VECTORS is taken too, as it is, cut at every place, and broken there.
// Prints the first text that breaks a check and exits with 1; else how many texts of each kind were taken.
#include <stdio.h>
#include <string.h>
#include "texts.h"
#include "tokenglade.h"

enum { R = TOKENGLADE_RECORD_WORDS, BYTES = 3 * LONGEST / 2, MOST_TOKENS = 2 * LONGEST + 3, MORE = 4 * R, CUT = 512 };
#define WORDS (TOKENGLADE_STREAM_WORDS + MORE)

// What is lent to a call, with words around each part that no call may write.
static struct {
    uint32_t before_state[GUARD], state[TOKENGLADE_STATE], before_token[GUARD], token[R], before_answer[GUARD], answer[5], before_words[GUARD];
    uint32_t words[WORDS + GUARD];
    uint8_t before_bytes[GUARD], bytes[BYTES + GUARD];
} lent;

// What was taken: the tokens, then an answer that came again.
struct taken { size_t count; uint32_t used, answer[5], records[MOST_TOKENS * R]; uint8_t bytes[BYTES]; };
static struct taken ample, part;
// How often each answer came last, by number.
static size_t ended[64];

// The one call's answer.
static uint32_t scanned[6], words[MOST_TOKENS * R];
static uint8_t bytes[BYTES];

static void guard_words(uint32_t *w) {
    for (size_t i = 0; i < GUARD; i++)
        w[i] = WORD_GUARD;
}

static void lend(size_t words_len, size_t bytes_len) {
    lent_words = words_len;
    lent_bytes = bytes_len;
    guard_words(lent.before_state);
    guard_words(lent.before_token);
    guard_words(lent.before_answer);
    guard_words(lent.before_words);
    guard_words(lent.words + words_len);
    memset(lent.before_bytes, BYTE_GUARD, GUARD);
    memset(lent.bytes + bytes_len, BYTE_GUARD, GUARD);
}

static int broken(const uint32_t *w) {
    for (size_t i = 0; i < GUARD; i++)
        if (w[i] != WORD_GUARD)
            return 1;
    return 0;
}

static void check_guards(const struct text *t) {
    if (broken(lent.before_state) || broken(lent.before_token) || broken(lent.before_answer) || broken(lent.before_words) || broken(lent.words + lent_words))
        fail(t, "a word outside the room was written");
    for (size_t i = 0; i < GUARD; i++)
        if (lent.before_bytes[i] != BYTE_GUARD || lent.bytes[lent_bytes + i] != BYTE_GUARD)
            fail(t, "a byte outside the room was written");
}

static int all_zero(const uint32_t *w, size_t n) {
    for (size_t i = 0; i < n; i++)
        if (w[i])
            return 0;
    return 1;
}

// Whether a token was given.
static int call(const struct text *t) {
    for (size_t i = 0; i < R; i++)
        lent.token[i] = WORD_GUARD;
    for (size_t i = 0; i < 5; i++)
        lent.answer[i] = WORD_GUARD;
    tokenglade_next(lent.state, t->bytes, t->len, lent.words, lent_words, lent.bytes, lent_bytes, lent.token, lent.answer);
    return lent.token[0] != 0;
}

// From a fresh state, whatever the rooms hold: tokens, then the same answer again and again.
static void take(struct taken *r, const struct text *t, size_t words_len, size_t bytes_len) {
    memset(lent.state, 0, sizeof lent.state);
    lend(words_len, bytes_len);
    for (r->count = 0; call(t); r->count++) {
        if (!all_zero(lent.answer, 5))
            fail(t, "a token and an answer");
        if (r->count == 2 * characters(t) + 3)
            fail(t, "more tokens than demand 3 allows");
        memcpy(r->records + r->count * R, lent.token, sizeof lent.token);
    }
    memcpy(r->answer, lent.answer, sizeof lent.answer);
    if (r->answer[0] > 52)
        fail(t, "no such refusal");
    ended[r->answer[0]]++;
    for (size_t again = 0; again < 3; again++) {
        if (!all_zero(lent.token, R) || memcmp(r->answer, lent.answer, sizeof lent.answer))
            fail(t, "another answer behind the last");
        call(t);
    }
    check_guards(t);
    r->used = check_tokens(t, r->records, r->count);
    if (r->used > bytes_len)
        fail(t, "more text than bytes");
    memcpy(r->bytes, lent.bytes, r->used);
}

static int is_refusal(const uint32_t *a, uint32_t number, uint32_t index, uint32_t line, uint32_t col) {
    return a[0] == number && a[1] == index && a[2] == line && a[3] == col && a[4] == 0;
}

// The same refusal as the one call's.
static int is_scanned(const uint32_t *a) {
    return is_refusal(a, scanned[0], scanned[1], scanned[2], scanned[3]);
}

static int is_beginning(const struct taken *r, const uint32_t *records, const uint8_t *text) {
    return !memcmp(r->records, records, r->count * R * sizeof *records) && !memcmp(r->bytes, text, r->used);
}

// 51: with those put in before them later, more than 4,096 tokens of the list begin up to its mark and were not given.
static void check_crowded(const struct text *t, const struct taken *r) {
    uint32_t begun = 0;
    if (r->answer[1] > characters(t) || r->count == 0)
        fail(t, "51 has no place");
    if (scanned[0])
        return;
    while (begun < scanned[4] && words[begun * R + 1] <= r->answer[1])
        begun++;
    if (begun - r->count <= 4096)
        fail(t, "51, and no more than 4,096 tokens wait");
}

// With room enough: the list, or a beginning of it and 51; of a refused text the one call's refusal, or 51 before it.
static void check_ample(const struct text *t) {
    const uint32_t *a = ample.answer;
    take(&ample, t, WORDS, 3 * t->len / 2);
    if (a[0] == 51)
        check_crowded(t, &ample);
    if (!scanned[0]) {
        if (!is_beginning(&ample, words, bytes))
            fail(t, "other tokens than the one call's");
        if (a[0] ? a[0] != 51 : ample.count != scanned[4] || ample.used != scanned[5])
            fail(t, "another end than the one call's");
        return;
    }
    if (!is_scanned(a) && (a[0] != 51 || a[1] > scanned[1]))
        fail(t, "another refusal than the one call's");
    if ((ample.count == 0) != (scanned[0] < 4))
        fail(t, "1, 2 and 3 alone come before any token");
}

// In any other room: the same, or a beginning of it and 5; 52 in its place where the words are too few.
static void check_part(const struct text *t, size_t words_len, size_t bytes_len) {
    take(&part, t, words_len, bytes_len);
    if (words_len < TOKENGLADE_STREAM_WORDS) {
        if (part.count || !(ample.count ? is_refusal(part.answer, 52, 0, 1, 0) : is_scanned(part.answer)))
            fail(t, "not 52 in few words");
        return;
    }
    if (part.count > ample.count || !is_beginning(&part, ample.records, ample.bytes))
        fail(t, "other tokens in another room");
    if (!memcmp(part.answer, ample.answer, sizeof ample.answer) && part.count == ample.count && (ample.answer[0] || ample.used <= bytes_len))
        return;
    if (!is_refusal(part.answer, 5, 0, 1, 0) || (!ample.answer[0] && ample.used <= bytes_len))
        fail(t, "another answer in another room");
}

// State and words that no call left so: there is an answer.
static void check_rubbish(const struct text *t) {
    size_t words_len = below(4) ? TOKENGLADE_STREAM_WORDS + below(MORE) : below(TOKENGLADE_STREAM_WORDS), calls = 1 + below(8);
    lend(words_len, below(2) ? below(3 * t->len / 2 + 1) : 3 * t->len / 2);
    for (; calls > 0; calls--) {
        if (call(t) && !all_zero(lent.answer, 5))
            fail(t, "a token and an answer");
    }
    check_guards(t);
}

// A word from the lowest to the highest, small ones as often as large ones.
static uint32_t rubbish(void) {
    return (uint32_t)(next() >> (32 + below(32)));
}

// What a call left, with some words changed; or nothing that it left.
static void spoil(const struct text *t) {
    if (below(4) == 0) {
        for (size_t i = 0; i < TOKENGLADE_STATE; i++)
            lent.state[i] = rubbish();
    } else {
        memset(lent.state, 0, sizeof lent.state);
        lend(WORDS, 3 * t->len / 2);
        for (size_t calls = below(2 * ample.count + 2); calls > 0; calls--)
            call(t);
    }
    // behind the stacks stand the few words that say what was done
    for (size_t i = below(4); i > 0; i--)
        lent.state[below(TOKENGLADE_STATE)] = rubbish();
    for (size_t i = below(4); i > 0; i--)
        lent.state[TOKENGLADE_STATE - 1 - below(32)] = rubbish();
    for (size_t i = below(64); i > 0; i--)
        lent.words[below(below(2) ? 64 : WORDS)] = rubbish();
}

static void scan(const struct text *t) {
    tokenglade_scan(t->bytes, t->len, words, (2 * characters(t) + 3) * R, bytes, 3 * t->len / 2, scanned);
}

static int check(const struct text *t) {
    scan(t);
    check_ample(t);
    check_part(t, TOKENGLADE_STREAM_WORDS, scanned[0] ? below(3 * t->len / 2 + 1) : scanned[5]);
    check_part(t, TOKENGLADE_STREAM_WORDS + below(MORE), below(ample.used + 4));
    check_part(t, below(2) ? below(TOKENGLADE_STREAM_WORDS) : TOKENGLADE_STREAM_WORDS - 1, 3 * t->len / 2);
    if (ample.used)
        check_part(t, WORDS, ample.used - 1);
    for (size_t i = 0; i < 2; i++) {
        spoil(t);
        check_rubbish(t);
    }
    return scanned[0] == 0;
}

static void add(struct text *t, const void *piece, size_t n) {
    if (t->len + n > LONGEST)
        return;
    memcpy(t->bytes + t->len, piece, n);
    t->len += n;
}

// The text, an open bracket behind it with some 4,096 tokens, and a random end.
static void crowded(struct text *c, const struct text *t) {
    static struct text end;
    static const struct { const char *open, *entry; size_t tokens; } LISTS[] = {
        { "\n[", "a,", 2 }, { "\n- [", "'',", 2 }, { "\n&a [", "a: b,", 7 }, { "\na:\n [", "[],", 3 }, { "\n{", "a: ,", 4 },
        { "\n- - [", "\n   a ,", 2 }, { "\na: [", "a,", 2 }, { "\na: [[", "a: [b],", 9 },
    };
    size_t k = below(sizeof LISTS / sizeof *LISTS), entries = 4096 / LISTS[k].tokens - 5 + below(10);
    c->len = 0;
    if (below(2))
        add(c, t->bytes, t->len);
    add(c, LISTS[k].open, strlen(LISTS[k].open));
    for (; entries > 0; entries--)
        add(c, LISTS[k].entry, strlen(LISTS[k].entry));
    for (size_t i = below(6); i > 0; i--)
        add(c, "a, " + below(3), 1);
    random_yaml(&end);
    add(c, end.bytes, end.len);
}

static int check_random(const struct text *t) {
    static struct text c;
    if (below(64) == 0) {
        crowded(&c, t);
        check(&c);
    }
    return check(t);
}

// A text of the vectors: as it is; and, where it is not long, cut at every place, and with a character there that begins no token, or that closes no bracket.
static int check_places(const struct text *t) {
    static struct text cut;
    static const char breaking[] = "@]";
    int accepted = check(t);
    for (size_t at = 0; t->len <= CUT && at < t->len; at++) {
        cut.len = at;
        memcpy(cut.bytes, t->bytes, at);
        check(&cut);
        for (const char *b = breaking; *b; b++) {
            cut.len = t->len + 1;
            cut.bytes[at] = (uint8_t)*b;
            memcpy(cut.bytes + at + 1, t->bytes + at, t->len - at);
            check(&cut);
        }
    }
    return accepted;
}

int main(int argc, char **argv) {
    int status = check_texts(argc, argv, check_places, check_random);
    if (status == 0)
        printf("ended %zu times, refused by 5 %zu times, by 51 %zu, by 52 %zu\n", ended[0], ended[5], ended[51], ended[52]);
    return status ? status : end_of_output();
}
