// job SEED COUNT VECTORS: reads COUNT random and damaged texts as job sheets, and as many sheets that are put together of fields, in rooms from too small to
// ample. Holds seeds and closing record against what the tokens of tokenglade_next say by the grammar of a job sheet, and those of tokenglade_scan where
// the text is accepted; and calls with a state, words, bytes and a text that are not those of the call before. Each text of VECTORS is read too, as it is,
// cut at every place, and broken there. Prints the first text that breaks a check and exits with 1; else how many texts were read, and how jobs ended.
#include <signal.h>
#include <stdio.h>
#include <string.h>
#include <sys/mman.h>
#include <unistd.h>
#include "texts.h"
#include "tokenglade.h"

enum { R = TOKENGLADE_RECORD_WORDS, BYTES = 3 * LONGEST / 2, MOST_TOKENS = 2 * LONGEST + 3, MORE = 4 * R, CUT = 512 };
#define WORDS (TOKENGLADE_STREAM_WORDS + MORE)

// Rooms.

// What is lent to a call: state, text, words, bytes, seed and closing record, with the bytes that each may take at most. There are two rooms for each, so that
// it can move. A page that nobody may touch stands behind a room, bytes that nobody may write before it.
enum part { STATE, TEXT, LENT_WORDS, LENT_BYTES, SEED, CLOSING, PARTS };
static const size_t MOST[PARTS] = { 4 * TOKENGLADE_JOB_STATE, LONGEST, 4 * WORDS, BYTES, 4 * 2, 4 * 7 };
static uint8_t *ends[2][PARTS];
static size_t lens[PARTS];
static int side;
static const struct text *current;

static uint8_t *at(enum part p) {
    return ends[side][p] - lens[p];
}

static uint32_t *words_at(enum part p) {
    return (uint32_t *)at(p);
}

static uint8_t *end_of_room(size_t most) {
    size_t page = (size_t)sysconf(_SC_PAGESIZE), size = (most + GUARD + page - 1) / page * page;
    uint8_t *start = mmap(NULL, size + page, PROT_READ | PROT_WRITE, MAP_PRIVATE | MAP_ANONYMOUS, -1, 0);
    if (start == MAP_FAILED || mprotect(start + size, page, PROT_NONE)) {
        perror("rooms");
        exit(2);
    }
    return start + size;
}

static void touched(int signal) {
    (void)signal;
    fail(current, "what was not lent was touched");
}

static void make_rooms(void) {
    for (size_t i = 0; i < 2 * PARTS; i++)
        ends[i / PARTS][i % PARTS] = end_of_room(MOST[i % PARTS]);
    signal(SIGSEGV, touched);
    signal(SIGBUS, touched);
}

static void guard(void) {
    for (int p = 0; p < PARTS; p++)
        memset(at(p) - GUARD, BYTE_GUARD, GUARD);
}

static void lend(const struct text *t, size_t words_len, size_t bytes_len) {
    const size_t sizes[PARTS] = { MOST[STATE], t->len, 4 * words_len, bytes_len, MOST[SEED], MOST[CLOSING] };
    lent_words = words_len;
    lent_bytes = bytes_len;
    memcpy(lens, sizes, sizeof lens);
    current = t;
    guard();
    memcpy(at(TEXT), t->bytes, t->len);
}

static void check_guards(void) {
    for (size_t i = 0; i < PARTS * GUARD; i++)
        if (at(i / GUARD)[(long)(i % GUARD) - GUARD] != BYTE_GUARD)
            fail(current, "what was not lent was written");
    if (memcmp(at(TEXT), current->bytes, current->len))
        fail(current, "the text was written");
}

// All that is lent stands elsewhere from now on, and where it stood is rubbish.
static void move(void) {
    check_guards();
    for (int p = 0; p < PARTS; p++) {
        memcpy(ends[!side][p] - lens[p], at(p), lens[p]);
        memset(at(p), BYTE_GUARD, lens[p]);
    }
    side = !side;
    guard();
}

// A word from the lowest to the highest, small ones as often as large ones.
static uint32_t rubbish(void) {
    return (uint32_t)(next() >> (32 + below(32)));
}

// Rubbish, which comes again every so many bytes: a prime number, so that no record gets the same as the one before.
static void fill(enum part p) {
    enum { PERIOD = 509 };
    static uint8_t some[PERIOD];
    for (size_t i = 0; i < PERIOD; i++)
        some[i] = (uint8_t)next();
    for (size_t i = 0; i < lens[p]; i += PERIOD)
        memcpy(at(p) + i, some, lens[p] - i < PERIOD ? lens[p] - i : PERIOD);
}

// Calls.

static int all_zero(const uint32_t *w, size_t n) {
    for (size_t i = 0; i < n; i++)
        if (w[i])
            return 0;
    return 1;
}

// A seed, done or not done, as the header says it.
static int well_formed(const uint32_t *seed, const uint32_t *closing) {
    if (closing[0] == 0)
        return all_zero(closing, 7);
    if (closing[0] > 2 || closing[6] || !all_zero(seed, 2))
        return 0;
    return closing[0] == 2 || all_zero(closing + 2, 5);
}

static void call(void) {
    if (below(64) == 0)
        move();
    memset(at(SEED), BYTE_GUARD, lens[SEED]);
    memset(at(CLOSING), BYTE_GUARD, lens[CLOSING]);
    tokenglade_job(words_at(STATE), at(TEXT), lens[TEXT], words_at(LENT_WORDS), lent_words, at(LENT_BYTES), lent_bytes, words_at(SEED), words_at(CLOSING));
    if (!well_formed(words_at(SEED), words_at(CLOSING)))
        fail(current, "neither a seed nor a closing record");
}

// What is to be said.

// Tokens, and the answer behind them.
struct list { size_t count; uint32_t answer[5], records[MOST_TOKENS * R]; uint8_t bytes[BYTES]; };
// Seeds, and the closing record.
struct said { size_t count; uint32_t closing[7], seeds[LONGEST]; };

// The list that is read, the token that was met last, the fields met, what was said so far.
static const struct list *list;
static const uint32_t *here;
static size_t asked;
static int met[3];
static struct said *said;

static int closes(uint32_t number, const uint32_t *mark) {
    const uint32_t closing[7] = { 2, (uint32_t)said->count, number, mark[0], mark[1], mark[2], 0 };
    memcpy(said->closing, closing, sizeof closing);
    return 0;
}

static int refuse(uint32_t number) {
    return closes(number, here + 1);
}

// Each part below says whether it stands here: it ends with `here` at its last token. Where it does not, the job is closed.
static int ask(void) {
    if (asked == list->count)
        return closes(list->answer[0], list->answer + 1);
    here = list->records + asked++ * R;
    return 1;
}

static int all_met(void) {
    return met[0] && met[1] && met[2];
}

static int is(uint32_t kind) {
    return here[0] == kind || refuse(here[0] == 2 && !all_met() ? 71 : 73);
}

static int is_name(const char *name) {
    return here[8] == strlen(name) && !memcmp(list->bytes + here[7], name, here[8]);
}

static int is_number(const uint8_t *digits, size_t len, uint64_t *value) {
    *value = 0;
    if (len == 0 || len > 10 || (len > 1 && digits[0] == '0'))
        return 0;
    for (size_t i = 0; i < len; i++) {
        if (digits[i] < '0' || digits[i] > '9')
            return 0;
        *value = *value * 10 + (digits[i] - '0');
    }
    return *value <= 4294967295;
}

static int seed(void) {
    uint64_t value;
    if (!is(22))
        return 0;
    if (here[11] != 1 || !is_number(list->bytes + here[7], here[8], &value))
        return refuse(72);
    said->seeds[said->count++] = (uint32_t)value;
    return 1;
}

// part ( ',' part )* ','? or nothing, then the bracket's end
static int listed(uint32_t end, int (*part)(void)) {
    int comma = 1;
    for (;;) {
        if (!ask())
            return 0;
        if (here[0] == end)
            return 1;
        if (!(comma ? part() : is(16)))
            return 0;
        comma = !comma;
    }
}

// K name V, then a Scalar or '[' seeds? ']'
static int field(void) {
    static const char *const FIELDS[] = { "sample", "panel", "seeds" };
    int f = 0;
    if (!is(17) || !ask() || !is(22))
        return 0;
    while (f < 3 && !is_name(FIELDS[f]))
        f++;
    if (f == 3 || met[f])
        return refuse(70);
    met[f] = 1;
    if (!ask() || !is(18) || !ask())
        return 0;
    return f == 2 ? is(11) && listed(12, seed) : is(22);
}

// field* be
static int fields(void) {
    for (;;) {
        if (!ask())
            return 0;
        if (here[0] == 10)
            return 1;
        if (!field())
            return 0;
    }
}

// bm field* be | '{' fields? '}'
static int mapping(void) {
    return here[0] == 13 ? listed(14, field) : is(9) && fields();
}

// S mapping Z
static int job(void) {
    return ask() && is(1) && ask() && mapping() && ask() && is(2) && (all_met() || refuse(71));
}

static void read_list(const struct list *l, struct said *s) {
    list = l;
    said = s;
    asked = 0;
    memset(met, 0, sizeof met);
    s->count = 0;
    if (job()) {
        const uint32_t done[7] = { 1, (uint32_t)s->count };
        memcpy(s->closing, done, sizeof done);
    }
}

static int same(const struct said *a, const struct said *b) {
    return a->count == b->count && !memcmp(a->closing, b->closing, sizeof a->closing) && !memcmp(a->seeds, b->seeds, a->count * sizeof *a->seeds);
}

// The tokens that tokenglade_next gives in these rooms.
static void take(struct list *l, const struct text *t, size_t words_len, size_t bytes_len) {
    static uint32_t stream[TOKENGLADE_STATE], words[WORDS], token[R];
    size_t most = 2 * characters(t) + 3;
    memset(stream, 0, sizeof stream);
    for (l->count = 0;; l->count++) {
        tokenglade_next(stream, t->bytes, t->len, words, words_len, l->bytes, bytes_len, token, l->answer);
        if (token[0] == 0)
            return;
        if (l->count == most)
            fail(t, "more tokens than demand 3 allows");
        memcpy(l->records + l->count * R, token, sizeof token);
    }
}

// Those of the one call; none where it refuses the text. Whether it accepts it.
static int scan(struct list *l, const struct text *t) {
    uint32_t answer[6];
    tokenglade_scan(t->bytes, t->len, l->records, (2 * characters(t) + 3) * R, l->bytes, 3 * t->len / 2, answer);
    memcpy(l->answer, answer, sizeof l->answer);
    l->count = answer[0] ? 0 : answer[4];
    return answer[0] == 0;
}

// Checks.

// How often jobs ended so, by number; done is 0.
static size_t ended[128];

// From a fresh state, whatever words and bytes hold: what is to be said, and the closing record again and again.
static void check_said(const struct said *s) {
    if (s->closing[2] > 73)
        fail(current, "no such refusal");
    memset(at(STATE), 0, lens[STATE]);
    for (size_t n = 0; n < s->count; n++) {
        call();
        if (words_at(CLOSING)[0])
            fail(current, "closed before a seed");
        if (words_at(SEED)[0] != s->seeds[n] || words_at(SEED)[1] != n + 1)
            fail(current, "another seed or count");
    }
    for (int again = 0; again < 4; again++) {
        call();
        if (memcmp(words_at(CLOSING), s->closing, sizeof s->closing))
            fail(current, again ? "another closing record behind the last" : "another closing record");
    }
    check_guards();
    ended[s->closing[0] == 1 ? 0 : s->closing[2]]++;
}

static struct list tokens;
static struct said ample, part, whole;

// With room enough: as the tokens say; where the one call accepts the text, as its tokens say, or 51 behind a beginning of that.
static void check_ample(const struct text *t) {
    int accepted = scan(&tokens, t);
    if (accepted) {
        check_tokens(t, tokens.records, tokens.count);
        read_list(&tokens, &whole);
    }
    take(&tokens, t, WORDS, 3 * t->len / 2);
    read_list(&tokens, &ample);
    if (ample.closing[2] == 5 || ample.closing[2] == 52)
        fail(t, "no such refusal in room enough");
    if (!accepted && ample.closing[0] == 1)
        fail(t, "done, and the text is refused");
    if (accepted && ample.closing[2] != 51 && !same(&ample, &whole))
        fail(t, "something else than by the one call's tokens");
    lend(t, WORDS, 3 * t->len / 2);
    check_said(&ample);
    fill(LENT_WORDS);
    fill(LENT_BYTES);
    check_said(&ample);
}

// In any other room: as the tokens say that are given there.
static void check_part(const struct text *t, size_t words_len, size_t bytes_len) {
    take(&tokens, t, words_len, bytes_len);
    read_list(&tokens, &part);
    lend(t, words_len, bytes_len);
    check_said(&part);
}

// What calls left, with some words changed; or nothing that they left.
static void spoil(void) {
    memset(at(STATE), 0, lens[STATE]);
    for (size_t calls = below(ample.count + 3) % 64; calls > 0; calls--)
        call();
    for (size_t i = below(4) ? below(4) : 2 * TOKENGLADE_JOB_STATE; i > 0; i--)
        words_at(STATE)[below(TOKENGLADE_JOB_STATE)] = rubbish();
    // behind the stacks stand the few words that say what was done, and behind those the reader's own
    for (size_t i = below(6); i > 0; i--)
        words_at(STATE)[TOKENGLADE_JOB_STATE - 1 - below(below(2) ? 11 : 40)] = rubbish();
    for (size_t i = lent_words ? below(64) : 0; i > 0; i--)
        words_at(LENT_WORDS)[below(below(2) && lent_words > 64 ? 64 : lent_words)] = rubbish();
}

// A state, words, bytes, lengths and a text that no call before left so: calls return, and keep to what was lent.
static void check_rubbish(const struct text *t, const struct text *other) {
    static uint32_t kept[TOKENGLADE_JOB_STATE];
    size_t words_len = below(4) ? TOKENGLADE_STREAM_WORDS + below(MORE) : below(TOKENGLADE_STREAM_WORDS);
    lend(t, below(4) ? WORDS : below(WORDS), 3 * t->len / 2);
    spoil();
    check_guards();
    memcpy(kept, at(STATE), sizeof kept);
    if (below(2))
        lend(below(2) ? t : other, words_len, below(2) ? below(BYTES) : 3 * t->len / 2);
    memcpy(at(STATE), kept, sizeof kept);
    for (size_t calls = 1 + below(8); calls > 0; calls--)
        call();
    check_guards();
}

static int check(const struct text *t) {
    uint32_t done;
    check_ample(t);
    done = ample.closing[0] == 1;
    check_part(t, TOKENGLADE_STREAM_WORDS, below(3 * t->len / 2 + 1));
    check_part(t, TOKENGLADE_STREAM_WORDS + below(MORE), below(32));
    check_part(t, below(2) ? below(TOKENGLADE_STREAM_WORDS) : TOKENGLADE_STREAM_WORDS - 1, 3 * t->len / 2);
    check_rubbish(t, good[below(good_count)]);
    check_rubbish(t, good[below(good_count)]);
    return done;
}

// Sheets.

static void add(struct text *t, const char *piece) {
    size_t n = strlen(piece);
    if (t->len + n > LONGEST)
        return;
    memcpy(t->bytes + t->len, piece, n);
    t->len += n;
}

#define ONE_OF(...) one_of((const char *const[]){ __VA_ARGS__ }, sizeof((const char *const[]){ __VA_ARGS__ }) / sizeof(const char *))
static const char *one_of(const char *const *pieces, size_t count) {
    return pieces[below(count)];
}

static void add_number(struct text *t) {
    char digits[16];
    snprintf(digits, sizeof digits, "%u", below(8) ? rubbish() : 4294967295u);
    add(t, digits);
}

static void add_list(struct text *t) {
    size_t odd = below(16) ? 0 : 1 + below(8), entries = below(64) ? below(8) : below(2) ? 2035 + below(20) : below(300);
    const char *comma = ONE_OF(",", ", ", " , ", ",\n  ", ", # c\n  ", "\n  ,");
    add(t, ONE_OF("[", "[", "[ ", "[\n  ", "[ # c\n  "));
    for (size_t i = 1; i <= entries; i++) {
        if (i == odd)
            add(t, ONE_OF("007", "4294967296", "x", "'1'", "\"1\"", "-1", "1 2", "[1]", "{}", "1: 2", "? 1", "&a 1", "!t 1", "*a", "", "1\n  2", "1 # c\n  2", "@",
                          "1]"));
        else
            add_number(t);
        if (i < entries)
            add(t, comma);
    }
    add(t, ONE_OF("]", "]", "]", " ]", ",]", ", ]", "\n  ]"));
}

// A field in a block or in braces: of a name that may be none of the three.
static void add_field(struct text *t, size_t f, int braces) {
    static const char *const FIELDS[] = { "sample", "panel", "seeds", "sampl", "seeds ", "Panel" };
    const char *quote = ONE_OF("", "", "", "", "'", "\"");
    size_t explicit = below(12) == 0;
    add(t, explicit ? "? " : "");
    add(t, quote);
    add(t, FIELDS[f]);
    add(t, quote);
    add(t, explicit ? (braces ? " : " : "\n: ") : below(24) ? ONE_OF(": ", ": ", ": ", " : ", ":\n  ", ": # c\n  ") : ONE_OF(":\n", ":", " "));
    if (below(32) == 0)
        add(t, ONE_OF("&a ", "!t ", "- ", "x\n  ", "[1] ", "{} "));
    if (f == 2 ? below(24) : below(24) == 0)
        add_list(t);
    else
        add(t, ONE_OF("a", "S-17", "1", "'b c'", "\"\\e\\x41\"", "''", "\"a\n  b\"", "a # c", "\xc3\xa9\xe6\x97\xa5", braces ? "b" : "|\n  x\n  y",
                      braces ? "~" : ">-\n  x"));
}

static void random_sheet(struct text *t) {
    // the fields in one of their six orders, now and then too few or too many
    size_t first = below(3), step = 1 + below(2), count = below(8) ? 3 : below(5);
    int braces = below(4) == 0;
    const char *between = braces ? ONE_OF(", ", ",", ",\n ", " , ") : ONE_OF("\n", "\n", " # c\n", "\r\n", "\n\n");
    t->len = 0;
    add(t, below(16) ? "" : ONE_OF("---\n", "%YAML 1.2\n", "\xef\xbb\xbf", "# c\n", "\n", "--- "));
    add(t, braces ? ONE_OF("{", "{ ", "{\n ") : "");
    for (size_t i = 0; i < count; i++) {
        add_field(t, below(40) ? (first + i * step) % 3 : below(6), braces);
        if (i + 1 < count)
            add(t, between);
    }
    add(t, braces ? ONE_OF("}", "}", " }", ",}", "\n}") : "");
    add(t, below(8) ? ONE_OF("", "\n", "\n", "\n# c") : ONE_OF("\n...\n", "\n---\n", "\nx", " x"));
}

static size_t sheets, sheets_done;

static int check_random(const struct text *t) {
    static struct text sheet;
    random_sheet(&sheet);
    for (size_t i = below(4) ? 0 : 1 + below(2); i > 0; i--)
        damage(&sheet);
    sheets_done += (size_t)check(&sheet);
    sheets++;
    return check(t);
}

// A text of the vectors: as it is; and, where it is not long, cut at every place, and with a character there that begins no token, or that closes no bracket.
static int check_places(const struct text *t) {
    static struct text cut;
    static const char breaking[] = "@]";
    int done = check(t);
    for (size_t place = 0; t->len <= CUT && place < t->len; place++) {
        cut.len = place;
        memcpy(cut.bytes, t->bytes, place);
        check(&cut);
        for (const char *b = breaking; *b; b++) {
            cut.len = t->len + 1;
            cut.bytes[place] = (uint8_t)*b;
            memcpy(cut.bytes + place + 1, t->bytes + place, t->len - place);
            check(&cut);
        }
    }
    return done;
}

int main(int argc, char **argv) {
    make_rooms();
    int status = check_texts(argc, argv, check_places, check_random);
    if (status)
        return status;
    printf("job sheets %zu (%zu done); done %zu times, not done by 5 %zu times, by 51 %zu, by 52 %zu, by 70 %zu, by 71 %zu, by 72 %zu, by 73 %zu\n",
           sheets, sheets_done, ended[0], ended[5], ended[51], ended[52], ended[70], ended[71], ended[72], ended[73]);
    return end_of_output();
}
