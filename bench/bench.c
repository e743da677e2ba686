// bench SCANNER ROUNDS FILE: scans a file again and again; prints the best time in nanoseconds, the tokens (-1: refused), the peak memory in KB, and the bytes.
// tokenglade is lent what the text needs, tokenglade-full what demand 3 asks for any text of its size, which is cleared again by every scan.
// tokenglade-stream takes one token at a time; it is lent 4,400 records, for any text, and the bytes that the text needs.
// Buffers are lent as the last round left them; they are made and first touched before the clock starts.
#include <libfyaml.h>
#include <stdint.h>
#include <stdio.h>
#include <stdlib.h>
#include <string.h>
#include <time.h>
#include <yaml.h>
#include "tokenglade.h"

static uint32_t *words, answer[6];
static uint8_t *bytes;
static size_t words_len, bytes_len;

static long tokenglade(const char *text, size_t len) {
    tokenglade_scan((const uint8_t *)text, len, words, words_len, bytes, bytes_len, answer);
    return answer[0] ? -1 : (long)answer[4];
}

static long tokenglade_stream(const char *text, size_t len) {
    static uint32_t state[TOKENGLADE_STATE];
    uint32_t token[TOKENGLADE_RECORD_WORDS], last[5];
    memset(state, 0, sizeof state);
    for (long count = 0;; count++) {
        tokenglade_next(state, (const uint8_t *)text, len, words, words_len, bytes, bytes_len, token, last);
        if (token[0] == 0)
            return last[0] ? -1 : count;
    }
}

static void lend(const char *text, size_t len, const char *name) {
    int full = !strcmp(name, "tokenglade-full"), stream = !strcmp(name, "tokenglade-stream");
    tokenglade(text, len);
    // 4: there is no room yet
    if (answer[0] != 0 && answer[0] != 4)
        return;
    words_len = full ? TOKENGLADE_WORDS(len) : stream ? TOKENGLADE_STREAM_WORDS : (size_t)answer[4] * TOKENGLADE_RECORD_WORDS;
    bytes_len = full ? TOKENGLADE_BYTES(len) : answer[5];
    words = malloc(words_len * sizeof *words + 1);
    bytes = malloc(bytes_len + 1);
    if (!words || !bytes) {
        fprintf(stderr, "no memory\n");
        exit(2);
    }
    memset(words, 1, words_len * sizeof *words);
    memset(bytes, 1, bytes_len);
}

static long libyaml(const char *text, size_t len) {
    yaml_parser_t parser;
    yaml_token_t token;
    long count = 0;
    int ended = 0;
    yaml_parser_initialize(&parser);
    yaml_parser_set_input_string(&parser, (const unsigned char *)text, len);
    while (!ended) {
        if (!yaml_parser_scan(&parser, &token)) {
            count = -1;
            break;
        }
        count++;
        ended = token.type == YAML_STREAM_END_TOKEN;
        yaml_token_delete(&token);
    }
    yaml_parser_delete(&parser);
    return count;
}

static long libfyaml(const char *text, size_t len) {
    struct fy_parse_cfg cfg = { .flags = FYPCF_QUIET };
    struct fy_parser *parser = fy_parser_create(&cfg);
    struct fy_token *token;
    long count = 0;
    if (!parser || fy_parser_set_string(parser, text, len)) {
        fprintf(stderr, "libfyaml can't begin\n");
        exit(2);
    }
    // behind an error there are no more tokens either
    while ((token = fy_scan(parser)) != NULL) {
        count++;
        fy_scan_token_free(parser, token);
    }
    if (fy_parser_get_stream_error(parser))
        count = -1;
    fy_parser_destroy(parser);
    return count;
}

static double now(void) {
    struct timespec t;
    clock_gettime(CLOCK_PROCESS_CPUTIME_ID, &t);
    return t.tv_sec * 1e9 + t.tv_nsec;
}

// The peak of this process in KB, as the kernel tells it.
static long peak(void) {
    char line[256];
    long kb = 0;
    FILE *f = fopen("/proc/self/status", "r");
    while (f && fgets(line, sizeof line, f))
        if (sscanf(line, "VmHWM: %ld", &kb) == 1)
            break;
    if (f)
        fclose(f);
    return kb;
}

struct scanner { const char *name; long (*scan)(const char *, size_t); };
static const struct scanner SCANNERS[] = {
    { "tokenglade", tokenglade }, { "tokenglade-full", tokenglade }, { "tokenglade-stream", tokenglade_stream }, { "libyaml", libyaml }, { "libfyaml", libfyaml },
};

static const struct scanner *named(const char *name) {
    for (size_t i = 0; i < sizeof SCANNERS / sizeof *SCANNERS; i++)
        if (!strcmp(SCANNERS[i].name, name))
            return &SCANNERS[i];
    return NULL;
}

int main(int argc, char **argv) {
    static char text[1 << 21];
    double best = 1e18;
    long count = 0;
    const struct scanner *scanner = argc == 4 ? named(argv[1]) : NULL;
    int rounds = scanner ? atoi(argv[2]) : 0;
    FILE *f = rounds > 0 ? fopen(argv[3], "rb") : NULL;
    size_t len = f ? fread(text, 1, sizeof text, f) : 0;
    if (!f || ferror(f) || len == sizeof text) {
        fprintf(stderr, "usage: bench tokenglade|tokenglade-full|tokenglade-stream|libyaml|libfyaml ROUNDS FILE, a file of less than 2 MB\n");
        return 2;
    }
    fclose(f);
    if (!strncmp(scanner->name, "tokenglade", 10))
        lend(text, len, scanner->name);
    for (int round = rounds; round > 0; round--) {
        double start = now();
        count = scanner->scan(text, len);
        double spent = now() - start;
        best = spent < best ? spent : best;
    }
    printf("%.0f %ld %ld %zu\n", best, count, peak(), len);
    return fflush(stdout) ? 2 : 0;
}
