/* common.h: what the test programs in C share. */
#ifndef COMMON_H
#define COMMON_H

#include <camac/camac.h>
#include <stdarg.h>
#include <stdio.h>
#include <stdlib.h>
#include <string.h>

/* Stops the program with a sentence. */
static inline void fail(const char *form, ...) {
    va_list its;
    va_start(its, form);
    vfprintf(stderr, form, its);
    va_end(its);
    fprintf(stderr, "\n");
    exit(1);
}

#define EXPECT(code, call) expect((code), (call), #call, __LINE__)
static inline void expect(int code, int found, const char *what, int line) {
    if (code != found) fail("line %d: %s is %d, not %d", line, what, found, code);
}

static const camac_want no_want = CAMAC_WANT;
static const camac_progress no_progress = CAMAC_PROGRESS;
static const camac_answer no_answer = CAMAC_ANSWER;

static inline void expect_zeros(const void *found, const void *zeros, size_t size, int line) {
    if (memcmp(found, zeros, size)) fail("line %d: what is no result is not zeros", line);
}

/* Fills a struct with what is no result, but for its size. */
static inline void spoil(void *its, uint32_t size) {
    memset(its, 9, size);
    memcpy(its, &size, sizeof size);
}

typedef struct text {
    char *bytes;
    size_t size;
} text;

/* The bytes of a file, with one byte more of room. */
static inline text read_file(const char *path) {
    text its = {NULL, 0};
    FILE *file = fopen(path, "rb");
    if (!file || fseek(file, 0, SEEK_END)) fail("%s cannot be read", path);
    const long size = ftell(file);
    rewind(file);
    its.bytes = malloc((size_t)size + 1);
    its.size = its.bytes ? fread(its.bytes, 1, (size_t)size, file) : 0;
    fclose(file);
    if (its.size != (size_t)size) fail("%s cannot be read", path);
    return its;
}

static inline uint32_t chance(uint32_t *seed, uint32_t below) {
    *seed = *seed * 1664525u + 1013904223u;
    return (uint32_t)(((uint64_t)*seed * below) >> 32);
}

/* Any answer: X and Q now and then 0, a wait that is seldom too great, a pattern of any kind. */
static inline camac_answer any_answer(uint32_t *seed) {
    static const uint32_t words[4] = {0, 1, 0xffffff, 0x123fff};
    camac_answer its = CAMAC_ANSWER;
    const uint32_t which = chance(seed, 8), pattern = chance(seed, 4);
    its.x = chance(seed, 10) > 0;
    its.q = chance(seed, 10) > 1;
    its.word = which < 4 ? words[which] : chance(seed, 1u << 24);
    its.wait = (uint8_t)(chance(seed, 150) ? chance(seed, 12) / 10 : chance(seed, 16));
    its.gl = pattern == 0 ? 0 : pattern == 1 ? chance(seed, 1u << 24) : 1u << (pattern == 2 ? 2 : chance(seed, 24));
    return its;
}

static inline void open_session(camac_session *s, const text *plan, const text *script) {
    size_t size;
    EXPECT(CAMAC_OK, camac_open(s, plan->bytes, plan->size, script->bytes, script->size, NULL, 0, &size));
}

/* Plays so many answers, and sums up all that they did. */
static inline uint64_t play_some(camac_session *s, uint32_t *seed, long answers) {
    camac_answer demand = CAMAC_ANSWER;
    uint64_t sum = 0;
    uint32_t words[8];
    camac_want want = CAMAC_WANT;
    camac_progress did = CAMAC_PROGRESS;
    demand.gl = 4;
    for (long i = 0; i < answers; i++) {
        camac_answer answer = any_answer(seed);
        EXPECT(CAMAC_OK, camac_wants(s, &want));
        answer.wait = 0;
        EXPECT(CAMAC_OK, camac_next(s, want.kind == CAMAC_DEMAND ? &demand : &answer, &did));
        sum = sum * 31 + want.kind + did.pattern + did.event + did.event_cycles;
        if (did.event)
            for (size_t k = 0, count = camac_words(s, words, 8); k < count && k < 8; k++) sum = sum * 31 + words[k];
    }
    return sum;
}

#endif
