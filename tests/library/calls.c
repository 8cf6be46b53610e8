/* calls.c: each code of each call, sessions in turn and in threads, and texts that nest deep, in 256 KiB of stack; openings in flat memory.
 *
 *     calls PLAN SCRIPT OPENINGS */
#define _GNU_SOURCE
#include "common.h"

#include <malloc.h>
#include <pthread.h>

#define MOST_BYTES 4096u /* of a struct, in any version */

static text plan, script;
/* The calls on a plan alone, and those on a script too. */
static const int of_plan[] = {CAMAC_PLAN, CAMAC_EXPLAIN_PLAN}, of_script[] = {CAMAC_CHECK, CAMAC_EXPLAIN, CAMAC_EXPLAIN_BOUNDS, CAMAC_BOUNDS, CAMAC_COSTS};
#define EACH(kind, kinds) for (const int *kind = kinds; kind < kinds + sizeof kinds / sizeof *kinds; kind++)

/* A none: every call of a session is misuse, but close, which is harmless. */
static void none(void) {
    camac_session s = CAMAC_NONE;
    camac_want want;
    camac_progress did;
    uint32_t words[1] = {7};
    spoil(&want, sizeof want), spoil(&did, sizeof did);
    EXPECT(CAMAC_MISUSE, camac_wants(&s, &want));
    expect_zeros(&want, &no_want, sizeof want, __LINE__);
    EXPECT(CAMAC_MISUSE, camac_next(&s, &no_answer, &did));
    expect_zeros(&did, &no_progress, sizeof did, __LINE__);
    if (camac_words(&s, words, 1) != 0 || words[0] != 7) fail("a none has words");
    camac_close(&s);
    camac_close(&s);
}

/* What C hands in, and no proof sees: NULL with a length, structs of another size, another version, spare bytes. */
static void handed_in(void) {
    char out[8] = "#", file[8] = "#";
    size_t size = 9, file_size = 9;
    camac_session s = CAMAC_NONE, older = CAMAC_NONE;
    camac_want want = CAMAC_WANT;
    camac_progress did = CAMAC_PROGRESS;
    camac_answer answer = CAMAC_ANSWER;
    uint32_t words[1];
#define IS_MISUSE(call) size = file_size = 9; EXPECT(CAMAC_MISUSE, call); if (size || file_size % 9 || out[0] != '#' || file[0] != '#') fail("line %d: misuse has a result", __LINE__)
#define TEXTS plan.bytes, plan.size, script.bytes, script.size
#define NO_PLAN NULL, 1, script.bytes, script.size
#define NO_SCRIPT plan.bytes, plan.size, NULL, 1
    EACH(kind, of_plan) { IS_MISUSE(camac_tell(*kind, NULL, 1, NULL, 0, out, sizeof out, &size)); }
    IS_MISUSE(camac_tell(CAMAC_PLAN, plan.bytes, plan.size, NULL, 0, NULL, 1, &size));
    IS_MISUSE(camac_events(NULL, 1, out, sizeof out, &size));
    IS_MISUSE(camac_events("CAMACEV2", (size_t)-1, out, sizeof out, &size));
    EACH(kind, of_script) {
        IS_MISUSE(camac_tell(*kind, NO_PLAN, out, sizeof out, &size));
        IS_MISUSE(camac_tell(*kind, NO_SCRIPT, out, sizeof out, &size));
        IS_MISUSE(camac_tell(*kind, TEXTS, NULL, 1, &size));
    }
    IS_MISUSE(camac_explain_at(NO_SCRIPT, 1, 1, out, sizeof out, &size));
    IS_MISUSE(camac_explain_at(TEXTS, 0, 1, out, sizeof out, &size));
    IS_MISUSE(camac_explain_at(TEXTS, 1, 0, out, sizeof out, &size));
    IS_MISUSE(camac_response(TEXTS, NULL, 1, NULL, 0, out, sizeof out, &size));
    IS_MISUSE(camac_response(TEXTS, NULL, 0, NULL, 1, out, sizeof out, &size));
    IS_MISUSE(camac_run(TEXTS, NULL, 1, out, sizeof out, &size, file, sizeof file, &file_size));
    IS_MISUSE(camac_run(TEXTS, NULL, 0, out, sizeof out, &size, NULL, 1, &file_size));
    IS_MISUSE(camac_run(TEXTS, "", (size_t)-1, out, sizeof out, &size, file, sizeof file, &file_size));
    IS_MISUSE(camac_open(&s, NO_PLAN, out, sizeof out, &size));
    IS_MISUSE(camac_open(NULL, TEXTS, out, sizeof out, &size));
    older.version = CAMAC_VERSION_NUMBER - 100;
    IS_MISUSE(camac_open(&older, TEXTS, out, sizeof out, &size));
    older.version = CAMAC_VERSION_NUMBER + 99 - CAMAC_VERSION_NUMBER % 100;
    older.size--;
    IS_MISUSE(camac_open(&older, TEXTS, out, sizeof out, &size));
    older.size++;
    EXPECT(CAMAC_OK, camac_open(&older, TEXTS, NULL, 0, NULL));
    older.version = CAMAC_VERSION_NUMBER + 100;
    spoil(&want, sizeof want), spoil(&did, sizeof did);
    EXPECT(CAMAC_MISUSE, camac_wants(&older, &want));
    expect_zeros(&want, &no_want, sizeof want, __LINE__);
    EXPECT(CAMAC_MISUSE, camac_next(&older, &answer, &did));
    expect_zeros(&did, &no_progress, sizeof did, __LINE__);
    if (camac_words(&older, words, 1)) fail("another version has words");
    camac_close(&older);
    if (!older.camac_private[0]) fail("another version is closed");
    older.version = CAMAC_VERSION_NUMBER;
    want.size--, did.size = MOST_BYTES + 1;
    EXPECT(CAMAC_MISUSE, camac_wants(&older, &want));
    EXPECT(CAMAC_MISUSE, camac_next(&older, &answer, &did));
    want.size += 2, did.size = sizeof did + 2;
    EXPECT(CAMAC_MISUSE, camac_wants(&older, &want));
    EXPECT(CAMAC_MISUSE, camac_next(&older, &answer, &did));
    want.size--, did.size = sizeof did, answer.size = 0;
    EXPECT(CAMAC_MISUSE, camac_next(&older, &answer, &did));
    answer.size = sizeof answer, answer.spare[3] = 1;
    EXPECT(CAMAC_MISUSE, camac_next(&older, &answer, &did));
    answer.spare[3] = 0, answer.unused = 1;
    EXPECT(CAMAC_MISUSE, camac_next(&older, &answer, &did));
    answer.unused = 0;
    EXPECT(CAMAC_OK, camac_next(&older, &answer, &did));
    camac_close(&older);
    camac_close(NULL);
}

/* The structs of a later version are larger: what this one does not know is 0. */
static void of_a_later_version(void) {
    struct { camac_want its; char more[5]; } want;
    struct { camac_progress its; char more[5]; } did;
    struct { camac_answer its; char more[5]; } answer = {CAMAC_ANSWER, {0}};
    const char zeros[5] = {0};
    camac_session s = CAMAC_NONE;
    open_session(&s, &plan, &script);
    spoil(&want, sizeof want.its + 4), spoil(&did, sizeof did.its + 4);
    want.more[4] = did.more[4] = 9;
    answer.its.size = sizeof answer.its + 4;
    EXPECT(CAMAC_OK, camac_wants(&s, &want.its));
    EXPECT(CAMAC_OK, camac_next(&s, &answer.its, &did.its));
    if (want.its.kind != CAMAC_DEMAND || did.its.kind != CAMAC_DEMAND) fail("a larger struct is not filled");
    if (memcmp(want.more, zeros, 4) || memcmp(did.more, zeros, 4)) fail("what is not known is not 0");
    if (want.more[4] != 9 || did.more[4] != 9) fail("a struct is written past its end");
    answer.more[3] = 1;
    EXPECT(CAMAC_MISUSE, camac_next(&s, &answer.its, &did.its));
    camac_close(&s);
}

/* Texts: whole, cut, without a buffer, refused, too long. */
static void texts(void) {
    static char out[65536], cut[65536], long_text[CAMAC_FILE_BYTES + 1];
    size_t size, part;
    EXPECT(CAMAC_OK, camac_tell(CAMAC_CHECK, plan.bytes, plan.size, script.bytes, script.size, out, sizeof out, &size));
    for (size_t room = 0; room <= size + 1; room++) {
        memset(cut, '#', size + 2);
        EXPECT(CAMAC_OK, camac_tell(CAMAC_CHECK, plan.bytes, plan.size, script.bytes, script.size, cut, room, &part));
        const size_t there = room < size ? room : size;
        if (part != size || memcmp(cut, out, there) || cut[there] != '#') fail("a cut text differs at room %zu", room);
    }
    EXPECT(CAMAC_OK, camac_tell(CAMAC_CHECK, plan.bytes, plan.size, script.bytes, script.size, NULL, 0, NULL));
    EXPECT(CAMAC_OK, camac_tell(CAMAC_CHECK, plan.bytes, plan.size, script.bytes, script.size, NULL, 0, &part));
    if (part != size) fail("the length without a buffer is %zu, not %zu", part, size);
    EACH(kind, of_plan) {
        EXPECT(CAMAC_OK, camac_tell(*kind, plan.bytes, plan.size, NULL, 0, out, sizeof out, &size));
        EXPECT(CAMAC_REFUSED, camac_tell(*kind, "[[", 2, NULL, 0, out, sizeof out, &size));
    }
    EACH(kind, of_script) {
        EXPECT(CAMAC_OK, camac_tell(*kind, plan.bytes, plan.size, script.bytes, script.size, out, sizeof out, &size));
        EXPECT(CAMAC_REFUSED, camac_tell(*kind, plan.bytes, plan.size, "!", 1, out, sizeof out, &size));
        if (size < 28 || memcmp(out, "refused S1 line 1: bad byte\n", 28)) fail("a refusal says otherwise");
    }
    EXPECT(CAMAC_OK, camac_events("CAMACEV2", 8, out, sizeof out, &size));
    EXPECT(CAMAC_REFUSED, camac_explain_at(plan.bytes, plan.size, script.bytes, script.size, 1, 1, out, sizeof out, &size));
    if (size != 20 || memcmp(out, "no statement at 1:1\n", 20)) fail("a place without a statement says otherwise");
    EXPECT(CAMAC_REFUSED, camac_explain_at(plan.bytes, plan.size, "!", 1, 1, 1, out, sizeof out, &size));
    EXPECT(CAMAC_REFUSED, camac_events("CAMACEV", 7, out, sizeof out, &size));
    EXPECT(CAMAC_REFUSED, camac_run(plan.bytes, plan.size, script.bytes, script.size, "?", 1, out, sizeof out, &size, cut, sizeof cut, &part));
    memset(long_text, ' ', sizeof long_text);
    EXPECT(CAMAC_OK, camac_tell(CAMAC_CHECK, plan.bytes, plan.size, long_text, CAMAC_TEXT_BYTES, out, sizeof out, &size));
    out[0] = '#';
#define IS_LONG(call) EXPECT(CAMAC_LONG, call); if (size || out[0] != '#') fail("line %d: a text too long has a result", __LINE__)
    EACH(kind, of_plan) { IS_LONG(camac_tell(*kind, long_text, CAMAC_TEXT_BYTES + 1, NULL, 0, out, sizeof out, &size)); }
    EACH(kind, of_script) { IS_LONG(camac_tell(*kind, plan.bytes, plan.size, long_text, CAMAC_TEXT_BYTES + 1, out, sizeof out, &size)); }
    IS_LONG(camac_explain_at(plan.bytes, plan.size, long_text, CAMAC_TEXT_BYTES + 1, 1, 1, out, sizeof out, &size));
    IS_LONG(camac_run(plan.bytes, plan.size, long_text, CAMAC_TEXT_BYTES + 1, "", 0, out, sizeof out, &size, cut, sizeof cut, &part));
    IS_LONG(camac_events(long_text, CAMAC_FILE_BYTES + 1, out, sizeof out, &size));
    camac_session s = CAMAC_NONE;
    IS_LONG(camac_open(&s, plan.bytes, plan.size, long_text, CAMAC_TEXT_BYTES + 1, out, sizeof out, &size));
    if (s.camac_private[0]) fail("a text too long opens a session");
}

#define RESPONSE(code, every, within, wanted) expect_response((code), (every), (within), (wanted), __LINE__)
/* Of one service, of 3 cycles. */
static void expect_response(int code, const char *every, const char *within, const char *wanted, int line) {
    char out[200] = "#";
    const char *its = "cdlam adc 1 1 5 12 service adc within 3 cycles event 0 words { cclc adc }";
    size_t size = 9;
    expect(code, camac_response(plan.bytes, plan.size, its, strlen(its), every, every ? strlen(every) : 0, within,
                                within ? strlen(within) : 0, out, sizeof out, &size), "camac_response", line);
    if (size != strlen(wanted) || memcmp(out, size ? wanted : "#", size ? size : 1)) fail("line %d: it tells %.*s", line, (int)size, out);
}

/* What is told of services, in each form. */
static void responses(void) {
    static char long_text[CAMAC_TEXT_BYTES + 1];
    char out[200] = "#";
    size_t size = 9;
    RESPONSE(CAMAC_OK, NULL, NULL, "service adc gl 3 cycles 3 once start 0 end 3 longest 3\n");
    RESPONSE(CAMAC_OK, "", " \n", "service adc gl 3 cycles 3 once start 0 end 3 longest 3\n");
    RESPONSE(CAMAC_OK, "\tadc=200\n", "adc=3", "service adc gl 3 cycles 3 every 200 start 0 end 3 of 3 longest 3\n");
    RESPONSE(CAMAC_OK, "adc=4294967295", NULL, "service adc gl 3 cycles 3 every 4294967295 start 0 end 3 longest 3\n");
    RESPONSE(CAMAC_OK, "adc=3", NULL, "service adc gl 3 cycles 3 every 3 start - end - longest -\n");
    RESPONSE(CAMAC_REFUSED, "adc=3", "adc=10", "service adc gl 3 cycles 3 every 3 start - end - of 10 longest -\n");
    RESPONSE(CAMAC_REFUSED, NULL, "adc=2", "service adc gl 3 cycles 3 once start 0 end 3 of 2 longest 3\n");
    static const char *const wrong[] = {"adc", "=3", "adc=", "adc=+3", "adc=3x", "adc=4294967296", "adc=3 adc=4", "nobody=3", "adc\xff=3", "adc = 3"};
    for (size_t i = 0; i < sizeof wrong / sizeof *wrong; i++) {
        RESPONSE(CAMAC_MISUSE, wrong[i], NULL, "");
        RESPONSE(CAMAC_MISUSE, "adc=200", wrong[i], "");
    }
    RESPONSE(CAMAC_MISUSE, "adc=0", NULL, "");
    RESPONSE(CAMAC_REFUSED, NULL, "adc=0", "service adc gl 3 cycles 3 once start 0 end 3 of 0 longest 3\n");
    EXPECT(CAMAC_REFUSED, camac_response(plan.bytes, plan.size, script.bytes, script.size, NULL, 0, NULL, 0, out, sizeof out, &size));
    if (size != 104 || memcmp(out + 55, "unkept adc line 3: does not clear its look-at-me\n", 49)) fail("nothing is unkept");
    EXPECT(CAMAC_REFUSED, camac_response(plan.bytes, plan.size, "!", 1, "nobody=3", 8, NULL, 0, out, sizeof out, &size));
    if (size < 27 || memcmp(out, "refused S1 line 1: bad byte", 27)) fail("a refusal says otherwise");
    memset(long_text, ' ', sizeof long_text);
    out[0] = '#';
    EXPECT(CAMAC_LONG, camac_response(plan.bytes, plan.size, long_text, sizeof long_text, NULL, 0, NULL, 0, out, sizeof out, &size));
    if (size || out[0] != '#') fail("a text too long has a result");
}

/* An open session: what is refused leaves it as it was. */
static void open_once(void) {
    camac_session s = CAMAC_NONE;
    camac_want want = CAMAC_WANT, before = CAMAC_WANT;
    camac_progress did;
    camac_answer answer = CAMAC_ANSWER, wrong[3] = {CAMAC_ANSWER, CAMAC_ANSWER, CAMAC_ANSWER};
    uint32_t seed = 1;
    size_t size = 9;
    char out[8] = "#";
    EXPECT(CAMAC_REFUSED, camac_open(&s, plan.bytes, plan.size, "!", 1, out, 0, &size));
    if (s.camac_private[0] || size == 0) fail("a refusal opens a session");
    open_session(&s, &plan, &script);
    play_some(&s, &seed, 7);
    EXPECT(CAMAC_OK, camac_wants(&s, &before));
    EXPECT(CAMAC_MISUSE, camac_open(&s, plan.bytes, plan.size, script.bytes, script.size, out, sizeof out, &size));
    if (size || out[0] != '#') fail("an opening over an open session has a text");
    wrong[0].word = wrong[1].gl = 1u << 24;
    wrong[2].wait = 16;
    for (int i = 0; i < 3; i++) {
        spoil(&did, sizeof did);
        EXPECT(CAMAC_RANGE, camac_next(&s, &wrong[i], &did));
        expect_zeros(&did, &no_progress, sizeof did, __LINE__);
        EXPECT(CAMAC_OK, camac_wants(&s, &want));
        if (memcmp(&want, &before, sizeof want)) fail("a refused answer changes what is wanted");
    }
    camac_close(&s);
    open_session(&s, &plan, &script);
    answer.gl = 4;
    EXPECT(CAMAC_OK, camac_next(&s, &answer, &did));
    answer.wait = 15;
    for (int i = 0; i < 2; i++) {
        EXPECT(CAMAC_OVERRUN, camac_next(&s, &answer, &did));
        if (did.kind != CAMAC_STOPPED || did.c != 1 || did.wait != 15) fail("an overrun says otherwise");
        EXPECT(CAMAC_OVERRUN, camac_wants(&s, &want));
        expect_zeros(&want, &no_want, sizeof want, __LINE__);
    }
    camac_close(&s);
    if (s.camac_private[0]) fail("a closed session is not none");
}

/* A part so many times between two texts, and a brace for each after them. */
static size_t nested(char *to, const char *first, const char *part, int times, const char *last) {
    size_t size = (size_t)sprintf(to, "%s", first);
    for (int i = 0; i < times; i++) size += (size_t)sprintf(to + size, "%s", part);
    size += (size_t)sprintf(to + size, "%s", last);
    for (int i = 0; i < times; i++) to[size++] = '}';
    return size;
}

/* Texts that nest as deep as they can, and deeper. */
static void deep(void) {
    static const char *const parts[] = {"[", "{ a = ", "a."};
    static const char head[] = "cdlam adc 1 1 5 12\nvar v\nservice adc within 3 cycles event 1 words {\n";
    static char its[CAMAC_TEXT_BYTES], out[65536];
    size_t size;
    for (int i = 0; i < 3; i++) {
        const size_t length = nested(its, i < 2 ? "a = " : "", parts[i], 100000, "");
        EXPECT(CAMAC_REFUSED, camac_tell(CAMAC_PLAN, its, length, NULL, 0, out, sizeof out, &size));
        EXPECT(CAMAC_REFUSED, camac_tell(CAMAC_EXPLAIN_PLAN, its, length, NULL, 0, out, sizeof out, &size));
    }
    for (int depth = 15; depth <= 16; depth++) {
        const int code = depth == 15 ? CAMAC_OK : CAMAC_REFUSED;
        const size_t length = nested(its, head, "if q {\n", depth, "v = v + 1\n}");
        camac_session s = CAMAC_NONE;
        EXPECT(code, camac_tell(CAMAC_EXPLAIN, plan.bytes, plan.size, its, length, out, sizeof out, &size));
        EXPECT(code, camac_tell(CAMAC_BOUNDS, plan.bytes, plan.size, its, length, out, sizeof out, &size));
        EXPECT(code, camac_tell(CAMAC_COSTS, plan.bytes, plan.size, its, length, out, sizeof out, &size));
        EXPECT(code, camac_open(&s, plan.bytes, plan.size, its, length, out, sizeof out, &size));
        camac_close(&s);
    }
}

/* What each call says of a plan that is no plan. */
static void no_plan(const char *its, size_t length, const char *refusal) {
    static char out[65536];
    size_t size;
    camac_session s = CAMAC_NONE;
    EXPECT(CAMAC_REFUSED, camac_tell(CAMAC_PLAN, its, length, NULL, 0, out, sizeof out, &size));
    if (size < strlen(refusal) || memcmp(out, refusal, strlen(refusal))) fail("not %s: %.*s", refusal, (int)size, out);
    EXPECT(CAMAC_REFUSED, camac_tell(CAMAC_EXPLAIN_PLAN, its, length, NULL, 0, out, sizeof out, &size));
    EXPECT(CAMAC_REFUSED, camac_tell(CAMAC_EXPLAIN, its, length, script.bytes, script.size, out, sizeof out, &size));
    EXPECT(CAMAC_REFUSED, camac_response(its, length, script.bytes, script.size, NULL, 0, NULL, 0, out, sizeof out, &size));
    EXPECT(CAMAC_REFUSED, camac_run(its, length, script.bytes, script.size, "", 0, out, sizeof out, &size, NULL, 0, NULL));
    EXPECT(CAMAC_REFUSED, camac_open(&s, its, length, script.bytes, script.size, out, sizeof out, &size));
}

/* Plans that nest dotted keys in inline tables, so many parts of a key in each of so many tables, or in arrays of tables under headings. */
static void nest_both(int parts, int tables, const char *refusal) {
    static char its[CAMAC_TEXT_BYTES], part[200];
    char *end = part + sprintf(part, "{b");
    for (int i = 1; i < parts; i++) end += sprintf(end, ".b");
    sprintf(end, "=");
    no_plan(its, nested(its, "a = ", part, tables, "1"), refusal);
}

static void nest_headings(int keys, const char *refusal) {
    static char its[CAMAC_TEXT_BYTES];
    size_t size = 0;
    for (int last = 1; last <= keys; last++)
        for (int key = 1; key <= last; key++) size += (size_t)sprintf(its + size, "%s%s", key == 1 ? "[[a" : ".a", key == last ? "]]\n" : "");
    no_plan(its, size, refusal);
}

static void nest(void) {
    static const int allowed[][2] = {{16, 1}, {8, 2}, {4, 4}, {3, 5}, {2, 8}, {1, 16}}, deeper[][2] = {{17, 1}, {4, 5}, {2, 9}, {1, 17}, {8, 80}, {79, 79}};
    for (int i = 0; i < 6; i++) nest_both(allowed[i][0], allowed[i][1], "refused P2");
    for (int i = 0; i < 6; i++) nest_both(deeper[i][0], deeper[i][1], "refused P11");
    nest_headings(16, "refused P2");
    nest_headings(17, "refused P11");
}

/* All answers spent. To give them takes a quarter of an hour, so the run's count of them is found in its memory and set: no user may do that. */
static void spent(void) {
    camac_session s = CAMAC_NONE;
    camac_progress did = CAMAC_PROGRESS;
    uint32_t seed = 5, now;
    open_session(&s, &plan, &script);
    play_some(&s, &seed, 100003);
    unsigned char *run = s.camac_private[0];
    const size_t size = malloc_usable_size(run);
    unsigned char *before = malloc(size);
    memcpy(before, run, size);
    play_some(&s, &seed, 1);
    size_t found = 0, at = 0;
    for (size_t i = 0; i + 4 <= size; i += 4) {
        uint32_t then;
        memcpy(&then, before + i, 4), memcpy(&now, run + i, 4);
        if (then == 100003 && now == 100004) at = i, found++;
    }
    if (found != 1) fail("the count of answers stands in %zu places", found);
    for (now = 0xfffffffe;;) {
        memcpy(run + at, &now, 4);
        EXPECT(now == 0xffffffff ? CAMAC_SPENT : CAMAC_OK, camac_next(&s, &no_answer, &did));
        if (now++ == 0xffffffff) break;
    }
    expect_zeros(&did, &no_progress, sizeof did, __LINE__);
    camac_want want = CAMAC_WANT;
    EXPECT(CAMAC_OK, camac_wants(&s, &want));
    free(before);
    camac_close(&s);
}

/* Two sessions in turn do what each does alone. */
static void in_turn(void) {
    camac_session one = CAMAC_NONE, two = CAMAC_NONE, moved;
    uint32_t seeds[2] = {11, 12};
    uint64_t alone[2], sums[2] = {0, 0};
    for (int i = 0; i < 2; i++) {
        uint32_t seed = seeds[i];
        open_session(&one, &plan, &script);
        alone[i] = 0;
        for (int k = 0; k < 100; k++) alone[i] = alone[i] * 7 + play_some(&one, &seed, 13);
        camac_close(&one);
    }
    open_session(&one, &plan, &script);
    open_session(&two, &plan, &script);
    for (int k = 0; k < 100; k++) {
        sums[0] = sums[0] * 7 + play_some(&one, &seeds[0], 13);
        sums[1] = sums[1] * 7 + play_some(&two, &seeds[1], 13);
        memcpy(&moved, &one, sizeof one); /* a session may be moved */
        memcpy(&one, &moved, sizeof one);
    }
    if (memcmp(alone, sums, sizeof sums)) fail("two sessions in turn do otherwise");
    camac_close(&one);
    camac_close(&two);
}

static void *in_a_thread(void *sum) {
    for (int i = 0; i < 50; i++) {
        camac_session s = CAMAC_NONE;
        uint32_t seed = (uint32_t)i;
        open_session(&s, &plan, &script);
        *(uint64_t *)sum = *(uint64_t *)sum * 7 + play_some(&s, &seed, 500);
        camac_close(&s);
    }
    return NULL;
}

static pthread_t begun(void *(*does)(void *), void *its, size_t stack) {
    pthread_t thread;
    pthread_attr_t how;
    if (pthread_attr_init(&how) || pthread_attr_setstacksize(&how, stack) || pthread_create(&thread, &how, does, its)) fail("no thread");
    return thread;
}

static void in_threads(void) {
    pthread_t threads[4];
    uint64_t sums[5] = {0, 0, 0, 0, 0};
    in_a_thread(&sums[4]);
    for (int i = 0; i < 4; i++) threads[i] = begun(in_a_thread, &sums[i], 256 << 10);
    for (int i = 0; i < 4; i++) {
        pthread_join(threads[i], NULL);
        if (sums[i] != sums[4]) fail("a thread does otherwise");
    }
}

/* The greatest resident size so far, in KiB. (getrusage would tell that of the process that started this one, where it was greater.) */
static long greatest_size(void) {
    char line[256];
    long size = 0;
    FILE *file = fopen("/proc/self/status", "r");
    while (file && fgets(line, sizeof line, file))
        if (sscanf(line, "VmHWM: %ld kB", &size) == 1) break;
    if (!file || !size) fail("the size is not told");
    fclose(file);
    return size;
}

static void openings(long many) {
    long first = 0;
    for (long i = 1; i <= many; i++) {
        camac_session s = CAMAC_NONE;
        uint32_t seed = (uint32_t)i;
        open_session(&s, &plan, &script);
        play_some(&s, &seed, 3);
        camac_close(&s);
        if (i == 1000) first = greatest_size();
    }
    const long last = greatest_size();
    printf("%ld KiB after 1000 openings, %ld after %ld\n", first, last, many);
    /* pages of the program may be touched late; one block lost at each of 10,000 openings takes more */
    if (many > 1000 && last > first + 256) fail("memory grows");
}

static void *all_calls(void *none_more) {
    nest();
    none();
    handed_in();
    of_a_later_version();
    texts();
    responses();
    deep();
    open_once();
    spent();
    in_turn();
    in_threads();
    return none_more;
}

int main(int count, char **words) {
    if (count != 4) return 2;
    plan = read_file(words[1]);
    script = read_file(words[2]);
    if (atol(words[3]) > 0) openings(atol(words[3]));
    else pthread_join(begun(all_calls, NULL, 256 << 10), NULL);
    free(plan.bytes);
    free(script.bytes);
    return 0;
}
