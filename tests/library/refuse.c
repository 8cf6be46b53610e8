/* refuse.c: refuses each allocation of each call in turn, alone and with all after it. Nothing may be lost, and between open and close none may
 * be asked for. What asks for memory can be found, up to `main`.
 *
 *     refuse PLAN SCRIPT     tells how many allocations there were; SCRIPT makes two cycles for `adc`, and clears it */
#include "common.h"

#include <execinfo.h>

void *__libc_malloc(size_t size);
void *__libc_realloc(void *block, size_t size);
void __libc_free(void *block);

static long left = -1; /* how many are granted before one is refused; -1: all are granted */
static int is_alone;   /* whether those after it are granted again */
static long refusals;  /* how many were refused */
static long blocks;    /* how many are held */
static int looks;      /* whether the next call tells by which calls it came */
static void *callers[64];
static int callers_count;

static int is_refused(void) {
    if (left > 0) left--;
    else if (left == 0) {
        if (is_alone) left = -1;
        refusals++;
        return 1;
    }
    return 0;
}

void *malloc(size_t size) {
    if (looks) looks = 0, callers_count = backtrace(callers, 64);
    void *its = is_refused() ? NULL : __libc_malloc(size);
    blocks += its != NULL;
    return its;
}

void *realloc(void *block, size_t size) {
    void *its = is_refused() ? NULL : __libc_realloc(block, size);
    blocks += its && !block;
    return its;
}

void free(void *block) {
    blocks -= block != NULL;
    __libc_free(block);
}

static text plan, script;
static const char answers[] = "0 0 000000 0 000004\n1 1 123fff 0 000000\n1 1 000000 0 000000\n";
static char out[65536], file[65536];
static camac_session s = CAMAC_NONE;

enum { RESPONSE = 8 };

static int call(int which) {
    size_t size = 9, file_size = 9;
    int code;
    switch (which) {
    case 0: code = camac_tell(CAMAC_PLAN, plan.bytes, plan.size, NULL, 0, out, sizeof out, &size); break;
    case 1: code = camac_tell(CAMAC_EXPLAIN_PLAN, plan.bytes, plan.size, NULL, 0, out, sizeof out, &size); break;
    case 2: code = camac_tell(CAMAC_CHECK, plan.bytes, plan.size, script.bytes, script.size, out, sizeof out, &size); break;
    case 3: code = camac_tell(CAMAC_EXPLAIN, plan.bytes, plan.size, script.bytes, script.size, out, sizeof out, &size); break;
    case 4: code = camac_tell(CAMAC_BOUNDS, plan.bytes, plan.size, script.bytes, script.size, out, sizeof out, &size); break;
    case 5:
        code = camac_run(plan.bytes, plan.size, script.bytes, script.size, answers, sizeof answers - 1, out, sizeof out, &size, file, sizeof file,
                         &file_size);
        if (code == CAMAC_NO_MEMORY && file_size) fail("an event file is there without memory");
        break;
    case 6: code = camac_tell(CAMAC_COSTS, plan.bytes, plan.size, script.bytes, script.size, out, sizeof out, &size); break;
    case 7: code = camac_events("CAMACEV2", 8, out, sizeof out, &size); break;
    case RESPONSE:
        code = camac_response(plan.bytes, plan.size, script.bytes, script.size, "adc=200", 7, "adc=6", 5, out, sizeof out, &size);
        break;
    default: code = camac_open(&s, plan.bytes, plan.size, script.bytes, script.size, out, sizeof out, &size); break;
    }
    if (code == CAMAC_NO_MEMORY && size) fail("call %d has a text without memory", which);
    return code;
}

/* Refuses one allocation of a call after the other, until it has them all. Returns how many that were. */
static long refuse_each(int which) {
    for (long granted = 0;; granted++) {
        const long before = blocks;
        left = granted;
        refusals = 0;
        const int code = call(which);
        left = -1;
        if (!refusals) {
            EXPECT(CAMAC_OK, code);
            return granted;
        }
        /* where room for many words is refused, there may be room for each */
        if (which != RESPONSE || !is_alone || code != CAMAC_OK) EXPECT(CAMAC_NO_MEMORY, code);
        if (blocks != before || s.camac_private[0]) fail("call %d loses %ld blocks at allocation %ld", which, blocks - before, granted);
    }
}

/* A debugger, a profiler or what looks for lost memory sees through the calls of the library. */
static void callers_are_found(void) {
    void *here[64];
    const int frames = backtrace(here, 64);
    looks = 1;
    EXPECT(CAMAC_OK, call(2));
    if (callers_count < frames + 2 || callers[callers_count - 1] != here[frames - 1]) fail("the callers end after %d", callers_count);
}

int main(int count, char **words) {
    long refused = 0;
    uint32_t seed = 3;
    if (count != 3) return 2;
    backtrace(callers, 64); /* which asks for memory of its own, the first time */
    blocks = 0;
    plan = read_file(words[1]);
    script = read_file(words[2]);
    callers_are_found();
    for (int which = 0; which <= 9; which++) {
        is_alone = 1;
        const long alone = refuse_each(which);
        camac_close(&s);
        is_alone = 0;
        if (refuse_each(which) != alone) fail("call %d has another number of allocations", which);
        refused += alone;
    }
    const long open = blocks;
    left = 0;
    for (int i = 0; i < 2; i++) {
        camac_service_info info = CAMAC_SERVICE_INFO;
        play_some(&s, &seed, 10000);
        EXPECT(CAMAC_OK, camac_item(&s, out, sizeof out, NULL));
        EXPECT(CAMAC_OK, camac_record(&s, file, sizeof file, NULL));
        EXPECT(CAMAC_OK, camac_service(&s, 1, &info));
        EXPECT(CAMAC_OK, camac_rewind(&s));
    }
    if (blocks != open) fail("a run takes memory");
    camac_close(&s);
    left = -1;
    free(plan.bytes);
    free(script.bytes);
    if (blocks > 1) fail("%ld blocks are lost", blocks); /* printf's own may be there */
    printf("%ld\n", refused);
    return 0;
}
