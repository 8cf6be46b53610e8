/* library.c: plays so many answers of a script through the library for C, and prints how many nanoseconds of the processor one took.
 *
 *     library PLAN SCRIPT ANSWERS CALLS     CALLS: next, for camac_wants and camac_next; step, for camac_step; with camac_words at the end of an
 *                                           event; record, for camac_step and camac_record; lists, for camac_ahead and camac_next_many */
#define _POSIX_C_SOURCE 200809L
#include <camac/camac.h>
#include <stdio.h>
#include <stdlib.h>
#include <string.h>
#include <time.h>

static char *read_file(const char *path, size_t *size) {
    FILE *file = fopen(path, "rb");
    char *bytes = malloc(CAMAC_TEXT_BYTES);
    if (!file || !bytes) exit(3);
    *size = fread(bytes, 1, CAMAC_TEXT_BYTES, file);
    fclose(file);
    return bytes;
}

static double now(void) {
    struct timespec its;
    clock_gettime(CLOCK_PROCESS_CPUTIME_ID, &its);
    return (double)its.tv_sec * 1e9 + (double)its.tv_nsec;
}

static int by_next(camac_session *s, const camac_answer *answer, camac_progress *did, camac_want *want) {
    const int code = camac_next(s, answer, did);
    return code ? code : camac_wants(s, want);
}

static int by_step(camac_session *s, const camac_answer *answer, camac_progress *did, camac_want *want) { return camac_step(s, answer, did, want); }

static size_t by_words(const camac_session *s) {
    static uint32_t words[CAMAC_EVENT_WORDS];
    return camac_words(s, words, CAMAC_EVENT_WORDS);
}

static size_t by_record(const camac_session *s) {
    static unsigned char record[16 + 4 * CAMAC_EVENT_WORDS];
    size_t size;
    return camac_record(s, record, sizeof record, &size) ? 0 : size / 4 - 4;
}

/* Every demand calls, and every cycle has X and Q. */
static long play(camac_session *s, long answers, int (*step)(camac_session *, const camac_answer *, camac_progress *, camac_want *),
                 size_t (*words)(const camac_session *)) {
    camac_answer demand = CAMAC_ANSWER, cycle = CAMAC_ANSWER;
    camac_want want = CAMAC_WANT;
    camac_progress did = CAMAC_PROGRESS;
    long count = 0;
    demand.gl = 4;
    cycle.word = 0x123, cycle.x = cycle.q = 1;
    if (camac_wants(s, &want)) return -1;
    for (long i = 0; i < answers; i++) {
        if (step(s, want.kind == CAMAC_DEMAND ? &demand : &cycle, &did, &want)) return -1;
        if (did.event) count += (long)words(s);
    }
    return count;
}

/* The same by lists. */
static long play_lists(camac_session *s, long answers) {
    const camac_answer nothing = CAMAC_ANSWER;
    camac_answer answer[CAMAC_AHEAD];
    camac_want list[CAMAC_AHEAD] = {CAMAC_WANT};
    camac_progress did[CAMAC_AHEAD] = {CAMAC_PROGRESS};
    size_t taken;
    long count = 0;
    for (int i = 0; i < CAMAC_AHEAD; i++) answer[i] = nothing;
    for (long i = 0; i < answers; i += (long)taken) {
        const size_t members = camac_ahead(s, list, CAMAC_AHEAD);
        for (size_t k = 0; k < members; k++) {
            const int is_demand = list[k].kind == CAMAC_DEMAND;
            answer[k].gl = is_demand ? 4 : 0;
            answer[k].word = is_demand ? 0 : 0x123;
            answer[k].x = answer[k].q = !is_demand;
        }
        if (camac_next_many(s, answer, did, members, &taken) || !taken) return -1;
        if (did[taken - 1].event) count += (long)by_words(s);
    }
    return count;
}

static long play_by(camac_session *s, long answers, const char *calls) {
    if (!strcmp(calls, "lists")) return play_lists(s, answers);
    return play(s, answers, strcmp(calls, "next") ? by_step : by_next, strcmp(calls, "record") ? by_words : by_record);
}

int main(int count, char **words) {
    size_t plan_size, script_size, size;
    camac_session s = CAMAC_NONE;
    if (count != 5) return 2;
    char *plan = read_file(words[1], &plan_size), *script = read_file(words[2], &script_size);
    const long answers = atol(words[3]);
    if (camac_open(&s, plan, plan_size, script, script_size, NULL, 0, &size)) return 1;
    const double begun = now();
    const long its_words = play_by(&s, answers, words[4]);
    printf("%.1f %ld\n", (now() - begun) / (double)answers, its_words);
    camac_close(&s);
    return its_words < 0;
}
