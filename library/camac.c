/* camac.c: the calls of camac.h. Each tests what C hands in, which no proof can see, and calls an export of the proved crate camac_c. Those take
 * no NULL; of a struct they see what stands between its size and its spare words.
 *
 * tools/library compiles it, and hides the exports. */
#include <camac/camac.h>
#include <string.h>

uint32_t camac_raw_version(void);
uint32_t camac_raw_tell(uint32_t ask, uint32_t line, uint32_t column, const uint8_t *plan, size_t plan_size, const uint8_t *script,
                        size_t script_size, uint8_t *out, size_t room, size_t *size);
uint32_t camac_raw_events(const uint8_t *file, size_t file_size, uint8_t *out, size_t room, size_t *size);
uint32_t camac_raw_response(const uint8_t *plan, size_t plan_size, const uint8_t *script, size_t script_size, const uint8_t *every,
                            size_t every_size, const uint8_t *within, size_t within_size, uint8_t *out, size_t room, size_t *size);
uint32_t camac_raw_run(const uint8_t *plan, size_t plan_size, const uint8_t *script, size_t script_size, const uint8_t *answers,
                       size_t answers_size, uint8_t *out, size_t room, size_t *size, uint8_t *file, size_t file_room, size_t *file_size);
uint32_t camac_raw_open(void *run, const uint8_t *plan, size_t plan_size, const uint8_t *script, size_t script_size, uint8_t *out, size_t room,
                        size_t *size);
uint32_t camac_raw_wants(void *run, void *want);
size_t camac_raw_ahead(void *run, uint32_t far, uint8_t *bytes, size_t room);
size_t camac_raw_back(void *run, uint8_t *bytes, size_t room);
uint32_t camac_raw_service_ahead(void *run, uint32_t number, uint32_t far, uint8_t *bytes, size_t room, size_t *size);
size_t camac_raw_transfer(void *run, uint8_t *bytes, size_t room);
size_t camac_raw_to_write(void *run, uint8_t *bytes, size_t room);
uint32_t camac_raw_next(void *run, const void *answer, void *progress);
uint32_t camac_raw_step(void *run, const void *answer, void *progress, void *want);
size_t camac_raw_words(void *run, uint8_t *bytes, size_t room);
uint32_t camac_raw_record(void *run, uint8_t *bytes, size_t room, size_t *size);
uint32_t camac_raw_item(void *run, uint8_t *text, size_t room, size_t *size);
size_t camac_raw_held(void *run, uint8_t *bytes, size_t room);
size_t camac_raw_answers_left(void *run);
size_t camac_raw_services(void *run);
uint32_t camac_raw_service_name(void *run, uint32_t number, uint8_t *text, size_t room, size_t *size);
uint32_t camac_raw_service_numbers(void *run, uint32_t number, uint8_t *bytes, size_t room, size_t *size);
uint32_t camac_raw_where(void *run, uint8_t *bytes, size_t room, size_t *size);
uint32_t camac_raw_abandon(void *run, uint8_t *bytes, size_t room, size_t *size);
uint32_t camac_raw_limit_steps(void *run, uint32_t most);
uint32_t camac_raw_go_on(void *run, void *progress);
uint32_t camac_raw_rewind(void *run);
void camac_raw_file_header(uint8_t *bytes, size_t room, size_t *size);
void camac_raw_close(void *run);

/* What an export takes in the place of NULL. */
#define IN(bytes, size) (bytes) ? (const uint8_t *)(bytes) : (const uint8_t *)"", (size)
#define OUT(buffer, room) (buffer) ? (uint8_t *)(buffer) : nowhere, (room)

/* Whether bytes are not there, as after a read or a malloc that failed: nothing has more than PTRDIFF_MAX. */
#define IS_NULL(bytes, size) ((!(bytes) && (size) > 0) || (size) > PTRDIFF_MAX)

/* No struct of a later version is larger. */
#define MOST_BYTES 4096u

/* Whether a struct is as large as here, or larger, as in a later version, so that the next of a list is aligned. */
#define IS_KNOWN(its) ((its) && ((its)->size == sizeof *(its) || is_later((its)->size, sizeof *(its))))

static int is_later(size_t size, size_t known) { return size > known && size <= MOST_BYTES && size % 4 == 0; }

/* Puts zeros behind the size of a struct. */
#define CLEAR(its) memset(&(its)->size + 1, 0, (its)->size - sizeof (its)->size)

/* Puts zeros into a struct from a field on, also where this library does not know it. */
#define CLEAR_FROM(its, type, field) (memset(&(its)->field, 0, sizeof(type) - offsetof(type, field)), clear_rest((its), (its)->size, sizeof(type)))
#define CLEAR_SPARE(progress) CLEAR_FROM(progress, camac_progress, spare)
#define CLEAR_BLOCK(want) CLEAR_FROM(want, camac_want, mode)

static void clear_rest(void *its, size_t size, size_t known) {
    if (size > known) memset((char *)its + known, 0, size - known);
}

static int is_session(const camac_session *s) {
    return s && s->size >= sizeof *s && s->version - CAMAC_VERSION_NUMBER / 100u * 100u < 100u;
}

/* The run of a session. An export changes it only where its call takes a session that is not const. */
static void *run_of(const camac_session *s) { return (void *)(uintptr_t)&s->camac_private; }

/* Whether there is nothing in an answer that this library does not know. */
static int is_known(const camac_answer *answer) {
    uint32_t rest = answer->unused;
    for (size_t i = 0; i < sizeof answer->spare / sizeof *answer->spare; i++) rest |= answer->spare[i];
    for (size_t i = sizeof *answer; i < answer->size; i++) rest |= ((const uint8_t *)answer)[i];
    return rest == 0;
}

uint32_t camac_version(void) { return camac_raw_version(); }

const char *camac_code_text(int code) {
    switch (code) {
    case CAMAC_OK: return "done";
    case CAMAC_REFUSED: return "refused";
    case CAMAC_MISUSE: return "misuse";
    case CAMAC_NO_MEMORY: return "no memory";
    case CAMAC_OVERRUN: return "overrun";
    case CAMAC_RANGE: return "a number out of its range";
    case CAMAC_SPENT: return "all answers are spent";
    case CAMAC_LONG: return "a text too long";
    case CAMAC_BUSY: return "the run pauses";
    default: return "no code of camac";
    }
}

/* Where a size is told that nobody asks for. */
static size_t *told(size_t *size, size_t *unasked) {
    size = size ? size : unasked;
    *size = 0;
    return size;
}

/* What the program prints. The place counts where what is known there is asked. */
static int tell(uint32_t ask, uint32_t line, uint32_t column, const void *plan, size_t plan_size, const void *script, size_t script_size,
                char *text, size_t room, size_t *size) {
    uint8_t nowhere[1];
    size_t unasked;
    size = told(size, &unasked);
    if (IS_NULL(plan, plan_size) || IS_NULL(script, script_size) || IS_NULL(text, room) || !line || !column) return CAMAC_MISUSE;
    return (int)camac_raw_tell(ask, line, column, IN(plan, plan_size), IN(script, script_size), OUT(text, room), size);
}

/* The number by which what is known at a place is asked. */
#define KNOWN_AT 9u

int camac_tell(enum camac_ask ask, const void *plan, size_t plan_size, const void *script, size_t script_size, char *text, size_t room,
               size_t *size) {
    return tell(ask == KNOWN_AT ? 0 : (uint32_t)ask, 1, 1, plan, plan_size, script, script_size, text, room, size);
}

int camac_explain_at(const void *plan, size_t plan_size, const void *script, size_t script_size, uint32_t line, uint32_t column, char *text,
                     size_t room, size_t *size) {
    return tell(KNOWN_AT, line, column, plan, plan_size, script, script_size, text, room, size);
}

int camac_events(const void *file, size_t file_size, char *text, size_t room, size_t *size) {
    uint8_t nowhere[1];
    size_t unasked;
    size = told(size, &unasked);
    if (IS_NULL(file, file_size) || IS_NULL(text, room)) return CAMAC_MISUSE;
    return (int)camac_raw_events(IN(file, file_size), OUT(text, room), size);
}

int camac_response(const void *plan, size_t plan_size, const void *script, size_t script_size, const void *every, size_t every_size,
                   const void *within, size_t within_size, char *text, size_t room, size_t *size) {
    uint8_t nowhere[1];
    size_t unasked;
    size = told(size, &unasked);
    if (IS_NULL(plan, plan_size) || IS_NULL(script, script_size) || IS_NULL(every, every_size) || IS_NULL(within, within_size) ||
        IS_NULL(text, room))
        return CAMAC_MISUSE;
    return (int)camac_raw_response(IN(plan, plan_size), IN(script, script_size), IN(every, every_size), IN(within, within_size), OUT(text, room),
                                   size);
}

int camac_run(const void *plan, size_t plan_size, const void *script, size_t script_size, const void *answers, size_t answers_size, char *text,
              size_t room, size_t *size, void *file, size_t file_room, size_t *file_size) {
    uint8_t nowhere[1], nowhere_else[1];
    size_t unasked, unasked_too;
    size = told(size, &unasked);
    file_size = told(file_size, &unasked_too);
    if (IS_NULL(plan, plan_size) || IS_NULL(script, script_size) || IS_NULL(answers, answers_size) || IS_NULL(text, room) || IS_NULL(file, file_room))
        return CAMAC_MISUSE;
    return (int)camac_raw_run(IN(plan, plan_size), IN(script, script_size), IN(answers, answers_size), OUT(text, room), size,
                              file ? (uint8_t *)file : nowhere_else, file_room, file_size);
}

int camac_open(camac_session *s, const void *plan, size_t plan_size, const void *script, size_t script_size, char *text, size_t room, size_t *size) {
    uint8_t nowhere[1];
    size_t unasked;
    size = told(size, &unasked);
    if (!is_session(s) || IS_NULL(plan, plan_size) || IS_NULL(script, script_size) || IS_NULL(text, room)) return CAMAC_MISUSE;
    const uint32_t code = camac_raw_open(run_of(s), IN(plan, plan_size), IN(script, script_size), OUT(text, room), size);
    if (code == CAMAC_OK) s->camac_ways = s->camac_serving = 0;
    return (int)code;
}

/* The ways of a session: the blocks of camac_blocks, and whether pauses may come so soon that lists have one operation. */
#define MODES 31u
#define IS_SHORT 32u

/* What is left of the transfer whose cycle is wanted; `goes_on` says whether there is another cycle after the next one, by the Q of that. */
typedef struct transfer_left {
    uint32_t mode, last_n, last_a, cycles, words, goes_on[2];
} transfer_left;

static int is_transfer(const camac_session *s, transfer_left *its) { return camac_raw_transfer(run_of(s), (uint8_t *)its, sizeof *its) > 0; }

/* Whether the session's controller makes a block of this mode. */
static int makes_block(const camac_session *s, uint32_t mode, uint8_t data) {
    return (s->camac_ways & mode) && (data != CAMAC_WRITE || s->camac_ways & CAMAC_WRITES);
}

/* Makes a cycle that is wanted the block that it begins, if the session's controller makes such blocks. */
static void begin_block(const camac_session *s, camac_want *want) {
    transfer_left its;
    if (want->kind != CAMAC_CYCLE || !is_transfer(s, &its) || !makes_block(s, its.mode, want->data)) return;
    want->kind = CAMAC_BLOCK;
    want->mode = (uint8_t)its.mode;
    want->last_n = (uint8_t)its.last_n;
    want->last_a = (uint8_t)its.last_a;
    want->cycles = its.cycles;
    want->words = its.words;
}

#define AS_BLOCK(s, want) ((s)->camac_ways & MODES ? begin_block((s), (want)) : (void)0)

int camac_wants(const camac_session *s, camac_want *want) {
    if (!IS_KNOWN(want)) return CAMAC_MISUSE;
    if (!is_session(s)) return CLEAR(want), CAMAC_MISUSE;
    CLEAR_BLOCK(want);
    const int code = (int)camac_raw_wants(run_of(s), &want->kind);
    AS_BLOCK(s, want);
    return code;
}

/* The struct behind this one in a list, which gets the same size. */
#define NEXT(its, bytes) ((its) = (void *)((char *)(its) + (bytes)), (its)->size = (bytes))

/* How many numbers an export tells of a member of a list. */
#define NUMBERS 15u

/* A member of a list by its numbers. */
static void want_of(const uint32_t *its, camac_want *want) {
    CLEAR_FROM(want, camac_want, spare);
    want->kind = (uint8_t)its[0];
    want->c = (uint8_t)its[1];
    want->n = (uint8_t)its[2];
    want->a = (uint8_t)its[3];
    want->f = (uint8_t)its[4];
    want->data = (uint8_t)its[5];
    want->waits = (uint8_t)its[6];
    want->width = (uint8_t)its[7];
    want->word = its[8];
    want->is_short = (uint8_t)its[9];
    want->mode = (uint8_t)its[10];
    want->last_n = (uint8_t)its[11];
    want->last_a = (uint8_t)its[12];
    want->cycles = its[13];
    want->words = its[14];
}

/* Members by the numbers that an export has written, as many as there is room for, up to a block that the session's controller does not make: if that
 * is the first, it is a cycle. */
static size_t wants_of(const camac_session *s, const uint32_t *its, size_t all, camac_want *want, size_t room) {
    const size_t count = all / NUMBERS < room ? all / NUMBERS : room;
    const uint32_t size = count ? want->size : 0;
    for (size_t i = 0; i < count; i++, its += NUMBERS) {
        const int is_made = its[0] != CAMAC_BLOCK || makes_block(s, its[10], (uint8_t)its[5]);
        if (i && !is_made) return i;
        if (i) NEXT(want, size);
        want_of(its, want);
        if (is_made) continue;
        CLEAR_BLOCK(want);
        want->kind = CAMAC_CYCLE;
        return 1;
    }
    return count;
}

/* The room of a list: for one operation where a pause could come before the last. */
static size_t room_of(const camac_session *s, size_t room) { return room > 1 && s->camac_ways & IS_SHORT ? 1 : room; }

/* Whether lists go on behind blocks and releases. */
static uint32_t is_far(const camac_session *s) { return s->camac_ways & CAMAC_IN_LISTS; }

size_t camac_ahead(const camac_session *s, camac_want *want, size_t room) {
    uint32_t numbers[NUMBERS * CAMAC_AHEAD];
    if (!is_session(s) || !room || !IS_KNOWN(want)) return 0;
    const size_t count = wants_of(s, numbers, camac_raw_ahead(run_of(s), is_far(s), (uint8_t *)numbers, sizeof numbers), want, room_of(s, room));
    if (count) AS_BLOCK(s, want);
    return count;
}

int camac_service_ahead(const camac_session *s, uint32_t service, camac_want *want, size_t room, size_t *count) {
    uint32_t numbers[NUMBERS * CAMAC_AHEAD];
    size_t unasked, all;
    count = told(count, &unasked);
    if (!is_session(s) || (room && !IS_KNOWN(want))) return CAMAC_MISUSE;
    const uint32_t code = camac_raw_service_ahead(run_of(s), service, is_far(s), (uint8_t *)numbers, sizeof numbers, &all);
    *count = wants_of(s, numbers, all, want, room_of(s, room));
    return (int)code;
}

size_t camac_back(const camac_session *s, camac_want *want, size_t room) {
    uint32_t numbers[NUMBERS * CAMAC_BACK];
    if (!is_session(s) || !room || !IS_KNOWN(want)) return 0;
    return wants_of(s, numbers, camac_raw_back(run_of(s), (uint8_t *)numbers, sizeof numbers), want, room);
}

/* Adds which service left the event: the one that the last demand called. */
static int served(camac_session *s, camac_progress *its, uint32_t code) {
    if (its->kind == CAMAC_DEMAND) s->camac_serving = its->service;
    if (its->event) its->event_service = s->camac_serving;
    return (int)code;
}

int camac_next(camac_session *s, const camac_answer *answer, camac_progress *progress) {
    if (!IS_KNOWN(progress)) return CAMAC_MISUSE;
    if (!is_session(s) || !IS_KNOWN(answer) || !is_known(answer)) return CLEAR(progress), CAMAC_MISUSE;
    CLEAR_SPARE(progress);
    return served(s, progress, camac_raw_next(run_of(s), &answer->word, &progress->kind));
}

/* The answer behind this one. */
static const camac_answer *after(const camac_answer *answer) { return (const void *)((const char *)answer + answer->size); }

int camac_next_many(camac_session *s, const camac_answer *answer, camac_progress *progress, size_t count, size_t *taken) {
    size_t unasked;
    taken = told(taken, &unasked);
    camac_want want = CAMAC_WANT;
    if (count ? !IS_KNOWN(progress) : camac_wants(s, &want) == CAMAC_MISUSE) return CAMAC_MISUSE;
    const uint32_t size = count ? progress->size : 0;
    int code = CAMAC_OK;
    for (size_t i = 0; i < count; i++) {
        if (i) NEXT(progress, size), answer = after(answer);
        code = camac_next(s, answer, progress);
        if (code == CAMAC_OK || (code == CAMAC_BUSY && progress->kind)) ++*taken;
        if (code != CAMAC_OK || progress->event) break;
    }
    return code;
}

int camac_blocks(camac_session *s, uint32_t modes) {
    camac_want want = CAMAC_WANT;
    if (camac_wants(s, &want) == CAMAC_MISUSE) return CAMAC_MISUSE;
    if (modes & ~MODES) return CAMAC_RANGE;
    s->camac_ways = (s->camac_ways & IS_SHORT) | modes;
    return CAMAC_OK;
}

/* Takes the answers of a block, and tells whether it is over. */
static int block_is_taken(camac_session *s, const camac_answer *answer, camac_progress *progress, size_t count, size_t *taken, int *is_over) {
    camac_want want = CAMAC_WANT;
    transfer_left its;
    CLEAR(progress);
    *is_over = 0;
    if (!count || camac_wants(s, &want) != CAMAC_OK || want.kind != CAMAC_BLOCK) return CAMAC_MISUSE;
    for (size_t i = 0; i < count && !*is_over; i++) {
        if (i) answer = after(answer);
        is_transfer(s, &its);
        const int code = camac_next(s, answer, progress), is_taken = code == CAMAC_OK || (code == CAMAC_BUSY && progress->kind);
        *taken += (size_t)is_taken;
        *is_over = is_taken && !its.goes_on[progress->q];
        if (code != CAMAC_OK) return code;
    }
    return CAMAC_OK;
}

int camac_block(camac_session *s, const camac_answer *answer, camac_progress *progress, size_t count, size_t *taken) {
    size_t unasked;
    int is_over;
    taken = told(taken, &unasked);
    return IS_KNOWN(progress) ? block_is_taken(s, answer, progress, count, taken, &is_over) : CAMAC_MISUSE;
}

/* Takes the answers of a member of a list, and tells whether it is over. */
static int member_is_taken(camac_session *s, const camac_want *want, const camac_answer *answer, camac_progress *progress, size_t made, int *is_over) {
    size_t used;
    if (want->kind == CAMAC_BLOCK) return block_is_taken(s, answer, progress, made, &used, is_over);
    *is_over = 1;
    if (want->kind != CAMAC_UNLOCK) return camac_next(s, answer, progress);
    CLEAR(progress);
    progress->kind = want->kind;
    progress->c = want->c;
    return CAMAC_OK;
}

int camac_next_list(camac_session *s, const camac_want *list, const size_t *made, const camac_answer *answer, camac_progress *progress, size_t count,
                    size_t *taken) {
    size_t unasked;
    int code = CAMAC_OK, is_over = 1;
    taken = told(taken, &unasked);
    if (!is_session(s) || !count || !made || !IS_KNOWN(list) || !IS_KNOWN(progress)) return CAMAC_MISUSE;
    const uint32_t size = progress->size;
    for (size_t i = 0; i < count; i++, list = (const void *)((const char *)list + list->size)) {
        size_t answers = list->kind == CAMAC_BLOCK ? made[i] : list->kind != CAMAC_UNLOCK;
        if (i) NEXT(progress, size);
        code = member_is_taken(s, list, answer, progress, answers, &is_over);
        if (is_over && (code == CAMAC_OK || (code == CAMAC_BUSY && progress->kind))) ++*taken;
        if (code != CAMAC_OK || !is_over) break;
        for (; answers; answers--) answer = after(answer);
    }
    return code;
}

int camac_step(camac_session *s, const camac_answer *answer, camac_progress *progress, camac_want *want) {
    if (!IS_KNOWN(progress) || !IS_KNOWN(want)) return CAMAC_MISUSE;
    if (!is_session(s) || !IS_KNOWN(answer) || !is_known(answer)) return CLEAR(progress), CLEAR(want), CAMAC_MISUSE;
    CLEAR_SPARE(progress);
    CLEAR_BLOCK(want);
    const int code = served(s, progress, camac_raw_step(run_of(s), &answer->word, &progress->kind, &want->kind));
    AS_BLOCK(s, want);
    return code;
}

/* Numbers of 32 bits, which an export writes as bytes. */
static size_t call_of_words(size_t (*call)(void *, uint8_t *, size_t), const camac_session *s, uint32_t *words, size_t room) {
    uint32_t nowhere[1];
    if (!is_session(s)) return 0;
    if (!words) words = nowhere, room = 0;
    if (room > CAMAC_EVENT_WORDS) room = CAMAC_EVENT_WORDS;
    return call(run_of(s), (uint8_t *)words, room * sizeof *words);
}

size_t camac_words(const camac_session *s, uint32_t *words, size_t room) { return call_of_words(camac_raw_words, s, words, room); }

size_t camac_block_words(const camac_session *s, uint32_t *words, size_t room) {
    camac_want want = CAMAC_WANT;
    return camac_wants(s, &want) == CAMAC_OK && want.kind == CAMAC_BLOCK ? call_of_words(camac_raw_to_write, s, words, room) : 0;
}

size_t camac_held(const camac_session *s, uint32_t *crates, size_t room) { return call_of_words(camac_raw_held, s, crates, room); }

/* What is told of the last answer, as bytes. */
static int call_of_last(uint32_t (*call)(void *, uint8_t *, size_t, size_t *), const camac_session *s, void *bytes, size_t room, size_t *size) {
    uint8_t nowhere[1];
    size_t unasked;
    size = told(size, &unasked);
    if (!is_session(s) || IS_NULL(bytes, room)) return CAMAC_MISUSE;
    return (int)call(run_of(s), OUT(bytes, room), size);
}

int camac_item(const camac_session *s, char *text, size_t room, size_t *size) { return call_of_last(camac_raw_item, s, text, room, size); }

int camac_record(const camac_session *s, void *bytes, size_t room, size_t *size) { return call_of_last(camac_raw_record, s, bytes, room, size); }

size_t camac_file_header(void *bytes, size_t room) {
    uint8_t nowhere[1];
    size_t size;
    camac_raw_file_header(OUT(bytes, bytes ? room : 0), &size);
    return size;
}

uint32_t camac_answers_left(const camac_session *s) { return is_session(s) ? (uint32_t)camac_raw_answers_left(run_of(s)) : 0; }

size_t camac_services(const camac_session *s) { return is_session(s) ? camac_raw_services(run_of(s)) : 0; }

int camac_service(const camac_session *s, uint32_t number, camac_service_info *info) {
    size_t size;
    if (!IS_KNOWN(info)) return CAMAC_MISUSE;
    CLEAR(info);
    if (!is_session(s)) return CAMAC_MISUSE;
    const uint32_t code = camac_raw_service_name(run_of(s), number, (uint8_t *)info->name, sizeof info->name - 1, &size);
    /* the numbers stand one after another, from c to most_words */
    return code ? (int)code : (int)camac_raw_service_numbers(run_of(s), number, (uint8_t *)info + offsetof(camac_service_info, c), 10 * sizeof info->c, &size);
}

int camac_where(const camac_session *s, uint32_t *service, uint32_t *line) {
    uint32_t place[2] = {0, 0};
    size_t size;
    const int code = is_session(s) ? (int)camac_raw_where(run_of(s), (uint8_t *)place, sizeof place, &size) : CAMAC_MISUSE;
    if (service) *service = place[0];
    if (line) *line = place[1];
    return code;
}

int camac_abandon(camac_session *s, uint32_t *unlocked, size_t room, size_t *count) {
    uint32_t nowhere[1];
    size_t unasked;
    count = told(count, &unasked);
    if (!is_session(s) || IS_NULL(unlocked, room)) return CAMAC_MISUSE;
    if (!unlocked) unlocked = nowhere;
    if (room > CAMAC_CRATES) room = CAMAC_CRATES;
    return (int)camac_raw_abandon(run_of(s), (uint8_t *)unlocked, room * sizeof *unlocked, count);
}

int camac_limit_steps(camac_session *s, uint32_t most) {
    const uint32_t code = is_session(s) ? camac_raw_limit_steps(run_of(s), most) : CAMAC_MISUSE;
    if (code == CAMAC_OK) s->camac_ways = (s->camac_ways & MODES) | (most < CAMAC_AHEAD_STEPS ? IS_SHORT : 0);
    return (int)code;
}

int camac_go_on(camac_session *s, camac_progress *progress) {
    if (!IS_KNOWN(progress)) return CAMAC_MISUSE;
    if (!is_session(s)) return CLEAR(progress), CAMAC_MISUSE;
    CLEAR_SPARE(progress);
    return served(s, progress, camac_raw_go_on(run_of(s), &progress->kind));
}

/* Has the crates set back, leaves the service in progress, and has its lockouts released. 0 where the crates could not be set back. */
static int is_left(camac_session *s, const camac_branch *branch, void *user) {
    const camac_answer nothing = CAMAC_ANSWER;
    camac_want back[CAMAC_BACK] = {CAMAC_WANT};
    uint32_t crates[CAMAC_CRATES];
    size_t count = camac_back(s, back, CAMAC_BACK);
    for (size_t i = 0; i < count; i++) {
        camac_answer answer = nothing;
        if (branch->make(user, &back[i], &answer) != CAMAC_MADE) return 0;
    }
    const int code = camac_abandon(s, crates, CAMAC_CRATES, &count);
    for (size_t i = 0; i < count; i++) branch->unlock(user, crates[i]);
    return code == CAMAC_OK;
}

/* Does what an answer or a pause calls for: tells the event, and has lockouts released. */
static void settle(camac_session *s, const camac_branch *branch, void *user, const camac_progress *its) {
    if (its->event && branch->event) branch->event(user, s, its);
    for (const uint8_t *c = its->unlocked; *c; c++) branch->unlock(user, *c);
}

/* Has the branch make what is wanted, and takes what it answers: enum camac_made. */
static int one_is_made(camac_session *s, const camac_branch *branch, void *user, const camac_want *want, camac_progress *its, int *code) {
    const camac_answer nothing = CAMAC_ANSWER;
    camac_answer answers[CAMAC_BLOCK_ANSWERS];
    const int is_block = want->kind == CAMAC_BLOCK && branch->block;
    size_t count = !is_block ? 1 : want->cycles < CAMAC_BLOCK_ANSWERS ? want->cycles : CAMAC_BLOCK_ANSWERS;
    for (size_t i = 0; i < count; i++) answers[i] = nothing;
    const int made = is_block ? branch->block(user, s, want, answers, &count) : branch->make(user, want, answers);
    if (made == CAMAC_MADE) *code = is_block ? camac_block(s, answers, its, count, NULL) : camac_next(s, answers, its);
    return made;
}

/* Has the branch make what is wanted until the run ends, and tells how. */
static int played(camac_session *s, const camac_branch *branch, void *user) {
    camac_want want = CAMAC_WANT;
    camac_progress its = CAMAC_PROGRESS;
    int code, made;
    while ((code = camac_wants(s, &want)) == CAMAC_OK || code == CAMAC_BUSY) {
        if (code == CAMAC_BUSY) {
            if (branch->pause) branch->pause(user);
            code = camac_go_on(s, &its);
        } else if ((made = one_is_made(s, branch, user, &want, &its, &code)) != CAMAC_MADE) {
            if (made != CAMAC_FAULT || !is_left(s, branch, user)) return CAMAC_OK;
            continue;
        }
        if (code != CAMAC_OK && code != CAMAC_BUSY) break;
        settle(s, branch, user, &its);
    }
    if (want.kind == CAMAC_LOCK) branch->unlock(user, want.c); /* it was made, but its answer not taken */
    return code;
}

int camac_play(camac_session *s, const camac_branch *branch, void *user) {
    uint32_t crates[CAMAC_CRATES];
    if (!IS_KNOWN(branch) || !branch->make || !branch->unlock) return CAMAC_MISUSE;
    const int code = played(s, branch, user);
    const size_t count = camac_held(s, crates, CAMAC_CRATES);
    for (size_t i = 0; i < count; i++) branch->unlock(user, crates[i]);
    return code;
}

int camac_rewind(camac_session *s) { return is_session(s) ? (int)camac_raw_rewind(run_of(s)) : CAMAC_MISUSE; }

void camac_close(camac_session *s) {
    if (is_session(s)) camac_raw_close(run_of(s));
}
