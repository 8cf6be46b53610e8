/* consumer.c: what a data acquisition program makes of a run: the listing and the event file of `camac run`. The run is begun again before it is
 * played. Now and then a service is abandoned: answers and listing have a line of it, after an overrun in the place of the answer. Where it stands, each
 * time something is wanted, is a line of the script that can want it. A second session takes the same answers in lists, as long as what it tells ahead,
 * a third one also in blocks, a fourth one in lists with blocks and releases in them, and all do the same. So does camac_run with all of them. What a
 * service begins with was told before its demand.
 *
 *     consumer FOLDER COUNT     of FOLDER/K.plan and FOLDER/K.script, K below COUNT, it makes K.answers at random, K.listing and K.events, and prints
 *                               how many lists there were, how many answers in them, how many lists with blocks, how many operations were wanted
 *                               that were told before their demand, how many lists with blocks and releases in them, how many of these had a block
 *                               behind their first operation, and how many a release */
#define _POSIX_C_SOURCE 200809L
#include "common.h"
#include <stddef.h>
#include <unistd.h>

#define ANSWERS 150

static FILE *to_file(const char *folder, long k, const char *kind) {
    char path[4096];
    snprintf(path, sizeof path, "%s/%ld.%s", folder, k, kind);
    FILE *file = fopen(path, "wb");
    if (!file) fail("%s cannot be written", path);
    return file;
}

static text of_file(const char *folder, long k, const char *kind) {
    char path[4096];
    snprintf(path, sizeof path, "%s/%ld.%s", folder, k, kind);
    return read_file(path);
}

static int item(const camac_session *s, void *bytes, size_t room, size_t *size) { return camac_item(s, bytes, room, size); }

/* Writes what a call tells, which has to be what it tells of its size alone. */
static void put(FILE *to, int (*call)(const camac_session *, void *, size_t, size_t *), const camac_session *s) {
    static char bytes[CAMAC_RECORD_BYTES];
    size_t size, alone;
    EXPECT(CAMAC_OK, call(s, bytes, sizeof bytes, &size));
    EXPECT(CAMAC_OK, call(s, NULL, 0, &alone));
    if (size != alone || size > (call == item ? CAMAC_LINES_BYTES : sizeof bytes)) fail("%zu bytes are told, or %zu", size, alone);
    if (fwrite(bytes, 1, size, to) != size) fail("a file cannot be written");
}

static size_t number(uint8_t *to, uint64_t its, unsigned bytes) {
    for (unsigned i = 0; i < bytes; i++) to[i] = (uint8_t)(its >> (8 * (bytes - 1 - i)));
    return bytes;
}

/* The record of the event has what is told of it, and so has the answer, of this service. */
static void is_told(const camac_session *s, const camac_progress *did, uint32_t service) {
    static uint32_t words[CAMAC_EVENT_WORDS];
    static uint8_t told[CAMAC_RECORD_BYTES], found[CAMAC_RECORD_BYTES];
    const size_t count = camac_words(s, words, CAMAC_EVENT_WORDS);
    size_t at = 0, size;
    at += number(told + at, 0xca4d, 2), at += number(told + at, did->event_gl, 2), at += number(told + at, did->event, 4);
    at += number(told + at, did->event_cycles, 4), at += number(told + at, did->event_missed, 2), at += number(told + at, count, 2);
    for (size_t i = 0; i < count; i++) at += number(told + at, words[i], 4);
    EXPECT(CAMAC_OK, camac_record(s, found, sizeof found, &size));
    if (did->event ? size != at || memcmp(found, told, size) || count != did->event_words : size || count) fail("a record tells something else");
    if (did->event_service != (did->event ? service : 0)) fail("the event is of service %u", (unsigned)did->event_service);
}

/* A pattern that calls one of the services, or any. */
static uint32_t any_pattern(const camac_session *s, uint32_t *seed) {
    camac_service_info info = CAMAC_SERVICE_INFO;
    const uint32_t services = (uint32_t)camac_services(s);
    if (!services || chance(seed, 4) == 0) return chance(seed, 1u << 24);
    EXPECT(CAMAC_OK, camac_service(s, 1 + chance(seed, services), &info));
    return 1u << (info.gl - 1);
}

/* Whether a line of a script has one of these words. */
static int has_word(const text *script, uint32_t line, const char *const *words) {
    const char *at = script->bytes, *end = at + script->size;
    for (; line > 1 && at < end; at++) line -= *at == '\n';
    const char *const past = at < end ? memchr(at, '\n', (size_t)(end - at)) : NULL;
    end = past ? past : end;
    for (; *words; words++)
        for (const char *it = at; it + strlen(*words) <= end; it++)
            if (!memcmp(it, *words, strlen(*words))) return 1;
    return 0;
}

/* The service in progress stands on a line that wants this. */
static void stands(const camac_session *s, const camac_want *want, const text *script, uint32_t in_progress) {
    static const char *const cycles[] = {"cfsa", "cssa", "cfmad", "cfubc", "cfubr", "ccc", "ctci", "ctcd", "ctgl", "cclm", "cclc", "ctlm", NULL};
    static const char *const locks[] = {"lock", NULL}, *const shorts[] = {"cssa", NULL}, *const others[] = {"cfsa", "cc", "ct", "cfmad", "cfu", NULL};
    uint32_t service = 9, line = 9;
    EXPECT(CAMAC_OK, camac_where(s, &service, &line));
    if (want->kind == CAMAC_DEMAND ? service || line : service != in_progress || !has_word(script, line, want->kind == CAMAC_LOCK ? locks : cycles))
        fail("the service %u stands on line %u", (unsigned)service, (unsigned)line);
    const int may = want->kind == CAMAC_CYCLE && has_word(script, line, shorts);
    if (want->is_short > may || want->is_short < (may && !has_word(script, line, others))) fail("line %u moves 16 bits, or not", (unsigned)line);
}

/* Inhibit, 1, and demand output, 2, of each crate, now and at the last demand that called a service. */
static uint8_t now[CAMAC_CRATES + 1], was[CAMAC_CRATES + 1];

/* A cycle was made. */
static void made(const camac_want *its) {
    uint8_t *const bits = &now[its->c], bit = its->a == 9 ? 1 : 2;
    if (its->n == 28 && its->a == 8) *bits = 1;
    if (its->n == 30 && (its->a == 9 || its->a == 10) && its->f != 27) *bits = (uint8_t)(its->f == 26 ? *bits | bit : *bits & ~bit);
}

/* Leaves the service in progress: what was held is given, as far as there is room, and nothing is held then. Each command before sets a bit back. */
static void abandon(camac_session *s, camac_want *want, uint32_t room) {
    camac_want back[CAMAC_BACK] = {CAMAC_WANT};
    const size_t commands = camac_back(s, back, CAMAC_BACK);
    for (size_t i = 0; i < commands; i++) {
        const uint8_t before = now[back[i].c];
        made(&back[i]);
        if (now[back[i].c] == before || back[i].kind != CAMAC_CYCLE || back[i].size != sizeof *back) fail("a command sets nothing back");
    }
    if (memcmp(now, was, sizeof now)) fail("the crates are not set back");
    uint32_t held[CAMAC_CRATES] = {0}, told[CAMAC_CRATES] = {0};
    const size_t count = camac_held(s, held, room);
    size_t its = 9;
    EXPECT(CAMAC_OK, camac_abandon(s, told, room, &its));
    if (its != count || memcmp(held, told, sizeof held) || camac_held(s, NULL, 0)) fail("other crates are to be released");
    EXPECT(CAMAC_OK, camac_wants(s, want));
    if (want->kind != CAMAC_DEMAND) fail("no demand is wanted");
}

/* Writes that this service is left: in the answers in the place of one whose wait was not permitted. */
static void tell_left(const camac_session *s, uint32_t service, int is_overrun, FILE *answers, FILE *listing) {
    camac_service_info info = CAMAC_SERVICE_INFO;
    const long at = ftell(answers) - (is_overrun ? 20 : 0);
    if (fflush(answers) || ftruncate(fileno(answers), at) || fseek(answers, at, SEEK_SET)) fail("a file cannot be written");
    EXPECT(CAMAC_OK, camac_service(s, service, &info));
    fputs("abandon\n", answers);
    fprintf(listing, "abandoned service %s\n", info.name);
}

/* The block that a session is in, as far as it came: by its want, and by the Q of its cycles. */
typedef struct block {
    camac_want left;
    uint32_t words[CAMAC_EVENT_WORDS], made;
    int is_over;
} block;

/* Begins a block; one that was not over goes on. Its words are told of the one that is wanted. */
static void begin_block(block *its, const camac_session *s, const camac_want *want, int is_wanted) {
    if (want->mode == CAMAC_SCAN) its->left.width = want->width;
    if (!its->is_over && memcmp(&its->left, want, sizeof *want)) fail("another block is wanted than the rest of one");
    its->left = *want;
    its->is_over = 0;
    its->made = 0;
    const size_t count = is_wanted ? camac_block_words(s, its->words, CAMAC_EVENT_WORDS) : 0;
    if (want->data == CAMAC_WRITE ? count < want->words : count) fail("a block has %zu words to write", count);
}

/* The one by one wanted cycle is the next one of the block. */
static void is_next(const block *its, const camac_want *want) {
    camac_want next = no_want;
    memcpy(&next.kind, &its->left.kind, offsetof(camac_want, word) - offsetof(camac_want, kind));
    next.kind = CAMAC_CYCLE;
    if (next.data == CAMAC_WRITE) next.word = its->words[its->made];
    if (its->left.mode == CAMAC_SCAN) next.width = want->width;
    if (memcmp(&next, want, sizeof next)) fail("a block has another cycle");
}

/* What is left of a block after a cycle with this Q. */
static void go_further(block *its, int q) {
    camac_want *const left = &its->left;
    left->cycles--;
    if (q || left->mode == CAMAC_Q_STOP) left->words--;
    if (q) its->made++;
    if (left->data == CAMAC_WRITE) left->word = its->words[its->made];
    if (left->mode == CAMAC_SCAN) {
        const int is_at_last = left->n == left->last_n && left->a == left->last_a, leaves = !q || left->a == 15;
        if (leaves) left->n++;
        left->a = (uint8_t)(leaves ? 0 : left->a + 1);
        left->cycles = (uint32_t)(16 * (left->last_n - left->n) + left->last_a - left->a + 1);
        its->is_over = is_at_last || left->n > left->last_n || (left->n == left->last_n && left->a > left->last_a) || !left->words;
    } else its->is_over = !left->cycles || !left->words || (left->mode == CAMAC_Q_STOP && !q);
}

/* Sessions that take their answers in lists, what was told ahead, and of the list so far what `one`, which takes them one by one, did. The second one
 * takes blocks, too, of which it now and then hands in a part. */
#define WAYS 2
static struct way {
    camac_session s;
    camac_want wants[CAMAC_AHEAD];
    camac_answer answers[ANSWERS + 2];
    camac_progress did[ANSWERS];
    block block;
    size_t count, used;
    unsigned long lists, all;
} ways[WAYS];

static int is_block(const struct way *its) { return its->wants[0].kind == CAMAC_BLOCK; }

/* An answer for the list: what is wanted is what was told ahead. */
static void gather(struct way *its, const camac_want *want, const camac_answer *answer, uint32_t *seed) {
    if (!its->used) {
        const uint32_t room = 1 + chance(seed, CAMAC_AHEAD);
        its->wants[0] = *want;
        its->count = camac_ahead(&its->s, its->wants, room);
        if (!its->count || its->count > room) fail("%zu operations are ahead", its->count);
        if (is_block(its)) begin_block(&its->block, &its->s, its->wants, 1), its->count = 1 + chance(seed, 2 * its->wants[0].cycles);
        else if (!its->block.is_over) fail("a block is left");
    }
    if (is_block(its)) is_next(&its->block, want);
    else if (memcmp(&its->wants[its->used], want, sizeof *want)) fail("something else is ahead");
    its->answers[its->used] = *answer;
}

static void same_bytes(const camac_session *its, int (*call)(const camac_session *, void *, size_t, size_t *), const camac_session *one) {
    static char bytes[1 << 15], others[1 << 15];
    size_t size, other;
    EXPECT(CAMAC_OK, call(one, bytes, sizeof bytes, &size));
    EXPECT(CAMAC_OK, call(its, others, sizeof others, &other));
    if (size != other || memcmp(bytes, others, size)) fail("a list tells something else");
}

/* Hands in the answers of a block, and one more where it is over. */
static size_t hand_in_block(struct way *its, int code) {
    camac_progress did = CAMAC_PROGRESS;
    size_t taken;
    const size_t more = its->block.is_over || code != CAMAC_OK;
    its->answers[its->used] = its->answers[0];
    EXPECT(code, camac_block(&its->s, its->answers, &did, its->used + more, &taken));
    if (memcmp(&did, &its->did[its->used - 1], sizeof did)) fail("a block does something else");
    return taken;
}

/* Hands the list in, whose last answer got this code. */
static void hand_in(struct way *its, int code, const camac_session *one) {
    static camac_progress did[ANSWERS];
    size_t taken;
    did[0] = no_progress;
    if (is_block(its)) taken = hand_in_block(its, code);
    else {
        EXPECT(code, camac_next_many(&its->s, its->answers, did, its->used, &taken));
        if (memcmp(did, its->did, its->used * sizeof *did)) fail("a list does something else");
    }
    if (taken != its->used - (code == CAMAC_OVERRUN)) fail("%zu of %zu answers were taken", taken, its->used);
    same_bytes(&its->s, item, one);
    same_bytes(&its->s, camac_record, one);
    its->lists++, its->all += its->used;
    its->used = 0;
}

/* What `one` did with its last answer, which got this code. */
static void add(struct way *its, int code, const camac_progress *did, const camac_session *one) {
    its->did[its->used++] = *did;
    if (is_block(its) && code != CAMAC_OVERRUN) go_further(&its->block, did->q);
    if (its->used == its->count || code != CAMAC_OK || (is_block(its) && its->block.is_over)) hand_in(its, code, one);
}

/* A session that takes its answers in lists with blocks and releases in them: the list, how many answers each of its members has and what it did, where it
 * stands, and after how many answers the list is handed in. */
static struct far {
    camac_session s;
    camac_want list[CAMAC_AHEAD];
    camac_progress did[CAMAC_AHEAD];
    size_t made[CAMAC_AHEAD], count, at, used, most;
    camac_answer answers[ANSWERS + 2];
    block block;
    unsigned long lists, with_blocks, with_releases;
} far;

static int far_is_block(void) { return far.list[far.at].kind == CAMAC_BLOCK; }

/* An answer for the list: what is wanted is what was told ahead, or the next cycle of a block there. */
static void far_gather(const camac_want *want, const camac_answer *answer, uint32_t *seed) {
    if (!far.used) {
        const uint32_t room = chance(seed, 2) ? CAMAC_AHEAD : 1 + chance(seed, CAMAC_AHEAD);
        far.list[0] = no_want;
        far.count = camac_ahead(&far.s, far.list, room);
        if (!far.count || far.count > room) fail("%zu members are ahead", far.count);
        memset(far.made, 0, sizeof far.made);
        far.at = 0;
        far.most = chance(seed, 4) ? ANSWERS : 1 + chance(seed, ANSWERS);
        if (!far_is_block() && !far.block.is_over) fail("a block is left");
    }
    if (!far_is_block() && memcmp(&far.list[far.at], want, sizeof *want)) fail("something else is in a list");
    if (far_is_block() && !far.made[far.at]) begin_block(&far.block, &far.s, &far.list[far.at], !far.at);
    if (far_is_block()) is_next(&far.block, want);
    far.answers[far.used++] = *answer;
}

/* Hands the list in, whose last answer got this code. */
static void far_hand_in(int code, const camac_session *one) {
    static camac_progress did[CAMAC_AHEAD];
    const size_t members = far.at + (far.at < far.count && far.made[far.at] > 0);
    size_t taken, blocks = 0, releases = 0;
    did[0] = no_progress;
    EXPECT(code, camac_next_list(&far.s, far.list, far.made, far.answers, did, members, &taken));
    if (taken != far.at) fail("%zu of %zu members were taken", taken, far.at);
    if (memcmp(did, far.did, members * sizeof *did)) fail("a list with blocks does something else");
    same_bytes(&far.s, item, one);
    same_bytes(&far.s, camac_record, one);
    for (size_t i = 1; i < members; i++) blocks += far.list[i].kind == CAMAC_BLOCK, releases += far.list[i].kind == CAMAC_UNLOCK;
    far.lists++, far.with_blocks += blocks > 0, far.with_releases += releases > 0;
    far.used = 0;
}

/* What `one` did with its last answer, which got this code: what it released is in the list, too, or the list is at its end. */
static void far_add(int code, const camac_progress *did, const camac_session *one) {
    far.did[far.at] = *did;
    far.made[far.at]++;
    if (code == CAMAC_OVERRUN) {
        far_hand_in(code, one);
        return;
    }
    if (far_is_block()) go_further(&far.block, did->q);
    if (!far_is_block() || far.block.is_over) far.at++;
    for (const uint8_t *c = did->unlocked; *c && far.at < far.count; c++, far.at++) {
        if (far.list[far.at].kind != CAMAC_UNLOCK || far.list[far.at].c != *c) fail("a list releases another crate than %u", *c);
        far.did[far.at] = no_progress;
        far.did[far.at].kind = CAMAC_UNLOCK;
        far.did[far.at].c = *c;
    }
    if (far.at < far.count && (did->event || far.list[far.at].kind == CAMAC_UNLOCK)) fail("a list goes on behind its end");
    if (far.at == far.count || code != CAMAC_OK || far.used == far.most) far_hand_in(code, one);
}

/* The lists with which the services begin, as they are told before a demand, and how many operations were wanted since. */
#define SERVICES 24
static camac_want firsts[SERVICES + 1][CAMAC_AHEAD];
static size_t first_counts[SERVICES + 1], since;
static unsigned long told_before;

/* What is wanted of a service in progress, 0 for none, is what was told before; at a demand that is told anew. */
static void is_first(const camac_session *s, const camac_want *want, uint32_t service) {
    size_t none = 9;
    if (want->kind != CAMAC_DEMAND) {
        EXPECT(CAMAC_MISUSE, camac_service_ahead(s, service, firsts[0], 1, &none));
        if (none) fail("a list is told in a service");
        if (since >= first_counts[service]) return;
        if (memcmp(&firsts[service][since], want, sizeof *want)) fail("service %u begins with something else", (unsigned)service);
        since++, told_before++;
        return;
    }
    for (uint32_t k = 1; k <= camac_services(s); k++) {
        firsts[k][0] = no_want;
        EXPECT(CAMAC_OK, camac_service_ahead(s, k, firsts[k], CAMAC_AHEAD, &first_counts[k]));
    }
    since = 0;
}

/* Until all that was told before is wanted, nothing is released, and no event left. */
static void is_quiet(const camac_progress *did, uint32_t service) {
    if (since < first_counts[service] && (did->event || did->unlocked[0])) fail("service %u ends before what it begins with", (unsigned)service);
}

/* Goes on while all runs pause, and puts what it tells. */
static int go_on(camac_session *s, int code, camac_want *want, FILE *listing, FILE *events, uint32_t *count, uint32_t service) {
    const camac_answer answer = CAMAC_ANSWER;
    camac_progress did = CAMAC_PROGRESS;
    if (code != CAMAC_BUSY) return code;
    while (code == CAMAC_BUSY) {
        EXPECT(CAMAC_BUSY, camac_wants(s, want));
        EXPECT(CAMAC_BUSY, camac_step(s, &answer, &did, want));
        code = camac_go_on(s, &did);
        is_told(s, &did, service);
        is_quiet(&did, service);
        put(listing, item, s);
        put(events, camac_record, s);
        if (did.event) *count = did.event;
        for (int w = 0; w < WAYS; w++) EXPECT(code, camac_go_on(&ways[w].s, &did));
        EXPECT(code, camac_go_on(&far.s, &did));
    }
    return code == CAMAC_OK ? camac_wants(s, want) : code;
}

/* Plays up to an overrun, or to the end of the answers. */
static void play(camac_session *s, const char *folder, long k, const text *script) {
    FILE *answers = to_file(folder, k, "answers"), *listing = to_file(folder, k, "listing"), *events = to_file(folder, k, "events");
    camac_want want = CAMAC_WANT;
    camac_progress did = CAMAC_PROGRESS;
    char header[8];
    uint32_t seed = (uint32_t)k, count = 0, service = 0, used = 0;
    const uint32_t most = chance(&seed, ANSWERS), all = camac_answers_left(s);
    int code = camac_wants(s, &want);
    memset(now, 2, sizeof now);
    if (camac_file_header(header, sizeof header) != 8 || fwrite(header, 1, 8, events) != 8) fail("a header cannot be written");
    for (uint32_t i = 0; i < most && code == CAMAC_OK; i++) {
        camac_answer answer = any_answer(&seed);
        stands(s, &want, script, service);
        is_first(s, &want, service);
        if (want.kind == CAMAC_DEMAND) answer.gl = any_pattern(s, &seed);
        fprintf(answers, "%d %d %06x %x %06x\n", answer.x, answer.q, (unsigned)answer.word, answer.wait, (unsigned)answer.gl);
        const camac_want before = want;
        for (int w = 0; w < WAYS; w++) gather(&ways[w], &want, &answer, &seed);
        far_gather(&want, &answer, &seed);
        code = camac_step(s, &answer, &did, &want);
        if ((code == CAMAC_OVERRUN) != (answer.wait > before.waits)) fail("a wait of %u gives %d, where %u is the longest", answer.wait, code, before.waits);
        for (int w = 0; w < WAYS; w++) add(&ways[w], code, &did, s);
        far_add(code, &did, s);
        put(listing, item, s);
        put(events, camac_record, s);
        if (code == CAMAC_OK || code == CAMAC_BUSY) {
            if (camac_answers_left(s) != all - ++used) fail("%u answers are left", (unsigned)camac_answers_left(s));
            if (before.kind == CAMAC_CYCLE) made(&before);
        }
        if (did.event) count = did.event;
        if (did.kind == CAMAC_DEMAND) service = did.service, memcpy(was, now, sizeof was);
        is_told(s, &did, service);
        is_quiet(&did, service);
        if (did.kind != (code == CAMAC_OVERRUN ? CAMAC_STOPPED : before.kind)) fail("an answer was for kind %u, not %u", did.kind, before.kind);
        code = go_on(s, code, &want, listing, events, &count, service);
        if (code == CAMAC_OVERRUN ? chance(&seed, 3) : code != CAMAC_OK || want.kind == CAMAC_DEMAND || chance(&seed, 20)) continue;
        for (int w = 0; w < WAYS; w++) {
            if (ways[w].used) hand_in(&ways[w], CAMAC_OK, s);
            EXPECT(CAMAC_OK, camac_abandon(&ways[w].s, NULL, 0, NULL));
            ways[w].block.is_over = 1;
        }
        if (far.used) far_hand_in(CAMAC_OK, s);
        EXPECT(CAMAC_OK, camac_abandon(&far.s, NULL, 0, NULL));
        far.block.is_over = 1;
        abandon(s, &want, chance(&seed, CAMAC_CRATES + 1));
        tell_left(s, service, code == CAMAC_OVERRUN, answers, listing);
        code = CAMAC_OK;
    }
    for (int w = 0; w < WAYS; w++)
        if (ways[w].used) hand_in(&ways[w], CAMAC_OK, s);
    if (far.used) far_hand_in(CAMAC_OK, s);
    if (code == CAMAC_OVERRUN) fprintf(listing, "overrun %d wait %d events %u\n", did.c, did.wait, (unsigned)count);
    else fprintf(listing, "%s events %u\n", want.kind == CAMAC_DEMAND ? "ended" : "short", (unsigned)count);
    if (fclose(answers) || fclose(listing) || fclose(events)) fail("a file cannot be written");
}

/* camac_run of these answers tells the same. */
static void run(const char *folder, long k, const text *plan, const text *script) {
    static char listing[1 << 20], file[1 << 20];
    size_t size, file_size;
    const text answers = of_file(folder, k, "answers"), its = of_file(folder, k, "listing"), events = of_file(folder, k, "events");
    const int code = camac_run(plan->bytes, plan->size, script->bytes, script->size, answers.bytes, answers.size, listing, sizeof listing, &size, file,
                               sizeof file, &file_size);
    if (code > CAMAC_REFUSED || size != its.size || memcmp(listing, its.bytes, size) || file_size != events.size || memcmp(file, events.bytes, file_size))
        fail("camac_run tells something else of %ld", k);
    free(answers.bytes), free(its.bytes), free(events.bytes);
}

int main(int words_count, char **words) {
    if (words_count != 3) return 2;
    for (long k = 0; k < atol(words[2]); k++) {
        camac_session s = CAMAC_NONE;
        uint32_t seed = (uint32_t)k;
        const text plan = of_file(words[1], k, "plan"), script = of_file(words[1], k, "script");
        const camac_session none = CAMAC_NONE;
        open_session(&s, &plan, &script);
        for (int w = 0; w < WAYS; w++) {
            ways[w].s = none;
            open_session(&ways[w].s, &plan, &script);
            EXPECT(CAMAC_OK, camac_blocks(&ways[w].s, w ? chance(&seed, 16) : 0));
            ways[w].block.is_over = 1;
        }
        far.s = none;
        open_session(&far.s, &plan, &script);
        EXPECT(CAMAC_OK, camac_blocks(&far.s, CAMAC_IN_LISTS + chance(&seed, 16)));
        far.block.is_over = 1;
        for (camac_want want = CAMAC_WANT; chance(&seed, 30) && camac_wants(&s, &want) == CAMAC_OK;) {
            camac_progress did = CAMAC_PROGRESS;
            camac_answer answer = any_answer(&seed);
            if (want.kind == CAMAC_DEMAND) answer.gl = any_pattern(&s, &seed);
            if (camac_next(&s, &answer, &did) > CAMAC_OVERRUN) fail("an answer is not taken");
        }
        EXPECT(CAMAC_OK, camac_rewind(&s));
        const uint32_t most = chance(&seed, 2) ? CAMAC_NO_LIMIT : chance(&seed, 20);
        EXPECT(CAMAC_OK, camac_limit_steps(&s, most));
        for (int w = 0; w < WAYS; w++) EXPECT(CAMAC_OK, camac_limit_steps(&ways[w].s, most));
        EXPECT(CAMAC_OK, camac_limit_steps(&far.s, most));
        play(&s, words[1], k, &script);
        run(words[1], k, &plan, &script);
        camac_close(&s);
        for (int w = 0; w < WAYS; w++) camac_close(&ways[w].s);
        camac_close(&far.s);
        free(plan.bytes), free(script.bytes);
    }
    printf("%lu %lu %lu %lu %lu %lu %lu\n", ways[0].lists, ways[0].all, ways[1].lists, told_before, far.lists, far.with_blocks, far.with_releases);
    return 0;
}
