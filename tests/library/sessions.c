/* sessions.c: what a session tells of itself and of its last answer, next to what other calls tell of the same run.
 *
 *     sessions PLAN SCRIPT */
#include "common.h"

#define ANSWERS 3000

static text plan, script;
static const camac_service_info no_service = CAMAC_SERVICE_INFO;

/* Of a none nothing is told. */
static void none(void) {
    camac_session s = CAMAC_NONE;
    camac_want want;
    camac_progress did;
    camac_service_info info;
    char text[4] = "#";
    size_t size = 9;
    spoil(&want, sizeof want), spoil(&did, sizeof did), spoil(&info, sizeof info);
    EXPECT(CAMAC_MISUSE, camac_step(&s, &no_answer, &did, &want));
    expect_zeros(&want, &no_want, sizeof want, __LINE__);
    expect_zeros(&did, &no_progress, sizeof did, __LINE__);
    EXPECT(CAMAC_MISUSE, camac_service(&s, 1, &info));
    expect_zeros(&info, &no_service, sizeof info, __LINE__);
    EXPECT(CAMAC_MISUSE, camac_item(&s, text, sizeof text, &size));
    if (size || text[0] != '#') fail("a none has a last answer");
    EXPECT(CAMAC_MISUSE, camac_record(&s, text, sizeof text, NULL));
    uint32_t service = 9, line = 9;
    EXPECT(CAMAC_MISUSE, camac_where(&s, &service, &line));
    EXPECT(CAMAC_MISUSE, camac_where(NULL, NULL, NULL));
    if (service || line) fail("a none stands somewhere");
    EXPECT(CAMAC_MISUSE, camac_abandon(&s, NULL, 0, &size));
    EXPECT(CAMAC_MISUSE, camac_limit_steps(&s, 1));
    EXPECT(CAMAC_MISUSE, camac_next_many(&s, &no_answer, NULL, 0, NULL));
    spoil(&did, sizeof did);
    EXPECT(CAMAC_MISUSE, camac_go_on(&s, &did));
    expect_zeros(&did, &no_progress, sizeof did, __LINE__);
    EXPECT(CAMAC_MISUSE, camac_rewind(&s));
    EXPECT(CAMAC_MISUSE, camac_rewind(NULL));
    if (camac_services(&s) || camac_answers_left(&s) || camac_held(&s, NULL, 0) || camac_held(NULL, NULL, 1)) fail("a none has something");
}

/* What C hands in, and no proof sees. */
static void handed_in(camac_session *s) {
    camac_want want = CAMAC_WANT;
    camac_progress did = CAMAC_PROGRESS;
    camac_answer answer = CAMAC_ANSWER;
    camac_service_info info = CAMAC_SERVICE_INFO;
    char text[4] = "#";
    size_t size = 9;
    EXPECT(CAMAC_MISUSE, camac_item(s, NULL, 1, &size));
    EXPECT(CAMAC_MISUSE, camac_record(s, NULL, 1, &size));
    EXPECT(CAMAC_MISUSE, camac_abandon(s, NULL, 1, &size));
    if (size) fail("misuse has a size");
    want.size--;
    EXPECT(CAMAC_MISUSE, camac_step(s, &no_answer, &did, &want));
    want.size++, did.size = 0;
    EXPECT(CAMAC_MISUSE, camac_step(s, &no_answer, &did, &want));
    EXPECT(CAMAC_MISUSE, camac_go_on(s, &did));
    EXPECT(CAMAC_MISUSE, camac_go_on(s, NULL));
    did.size = sizeof did, answer.spare[0] = 1;
    EXPECT(CAMAC_MISUSE, camac_step(s, &answer, &did, &want));
    EXPECT(CAMAC_MISUSE, camac_step(s, NULL, &did, &want));
    EXPECT(CAMAC_MISUSE, camac_step(s, &no_answer, NULL, &want));
    info.size--;
    EXPECT(CAMAC_MISUSE, camac_service(s, 1, &info));
    EXPECT(CAMAC_MISUSE, camac_service(s, 1, NULL));
    answer.spare[0] = 0, answer.wait = 16;
    spoil(&want, sizeof want), spoil(&did, sizeof did);
    EXPECT(CAMAC_RANGE, camac_step(s, &answer, &did, &want));
    expect_zeros(&want, &no_want, sizeof want, __LINE__);
    expect_zeros(&did, &no_progress, sizeof did, __LINE__);
    if (camac_file_header(NULL, 9) != 8 || camac_file_header(text, 3) != 8 || memcmp(text, "CAM", 4)) fail("the header says otherwise");
}

/* Lists: the first struct has the size of all that are written, and a list ends where an answer is not taken or leaves an event. */
static void lists(camac_session *s) {
    camac_want wants[3] = {CAMAC_WANT};
    camac_progress did[3] = {CAMAC_PROGRESS};
    camac_answer answers[3] = {CAMAC_ANSWER, CAMAC_ANSWER, CAMAC_ANSWER};
    size_t taken = 9;
    wants[1].size = 9;
    if (camac_ahead(s, wants, 0) || camac_ahead(s, NULL, 1) || camac_ahead(s, wants + 1, 1) || camac_ahead(NULL, wants, 1)) fail("something is ahead");
    if (camac_ahead(s, wants, 3) != 1 || wants[0].kind != CAMAC_DEMAND || wants[1].size != 9) fail("more than a demand is ahead");
    EXPECT(CAMAC_MISUSE, camac_next_many(s, answers, NULL, 1, &taken));
    EXPECT(CAMAC_MISUSE, camac_next_many(s, NULL, did, 1, &taken));
    EXPECT(CAMAC_MISUSE, camac_next_many(NULL, answers, did, 0, &taken));
    EXPECT(CAMAC_OK, camac_next_many(s, NULL, NULL, 0, &taken));
    if (taken) fail("%zu answers are taken", taken);
    answers[2].wait = 16;
    EXPECT(CAMAC_RANGE, camac_next_many(s, answers, did, 3, &taken));
    if (taken != 2 || did[1].size != sizeof *did || did[1].kind != CAMAC_DEMAND) fail("%zu answers are taken", taken);
    expect_zeros(did + 2, &no_progress, sizeof *did, __LINE__);
    answers[2].wait = 0, answers[1].size = 0;
    EXPECT(CAMAC_MISUSE, camac_next_many(s, answers, did, 3, &taken));
    if (taken != 1) fail("%zu answers are taken", taken);
    EXPECT(CAMAC_OK, camac_rewind(s));
}

/* What the services begin with: by what numbers and with what room it is told. */
static void firsts(const camac_session *s) {
    camac_want wants[CAMAC_AHEAD] = {CAMAC_WANT};
    const uint32_t number = (uint32_t)camac_services(s);
    size_t all, count = 9;
    EXPECT(CAMAC_OK, camac_service_ahead(s, number, wants, CAMAC_AHEAD, &all));
    for (size_t room = 0; room <= all; room++) {
        EXPECT(CAMAC_OK, camac_service_ahead(s, number, room ? wants : NULL, room, &count));
        if (count != room || (room && (wants[room - 1].size != sizeof *wants || wants[room - 1].kind == CAMAC_DEMAND))) fail("%zu of %zu are told", count, room);
    }
    for (uint32_t i = 0; i < 2; i++) {
        count = 9;
        EXPECT(CAMAC_RANGE, camac_service_ahead(s, i ? number + 1 : 0, wants, 1, &count));
        if (count) fail("service %u begins", (unsigned)i);
    }
    wants[0].size--;
    EXPECT(CAMAC_MISUSE, camac_service_ahead(s, 1, wants, 1, NULL));
    EXPECT(CAMAC_MISUSE, camac_service_ahead(s, 1, NULL, 1, NULL));
    EXPECT(CAMAC_MISUSE, camac_service_ahead(NULL, 1, NULL, 0, NULL));
}

/* Blocks: which are no modes, and what is no block. */
static void blocks(camac_session *s) {
    camac_progress did;
    size_t taken = 9;
    spoil(&did, sizeof did);
    EXPECT(CAMAC_MISUSE, camac_blocks(NULL, CAMAC_SCAN));
    EXPECT(CAMAC_RANGE, camac_blocks(s, 2 * CAMAC_IN_LISTS));
    EXPECT(CAMAC_OK, camac_blocks(s, CAMAC_Q_STOP | CAMAC_Q_REPEAT | CAMAC_SCAN | CAMAC_WRITES));
    EXPECT(CAMAC_MISUSE, camac_block(s, &no_answer, &did, 1, &taken));
    expect_zeros(&did, &no_progress, sizeof did, __LINE__);
    EXPECT(CAMAC_MISUSE, camac_block(s, &no_answer, NULL, 1, &taken));
    EXPECT(CAMAC_MISUSE, camac_block(NULL, &no_answer, &did, 1, NULL));
    if (taken || camac_block_words(s, NULL, 0) || camac_block_words(NULL, NULL, 0)) fail("a demand is a block");
    EXPECT(CAMAC_OK, camac_blocks(s, 0));
}

/* The services as the verdict tells them. */
static void services(const camac_session *s, const char *verdict) {
    camac_service_info info;
    char name[40];
    unsigned gl, numbers[5];
    size_t count = 0;
    for (const char *at = strstr(verdict, "\nservice "); at; at = strstr(at + 1, "\nservice ")) {
        if (sscanf(at, "\nservice %39s gl %u cycles %u of %u words %u of %u steps %u", name, &gl, numbers, numbers + 1, numbers + 2, numbers + 3,
                   numbers + 4) != 7)
            fail("a verdict says otherwise");
        spoil(&info, sizeof info);
        EXPECT(CAMAC_OK, camac_service(s, (uint32_t)++count, &info));
        const uint32_t found[5] = {info.cycles, info.most_cycles, info.words, info.most_words, info.steps};
        if (strcmp(info.name, name) || info.gl != gl || memcmp(found, numbers, sizeof found)) fail("a service is told otherwise");
        /* its heading stands on its line, and its LAM in the declaration */
        char *line = script.bytes, wanted[80];
        for (uint32_t k = 1; k < info.line; k++) line = strchr(line, '\n') + 1;
        snprintf(wanted, sizeof wanted, "service %s ", info.name);
        if (strncmp(line, wanted, strlen(wanted))) fail("no heading stands on line %u", (unsigned)info.line);
        snprintf(wanted, sizeof wanted, "cdlam %s 1 %u %u %u", info.name, (unsigned)info.c, (unsigned)info.n, (unsigned)info.a);
        if (!strstr(script.bytes, wanted)) fail("no LAM is declared as %s", wanted);
    }
    if (!count || camac_services(s) != count) fail("%zu services, not %zu", camac_services(s), count);
    for (size_t i = 0; i < 2; i++) {
        spoil(&info, sizeof info);
        EXPECT(CAMAC_RANGE, camac_service(s, i ? (uint32_t)count + 1 : 0, &info));
        expect_zeros(&info, &no_service, sizeof info, __LINE__);
    }
}

/* Each cut of what is told of the last answer. */
static void cut(const camac_session *s) {
    char whole[300], part[301];
    size_t size, again;
    EXPECT(CAMAC_OK, camac_item(s, whole, sizeof whole, &size));
    for (size_t room = 0; room <= size; room++) {
        memset(part, '#', sizeof part);
        EXPECT(CAMAC_OK, camac_item(s, part, room, &again));
        if (again != size || memcmp(part, whole, room) || part[room] != '#') fail("cut at %zu the text differs", room);
    }
}

/* `step` does what `next` and `wants` do, and after `rewind` a run is as at first. */
static void stepped(camac_session *s) {
    camac_session other = CAMAC_NONE;
    camac_want want = CAMAC_WANT, its_want = CAMAC_WANT;
    camac_progress did = CAMAC_PROGRESS, its_did = CAMAC_PROGRESS;
    size_t size;
    open_session(&other, &plan, &script);
    for (uint32_t seed = 1; seed < 20; seed++) {
        uint32_t chances = seed;
        EXPECT(CAMAC_OK, camac_rewind(s));
        EXPECT(CAMAC_OK, camac_item(s, NULL, 0, &size));
        if (size || camac_held(s, NULL, 0) || camac_answers_left(s) != 4294967295u) fail("a run is not at its beginning");
        camac_close(&other);
        open_session(&other, &plan, &script);
        EXPECT(CAMAC_OK, camac_wants(s, &want));
        for (uint32_t i = 0; i < ANSWERS; i++) {
            camac_answer answer = any_answer(&chances);
            if (want.kind == CAMAC_DEMAND) answer.gl = 4;
            const int code = camac_step(s, &answer, &did, &want);
            EXPECT(code, camac_next(&other, &answer, &its_did));
            EXPECT(code, camac_wants(&other, &its_want));
            if (memcmp(&did, &its_did, sizeof did) || memcmp(&want, &its_want, sizeof want)) fail("a step differs");
            if (code == CAMAC_OVERRUN) {
                if (camac_answers_left(s)) fail("answers are left after an overrun");
                EXPECT(CAMAC_OK, camac_item(s, NULL, 0, &size));
                if (size) fail("an overrun has lines");
                break;
            }
            if (camac_answers_left(s) != 4294967294u - i) fail("so many answers are not left");
            if (i < 40) cut(s);
        }
    }
    camac_close(&other);
}

int main(int count, char **words) {
    static char verdict[4096];
    camac_session s = CAMAC_NONE;
    size_t size;
    if (count != 3) return 2;
    plan = read_file(words[1]);
    script = read_file(words[2]);
    script.bytes[script.size] = 0;
    none();
    EXPECT(CAMAC_OK, camac_open(&s, plan.bytes, plan.size, script.bytes, script.size, verdict, sizeof verdict - 1, &size));
    handed_in(&s);
    lists(&s);
    firsts(&s);
    blocks(&s);
    services(&s, verdict);
    stepped(&s);
    camac_close(&s);
    free(plan.bytes), free(script.bytes);
    return 0;
}
