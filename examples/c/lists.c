/* lists.c: plays a script over a controller that makes lists of operations, and block transfers, as one on USB or Ethernet does: a transfer takes 100
 * microseconds, whatever is in it, and an operation one more. The controller is simulated here, without hardware. First each operation is a transfer of
 * its own, then what camac_ahead tells, then blocks are transfers, too, and at last blocks and releases of lockouts are parts of the lists.
 *
 *     cc lists.c $(pkg-config --cflags --libs camac) -o lists && ./lists PLAN SCRIPT */
#define _POSIX_C_SOURCE 200809L
#include <camac/camac.h>
#include <stdio.h>
#include <stdlib.h>
#include <time.h>

#define TRANSFER 100e-6
#define OPERATION 1e-6
#define DEMANDS 500
#define ROOM 4096 /* the most answers of a transfer */
#define READS (CAMAC_Q_STOP | CAMAC_Q_REPEAT | CAMAC_SCAN)

static double now(void) {
    struct timespec its;
    clock_gettime(CLOCK_MONOTONIC, &its);
    return (double)its.tv_sec + 1e-9 * (double)its.tv_nsec;
}

static size_t least(size_t one, size_t other) { return one < other ? one : other; }

/* Makes a list in one transfer, as far as there is room for its answers, and tells how many members that are; made[i] is how many cycles the i-th made, if
 * that is a block. Each look-at-me of the plan is up, each Q is 1, and each word is 0x123. */
static size_t transfer(const camac_want *list, size_t count, camac_answer *answers, size_t *made, size_t *operations) {
    const camac_answer nothing = CAMAC_ANSWER;
    size_t used = 0, i = 0;
    for (; i < count && used < ROOM; i++) {
        made[i] = list[i].kind == CAMAC_BLOCK ? least(least(list[i].words, list[i].cycles), ROOM - used) : list[i].kind != CAMAC_UNLOCK;
        for (size_t k = 0; k < made[i]; k++, used++) {
            answers[used] = nothing;
            answers[used].x = answers[used].q = 1;
            answers[used].gl = list[i].kind == CAMAC_DEMAND ? 0xffffff : 0;
            answers[used].word = 0x123;
        }
    }
    const double end = now() + TRANSFER + OPERATION * (double)used;
    while (now() < end) {}
    *operations += used;
    return i;
}

/* Plays so many demands and their services, with lists of at most `room` operations, and these blocks. Prints how many words a second are read. */
static int play(camac_session *s, size_t room, uint32_t modes, const char *kind) {
    static camac_answer answers[ROOM];
    camac_want list[CAMAC_AHEAD] = {CAMAC_WANT};
    camac_progress progress[CAMAC_AHEAD] = {CAMAC_PROGRESS};
    size_t made[CAMAC_AHEAD], count, taken, operations = 0, transfers = 0, words = 0;
    int code = camac_blocks(s, modes);
    const double begin = now();
    for (int demands = 0; code == CAMAC_OK; transfers++) {
        count = camac_ahead(s, list, room);
        if (count && list[0].kind == CAMAC_DEMAND && demands++ == DEMANDS) break;
        count = transfer(list, count, answers, made, &operations);
        code = camac_next_list(s, list, made, answers, progress, count, &taken);
        for (size_t i = 0; i < taken; i++) words += progress[i].event_words;
    }
    if (code != CAMAC_OK) return code;
    printf("%s: %zu operations in %zu transfers, %.0f words a second\n", kind, operations, transfers, (double)words / (now() - begin));
    return CAMAC_OK;
}

static char *read_file(const char *path, size_t *size) {
    FILE *file = fopen(path, "rb");
    char *bytes = malloc(CAMAC_TEXT_BYTES + 1);
    *size = file && bytes ? fread(bytes, 1, CAMAC_TEXT_BYTES + 1, file) : 0;
    if (!file || !bytes || ferror(file)) {
        perror(path);
        exit(3);
    }
    fclose(file);
    return bytes;
}

int main(int count, char **words) {
    static char text[65536];
    camac_session s = CAMAC_NONE;
    size_t plan_size, script_size, size;
    if (count != 3) return fprintf(stderr, "usage: lists PLAN SCRIPT\n"), 2;
    char *plan = read_file(words[1], &plan_size), *script = read_file(words[2], &script_size);
    int code = camac_open(&s, plan, plan_size, script, script_size, text, sizeof text, &size);
    if (code == CAMAC_REFUSED) fwrite(text, 1, size < sizeof text ? size : sizeof text, stdout);
    if (code == CAMAC_OK) code = play(&s, 1, 0, "one by one");
    if (code == CAMAC_OK) code = camac_rewind(&s);
    if (code == CAMAC_OK) code = play(&s, CAMAC_AHEAD, 0, "in lists");
    if (code == CAMAC_OK) code = camac_rewind(&s);
    if (code == CAMAC_OK) code = play(&s, CAMAC_AHEAD, READS, "in lists and blocks");
    if (code == CAMAC_OK) code = camac_rewind(&s);
    if (code == CAMAC_OK) code = play(&s, CAMAC_AHEAD, READS | CAMAC_IN_LISTS, "with blocks in lists");
    camac_close(&s);
    free(plan);
    free(script);
    if (code > CAMAC_REFUSED) fprintf(stderr, "%s\n", camac_code_text(code));
    return code;
}
