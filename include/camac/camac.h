/* camac.h: the checker and the runner of camac in your own process.
 *
 * A script is checked against the plan of a laboratory, and then played, one answer of the branch at a time. The library makes no operation
 * itself, opens no file and starts no thread. Functions of yours make each operation, and take the events:
 *
 *     camac_session s = CAMAC_NONE;
 *     camac_branch branch = CAMAC_BRANCH;
 *     branch.make = make, branch.unlock = unlock, branch.event = event;
 *     code = camac_open(&s, plan, plan_size, script, script_size, text, sizeof text, &size);
 *     if (code == CAMAC_OK) code = camac_play(&s, &branch, user);
 *     camac_close(&s);
 *
 * Or you ask what is wanted (camac_wants), have your branch driver make it, and hand on its answer (camac_next).
 *
 * Compile with: cc program.c $(pkg-config --cflags --libs camac). docs/C.md of the sources has the whole of a program, and so has camac(3).
 *
 * NUMBERS   Crate C 1..7, station N 1..30 (28 and 30 are the controller), sub-address A 0..15, function F 0..31 (EUR 4100, IEEE 583). A word
 *           has 24 bits. Bit k of the graded-L pattern, k 1..24, is 1u << (k - 1) (IEEE 596). A wait, 0..15, counts the cycles of auxiliary
 *           controllers that came before an operation (IEEE 675). Costs are counted in dataway cycles, never in seconds.
 * TEXTS     are bytes with a length; no 0 ends them. A plan and a script have at most CAMAC_TEXT_BYTES bytes, an event file CAMAC_FILE_BYTES.
 *           A text that comes out is cut where your buffer ends, and *size is its whole length, as snprintf tells it. A buffer of no room may
 *           be NULL, and so may `size`. NULL with a length or a room above 0 is CAMAC_MISUSE: it is a read or a malloc that failed. So is a length
 *           above PTRDIFF_MAX, as the -1 of ftell.
 * STRUCTS   begin with their size, and their spare words are 0. The initializers CAMAC_NONE, CAMAC_WANT, CAMAC_ANSWER, CAMAC_PROGRESS,
 *           CAMAC_SERVICE_INFO and CAMAC_BRANCH set both; in another language, in {.x = 1} and after memset you set them. A struct without its size,
 *           or whose size is no multiple of 4, and an answer with a spare byte that is not 0, is CAMAC_MISUSE. So a later version can tell more, and
 *           programs of this one go on.
 * CODES     CAMAC_OK is 0, and all others are greater. No code is ever given another meaning. Where the code is neither CAMAC_OK nor
 *           CAMAC_REFUSED, *size is 0 and the buffer stays as it was.
 * LIFETIME  A session is CAMAC_NONE until camac_open puts a run there, and again after camac_close, which frees all that was taken. To close
 *           twice is harmless. Between open and close no memory is taken. A session may be moved (memcpy) between calls; from then on only
 *           one of the copies may be used.
 * THREADS   Different sessions may be used by different threads at the same time. The calls on one session come one after another, each
 *           after the one before (by a lock, by a join). No call is for a signal handler, or for the child of a fork of a process with threads.
 * TIME      camac_next and camac_step go on until an operation is wanted: at most as many steps as camac_service tells of the service in progress, of
 *           7 ns to 25 us each, by the length of its expressions. Nothing interrupts them, but camac_limit_steps may set a limit for a session.
 * YOU KEEP  what the proof takes for granted, and nothing can test:
 *           1. A session is CAMAC_NONE or what camac_open left there, and nobody else changes its bytes.
 *           2. Each pointer leads to as many bytes as its length says. What the library writes overlaps nothing else that you hand in, and
 *              nobody reads or writes it during the call.
 *           3. One call at a time on a session.
 *           4. malloc, realloc and free belong to one allocator, and align as C demands.
 *           5. 256 KiB of stack are left.
 */
#ifndef CAMAC_CHECKER_H
#define CAMAC_CHECKER_H

#include <stddef.h>
#include <stdint.h>

#ifdef __cplusplus
extern "C" {
#endif

/* The version of this header. The library's own is camac_version(). They fit where the first two numbers are the same. A session carries that
 * of its header, and each call compares it. */
#define CAMAC_VERSION "0.2.0"
#define CAMAC_VERSION_NUMBER 200u /* 10000 * first + 100 * second + third */

#define CAMAC_TEXT_BYTES 1048576u
#define CAMAC_FILE_BYTES 16777216u
#define CAMAC_EVENT_WORDS 4096u
#define CAMAC_RECORD_BYTES (16u + 4u * CAMAC_EVENT_WORDS) /* the most of camac_record */
#define CAMAC_LINES_BYTES 256u                            /* the most of camac_item */
#define CAMAC_CRATES 7u
#define CAMAC_AHEAD 64u
#define CAMAC_BACK 14u /* the most of camac_back */
#define CAMAC_AHEAD_STEPS 512u /* the most steps from the first operation of a list to its last */
#define CAMAC_NO_LIMIT 0xffffffffu /* more steps than any service makes */

enum camac_code {
    CAMAC_OK = 0,        /* done */
    CAMAC_REFUSED = 1,   /* a plan, a script, an answer or an event file broke a rule, a wait was not permitted, or a service may end too late:
                            the text says which */
    CAMAC_MISUSE = 2,    /* the session is none, or header and library do not fit; camac_open found it open; a struct or a pointer is wrong
                            (STRUCTS, TEXTS); what camac_response is told of services is wrong; camac_explain_at: a line or column of 0;
                            camac_tell is asked nothing that it knows; camac_block: no block is wanted, or there is no answer;
                            camac_service_ahead: no demand is wanted */
    CAMAC_NO_MEMORY = 3, /* malloc or realloc refused */
    CAMAC_OVERRUN = 4,   /* a wait that the plan does not permit: the run stays where it was, until camac_abandon leaves the service */
    CAMAC_RANGE = 5,     /* a word or gl above 0xffffff, a wait above 15, the number of no service, or of no modes */
    CAMAC_SPENT = 6,     /* the run has used 4,294,967,295 answers */
    CAMAC_LONG = 7,      /* a plan, a script or an event file that is longer than it may be */
    CAMAC_BUSY = 8       /* the run pauses, after as many steps as camac_limit_steps allows at once: it wants no answer, but camac_go_on */
};

/* A run of an accepted script. Its parts are the library's. */
typedef struct camac_session {
    uint32_t size, version; /* of this header */
    void *camac_private[6];
    uint32_t camac_ways, camac_serving;
} camac_session;
#define CAMAC_NONE {sizeof(camac_session), CAMAC_VERSION_NUMBER, {NULL, NULL, NULL, NULL, NULL, NULL}, 0, 0}

enum camac_kind {
    CAMAC_DEMAND = 1,  /* a graded-L operation: the answer's gl counts */
    CAMAC_CYCLE = 2,   /* a dataway cycle: x, q and wait count, and word where it reads; of some of the controller's also gl (docs/LIVE.md) */
    CAMAC_LOCK = 3,    /* the lockout of auxiliary controllers in a crate: the wait counts */
    CAMAC_STOPPED = 4, /* none: the run is stopped, by an overrun */
    CAMAC_BLOCK = 5,   /* the cycles of a block transfer, where camac_blocks allows it: an answer for each, as of a cycle */
    CAMAC_UNLOCK = 6   /* the release of a lockout: only in a list, where camac_blocks allows it, and without an answer */
};
enum camac_data { CAMAC_NO_DATA = 0, CAMAC_READ = 1, CAMAC_WRITE = 2 };

/* How a block goes on from cycle to cycle. It ends after `words` cycles with Q=1, and after `cycles` cycles at the latest. */
enum camac_mode {
    CAMAC_Q_STOP = 1,   /* at one address, up to the first Q=0 */
    CAMAC_Q_REPEAT = 2, /* at one address, where Q=0 asks for the same again */
    CAMAC_SCAN = 4,     /* after Q=1 the next sub-address; after A15 and after Q=0 A0 of the next station, up to the final address */
    CAMAC_WRITES = 8,   /* of camac_blocks: also blocks that write */
    CAMAC_IN_LISTS = 16 /* of camac_blocks: lists go on behind blocks, and behind releases of lockouts */
};

/* What the next answer is for. */
typedef struct camac_want {
    uint32_t size;
    uint8_t kind;       /* enum camac_kind */
    uint8_t c, n, a, f; /* of a cycle, and of the first one of a block; of a lock and a release c alone */
    uint8_t data;       /* enum camac_data, of a cycle */
    uint8_t waits;      /* the longest wait that its answer may have: any longer one is an overrun. 15 of a demand */
    uint8_t width;      /* of a cycle that reads: how many bits the plan declares, 24 for a controller's; else 0. Of a block its first cycle's */
    uint32_t word;      /* to write, of a cycle that writes; camac_block_words has those of a block */
    uint8_t mode;       /* of a block: CAMAC_Q_STOP, CAMAC_Q_REPEAT or CAMAC_SCAN */
    uint8_t last_n;     /* its final address: of a scan the last one that it may come to, else n and a */
    uint8_t last_a;
    uint8_t is_short;   /* of a cycle: 1 where its statement is cssa, which moves 16 bits; else 0 */
    uint32_t cycles;    /* the most cycles that it still makes */
    uint32_t words;     /* the most of them with Q=1 */
    uint32_t spare[1];
} camac_want;
#define CAMAC_WANT {sizeof(camac_want), 0, 0, 0, 0, 0, 0, 0, 0, 0, 0, 0, 0, 0, 0, 0, {0}}

/* An answer. What an operation does not need is left 0. */
typedef struct camac_answer {
    uint32_t size;
    uint32_t word; /* the read lines */
    uint32_t gl;   /* the graded-L pattern */
    uint8_t x, q;  /* 0: no; any other: yes */
    uint8_t wait;
    uint8_t unused;
    uint32_t spare[4];
} camac_answer;
#define CAMAC_ANSWER {sizeof(camac_answer), 0, 0, 0, 0, 0, 0, {0, 0, 0, 0}}

/* What an answer did. */
typedef struct camac_progress {
    uint32_t size;
    uint8_t kind;          /* what it was for: enum camac_kind */
    uint8_t c;             /* the crate of a lock or of an overrun */
    uint8_t wait;          /* that counted */
    uint8_t x, q;          /* of a cycle, as the run has them: those of the controller's own commands (n 28 and 30) are the run's */
    uint8_t unused[3];
    uint8_t unlocked[8];   /* the crates whose lockout is to be released now, before the next operation, in this order: the last that was taken
                              comes first. A 0 ends them */
    uint32_t word;         /* of a cycle that reads, as the run has it */
    uint32_t pattern;      /* of a demand, as the run sees it: what is disabled or in no crate of the plan is 0 */
    uint32_t service;      /* of a demand: the service that it called, from 1 in the order of the script; 0 for none */
    uint32_t event;        /* the number of the event that a service left, from 1; 0 for none */
    uint32_t event_gl;     /* its bit of the graded-L pattern, 1..24 */
    uint32_t event_words;  /* how many words it has, at most CAMAC_EVENT_WORDS; camac_words has them until the next answer is taken */
    uint32_t event_cycles; /* the dataway cycles that it cost */
    uint32_t event_missed; /* how many of these had no X, at most 65535 */
    uint32_t event_service; /* which service left it, numbered as in `service` */
    uint32_t cut;          /* the bits of `word` above the declared width, which the run cuts off: where it is not 0, the plan does not describe
                              the module */
    uint32_t spare[1];
} camac_progress;
#define CAMAC_PROGRESS {sizeof(camac_progress), 0, 0, 0, 0, 0, {0, 0, 0}, {0, 0, 0, 0, 0, 0, 0, 0}, 0, 0, 0, 0, 0, 0, 0, 0, 0, 0, {0}}

/* A service of the script, with the bounds that the checker found and the numbers of its heading. */
typedef struct camac_service_info {
    uint32_t size;
    char name[36];                    /* of its LAM, at most 32 bytes; a 0 ends it */
    uint32_t c, n, a;                 /* the address of its LAM */
    uint32_t gl;                      /* its bit of the graded-L pattern, 1..24 */
    uint32_t line;                    /* of its heading in the script, from 1 */
    uint32_t cycles, words, steps;    /* the most that it can need: its bounds, as `camac check` tells them */
    uint32_t most_cycles, most_words; /* what its heading allows */
    uint32_t spare[4];
} camac_service_info;
#define CAMAC_SERVICE_INFO {sizeof(camac_service_info), {0}, 0, 0, 0, 0, 0, 0, 0, 0, 0, 0, {0, 0, 0, 0}}

#if defined(__GNUC__)
#define CAMAC_CALL __attribute__((warn_unused_result)) int
#else
#define CAMAC_CALL int
#endif

/* The number of the library, in the form of CAMAC_VERSION_NUMBER. */
uint32_t camac_version(void);

/* What a code says, in English. */
const char *camac_code_text(int code);

/* What camac_tell is asked: what these commands print. The first two look at a plan alone. */
enum camac_ask {
    CAMAC_PLAN = 1,           /* camac plan PLAN */
    CAMAC_EXPLAIN_PLAN = 2,   /* camac explain PLAN */
    CAMAC_CHECK = 3,          /* camac check PLAN SCRIPT */
    CAMAC_EXPLAIN = 4,        /* camac explain PLAN SCRIPT */
    CAMAC_EXPLAIN_BOUNDS = 5, /* camac explain --bounds PLAN SCRIPT */
    CAMAC_BOUNDS = 6,         /* camac bounds PLAN SCRIPT */
    CAMAC_COSTS = 7,          /* camac costs PLAN SCRIPT */
    CAMAC_TELL = 8            /* camac tell PLAN SCRIPT */
};

/* What the program prints of texts that are in memory. CAMAC_OK: accepted. CAMAC_REFUSED: the text says why, that of an explanation at length. */
CAMAC_CALL camac_tell(enum camac_ask ask, const void *plan, size_t plan_size, const void *script, size_t script_size, char *text, size_t room,
                      size_t *size);

/* What `camac explain --at LINE:COLUMN` prints: what the checker knows before the statement there. Line and column are from 1, the column in bytes.
 * CAMAC_OK: "reached", and a line for each variable with its range, for each register that is set and for each locked crate; or "not reached".
 * CAMAC_REFUSED: no statement is there, or `text` has the refusal before it. CAMAC_MISUSE: a line or column of 0. */
CAMAC_CALL camac_explain_at(const void *plan, size_t plan_size, const void *script, size_t script_size, uint32_t line, uint32_t column, char *text,
                            size_t room, size_t *size);

/* What `camac response` prints: how long look-at-mes wait for their services. `every` and `within` tell what follows these options, as
 * adc=200 tick=5000: a service, and a number of dataway cycles up to 4294967295, from 1 on in `every`. White space is between two.
 * CAMAC_REFUSED: the text says why, has a line `unkept`, or has a service that may end above its number in `within`. CAMAC_MISUSE: `every` or
 * `within` has another form, a service twice, or, of an accepted script, one that it does not have. */
CAMAC_CALL camac_response(const void *plan, size_t plan_size, const void *script, size_t script_size, const void *every, size_t every_size,
                          const void *within, size_t within_size, char *text, size_t room, size_t *size);

/* What `camac events` prints of an event file in memory. */
CAMAC_CALL camac_events(const void *file, size_t file_size, char *text, size_t room, size_t *size);

/* What `camac run` does with the text of all answers, of any size: its listing, and its event file. An overrun is CAMAC_REFUSED here, as it is
 * status 1 of the program. */
CAMAC_CALL camac_run(const void *plan, size_t plan_size, const void *script, size_t script_size, const void *answers, size_t answers_size,
                     char *text, size_t room, size_t *size, void *file, size_t file_room, size_t *file_size);

/* Checks a script, and opens a session at the beginning of its run. The text is that of `camac check`. Where the code is not CAMAC_OK, the
 * session stays as it was: also CAMAC_MISUSE of a session that is open. */
CAMAC_CALL camac_open(camac_session *s, const void *plan, size_t plan_size, const void *script, size_t script_size,
                      char *text, size_t room, size_t *size);

/* What the next answer is for; nothing changes. CAMAC_OVERRUN: nothing, since the run is stopped. CAMAC_BUSY: nothing yet, since the run pauses. Where
 * the code is not CAMAC_OK, *want is zeros. */
CAMAC_CALL camac_wants(const camac_session *s, camac_want *want);

/* Takes the answer to what was wanted, and tells what it did. CAMAC_OVERRUN tells the crate and the wait. CAMAC_BUSY of a run that did not pause
 * tells what the answer did up to the pause. At any other code that is not CAMAC_OK, and at CAMAC_BUSY of a run that paused already, the run stays
 * as it was, and *progress is zeros. */
CAMAC_CALL camac_next(camac_session *s, const camac_answer *answer, camac_progress *progress);

/* The operations that come next, whatever is answered, for a controller that makes lists of commands in one transfer. Writes as many as there is room
 * for, and answers how many: one at least where the run goes on, and CAMAC_AHEAD at most; one, too, while the run may make fewer steps at once than
 * CAMAC_AHEAD_STEPS, since it could pause before the last. 0 where the run is stopped or pauses, or the session is none. The first is that of
 * camac_wants. A list ends before a `while` of cycles, an `if` of cycles that answers decide, and a block that writes; and before a transfer and the release
 * of a lockout, unless camac_blocks says CAMAC_IN_LISTS: then blocks and releases are in it. No event is left before its last answer is taken, and no
 * lockout released but by it. A wait that is not permitted stops the run before the rest. The size of want[0] counts for all. */
size_t camac_ahead(const camac_session *s, camac_want *want, size_t room);

/* The list with which a service begins, known before its demand, for a controller that plays a stack of its own at a look-at-me: once a demand has called
 * the service, the run wants exactly these, in the form and with the limits of camac_ahead. *count is how many were written; 0 where the first is not
 * known before. The service is numbered as in camac_service. CAMAC_RANGE: there is none. CAMAC_MISUSE: no demand is wanted. */
CAMAC_CALL camac_service_ahead(const camac_session *s, uint32_t service, camac_want *want, size_t room, size_t *count);

/* camac_next of one answer after the other, up to one that is not taken, whose code it gives, that leaves an event, whose words and record can be
 * read then, or after which the run pauses, at CAMAC_BUSY. *taken is how many were taken, and progress[*taken] tells of the one that was not. The
 * size of progress[0] counts for all, and is written into the others; each answer has its own. */
CAMAC_CALL camac_next_many(camac_session *s, const camac_answer *answer, camac_progress *progress, size_t count, size_t *taken);

/* Says which blocks your controller makes in one transfer, as a sum of enum camac_mode; at first none, and camac_rewind keeps it. Then camac_wants,
 * camac_step and camac_ahead tell such a block as one want, CAMAC_BLOCK, which has what is left of it. CAMAC_IN_LISTS says that it makes them as
 * parts of its lists, too, and there releases lockouts. CAMAC_RANGE: no such sum. */
CAMAC_CALL camac_blocks(camac_session *s, uint32_t modes);

/* Takes the answers of a block, one after the other: what the run is then, is what camac_next of each makes it. It stops after the one that ends the
 * block, and at one that is not taken or makes the run pause, whose code it gives. *taken is how many were taken, and *progress tells of the last one
 * that was looked at; of those before it nothing was to be released, and no event was left. If the controller made fewer, hand in those: the run wants
 * the rest. CAMAC_MISUSE: no block is wanted. */
CAMAC_CALL camac_block(camac_session *s, const camac_answer *answer, camac_progress *progress, size_t count, size_t *taken);

/* Takes the answers of a list of camac_ahead, those of its members one after the other: one of an operation, made[i] of the i-th member if that is a
 * block, and none of a release. progress[i] tells of the i-th member as camac_next and camac_block do; its `unlocked` has the releases that stand in the
 * list, too. It stops at a member that is not taken or makes the run pause, whose code it gives, and at a block of which the run wants the rest: what
 * your controller made behind that is none of the run. *taken is how many members were taken whole. The sizes of list[0] and progress[0] count for all,
 * and each answer has its own. */
CAMAC_CALL camac_next_list(camac_session *s, const camac_want *list, const size_t *made, const camac_answer *answer, camac_progress *progress,
                           size_t count, size_t *taken);

/* Writes the words that the block still writes, as many as there is room for, and answers how many there are: that of the first cycle, and after each
 * Q=1 the next one. 0 of a block that reads. */
size_t camac_block_words(const camac_session *s, uint32_t *words, size_t room);

/* camac_next, and where that is CAMAC_OK, camac_wants after it, at one crossing. At any other code *want is zeros. */
CAMAC_CALL camac_step(camac_session *s, const camac_answer *answer, camac_progress *progress, camac_want *want);

/* Sets how many steps the run makes at once, in one answer or after a pause: after more it pauses, at most three more. 0 is a pause after each
 * step or two. At first there is no limit, CAMAC_NO_LIMIT; camac_rewind keeps it. A run that pauses goes on to do so. */
CAMAC_CALL camac_limit_steps(camac_session *s, uint32_t most);

/* Goes on after a pause. CAMAC_OK: an answer is wanted again. CAMAC_BUSY: it pauses again. *progress tells the lockouts to release, and the event if
 * the service ended; its kind is 0. Of a run that does not pause nothing changes: CAMAC_OK, or CAMAC_OVERRUN where it is over. */
CAMAC_CALL camac_go_on(camac_session *s, camac_progress *progress);

/* Writes the words of the event that the last answer left, as many as there is room for, and answers how many the event has. 0 where it left
 * none. An answer that was not taken (CAMAC_RANGE, CAMAC_SPENT, CAMAC_MISUSE) changes nothing here, too. */
size_t camac_words(const camac_session *s, uint32_t *words, size_t room);

/* What `camac run` writes for the last answer, or after it for the last camac_go_on: its lines of the listing, and where it left an event, the record
 * of that for an event file. Both are of no bytes before the first answer, and after a wait that is not permitted. In front of the records stands
 * the header, of which camac_file_header writes as many bytes as there is room for, and answers how many it has. The last line of a listing is
 * yours to write. */
CAMAC_CALL camac_item(const camac_session *s, char *text, size_t room, size_t *size);
CAMAC_CALL camac_record(const camac_session *s, void *bytes, size_t room, size_t *size);
size_t camac_file_header(void *bytes, size_t room);

/* Writes the crates whose lockout is held, the last that was taken first, as many as there is room for, and answers how many there are, at most
 * 7. After a fault of your driver these are to be released in this order. */
size_t camac_held(const camac_session *s, uint32_t *crates, size_t room);

/* Where the run stands: the service in progress, from 1 in the order of the script, and the line of its statement that wants the next answer, or
 * whose wait stopped it. In a procedure the line is that of the procedure's statement. Both are 0 at a demand, and while the run pauses. Each
 * pointer may be NULL. */
CAMAC_CALL camac_where(const camac_session *s, uint32_t *service, uint32_t *line);

/* How many answers may still come: 0 where the run is stopped by an overrun, and where the session is none. */
uint32_t camac_answers_left(const camac_session *s);

/* How many services the script has, and one of them by its number, from 1 in the order of the script, as camac_progress tells it. CAMAC_RANGE:
 * there is none, and *info is zeros. */
size_t camac_services(const camac_session *s);
CAMAC_CALL camac_service(const camac_session *s, uint32_t number, camac_service_info *info);

/* Leaves the service in progress, as after a fault of the crates or an overrun, without an event. The run goes on at a demand, and takes inhibit and
 * demand output of each crate to be as at the demand that called the service: have them set back before (camac_back). The next event has the next
 * number, and answers that were used stay so. Writes the crates whose lockout is to be released, in this order, as many as there is room for. *count is
 * their number, at most CAMAC_CRATES. It is 0 between services, and then nothing changes. */
CAMAC_CALL camac_abandon(camac_session *s, uint32_t *unlocked, size_t room, size_t *count);

/* What sets inhibit and demand output of each crate back, as they were at the demand that called the service in progress: cycles of the controllers,
 * at most CAMAC_BACK, in the order of the crates, and none for what is as it was. They are no operations of the run, and their answers are yours.
 * Writes as many as there is room for, and answers how many. 0 between services, and where the session is none. The size of want[0] counts for all. */
size_t camac_back(const camac_session *s, camac_want *want, size_t room);

/* Begins the run anew, as camac_open begins it, without judging the script: crates and variables are as at the first demand, events count from
 * 1. The lockouts that you hold are yours to release. */
CAMAC_CALL camac_rewind(camac_session *s);

/* What came of an operation that camac_play had a branch make. */
enum camac_made {
    CAMAC_MADE = 0, /* it was made, and has its answer */
    CAMAC_END = 1,  /* the run ends here: no more demands are served, or the branch failed */
    CAMAC_FAULT = 2 /* it failed: the branch makes what camac_back tells, and the service in progress is left as by camac_abandon, after which the
                       next demand is wanted. If one of these fails, too, the run ends here. A lockout that failed is not held */
};

/* A branch, as camac_play asks it. The first word of each call is the last one of camac_play; `event`, `pause` and `block` may be NULL. */
typedef struct camac_branch {
    uint32_t size, spare;
    /* makes what is wanted, and fills in its answer, CAMAC_ANSWER before: enum camac_made. Of a block that is its first cycle */
    int (*make)(void *user, const camac_want *want, camac_answer *answer);
    /* releases the lockout of a crate */
    void (*unlock)(void *user, uint32_t c);
    /* an event is left: camac_words and camac_record have it */
    void (*event)(void *user, const camac_session *s, const camac_progress *its);
    /* the run pauses, as camac_limit_steps has it, and then goes on */
    void (*pause)(void *user);
    /* makes a block, and fills in the answers of its first cycles, *count before, CAMAC_ANSWER each: at least one, and *count says how many */
    int (*block)(void *user, const camac_session *s, const camac_want *want, camac_answer *answers, size_t *count);
} camac_branch;
#define CAMAC_BRANCH {sizeof(camac_branch), 0, NULL, NULL, NULL, NULL, NULL}
#define CAMAC_BLOCK_ANSWERS 256u /* the most that camac_play has a branch give at once */

/* Plays a run: has the branch make all that is wanted, in order. CAMAC_OK: it said CAMAC_END. Any other code is that of the call that failed; after
 * CAMAC_OVERRUN camac_next tells the crate and the wait once more, and after camac_back and camac_abandon the run can be played on. Of what an answer or
 * a pause brought the event is told first, and then lockouts are released. However the run ends, all lockouts are released, the last that was taken
 * first; a service that is still in progress can then only be left by camac_abandon, or the run begun anew. */
CAMAC_CALL camac_play(camac_session *s, const camac_branch *branch, void *user);

/* Ends the run, and frees what it has. The lockouts that you hold are yours to release. */
void camac_close(camac_session *s);

#ifdef __cplusplus
}
#endif
#endif
