/* camac_mcstd.h: makes a wanted cycle by the calls of mcstd, the CAMAC interface of MIDAS, that the library of your controller has.
 *
 * Include your driver's header first. This header declares none of its calls. It uses these, with all numbers by value:
 *
 *     cam24i_q(c, n, a, f, &data, &x, &q), cam24o_q(c, n, a, f, data, &x, &q)   CAMAC_MCSTD_DATA data, int x and q, 0 or not
 *     camc_q(c, n, a, f, &q)                                                    a function that moves no data
 *     cam_lam_read(c, &lam)                                                     CAMAC_MCSTD_DATA lam, bit n - 1 for station n
 *     cam_crate_zinit(c), cam_crate_clear(c), cam_inhibit_set(c), cam_inhibit_clear(c)
 *     cam_lam_enable(c, n), camc_chk(c)                                         below 0 for a crate that does not answer
 *
 * camc_q tells no X, so X counts as 1: a module that does not accept such a function goes unnoticed. Where your driver has a call that tells it,
 * define CAMAC_MCSTD_CONTROL(c, n, a, f, x, q) before you include this header; x and q are pointers to int there.
 *
 * Some interfaces find the next look-at-me only after cam_lam_clear(c, n): so hyt1331, which restarts its scanner there (general knowledge, not tried).
 * Then define CAMAC_MCSTD_ACKNOWLEDGE(c, n) as cam_lam_clear((c), (n)): it is made after each F10 of a station with a bit, which `cclc` sends.
 *
 * mcstd has no call for the lockout of auxiliary controllers, nor for their cycles before one of yours, nor for the demand output. So the plan has
 * `waits = 0`, a lock needs no call, and the commands of the demand output (n 30, a 10) make none. */
#ifndef CAMAC_CHECKER_MCSTD_H
#define CAMAC_CHECKER_MCSTD_H

#include <camac/camac.h>

/* The DWORD of mcstd. */
#ifndef CAMAC_MCSTD_DATA
#define CAMAC_MCSTD_DATA unsigned int
#endif
#ifndef CAMAC_MCSTD_CONTROL
#define CAMAC_MCSTD_CONTROL(c, n, a, f, x, q) (*(x) = 1, camc_q((c), (n), (a), (f), (q)))
#endif
#ifndef CAMAC_MCSTD_ACKNOWLEDGE
#define CAMAC_MCSTD_ACKNOWLEDGE(c, n) ((void)0)
#endif

/* A pointer of another type than the driver's is no warning here, but an error: a word would go beside its place. */
#if defined(__GNUC__) && !defined(__cplusplus)
#pragma GCC diagnostic push
#pragma GCC diagnostic error "-Wincompatible-pointer-types"
#endif

/* The bits of the stations that a session has services of, for each crate: gl_of[c][n - 1]. A script that tests for a demand (ctgl) sees those of
 * other stations of the plan, too: add them. */
static inline void camac_mcstd_bits(camac_session *s, uint8_t gl_of[8][24]) {
    const uint32_t count = (uint32_t)camac_services(s);
    for (uint32_t number = 1; number <= count; number++) {
        camac_service_info it = CAMAC_SERVICE_INFO;
        if (camac_service(s, number, &it) == CAMAC_OK) gl_of[it.c][it.n - 1] = (uint8_t)it.gl;
    }
}

/* Before a run: enables the look-at-mes of crate c in your interface. Look into your driver: some send F26 to sub-address 0 there, a command that no
 * checker has seen. */
static inline void camac_mcstd_begin(int c, const uint8_t *gl_of) {
    for (int i = 0; i < 24; i++)
        if (gl_of[i]) cam_lam_enable(c, i + 1);
}

/* Ask it after an answer with X = 0. 0: crate c does not answer. Then let camac_abandon leave the service: the event would be of no module. */
static inline int camac_mcstd_is_there(int c) { return camc_chk(c) >= 0; }

/* The bits of the graded-L pattern that crate c has now. gl_of has 24 numbers: by the plan, the bit of station n in gl_of[n - 1], 0 for none. The
 * answer to a demand is what all crates of the plan have together. */
static inline uint32_t camac_mcstd_gl(int c, const uint8_t *gl_of) {
    CAMAC_MCSTD_DATA lam = 0;
    uint32_t gl = 0;
    cam_lam_read(c, &lam);
    for (unsigned i = 0; i < 24; i++)
        if (lam >> i & 1u && gl_of[i]) gl |= 1u << (gl_of[i] - 1);
    return gl;
}

/* A command of the controller. Of its tests the run knows the answers itself; two need what the crate has. */
static inline camac_answer camac_mcstd_controller(const camac_want *want, const uint8_t *gl_of) {
    camac_answer answer = CAMAC_ANSWER;
    const unsigned command = want->n * 10000u + want->a * 100u + want->f;
    switch (command) {
    case 280826: cam_crate_zinit(want->c); break;
    case 280926: cam_crate_clear(want->c); break;
    case 300924: cam_inhibit_clear(want->c); break;
    case 300926: cam_inhibit_set(want->c); break;
    case 300000:
    case 301127: answer.gl = camac_mcstd_gl(want->c, gl_of); break;
    default: break;
    }
    answer.x = answer.q = 1;
    return answer;
}

/* Makes the cycle, and answers x, q and, where it reads, the word; gl_of is that of its crate. The wait is 0. */
static inline camac_answer camac_mcstd_cycle(const camac_want *want, const uint8_t *gl_of) {
    camac_answer answer = CAMAC_ANSWER;
    CAMAC_MCSTD_DATA data = 0;
    int x = 0, q = 0;
    if (want->n == 28 || want->n == 30) return camac_mcstd_controller(want, gl_of);
    if (want->data == CAMAC_READ) {
        cam24i_q(want->c, want->n, want->a, want->f, &data, &x, &q);
        answer.word = (uint32_t)data & 0xffffffu;
    } else if (want->data == CAMAC_WRITE) {
        cam24o_q(want->c, want->n, want->a, want->f, (CAMAC_MCSTD_DATA)want->word, &x, &q);
    } else {
        CAMAC_MCSTD_CONTROL(want->c, want->n, want->a, want->f, &x, &q);
    }
    if (want->f == 10 && gl_of[want->n - 1]) CAMAC_MCSTD_ACKNOWLEDGE(want->c, want->n);
    answer.x = x != 0;
    answer.q = q != 0;
    return answer;
}

#if defined(__GNUC__) && !defined(__cplusplus)
#pragma GCC diagnostic pop
#endif

#endif
