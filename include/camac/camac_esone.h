/* camac_esone.h: makes a wanted cycle by the calls of ESONE/SR/01 (IEEE 758) that the library of your branch driver has.
 *
 * Include your driver's header first. This header declares none of its calls. It uses three of them in these forms:
 *
 *     cdreg(&ext, b, c, n, a)      int ext, the address; b, c, n, a by value
 *     cfsa(f, ext, &data, &q)      f and ext by value; CAMAC_ESONE_DATA data, 24 bits; int q, 0 or not
 *     ctstat(&k)                   int k, of the last action: 0 for Q 1 X 1, 1 for Q 0 X 1, 2 for Q 1 X 0, 3 for Q 0 X 0
 *
 * Where your driver's forms differ (all by reference, a trailing underscore), define CAMAC_CDREG(ext, b, c, n, a),
 * CAMAC_CFSA(f, ext, data, q) and CAMAC_CTSTAT(k) before you include it. ext, q and k are pointers to int there.
 *
 * CAMAC_ESONE_DATA is int, unless you define it: esone.h of MIDAS has unsigned long (general knowledge, not tried). Where your driver has no
 * ctstat, define CAMAC_ESONE_X as what tells X of the last action; as 1 a module that does not accept a command goes unnoticed.
 *
 * The standard has no call for the whole graded-L pattern of a branch, for the lockout of auxiliary controllers, or for their cycles before
 * one of yours. So demands, locks and waits are made by calls of your driver's own. */
#ifndef CAMAC_CHECKER_ESONE_H
#define CAMAC_CHECKER_ESONE_H

#include <camac/camac.h>

#ifndef CAMAC_ESONE_DATA
#define CAMAC_ESONE_DATA int
#endif
#ifndef CAMAC_CDREG
#define CAMAC_CDREG(ext, b, c, n, a) cdreg((ext), (b), (c), (n), (a))
#endif
#ifndef CAMAC_CFSA
#define CAMAC_CFSA(f, ext, data, q) cfsa((f), *(ext), (data), (q))
#endif
#ifndef CAMAC_CTSTAT
#define CAMAC_CTSTAT(k) ctstat(k)
#endif

/* A pointer of another type than the driver's is no warning here, but an error: a word would go beside its place. */
#if defined(__GNUC__) && !defined(__cplusplus)
#pragma GCC diagnostic push
#pragma GCC diagnostic error "-Wincompatible-pointer-types"
#endif

/* Makes the cycle on branch b, and answers x, q and, where it reads, the word. crate_gl has the bits of the graded-L pattern that the plan gives
 * to the stations of the cycle's crate: two of the controller's commands answer gl, of which these are a part (docs/LIVE.md). The wait is 0:
 * where your driver counts the cycles of auxiliary controllers, put their number there. */
static inline camac_answer camac_esone_cycle(int b, const camac_want *want, uint32_t crate_gl) {
    camac_answer answer = CAMAC_ANSWER;
    CAMAC_ESONE_DATA data = (CAMAC_ESONE_DATA)want->word;
    int ext = 0, q = 0;
    CAMAC_CDREG(&ext, b, want->c, want->n, want->a);
    CAMAC_CFSA(want->f, &ext, &data, &q);
    answer.q = q != 0;
#ifdef CAMAC_ESONE_X
    answer.x = (CAMAC_ESONE_X) != 0;
#else
    {
        int k = 0;
        CAMAC_CTSTAT(&k);
        answer.x = k < 2;
    }
#endif
    if (want->data == CAMAC_READ) answer.word = (uint32_t)data & 0xffffffu;
    if (want->n == 30 && want->a == 0 && want->f == 0) answer.gl = answer.word;
    if (want->n == 30 && want->a == 11 && want->f == 27) answer.gl = answer.q ? crate_gl : 0;
    return answer;
}

#if defined(__GNUC__) && !defined(__cplusplus)
#pragma GCC diagnostic pop
#endif

#endif
