/* mcstd.c: which calls of mcstd a wanted cycle makes, and what it answers. The calls are stubs, which print themselves: X is the last bit of the
 * sub-address, Q that of the function, and stations 2, 5 and 24 have a look-at-me. */
#include <stdio.h>

static void cam24i_q(const int c, const int n, const int a, const int f, unsigned int *d, int *x, int *q) {
    printf("cam24i_q %d %d %d %d ", c, n, a, f);
    *d = 0xff123456u, *x = a & 1, *q = (f & 1) << 5;
}

static void cam24o_q(const int c, const int n, const int a, const int f, unsigned int d, int *x, int *q) {
    printf("cam24o_q %d %d %d %d %x ", c, n, a, f, d);
    *x = a & 1, *q = f & 1;
}

static void camc_q(const int c, const int n, const int a, const int f, int *q) {
    printf("camc_q %d %d %d %d ", c, n, a, f);
    *q = f & 1;
}

static void cam_lam_read(const int c, unsigned int *lam) {
    printf("cam_lam_read %d ", c);
    *lam = 0x800012u;
}

static void cam_crate_zinit(const int c) { printf("cam_crate_zinit %d ", c); }
static void cam_crate_clear(const int c) { printf("cam_crate_clear %d ", c); }
static void cam_inhibit_set(const int c) { printf("cam_inhibit_set %d ", c); }
static void cam_inhibit_clear(const int c) { printf("cam_inhibit_clear %d ", c); }
static void cam_lam_enable(const int c, const int n) { printf("cam_lam_enable %d %d ", c, n); }
static void cam_lam_clear(const int c, const int n) { printf("cam_lam_clear %d %d ", c, n); }
static int camc_chk(const int c) { return printf("camc_chk %d ", c) > 0 ? -1 : 0; }

#define CAMAC_MCSTD_ACKNOWLEDGE(c, n) cam_lam_clear((c), (n))
#include <camac/camac_mcstd.h>

int main(void) {
    static const struct { uint8_t n, a, f, data; } wanted[] = {
        {5, 0, 0, CAMAC_READ}, {5, 1, 1, CAMAC_READ}, {5, 1, 16, CAMAC_WRITE}, {5, 1, 9, CAMAC_NO_DATA}, {5, 1, 10, CAMAC_NO_DATA},
        {3, 1, 10, CAMAC_NO_DATA}, {28, 8, 26, CAMAC_NO_DATA}, {28, 9, 26, CAMAC_NO_DATA}, {30, 9, 24, CAMAC_NO_DATA}, {30, 9, 26, CAMAC_NO_DATA}, {30, 9, 27, CAMAC_NO_DATA},
        {30, 10, 24, CAMAC_NO_DATA}, {30, 10, 26, CAMAC_NO_DATA}, {30, 10, 27, CAMAC_NO_DATA}, {30, 11, 27, CAMAC_NO_DATA},
        {30, 0, 0, CAMAC_READ}};
    uint8_t gl_of[24] = {0};
    gl_of[1] = 3, gl_of[2] = 4, gl_of[23] = 24; /* the look-at-me of station 5 has no bit */
    camac_mcstd_begin(2, gl_of);
    printf("there %d\n", camac_mcstd_is_there(2));
    for (size_t i = 0; i < sizeof wanted / sizeof *wanted; i++) {
        camac_want want = CAMAC_WANT;
        want.kind = CAMAC_CYCLE, want.c = 2, want.n = wanted[i].n, want.a = wanted[i].a, want.f = wanted[i].f;
        want.data = wanted[i].data, want.word = want.data == CAMAC_WRITE ? 0xabcdef : 0;
        const camac_answer answer = camac_mcstd_cycle(&want, gl_of);
        printf("-> %d %d %06x %d %06x\n", answer.x, answer.q, (unsigned)answer.word, answer.wait, (unsigned)answer.gl);
    }
    return 0;
}
