/* mcstd_library.c: a library with the calls of mcstd and no controller, which counts its calls. A converter of 12 bits is at station 5 of crate 1: it
 * accepts F0 at A0 to A11, and at A12 F8, F10, F24 and F26; F10 clears its look-at-me, which comes again after three looks. A register is at station 6. */
#ifndef DWORD
#define DWORD unsigned int
#endif

static int lam = 1, looks, is_there = 1, counts[8][32][16][32], others;
static DWORD held;

int stub_count(int c, int n, int a, int f) { return counts[c][n][a][f]; }
int stub_others(void) { return others; }
void stub_cut(void) { is_there = 0; }

static int accepts(int c, int n, int a, int f) {
    counts[c][n][a][f]++;
    if (!is_there || c != 1) return 0;
    if (n == 5) return f == 0 ? a < 12 : a == 12 && (f == 8 || f == 10 || f == 24 || f == 26);
    return n == 6 && a == 0 && (f == 0 || f == 16 || f == 27);
}

#ifndef WITHOUT_INIT
int cam_init(void) { return INIT; }
#endif

void cam24i_q(const int c, const int n, const int a, const int f, DWORD *d, int *x, int *q) {
    *x = *q = accepts(c, n, a, f);
    *d = *x ? 0x5a000000u | (n == 6 ? held : 0x100u + (DWORD)a) : 0xffffffffu;
    if (f == 8) *q = *x && lam;
}

void cam24o_q(const int c, const int n, const int a, const int f, DWORD d, int *x, int *q) {
    *x = *q = accepts(c, n, a, f);
    held = d;
}

void camc_q(const int c, const int n, const int a, const int f, int *q) {
    *q = accepts(c, n, a, f);
    if (f == 10 && n == 5) lam = looks = 0;
}

void cam_lam_read(const int c, DWORD *d) {
    if (++looks == 3) lam = 1;
    *d = c == 1 && lam ? 0x5000010u : 0x5000000u;
}

int camc_chk(const int c) { return is_there && c == 1 ? 0 : -1; }
void cam_crate_zinit(const int c) { counts[c][28][8][26]++; }
void cam_crate_clear(const int c) { counts[c][28][9][26]++; }
void cam_inhibit_set(const int c) { counts[c][30][9][26]++; }
void cam_inhibit_clear(const int c) { counts[c][30][9][24]++; }
void cam_lam_enable(const int c, const int n) { others += 1000 * c + n; }
void cam_lam_clear(const int c, const int n) { others += 1000000 * c + 1000 * n; }
