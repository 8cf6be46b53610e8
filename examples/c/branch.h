/* branch.h: a branch without hardware. It stands for the header of your branch driver's library. */
#ifndef BRANCH_H
#define BRANCH_H

#ifdef __cplusplus
extern "C" {
#endif

/* Calls of ESONE/SR/01 (IEEE 758), in the forms that camac_esone.h uses. */
void cdreg(int *ext, int b, int c, int n, int a);
void cfsa(int f, int ext, int *data, int *q);
void ctstat(int *k);

/* Calls of a driver's own: the standard has none for these. */
int branch_demand(int milliseconds); /* waits for the branch demand; 0: none came in this time */
unsigned branch_graded_l(void);      /* the graded-L operation: its 24 bits */
unsigned branch_waits(void);         /* how many cycles of auxiliary controllers came before the last cycle or lockout */
void branch_take_lockout(int c);
void branch_release_lockout(int c);

#ifdef __cplusplus
}
#endif
#endif
