/* Queens on boards of 4 by 4 to 8 by 8, each in a row of her own and none on another's column or diagonal, call by call as BuDDy's example has them. */
#include "walk.h"

enum { MOST = 8 };

static dd_manager *m;
static dd has[MOST][MOST], free_of[MOST][MOST];

/* f becomes the conjunction of both, and g is dropped. */
static void conjoin(dd *f, dd g) {
    dd both;
    OK(dd_and(m, *f, g, &both));
    OK(dd_drop(m, *f));
    OK(dd_drop(m, g));
    *f = both;
}

/* A queen in the square (i, j) leaves none in the square (k, l). */
static void part(dd *apart, int i, int j, int k, int l) {
    dd rule;
    OK(dd_or(m, free_of[i][j], free_of[k][l], &rule));
    conjoin(apart, rule);
}

/* A queen in the square (i, j) threatens no other square. */
static dd alone(int n, int i, int j) {
    dd apart;
    OK(dd_one(m, &apart));
    for (int l = 0; l < n; l++)
        if (l != j) part(&apart, i, j, i, l);
    for (int k = 0; k < n; k++)
        if (k != i) part(&apart, i, j, k, j);
    for (int k = 0; k < n; k++) {
        int up = j + k - i, down = j + i - k;
        if (k != i && 0 <= up && up < n) part(&apart, i, j, k, up);
        if (k != i && 0 <= down && down < n) part(&apart, i, j, k, down);
    }
    return apart;
}

static double ways(int n) {
    dd board;
    m = dd_open(1, (uint32_t)(n * n), 0, 100000);
    if (!m) exit(1);
    for (int i = 0; i < n; i++)
        for (int j = 0; j < n; j++) {
            OK(dd_var(m, (uint32_t)(i * n + j), &has[i][j]));
            OK(dd_not(m, has[i][j], &free_of[i][j]));
        }
    OK(dd_one(m, &board));
    for (int i = 0; i < n; i++) {
        dd some;
        OK(dd_zero(m, &some));
        for (int j = 0; j < n; j++) {
            dd more;
            OK(dd_or(m, some, has[i][j], &more));
            OK(dd_drop(m, some));
            some = more;
        }
        conjoin(&board, some);
    }
    for (int i = 0; i < n; i++)
        for (int j = 0; j < n; j++) conjoin(&board, alone(n, i, j));
    double count = count_of(m, board, (uint32_t)(n * n));
    dd_close(m);
    return count;
}

int main(void) {
    for (int n = 4; n <= MOST; n++) printf("%d queens: %.0f ways\n", n, ways(n));
    return 0;
}
