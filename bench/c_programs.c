/* The same programs for the library for C and, with -DWITH_BUDDY, for BuDDy, each call by call through its own header.
 *
 * usage: PROGRAM queens|adder SIZE [NODES CACHE]
 *
 *   queens N   N queens on a board, as BuDDy's example has them, and in how many ways
 *   adder N    the sum of two numbers of N bits and that of the exchanged numbers, as BuDDy's example has sums, compared bit by bit
 *
 * It prints the seconds of processor time of the operations, those of the count or the comparison, and what was found. NODES is how many
 * slots the table may have, with BuDDy how many it has from the first, and CACHE how many results are remembered. */
#include <stdint.h>
#include <stdio.h>
#include <stdlib.h>
#include <string.h>
#include <time.h>

#ifdef WITH_BUDDY
#include <bdd.h>
typedef BDD function;
static void open_for(int variables, int nodes, int cache) {
    bdd_init(nodes, cache);
    bdd_setmaxincrease(2000000);
    bdd_gbc_hook(NULL);
    bdd_setvarnum(variables);
}
static function one(void) { return bddtrue; }
static function zero(void) { return bddfalse; }
static function variable(int v) { return bdd_ithvar(v); }
static function not(function f) { return bdd_addref(bdd_not(f)); }
static function and(function f, function g) { return bdd_addref(bdd_and(f, g)); }
static function or(function f, function g) { return bdd_addref(bdd_or(f, g)); }
static function xor(function f, function g) { return bdd_addref(bdd_xor(f, g)); }
static void drop(function f) { bdd_delref(f); }
static int same(function f, function g) { return f == g; }
static double ways(function f, int variables) {
    (void)variables;
    return bdd_satcount(f);
}
static void close_all(void) { bdd_done(); }
#else
#include "walk.h"
typedef dd function;
static dd_manager *m;
static void open_for(int variables, int nodes, int cache) {
    m = dd_open_remembering(1, (uint32_t)variables, 0, (uint32_t)nodes, (uint32_t)cache);
    if (!m) exit(1);
}
#define MADE(CALL) \
    function out;  \
    OK(CALL);      \
    return out
static function one(void) { MADE(dd_one(m, &out)); }
static function zero(void) { MADE(dd_zero(m, &out)); }
static function variable(int v) { MADE(dd_var(m, (uint32_t)v, &out)); }
static function not(function f) { MADE(dd_not(m, f, &out)); }
static function and(function f, function g) { MADE(dd_and(m, f, g, &out)); }
static function or(function f, function g) { MADE(dd_or(m, f, g, &out)); }
static function xor(function f, function g) { MADE(dd_xor(m, f, g, &out)); }
static void drop(function f) { OK(dd_drop(m, f)); }
static int same(function f, function g) {
    bool is;
    OK(dd_same(m, f, g, &is));
    return is;
}
static double ways(function f, int variables) { return count_of(m, f, (uint32_t)variables); }
static void close_all(void) { dd_close(m); }
#endif

static function *functions(int count) {
    function *all = calloc((size_t)count, sizeof *all);
    if (!all) exit(1);
    return all;
}

static double now(void) {
    struct timespec t;
    clock_gettime(CLOCK_PROCESS_CPUTIME_ID, &t);
    return (double)t.tv_sec + (double)t.tv_nsec * 1e-9;
}

/* f becomes what is made of both, and g is dropped. */
static void join(function (*of)(function, function), function *f, function g) {
    function made = of(*f, g);
    drop(*f);
    drop(g);
    *f = made;
}

static function alone(function *no, int n, int i, int j) {
    function apart = one();
    for (int l = 0; l < n; l++)
        if (l != j) join(and, &apart, or(no[i * n + j], no[i * n + l]));
    for (int k = 0; k < n; k++)
        if (k != i) join(and, &apart, or(no[i * n + j], no[k * n + j]));
    for (int k = 0; k < n; k++) {
        int up = j + k - i, down = j + i - k;
        if (k != i && 0 <= up && up < n) join(and, &apart, or(no[i * n + j], no[k * n + up]));
        if (k != i && 0 <= down && down < n) join(and, &apart, or(no[i * n + j], no[k * n + down]));
    }
    return apart;
}

static function queens(int n) {
    function *has = functions(n * n), *no = functions(n * n), board = one();
    for (int s = 0; s < n * n; s++) {
        has[s] = variable(s);
        no[s] = not(has[s]);
    }
    for (int i = 0; i < n; i++) {
        function some = zero();
        for (int j = 0; j < n; j++) {
            function more = or(some, has[i * n + j]);
            drop(some);
            some = more;
        }
        join(and, &board, some);
    }
    for (int i = 0; i < n; i++)
        for (int j = 0; j < n; j++) join(and, &board, alone(no, n, i, j));
    for (int s = 0; s < n * n; s++) {
        drop(has[s]);
        drop(no[s]);
    }
    free(has);
    free(no);
    return board;
}

static void add(const function *a, const function *b, int n, function *sum) {
    function carry = zero();
    for (int i = 0; i < n; i++) {
        function half = xor(a[i], b[i]), both = and(a[i], b[i]), either = or(a[i], b[i]);
        sum[i] = xor(half, carry);
        drop(half);
        join(and, &either, carry);
        join(or, &both, either);
        carry = both;
    }
    sum[n] = carry;
}

static double adder(int n, double *behind) {
    function *a = functions(n), *b = functions(n), *there = functions(n + 1), *back = functions(n + 1);
    double found = 0;
    for (int i = 0; i < n; i++) {
        a[i] = variable(2 * i);
        b[i] = variable(2 * i + 1);
    }
    add(a, b, n, there);
    add(b, a, n, back);
    *behind = now();
    for (int i = 0; i <= n; i++) {
        found += same(there[i], back[i]);
        drop(there[i]);
        drop(back[i]);
    }
    free(a);
    free(b);
    free(there);
    free(back);
    return found;
}

int main(int count, char **words) {
    if (count < 3) return 2;
    int n = atoi(words[2]), is_queens = !strcmp(words[1], "queens");
    if (n < 1) return 2;
    double behind, found;
    open_for(is_queens ? n * n : 2 * n, count > 3 ? atoi(words[3]) : 2000000, count > 4 ? atoi(words[4]) : 65536);
    double start = now();
    if (is_queens) {
        function board = queens(n);
        behind = now();
        found = ways(board, n * n);
        drop(board);
    } else
        found = adder(n, &behind);
    double end = now();
    printf("%.6f %.6f %.0f\n", behind - start, end - behind, found);
    close_all();
    return 0;
}
