/* What a program may get wrong, in nine kinds and a few more, each refused by its status; what was there before is there afterwards. */
#include "dd.h"
#include <stdio.h>

static void tell(const char *what, dd_status status, dd_status wanted) {
    printf("%s: %d\n", what, (int)status);
    if (status != wanted) exit(1);
}

/* A table that is full, and the same call once there is room. */
static void fill(void) {
    dd_manager *m = dd_open(4, 4, 0, 9 + 3);
    dd v[4], parities[4], out;
    if (!m) exit(1);
    for (uint32_t i = 0; i < 4; i++)
        if (dd_var(m, i, &v[i])) exit(1);
    if (dd_copy(m, v[3], &parities[3])) exit(1);
    for (int i = 2; i > 0; i--)
        if (dd_xor(m, v[i], parities[i + 1], &parities[i])) exit(1);
    /* slots: five, four of variables, two of the parities, and one more */
    tell("a third parity", dd_xor(m, v[0], parities[1], &parities[0]), DD_OK);
    tell("a table that is full", dd_and(m, v[0], v[1], &out), DD_FULL);
    if (dd_drop(m, parities[0])) exit(1);
    tell("the same once a function is dropped", dd_and(m, v[0], v[1], &out), DD_OK);
    dd_close(m);
}

/* A manager that was closed, in memory that still stands. */
static void close_twice(void) {
    dd_manager *m = (dd_manager *)malloc(dd_size());
    dd f, out;
    if (!m) exit(1);
    dd_init(m, 5, 2, 0, 100, 0);
    if (dd_var(m, 0, &f)) exit(1);
    tell("a manager is closed", dd_ask(m, 60, f, f, f, 0, 0, NULL, NULL), DD_OK);
    tell("and used", dd_not(m, f, &out), DD_CLOSED);
    tell("and closed again", dd_ask(m, 60, f, f, f, 0, 0, NULL, NULL), DD_CLOSED);
    free(m);
}

int main(void) {
    dd_manager *m = dd_open(1, 4, 8, 1000), *other = dd_open(2, 4, 8, 1000);
    dd f, g, theirs, number, family, gone, out;
    bool same;
    int64_t value;
    if (!m || !other) return 1;
    if (dd_var(m, 0, &f) || dd_var(m, 1, &g) || dd_var(other, 0, &theirs) || dd_number(m, 7, &number) || dd_single(m, 0, &family) || dd_copy(m, f, &gone)) return 1;
    tell("a handle is dropped", dd_drop(m, gone), DD_OK);
    tell("it is dropped again", dd_drop(m, gone), DD_HANDLE);
    tell("it is used", dd_and(m, f, gone, &out), DD_HANDLE);
    tell("it is looked into", dd_then(m, gone, &out), DD_HANDLE);
    tell("what a refused call left in out", dd_drop(m, out), DD_HANDLE);
    dd made_up = {1, 77, 123456789}, later = f;
    later.generation++;
    tell("one is made up", dd_not(m, made_up, &out), DD_HANDLE);
    tell("one with another generation", dd_not(m, later, &out), DD_HANDLE);
    tell("one is of another manager", dd_and(m, f, theirs, &out), DD_HANDLE);
    tell("a number where a BDD is wanted", dd_and(m, f, number, &out), DD_KIND);
    tell("a BDD where a number is wanted", dd_plus(m, number, f, &out), DD_KIND);
    tell("two kinds are compared", dd_same(m, f, family, &same), DD_KIND);
    tell("a variable that is none", dd_var(m, 4, &out), DD_RANGE);
    uint32_t twice[] = {0, 0}, far[] = {1, 4};
    dd put[] = {f, g};
    tell("a list with a variable that is none", dd_exists(m, f, far, 2, &out), DD_RANGE);
    tell("a variable is put for twice", dd_vector_compose(m, f, twice, put, 2, &out), DD_RANGE);
    tell("an element that is none", dd_single(m, 8, &out), DD_RANGE);
    tell("a level that is none", dd_at_level(m, 4, &value), DD_RANGE);
    tell("the last level and the next", dd_swap(m, 3), DD_RANGE);
    tell("a bit that is none", dd_set_bit(m, 1024, true), DD_RANGE);
    tell("the child of a leaf", dd_else(m, number, &out), DD_RANGE);
    tell("a number beyond 2^46 - 1", dd_number(m, (int64_t)1 << 46, &out), DD_RANGE);
    tell("a call that is none", dd_ask(m, 99, f, g, f, 0, 0, &out, NULL), DD_CALL);
    if (dd_open(3, 2000, 0, 10000) || dd_open(3, 4, 2000, 10000) || dd_open(3, 4, 0, 8) || dd_open(3, 4, 0, 8388608)) return 1;
    printf("too many variables, elements or slots, or too few: not opened\n");
    dd most, one;
    if (dd_number(m, ((int64_t)1 << 46) - 1, &most) || dd_number(m, 1, &one)) return 1;
    tell("a sum beyond 2^46 - 1", dd_plus(m, most, one, &out), DD_OVERFLOW);
    tell("a cover between bounds that are apart", dd_isop(m, f, g, &out), DD_APART);
    fill();
    close_twice();
    dd again;
    if (dd_var(m, 0, &again) || dd_same(m, f, again, &same) || !same) return 1;
    if (dd_var(m, 1, &again) || dd_same(m, g, again, &same) || !same) return 1;
    printf("the first handles are as they were\n");
    dd_close(m);
    dd_close(other);
    return 0;
}
