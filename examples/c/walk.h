/* What the examples share: a call that has to be done, and a walk down a BDD. */
#ifndef WALK_H
#define WALK_H
#include "dd.h"
#include <stdio.h>

/* Ends the program where a call is not done. */
#define OK(CALL)                                                            \
    do {                                                                    \
        dd_status status_ = (CALL);                                         \
        if (status_ != DD_OK) {                                             \
            printf("%s:%d: status %d\n", __FILE__, __LINE__, (int)status_); \
            exit(1);                                                        \
        }                                                                   \
    } while (0)

/* The nodes of one variable for which a number was found, each by a handle of its own. Handles tell no nodes apart: dd_same does. */
struct found {
    dd *nodes;
    double *numbers;
    size_t count, room;
};

static inline double *number_found(dd_manager *m, dd f, const struct found *here) {
    for (size_t i = 0; i < here->count; i++) {
        bool same;
        OK(dd_same(m, f, here->nodes[i], &same));
        if (same) return &here->numbers[i];
    }
    return NULL;
}

static inline void keep_number(dd_manager *m, dd f, double number, struct found *here) {
    if (here->count == here->room) {
        here->room = here->room ? 2 * here->room : 16;
        here->nodes = (dd *)realloc(here->nodes, here->room * sizeof *here->nodes);
        here->numbers = (double *)realloc(here->numbers, here->room * sizeof *here->numbers);
        if (!here->nodes || !here->numbers) exit(1);
    }
    OK(dd_copy(m, f, &here->nodes[here->count]));
    here->numbers[here->count++] = number;
}

static inline double chance_below(dd_manager *m, dd f, const double *chances, struct found *found) {
    bool is_leaf;
    int64_t what;
    dd taken, other;
    OK(dd_top(m, f, &is_leaf, &what));
    if (is_leaf) return (double)what;
    double *before = number_found(m, f, &found[what]);
    if (before) return *before;
    OK(dd_then(m, f, &taken));
    OK(dd_else(m, f, &other));
    double chance = chances[what] * chance_below(m, taken, chances, found);
    chance += (1 - chances[what]) * chance_below(m, other, chances, found);
    OK(dd_drop(m, taken));
    OK(dd_drop(m, other));
    keep_number(m, f, chance, &found[what]);
    return chance;
}

/* The probability that a BDD holds, where each variable v of so many is 1 with the probability chances[v], whatever the others are. */
static inline double chance_of(dd_manager *m, dd f, uint32_t variables, const double *chances) {
    struct found *found = (struct found *)calloc(variables + 1, sizeof *found);
    if (!found) exit(1);
    double chance = chance_below(m, f, chances, found);
    for (uint32_t v = 0; v < variables; v++) {
        for (size_t i = 0; i < found[v].count; i++) OK(dd_drop(m, found[v].nodes[i]));
        free(found[v].nodes);
        free(found[v].numbers);
    }
    free(found);
    return chance;
}

/* At how many assignments of so many variables a BDD holds. It is exact up to 2^53. */
static inline double count_of(dd_manager *m, dd f, uint32_t variables) {
    double *halves = (double *)malloc((variables + 1) * sizeof *halves), all = 1;
    if (!halves) exit(1);
    for (uint32_t v = 0; v < variables; v++) {
        halves[v] = 0.5;
        all *= 2;
    }
    double count = chance_of(m, f, variables, halves) * all;
    free(halves);
    return count;
}
#endif
