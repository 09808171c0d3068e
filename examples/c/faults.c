/* The fault tree of a cooling circuit: two pumps, each with a valve of its own, one supply of power, and a spare supply behind a switch. The
 * circuit fails if both lines do, or if both supplies do. */
#include "walk.h"

enum { PUMP_A, VALVE_A, PUMP_B, VALVE_B, SUPPLY, SPARE, SWITCH, EVENTS };

static const char *const names[EVENTS] = {"pump a", "valve a", "pump b", "valve b", "supply", "spare", "switch"};
static const double chances[EVENTS] = {0.01, 0.02, 0.01, 0.02, 0.1, 0.2, 0.05};
static dd_manager *m;

typedef dd_status (*gate)(dd_manager *, dd, dd, dd *);

/* The gate of two events, which are dropped. */
static dd join(gate of, dd f, dd g) {
    dd out;
    OK(of(m, f, g, &out));
    OK(dd_drop(m, f));
    OK(dd_drop(m, g));
    return out;
}

static dd event(uint32_t e) {
    dd out;
    OK(dd_var(m, e, &out));
    return out;
}

/* Whether just these events are enough. */
static bool is_enough(dd fails, uint32_t a, uint32_t b) {
    bool bits[EVENTS] = {false};
    int64_t value;
    bits[a] = bits[b] = true;
    OK(dd_eval(m, fails, bits, EVENTS, &value));
    return value != 0;
}

/* Prints the nodes that were not printed yet, children first, and answers the number of this one: 0 and -1 are the two leaves. */
static int print(dd f, struct found *printed, int *count) {
    bool is_leaf;
    int64_t what;
    dd children[2];
    int numbers[2];
    OK(dd_top(m, f, &is_leaf, &what));
    if (is_leaf) return what ? 0 : -1;
    double *before = number_found(m, f, &printed[what]);
    if (before) return (int)*before;
    OK(dd_then(m, f, &children[0]));
    OK(dd_else(m, f, &children[1]));
    for (int k = 0; k < 2; k++) {
        numbers[k] = print(children[k], printed, count);
        OK(dd_drop(m, children[k]));
    }
    keep_number(m, f, ++*count, &printed[what]);
    printf("node %d: %s", *count, names[what]);
    for (int k = 0; k < 2; k++) {
        printf(k ? ", otherwise " : "; if so ");
        if (numbers[k] > 0)
            printf("node %d", numbers[k]);
        else
            printf(numbers[k] == 0 ? "it fails" : "it runs");
    }
    printf("\n");
    return *count;
}

/* Picks events that are enough: the way down that takes an event only where it has to. */
static void pick(dd fails, bool *picked) {
    dd f, next;
    bool is_leaf, never, is_other_leaf;
    int64_t what, other_what;
    OK(dd_copy(m, fails, &f));
    for (;;) {
        OK(dd_top(m, f, &is_leaf, &what));
        if (is_leaf) break;
        OK(dd_else(m, f, &next));
        OK(dd_top(m, next, &is_other_leaf, &other_what));
        never = is_other_leaf && other_what == 0;
        if (never) {
            OK(dd_drop(m, next));
            OK(dd_then(m, f, &next));
        }
        picked[what] = never;
        OK(dd_drop(m, f));
        f = next;
    }
    OK(dd_drop(m, f));
}

int main(void) {
    m = dd_open(1, EVENTS, 0, 1000);
    if (!m) return 1;
    dd line_a = join(dd_or, event(PUMP_A), event(VALVE_A));
    dd line_b = join(dd_or, event(PUMP_B), event(VALVE_B));
    dd power = join(dd_and, event(SUPPLY), join(dd_or, event(SPARE), event(SWITCH)));
    dd fails = join(dd_or, join(dd_and, line_a, line_b), power);

    int singles = 0, pairs = 0;
    for (uint32_t a = 0; a < EVENTS; a++)
        for (uint32_t b = a; b < EVENTS; b++)
            if (is_enough(fails, a, b)) {
                printf("%s and %s\n", names[a], names[b]);
                singles += a == b;
                pairs += a != b;
            }
    printf("single events: %d, pairs: %d\n", singles, pairs);

    struct found printed[EVENTS] = {{NULL, NULL, 0, 0}};
    int count = 0;
    print(fails, printed, &count);
    for (int e = 0; e < EVENTS; e++) {
        for (size_t i = 0; i < printed[e].count; i++) OK(dd_drop(m, printed[e].nodes[i]));
        free(printed[e].nodes);
        free(printed[e].numbers);
    }
    printf("it fails in %.0f of %d states\n", count_of(m, fails, EVENTS), 1 << EVENTS);
    printf("with probability %.8f\n", chance_of(m, fails, EVENTS, chances));

    bool picked[EVENTS] = {false};
    int64_t value;
    pick(fails, picked);
    printf("picked:");
    for (int e = 0; e < EVENTS; e++)
        if (picked[e]) printf(" %s", names[e]);
    OK(dd_eval(m, fails, picked, EVENTS, &value));
    printf(", %s\n", value ? "it fails" : "it runs");

    /* all that was made is dropped: five slots and one for each variable stay */
    int64_t used;
    OK(dd_drop(m, fails));
    OK(dd_sweep(m, &used));
    printf("slots in use when all is dropped: %d\n", (int)used);
    dd_close(m);
    return 0;
}
