/* Decision diagrams for C: BDDs with complemented else arcs, ADDs with whole numbers at their leaves, and ZDDs (families of sets).
 *
 * A manager has one node table for all three kinds. It serves one thread at a time: a program with threads puts a lock round it.
 * A function is named by a handle (dd): the number of its manager, a row and a generation. No generation is given twice in a
 * manager's life, so a handle that was dropped, made up, of another manager or of the wrong kind is refused by a status, and does no harm.
 * Ownership: each call that answers a handle gives a new one, which the program drops by dd_drop. No call takes a handle over.
 * Equal functions need not have equal handles: compare them by dd_same, which takes constant time.
 * Errors: each call answers a status. Where that is not DD_OK, *out is DD_NONE, and each live handle has its function as before. A call that
 * makes a function frees what nothing reaches and tries again before it answers DD_FULL.
 * What nothing checks: the pointer is one that dd_open gave and dd_close did not take back, and one call is made at a time. */
#ifndef DD_H
#define DD_H
#include <stdbool.h>
#include <stdint.h>
#include <stdlib.h>

typedef struct {
    uint32_t manager, row;
    uint64_t generation;
} dd;

typedef struct dd_manager dd_manager;

typedef enum {
    DD_OK = 0,       /* done */
    DD_MEMORY = 1,   /* the system has no memory, or too many handles are live */
    DD_FULL = 2,     /* the node table is full of what live handles reach */
    DD_OVERFLOW = 3, /* a value of an ADD would leave -2^46 .. 2^46 - 1 */
    DD_APART = 4,    /* dd_isop: the first function holds where the second does not */
    DD_HANDLE = 5,   /* no such handle is live in this manager */
    DD_KIND = 6,     /* a handle is of another kind */
    DD_RANGE = 7,    /* no such variable, element, level or number; too few elements for the literals of all variables; a leaf has no child */
    DD_CALL = 8,     /* no such call: header and library differ */
    DD_CLOSED = 9    /* the manager could not be opened */
} dd_status;

/* ---- what the library exports; programs call the functions below */

typedef struct {
    uint32_t call, number;
    dd f, g, h;
    int64_t value;
} dd_request;

typedef struct {
    uint32_t status, number;
    dd made;
    int64_t value;
} dd_answer;

#ifdef __cplusplus
extern "C" {
#endif
size_t dd_size(void);
void dd_init(dd_manager *m, uint32_t number, uint32_t variables, uint32_t elements, uint32_t slots, uint32_t remembered);
dd_answer dd_call(dd_manager *m, dd_request request);
#ifdef __cplusplus
}
#endif

static const dd DD_NONE = {UINT32_MAX, UINT32_MAX, UINT64_MAX};

static inline dd_status dd_ask(dd_manager *m, uint32_t call, dd f, dd g, dd h, uint32_t number, int64_t value, dd *out, int64_t *told) {
    dd_request request = {call, number, f, g, h, value};
    dd_answer answer = dd_call(m, request);
    if (out) *out = answer.status == DD_OK ? answer.made : DD_NONE;
    if (told && answer.status == DD_OK) *told = answer.value;
    return (dd_status)answer.status;
}

/* ---- opening and closing */

/* A manager with a number of the program's choice, by which its handles are told from another's; with at most 1,024 variables and 1,024
 * elements, 5 + variables to 8,388,607 node slots, and a table of so many answers of operations, of 16 bytes each (the size of CUDD's and of
 * BuDDy's cache; 0 for as many as there are slots, from 65,536 to 1,048,576). A table that lies in the processor's cache is fast, and one that
 * is too small makes operations do again what they did. Both orders are 0, 1, 2, .. NULL where it cannot be made. */
static inline dd_manager *dd_open_remembering(uint32_t number, uint32_t variables, uint32_t elements, uint32_t slots, uint32_t remembered) {
    dd_manager *m = (dd_manager *)malloc(dd_size());
    if (!m) return NULL;
    dd_init(m, number, variables, elements, slots, remembered);
    if (dd_ask(m, 0, DD_NONE, DD_NONE, DD_NONE, 0, 0, NULL, NULL) == DD_CLOSED) {
        free(m);
        return NULL;
    }
    return m;
}

/* The same with an answer for eight slots, but 8,192 at least (BuDDy's manual advises one for ten). With many more slots than a program needs
 * it runs slower. */
static inline dd_manager *dd_open(uint32_t number, uint32_t variables, uint32_t elements, uint32_t slots) {
    return dd_open_remembering(number, variables, elements, slots, slots / 8 < 8192 ? 8192 : slots / 8);
}

/* Frees all that the manager has. No handle of it is live any more. */
static inline void dd_close(dd_manager *m) {
    if (!m) return;
    dd_ask(m, 60, DD_NONE, DD_NONE, DD_NONE, 0, 0, NULL, NULL);
    free(m);
}

/* ---- handles */

/* A further handle of the same function. DD_HANDLE, DD_MEMORY. */
static inline dd_status dd_copy(dd_manager *m, dd f, dd *out) { return dd_ask(m, 50, f, DD_NONE, DD_NONE, 0, 0, out, NULL); }

/* Gives a handle up, which is live no more. All others stay. DD_HANDLE. */
static inline dd_status dd_drop(dd_manager *m, dd f) { return dd_ask(m, 51, f, DD_NONE, DD_NONE, 0, 0, NULL, NULL); }

/* Whether two handles of one kind have one function. DD_HANDLE, DD_KIND, and then *same is false. */
static inline dd_status dd_same(dd_manager *m, dd f, dd g, bool *same) {
    int64_t told = 0;
    dd_status status = dd_ask(m, 52, f, g, DD_NONE, 0, 0, NULL, &told);
    *same = told != 0;
    return status;
}

/* The kind of a handle. DD_HANDLE, and then *kind is as it was. */
typedef enum { DD_BDD = 0, DD_ADD = 1, DD_ZDD = 2 } dd_kind;

static inline dd_status dd_kind_of(dd_manager *m, dd f, dd_kind *kind) {
    int64_t told = 0;
    dd_status status = dd_ask(m, 61, f, DD_NONE, DD_NONE, 0, 0, NULL, &told);
    if (status == DD_OK) *kind = (dd_kind)told;
    return status;
}

/* Whether g, a BDD, holds wherever f, a BDD, does. It makes no handle. DD_HANDLE, DD_KIND, DD_MEMORY, and then *implies is false. */
static inline dd_status dd_leq(dd_manager *m, dd f, dd g, bool *implies) {
    int64_t told = 0;
    dd_status status = dd_ask(m, 54, f, g, DD_NONE, 0, 0, NULL, &told);
    *implies = told != 0;
    return status;
}

/* Frees the node slots that no live handle reaches; *used is how many are left in use: 5, one for each variable, and those that handles reach. */
static inline dd_status dd_sweep(dd_manager *m, int64_t *used) { return dd_ask(m, 55, DD_NONE, DD_NONE, DD_NONE, 0, 0, NULL, used); }

/* ---- values. A manager has a bit for each of 1,024 variables, or elements; each is 0 at first. */

/* Sets the bit of a variable, or of an element. It stays until it is set again, or a list is told (dd_clear, and the calls with lists below). DD_RANGE
 * where the number is not below 1,024. */
static inline dd_status dd_set_bit(dd_manager *m, uint32_t number, bool bit) {
    return dd_ask(m, 58, DD_NONE, DD_NONE, DD_NONE, number, bit, NULL, NULL);
}

/* Sets each bit to 0, and empties the lists. */
static inline dd_status dd_clear(dd_manager *m) { return dd_ask(m, 57, DD_NONE, DD_NONE, DD_NONE, 0, 0, NULL, NULL); }

/* The value of a function at the bits: of a BDD 0 or 1, of an ADD the number, of a ZDD 1 where the set of the elements whose bits are 1 is in the
 * family. It takes the time of one path, makes no handle, and leaves the bits. DD_HANDLE, and then *value is as it was. */
static inline dd_status dd_value(dd_manager *m, dd f, int64_t *value) { return dd_ask(m, 53, f, DD_NONE, DD_NONE, 0, 0, NULL, value); }

/* The same, where the first of the bits are told here, and the others are 0. Also DD_RANGE where there are more than 1,024. */
static inline dd_status dd_eval(dd_manager *m, dd f, const bool *bits, size_t count, int64_t *value) {
    dd_status status = dd_clear(m);
    for (size_t i = 0; i < count && status == DD_OK; i++)
        status = dd_set_bit(m, i < UINT32_MAX ? (uint32_t)i : UINT32_MAX, bits[i]);
    return status != DD_OK ? status : dd_value(m, f, value);
}

/* ---- nodes. The top of a function is the first variable, or element, of the order on which it depends. There it is split in two: of a BDD or an
 * ADD what it is where the variable is 1 (then) and 0 (else); of a ZDD the sets with the element, which is taken out of them (then), and those
 * without it (else). A function that depends on none is a leaf: a BDD that is 1 or 0, an ADD that is one number, the families of no set (0) and of
 * the empty set alone (1). So a program can print a function, count its values, or pick one of them. */

/* Whether f is a leaf; *what is its value, or else the variable, or the element, at its top. DD_HANDLE, and then both are as they were. */
static inline dd_status dd_top(dd_manager *m, dd f, bool *is_leaf, int64_t *what) {
    dd_request request = {62, 0, f, DD_NONE, DD_NONE, 0};
    dd_answer answer = dd_call(m, request);
    if (answer.status == DD_OK) {
        *is_leaf = answer.number == 0;
        *what = answer.value;
    }
    return (dd_status)answer.status;
}

/* The then child, and the else child, each as a new handle of f's kind. DD_HANDLE; DD_RANGE of a leaf; DD_MEMORY. */
static inline dd_status dd_then(dd_manager *m, dd f, dd *out) { return dd_ask(m, 63, f, DD_NONE, DD_NONE, 0, 0, out, NULL); }
static inline dd_status dd_else(dd_manager *m, dd f, dd *out) { return dd_ask(m, 64, f, DD_NONE, DD_NONE, 0, 0, out, NULL); }

/* ---- the two orders, of the variables (BDDs and ADDs) and of the elements (ZDDs). No call but the swaps and the sifts changes one, and these
 * keep each handle's function. */

/* The level of a variable, or of an element, from 0 at the top; and which one stands at a level. DD_RANGE where there is no such one. */
#define DD_OF_ORDER(NAME, CODE) \
    static inline dd_status NAME(dd_manager *m, uint32_t number, int64_t *told) { return dd_ask(m, CODE, DD_NONE, DD_NONE, DD_NONE, number, 0, NULL, told); }
DD_OF_ORDER(dd_level, 42)
DD_OF_ORDER(dd_element_level, 43)
DD_OF_ORDER(dd_at_level, 44)
DD_OF_ORDER(dd_element_at_level, 45)

/* Sweeps, and exchanges a level and the next. DD_RANGE where there are no such two; DD_FULL where, after the sweep, fewer slots are free than twice
 * the nodes of the level and those of the next, and then both orders are as before. */
static inline dd_status dd_swap(dd_manager *m, uint32_t level) { return dd_ask(m, 46, DD_NONE, DD_NONE, DD_NONE, level, 0, NULL, NULL); }
static inline dd_status dd_swap_elements(dd_manager *m, uint32_t level) { return dd_ask(m, 47, DD_NONE, DD_NONE, DD_NONE, level, 0, NULL, NULL); }

/* Sifts an order (Rudell 1993; a growth of 1.2), so that fewer slots are in use, or as many; *used is how many then. DD_MEMORY, and then the order
 * is as before. */
static inline dd_status dd_sift(dd_manager *m, int64_t *used) { return dd_ask(m, 48, DD_NONE, DD_NONE, DD_NONE, 0, 0, NULL, used); }
static inline dd_status dd_sift_elements(dd_manager *m, int64_t *used) { return dd_ask(m, 49, DD_NONE, DD_NONE, DD_NONE, 0, 0, NULL, used); }

/* ---- making functions. Each may answer DD_MEMORY and DD_FULL; by its handles DD_HANDLE and DD_KIND; by its numbers DD_RANGE. Of several reasons
 * the first counts, in the order in which the header has the operands (dd_isop, dd_cover_of: whether there are elements enough comes first). */

#define DD_NO_HANDLE(NAME, CODE) \
    static inline dd_status NAME(dd_manager *m, dd *out) { return dd_ask(m, CODE, DD_NONE, DD_NONE, DD_NONE, 0, 0, out, NULL); }
#define DD_NUMBER(NAME, CODE) \
    static inline dd_status NAME(dd_manager *m, uint32_t number, dd *out) { return dd_ask(m, CODE, DD_NONE, DD_NONE, DD_NONE, number, 0, out, NULL); }
#define DD_ONE(NAME, CODE) \
    static inline dd_status NAME(dd_manager *m, dd f, dd *out) { return dd_ask(m, CODE, f, DD_NONE, DD_NONE, 0, 0, out, NULL); }
#define DD_ONE_NUMBER(NAME, CODE) \
    static inline dd_status NAME(dd_manager *m, dd f, uint32_t number, dd *out) { return dd_ask(m, CODE, f, DD_NONE, DD_NONE, number, 0, out, NULL); }
#define DD_TWO(NAME, CODE) \
    static inline dd_status NAME(dd_manager *m, dd f, dd g, dd *out) { return dd_ask(m, CODE, f, g, DD_NONE, 0, 0, out, NULL); }
#define DD_THREE(NAME, CODE) \
    static inline dd_status NAME(dd_manager *m, dd f, dd g, dd h, dd *out) { return dd_ask(m, CODE, f, g, h, 0, 0, out, NULL); }

/* BDDs */
DD_NO_HANDLE(dd_one, 1)          /* holds everywhere */
DD_NO_HANDLE(dd_zero, 2)         /* holds nowhere */
DD_NUMBER(dd_var, 3)             /* has the variable's value */
DD_ONE(dd_not, 8)                /* the complement */
DD_TWO(dd_and, 22)               /* both hold */
DD_TWO(dd_or, 23)                /* either holds */
DD_TWO(dd_xor, 24)               /* just one holds */
DD_THREE(dd_ite, 40)             /* g where f holds, elsewhere h */
DD_TWO(dd_restrict, 27)          /* one that agrees with f where g holds */
DD_ONE(dd_support, 13)           /* the product of the variables on which f depends */
DD_ONE(dd_pattern, 15)           /* of an ADD: where it is not 0 */
DD_ONE(dd_cover_of, 16)          /* of a ZDD: where a combination of this cover fits; element 2v is the variable v, 2v + 1 its complement */

/* f where the variable has the value. */
static inline dd_status dd_cofactor(dd_manager *m, dd f, uint32_t variable, bool value, dd *out) {
    return dd_ask(m, 9, f, DD_NONE, DD_NONE, variable, value, out, NULL);
}

/* f with g put for the variable. */
static inline dd_status dd_compose(dd_manager *m, dd f, uint32_t variable, dd g, dd *out) {
    return dd_ask(m, 26, f, g, DD_NONE, variable, 0, out, NULL);
}

/* Of an ADD: where it is at least the number. */
static inline dd_status dd_at_least(dd_manager *m, dd f, int64_t value, dd *out) {
    return dd_ask(m, 14, f, DD_NONE, DD_NONE, 0, value, out, NULL);
}

/* The variables of a list, for a call that follows: they are told one by one, and each is checked by that call (DD_RANGE). A variable may be told
 * twice. It sets each bit to 0. DD_MEMORY. */
static inline dd_status dd_mark_all(dd_manager *m, const uint32_t *variables, size_t count) {
    dd_status status = dd_clear(m);
    for (size_t i = 0; i < count && status == DD_OK; i++)
        status = dd_ask(m, 56, DD_NONE, DD_NONE, DD_NONE, variables[i], 0, NULL, NULL);
    return status;
}

/* f with g[i] put for the variable variables[i], for all of them at once. Also DD_RANGE where a variable is told twice, or more than 1,024 are. It
 * sets each bit to 0. */
static inline dd_status dd_vector_compose(dd_manager *m, dd f, const uint32_t *variables, const dd *g, size_t count, dd *out) {
    dd_status status = dd_clear(m);
    for (size_t i = 0; i < count && status == DD_OK; i++)
        status = dd_ask(m, 59, g[i], DD_NONE, DD_NONE, variables[i], 0, NULL, NULL);
    *out = DD_NONE;
    return status != DD_OK ? status : dd_ask(m, 12, f, DD_NONE, DD_NONE, 0, 0, out, NULL);
}

/* Where f holds for some values of the variables. */
static inline dd_status dd_exists(dd_manager *m, dd f, const uint32_t *variables, size_t count, dd *out) {
    dd_status status = dd_mark_all(m, variables, count);
    *out = DD_NONE;
    return status != DD_OK ? status : dd_ask(m, 10, f, DD_NONE, DD_NONE, 0, 0, out, NULL);
}

/* Where f holds for all values of the variables. */
static inline dd_status dd_forall(dd_manager *m, dd f, const uint32_t *variables, size_t count, dd *out) {
    dd_status status = dd_mark_all(m, variables, count);
    *out = DD_NONE;
    return status != DD_OK ? status : dd_ask(m, 11, f, DD_NONE, DD_NONE, 0, 0, out, NULL);
}

/* Where f and g hold for some values of the variables. */
static inline dd_status dd_and_exists(dd_manager *m, dd f, dd g, const uint32_t *variables, size_t count, dd *out) {
    dd_status status = dd_mark_all(m, variables, count);
    *out = DD_NONE;
    return status != DD_OK ? status : dd_ask(m, 25, f, g, DD_NONE, 0, 0, out, NULL);
}

/* ADDs. dd_plus, dd_minus, dd_times and dd_sum_over may answer DD_OVERFLOW. dd_number: DD_RANGE outside -2^46 .. 2^46 - 1. */
static inline dd_status dd_number(dd_manager *m, int64_t value, dd *out) { return dd_ask(m, 4, DD_NONE, DD_NONE, DD_NONE, 0, value, out, NULL); }
DD_ONE(dd_from_bdd, 17)          /* 1 where f, a BDD, holds, elsewhere 0 */
DD_TWO(dd_min, 28)               /* the lesser, place by place */
DD_TWO(dd_max, 29)               /* the greater, place by place */
DD_TWO(dd_threshold, 30)         /* f where it is at least g, elsewhere 0 */
DD_THREE(dd_add_ite, 41)         /* g where f, a BDD, holds, elsewhere h */
DD_TWO(dd_plus, 31)              /* the sum, place by place */
DD_TWO(dd_minus, 32)             /* the difference */
DD_TWO(dd_times, 33)             /* the product */
DD_ONE_NUMBER(dd_sum_over, 18)   /* the sum of the two cofactors by the variable */

/* ZDDs */
DD_NO_HANDLE(dd_empty, 5)        /* the family of no set */
DD_NO_HANDLE(dd_base, 6)         /* the family of the empty set alone */
DD_NUMBER(dd_single, 7)          /* the family of one set, of the element alone */
DD_TWO(dd_union, 34)             /* the sets of either */
DD_TWO(dd_meet, 35)              /* the sets of both */
DD_TWO(dd_diff, 36)              /* the sets of f that are none of g */
DD_TWO(dd_product, 37)           /* all unions of a set of f and one of g */
DD_TWO(dd_quotient, 38)          /* the sets that meet none of g, and joined with each of g give one of f */
DD_ONE_NUMBER(dd_subset1, 19)    /* the sets with the element, which is taken out of them */
DD_ONE_NUMBER(dd_subset0, 20)    /* the sets without the element */
DD_ONE_NUMBER(dd_change, 21)     /* each set, the element taken out where it was, and put in where it was not */
DD_TWO(dd_isop, 39)              /* an irredundant cover that reaches f, a BDD, and stays within g; DD_APART */
#endif
