/* The laws of an adder by ripple carry, bit by bit; and of the same sums as numbers. */
#include "walk.h"

enum { BITS = 16, FEW = 6 };

static dd_manager *m;

/* The sum of two numbers of so many bits, and the carry behind it. */
static void add(const dd *a, const dd *b, int bits, dd *sum) {
    dd carry;
    OK(dd_zero(m, &carry));
    for (int i = 0; i < bits; i++) {
        dd either, both, passed, next;
        OK(dd_xor(m, a[i], b[i], &either));
        OK(dd_xor(m, either, carry, &sum[i]));
        OK(dd_and(m, a[i], b[i], &both));
        OK(dd_and(m, either, carry, &passed));
        OK(dd_or(m, both, passed, &next));
        dd made[] = {either, both, passed, carry};
        for (int k = 0; k < 4; k++) OK(dd_drop(m, made[k]));
        carry = next;
    }
    sum[bits] = carry;
}

static void drop_all(const dd *f, int count) {
    for (int i = 0; i < count; i++) OK(dd_drop(m, f[i]));
}

/* How many of so many functions are the same in both places. */
static int equal(const dd *f, const dd *g, int count) {
    int equal = 0;
    for (int i = 0; i < count; i++) {
        bool same;
        OK(dd_same(m, f[i], g[i], &same));
        equal += same;
    }
    return equal;
}

/* a + b at two numbers; the bits of the operands stand by turns. */
static int value_at(const dd *sum, int a, int b) {
    bool bits[2 * BITS];
    int all = 0;
    for (int i = 0; i < BITS; i++) {
        bits[2 * i] = a >> i & 1;
        bits[2 * i + 1] = b >> i & 1;
    }
    for (int i = 0; i <= BITS; i++) {
        int64_t bit;
        OK(dd_eval(m, sum[i], bits, 2 * BITS, &bit));
        all |= (int)bit << i;
    }
    return all;
}

/* The number of some bits: the sum of 2^i where bit i holds. */
static dd number_of(const dd *f, int bits) {
    dd sum;
    OK(dd_number(m, 0, &sum));
    for (int i = 0; i < bits; i++) {
        dd bit, weight, weighed, more;
        OK(dd_from_bdd(m, f[i], &bit));
        OK(dd_number(m, (int64_t)1 << i, &weight));
        OK(dd_times(m, bit, weight, &weighed));
        OK(dd_plus(m, sum, weighed, &more));
        dd made[] = {bit, weight, weighed, sum};
        drop_all(made, 4);
        sum = more;
    }
    return sum;
}

int main(void) {
    dd a[BITS], b[BITS], ab[BITS + 1], ba[BITS + 1];
    m = dd_open(1, 3 * BITS, 0, 100000);
    if (!m) return 1;
    for (uint32_t i = 0; i < BITS; i++) {
        OK(dd_var(m, 2 * i, &a[i]));
        OK(dd_var(m, 2 * i + 1, &b[i]));
    }
    add(a, b, BITS, ab);
    add(b, a, BITS, ba);
    printf("a + b = b + a: %d of %d bits\n", equal(ab, ba, BITS + 1), BITS + 1);
    printf("27 + 45 = %d, 65535 + 1 = %d\n", value_at(ab, 27, 45), value_at(ab, 65535, 1));

    /* a put for b, all bits at once: each bit of the sum is a's bit below it */
    uint32_t of_b[BITS];
    dd doubled[BITS + 1], shifted[BITS + 1];
    for (uint32_t i = 0; i < BITS; i++) of_b[i] = 2 * i + 1;
    for (int i = 0; i <= BITS; i++) OK(dd_vector_compose(m, ab[i], of_b, a, BITS, &doubled[i]));
    OK(dd_zero(m, &shifted[0]));
    for (int i = 0; i < BITS; i++) OK(dd_copy(m, a[i], &shifted[i + 1]));
    printf("a + a = 2 a: %d of %d bits\n", equal(doubled, shifted, BITS + 1), BITS + 1);

    /* a third operand, of which the last bit of the two sums is left alone */
    dd c[FEW + 1], there[FEW + 2], back[FEW + 2], bc[FEW + 1], left[FEW + 1], longer[FEW + 1];
    for (uint32_t i = 0; i < FEW; i++) OK(dd_var(m, 2 * BITS + i, &c[i]));
    OK(dd_zero(m, &c[FEW]));
    add(a, b, FEW, left);
    add(left, c, FEW + 1, there);
    add(b, c, FEW, bc);
    for (int i = 0; i < FEW; i++) OK(dd_copy(m, a[i], &longer[i]));
    OK(dd_zero(m, &longer[FEW]));
    add(longer, bc, FEW + 1, back);
    printf("(a + b) + c = a + (b + c): %d of %d bits\n", equal(there, back, FEW + 2), FEW + 2);

    dd first = number_of(a, FEW), second = number_of(b, FEW), sum = number_of(left, FEW + 1), number, most, within;
    bool same, always;
    OK(dd_plus(m, first, second, &number));
    OK(dd_same(m, sum, number, &same));
    printf("the sum of the numbers is the number of the sum: %s\n", same ? "yes" : "no");
    /* the sum is at least 64 just where the carry is */
    OK(dd_at_least(m, sum, 1 << FEW, &within));
    OK(dd_same(m, within, left[FEW], &same));
    OK(dd_leq(m, left[FEW], within, &always));
    printf("it is at least %d where the carry is: %s, %s\n", 1 << FEW, same ? "yes" : "no", always ? "yes" : "no");
    printf("at %.0f of %d pairs\n", count_of(m, within, 3 * BITS) / (double)((int64_t)1 << (3 * BITS - 2 * FEW)), 1 << (2 * FEW));
    OK(dd_number(m, 2 * ((1 << FEW) - 1), &most));
    OK(dd_max(m, sum, most, &number));
    OK(dd_same(m, number, most, &same));
    printf("it is at most %d: %s\n", 2 * ((1 << FEW) - 1), same ? "yes" : "no");
    dd_close(m);
    return 0;
}
