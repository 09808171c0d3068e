/* Plays a program of operations with BuDDy and prints the seconds of processor time of the operations alone, a sum over the sizes of the last
 * results, and the greatest number of nodes in use.
 *
 * Standard input: the number of variables, the number of registers, and then a line for each operation: a letter, the register that
 * is made, and its operands; `s 0` sifts all variables. The program is read whole before the clock starts. */
#include <bdd.h>
#include <stdio.h>
#include <stdlib.h>
#include <time.h>

struct step {
    char op;
    int made, f, g, h;
};

static double now(void) {
    struct timespec t;
    clock_gettime(CLOCK_PROCESS_CPUTIME_ID, &t);
    return t.tv_sec + t.tv_nsec * 1e-9;
}

static int *lists;
static size_t listed, room;

static void listing(int number) {
    if (listed == room) {
        room = room ? 2 * room : 1024;
        lists = realloc(lists, room * sizeof *lists);
    }
    lists[listed++] = number;
}

int main(void) {
    int vars, registers;
    if (scanf("%d %d", &vars, &registers) != 2) return 1;
    struct step *steps = NULL;
    size_t count = 0, space = 0;
    char op;
    while (scanf(" %c", &op) == 1) {
        struct step s = {op, 0, 0, 0, 0};
        int n;
        if (scanf("%d", &s.made) != 1) return 1;
        switch (op) {
        case 's': n = 1; break;
        case 'v': case 'n': case 'd': n = scanf("%d", &s.f) == 1; break;
        case 'i': n = scanf("%d %d %d", &s.f, &s.g, &s.h) == 3; break;
        case 'e': {
            /* the operand, how many variables, and these */
            int many, v;
            n = scanf("%d %d", &s.f, &many) == 2;
            s.g = (int)listed;
            s.h = many;
            while (n && many-- > 0) {
                n = scanf("%d", &v) == 1;
                listing(v);
            }
            break;
        }
        default: n = scanf("%d %d", &s.f, &s.g) == 2;
        }
        if (!n) return 1;
        if (count == space) {
            space = space ? 2 * space : 1024;
            steps = realloc(steps, space * sizeof *steps);
        }
        steps[count++] = s;
    }
    bdd_init(2000000, 65536);
    bdd_setmaxincrease(2000000);
    bdd_gbc_hook(NULL);
    bdd_setvarnum(vars);
    BDD *regs = malloc(registers * sizeof *regs);
    for (int i = 0; i < registers; i++) regs[i] = bddfalse;
    double start = now();
    for (size_t i = 0; i < count; i++) {
        struct step s = steps[i];
        BDD made = bddfalse;
        switch (s.op) {
        case 'v': made = bdd_ithvar(s.f); break;
        case 'n': made = bdd_not(regs[s.f]); break;
        case 'a': made = bdd_and(regs[s.f], regs[s.g]); break;
        case 'o': made = bdd_or(regs[s.f], regs[s.g]); break;
        case 'x': made = bdd_xor(regs[s.f], regs[s.g]); break;
        case 'i': made = bdd_ite(regs[s.f], regs[s.g], regs[s.h]); break;
        case 'e': {
            BDD set = bdd_addref(bdd_makeset(lists + s.g, s.h));
            made = bdd_exist(regs[s.f], set);
            bdd_delref(set);
            break;
        }
        case 'd': bdd_delref(regs[s.f]); regs[s.f] = bddfalse; continue;
        case 's': bdd_varblockall(); bdd_reorder(BDD_REORDER_SIFT); continue;
        }
        regs[s.made] = bdd_addref(made);
    }
    double seconds = now() - start;
    double sum = 0;
    for (size_t i = count > 8 ? count - 8 : 0; i < count; i++) sum += bdd_nodecount(regs[steps[i].made]);
    printf("%.6f %.0f %d\n", seconds, sum, bdd_getnodenum());
    return 0;
}
