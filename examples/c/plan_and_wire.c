/* Plans x1' = x1^4 + x1^3 for the full kit, and wires the first set. Ends with status 1 where the box says anything but
   done. */
#include "planner.h"

/* Declared here and not by <stdio.h>: so the example is compiled for x86-64 on a machine that has only its own C
   headers. */
extern int printf(const char *format, ...);

enum { N = 1, KIT = SIRAGUMON_FULL_DEGREE, CAP = SIRAGUMON_CARDS, LIMIT = 1000000, ROOM = 1000 };

static const uint8_t terms[] = {
    1, 0, 4, 0, 0, 0, 0, 0, 1, 0, 0, 0,
    1, 0, 3, 0, 0, 0, 0, 0, 1, 0, 0, 0,
};
static uint8_t sets[ROOM * SIRAGUMON_SET_BYTES];
static uint8_t wires[SIRAGUMON_WIRES_BYTES];

static void print_monomial(const uint8_t *exponents) {
    const char *between = "";
    for (int i = 0; i < SIRAGUMON_VARIABLES; i++) {
        if (exponents[i] == 0) continue;
        printf("%sx%d", between, i + 1);
        if (1 < exponents[i]) printf("^%d", exponents[i]);
        between = " ";
    }
}

static void print_signal(int signal, const uint8_t *set) {
    if (signal == 0)
        printf("1");
    else if (signal <= N)
        printf("x%d", signal);
    else
        print_monomial(set + SIRAGUMON_VARIABLES * (signal - N - 1));
}

static void print_set(const uint8_t *set, int size) {
    for (int i = 0; i < size; i++) {
        printf("%s", i == 0 ? "{" : ", ");
        print_monomial(set + SIRAGUMON_VARIABLES * i);
    }
    printf("%s\n", size == 0 ? "{}" : "}");
}

static void print_wire(const uint8_t *wire, const uint8_t *set) {
    uint32_t bits = wire[4] | (uint32_t)wire[5] << 8 | (uint32_t)wire[6] << 16 | (uint32_t)wire[7] << 24;
    printf("(");
    print_signal(wire[0], set);
    printf(")' gets %ld times (", (long)(int32_t)bits);
    print_signal(wire[1], set);
    printf(")(");
    print_signal(wire[2], set);
    printf(")\n");
}

int main(void) {
    uint64_t five[SIRAGUMON_NUMBERS];

    siragumon_plan(N, SIRAGUMON_NO_MARKS, KIT, CAP, LIMIT, terms, sizeof terms, sets, sizeof sets, five);
    if (five[SIRAGUMON_CODE] != SIRAGUMON_DONE) {
        printf("planning says %d\n", (int)five[SIRAGUMON_CODE]);
        return 1;
    }
    int size = (int)five[SIRAGUMON_ORDER];
    printf("%d smallest sets of %d new signals, after %d steps\n", (int)five[SIRAGUMON_COUNT], size, (int)five[SIRAGUMON_STEPS]);
    for (int i = 0; i < (int)five[SIRAGUMON_COUNT]; i++) print_set(sets + SIRAGUMON_SET_BYTES * i, size);

    siragumon_wire(N, SIRAGUMON_NO_MARKS, KIT, terms, sizeof terms, sets, SIRAGUMON_SET_BYTES, wires, sizeof wires,
                   five);
    if (five[SIRAGUMON_CODE] != SIRAGUMON_DONE) {
        printf("wiring says %d\n", (int)five[SIRAGUMON_CODE]);
        return 1;
    }
    printf("wiring of the first\n");
    for (int i = 0; i < (int)five[SIRAGUMON_COUNT]; i++) print_wire(wires + SIRAGUMON_WIRE_BYTES * i, sets);
    return 0;
}
