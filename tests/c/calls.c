/*
 * Calls planning, wiring, thinning and reading as C sees them. Each case runs on junk between guard bytes, and compares
 * the five numbers and every byte of the buffer. Ends with status 1 where one differs.
 */
#include "planner.h"

/* Declared here and not by <stdio.h>: so the test is compiled for x86-64 on a machine that has only its own C
   headers. */
extern int printf(const char *format, ...);

/* What a case plans with where it names nothing else. */
enum {
    NO_MARKS = SIRAGUMON_NO_MARKS,
    FULL_KIT = SIRAGUMON_FULL_DEGREE,
    CAP = SIRAGUMON_CARDS,
    LIMIT = 1000000,
    ROOM = 1000 * SIRAGUMON_SET_BYTES
};

#define MARK SIRAGUMON_MARK

enum { GUARD = 64, JUNK = 0xa5, FENCE = 0x3c };

static int cases, failures;

static void expect(int ok, const char *name, const char *what) {
    if (ok) return;
    printf("FAILED %s: %s\n", name, what);
    failures++;
}

/* ---- lent bytes, with guards before and after them */

struct lent {
    uint8_t area[GUARD + ROOM + GUARD];
    size_t len;
};

static uint8_t *bytes(struct lent *l) { return l->area + GUARD; }

/* Lends a copy of `from`, or junk where there is none to copy. */
static void lend(struct lent *l, const uint8_t *from, size_t len) {
    l->len = len;
    for (size_t i = 0; i < sizeof l->area; i++) l->area[i] = FENCE;
    for (size_t i = 0; i < len; i++) bytes(l)[i] = from ? from[i] : JUNK;
}

static int guarded(const struct lent *l) {
    for (size_t i = 0; i < GUARD; i++)
        if (l->area[i] != FENCE) return 0;
    for (size_t i = GUARD + l->len; i < sizeof l->area; i++)
        if (l->area[i] != FENCE) return 0;
    return 1;
}

/* Whether it holds `is` and then zeros. */
static int holds(struct lent *l, const uint8_t *is, size_t len) {
    if (l->len < len) return 0;
    for (size_t i = 0; i < l->len; i++)
        if (bytes(l)[i] != (i < len ? is[i] : 0)) return 0;
    return 1;
}

static int unchanged(struct lent *l, const uint8_t *from) { return holds(l, from, l->len); }

static struct lent terms, set, text, out;

/* The five numbers, between two that are not the call's. */
static uint64_t row[1 + SIRAGUMON_NUMBERS + 1];

static void lend_row(void) {
    for (int i = 0; i < 1 + SIRAGUMON_NUMBERS + 1; i++) row[i] = 0xa5a5a5a5a5a5a5a5u;
}

static void expect_row(const char *name, const uint64_t *five) {
    int same = 1;
    for (int i = 0; i < SIRAGUMON_NUMBERS; i++) same = same && row[1 + i] == five[i];
    if (!same) {
        printf("FAILED %s: says", name);
        for (int i = 0; i < SIRAGUMON_NUMBERS; i++) printf(" %llu", (unsigned long long)row[1 + i]);
        printf(", and not");
        for (int i = 0; i < SIRAGUMON_NUMBERS; i++) printf(" %llu", (unsigned long long)five[i]);
        printf("\n");
        failures++;
    }
    expect(row[0] == 0xa5a5a5a5a5a5a5a5u && row[1 + SIRAGUMON_NUMBERS] == 0xa5a5a5a5a5a5a5a5u, name, "wrote beside the five numbers");
}

/* ---- systems and sets */

#define COEFFICIENT(c) \
    (uint8_t)((uint32_t)(c) & 255), (uint8_t)((uint32_t)(c) >> 8 & 255), (uint8_t)((uint32_t)(c) >> 16 & 255), (uint8_t)((uint32_t)(c) >> 24)
#define TERM(equation, a, b, c, coefficient) equation, 0, a, b, c, 0, 0, 0, COEFFICIENT(coefficient)
#define BYTES(a) a, sizeof a
#define NO_BYTES 0, 0
#define TEXT(s) (const uint8_t *)(s), sizeof(s) - 1
#define FIVE(code, order, count, steps, place) \
    (const uint64_t[]) { code, order, count, steps, place }

static const uint8_t constant[] = {TERM(1, 0, 0, 0, 5)};
static const uint8_t x1[] = {TERM(1, 1, 0, 0, 1)};
static const uint8_t x2[] = {TERM(1, 2, 0, 0, 1)};
static const uint8_t x3[] = {TERM(1, 3, 0, 0, 1)};
static const uint8_t x4[] = {TERM(1, 4, 0, 0, 1)};
static const uint8_t x5[] = {TERM(1, 5, 0, 0, 1)};
static const uint8_t x4_x3[] = {TERM(1, 4, 0, 0, 1), TERM(1, 3, 0, 0, 1)};
/* document 000's example */
static const uint8_t two[] = {TERM(1, 3, 0, 0, 1), TERM(1, 0, 2, 0, 1), TERM(2, 1, 0, 0, 1), TERM(2, 0, 1, 0, 1)};
static const uint8_t cancelling[] = {TERM(1, 2, 1, 0, 1), TERM(2, 1, 2, 0, -1)};
static const uint8_t unfed[] = {TERM(1, 2, 1, 0, 1)};
/* Rabinovich-Fabrikant with a = b = 1 */
static const uint8_t waves[] = {
    TERM(1, 0, 1, 1, 1), TERM(1, 0, 1, 0, -1), TERM(1, 2, 1, 0, 1), TERM(1, 1, 0, 0, 1),  TERM(2, 1, 0, 1, 3),
    TERM(2, 1, 0, 0, 1), TERM(2, 3, 0, 0, -1), TERM(2, 0, 1, 0, 1), TERM(3, 0, 0, 1, -2), TERM(3, 1, 1, 1, -2),
};
/* for cases that mark a variable, u; the first is document 000's Example 5.3 */
static const uint8_t example_5_3[] = {TERM(1, 1, 0, 0, 1), TERM(1, 1, 0, 1, 1), TERM(2, 2, 0, 1, 1)};
static const uint8_t x3_ux[] = {TERM(1, 3, 0, 0, 1), TERM(1, 1, 1, 0, 1)};
static const uint8_t x3_uux[] = {TERM(1, 3, 0, 0, 1), TERM(1, 1, 2, 0, 1)};
static const uint8_t knob_and_u[] = {TERM(1, 2, 1, 0, 1), TERM(1, 0, 0, 1, 1)};
static const uint8_t product[] = {TERM(4, 1, 1, 1, 1)};
static const uint8_t u_then_twice[] = {TERM(1, 0, 1, 0, 1), TERM(2, 1, 0, 0, 1), TERM(1, 0, 1, 0, 1)};
static const uint8_t twice_then_u[] = {TERM(1, 0, 1, 0, 1), TERM(1, 0, 1, 0, 5), TERM(2, 1, 0, 0, 1)};
/* for cases that a kit limits */
static const uint8_t x2_x9[] = {TERM(2, 9, 0, 0, 1)};
static const uint8_t square_of_product[] = {TERM(1, 3, 2, 0, 1)};
static const uint8_t three_factors[] = {TERM(1, 2, 1, 1, 1)};
static const uint8_t coefficient_in[] = {TERM(1, 1, 0, 0, SIRAGUMON_COEFFICIENT_MOST)};
static const uint8_t coefficient_out[] = {TERM(1, 1, 0, 0, SIRAGUMON_COEFFICIENT_MOST + 1)};
static const uint8_t exponent_in[] = {TERM(1, SIRAGUMON_EXPONENT_MOST, 0, 0, 1)};
static const uint8_t exponent_out[] = {TERM(1, SIRAGUMON_EXPONENT_MOST + 1, 0, 0, 1)};
static const uint8_t twice[] = {TERM(1, 1, 0, 0, 1), TERM(1, 1, 0, 0, 1)};
static const uint8_t twice_then_out[] = {TERM(1, 1, 0, 0, 1), TERM(1, 1, 0, 0, 1), TERM(1, SIRAGUMON_EXPONENT_MOST + 1, 0, 0, 1)};
static const uint8_t out_then_twice[] = {TERM(1, 1, 0, 0, 1), TERM(1, SIRAGUMON_EXPONENT_MOST + 1, 0, 0, 1), TERM(1, 1, 0, 0, 1)};
/* linear and square records, no two alike: one more than a system takes */
enum { MANY = SIRAGUMON_TERMS_MOST + 1 };
static uint8_t many[MANY * SIRAGUMON_TERM_BYTES];
/* the cube of each variable */
static uint8_t cubes[SIRAGUMON_VARIABLES * SIRAGUMON_TERM_BYTES];

/* Where a set record has the exponent of a variable, from 1, in a monomial, from 0. */
#define X(variable, monomial) (SIRAGUMON_VARIABLES * (monomial) + (variable) - 1)

static const uint8_t empty[SIRAGUMON_SET_BYTES] = {0};
static const uint8_t set_x1[SIRAGUMON_SET_BYTES] = {1};
static const uint8_t set_x2[SIRAGUMON_SET_BYTES] = {2};
static const uint8_t set_x4[SIRAGUMON_SET_BYTES] = {4};
static const uint8_t set_x1x2[SIRAGUMON_SET_BYTES] = {1, 1};
static const uint8_t set_squares[SIRAGUMON_SET_BYTES] = {[X(2, 0)] = 2, [X(1, 1)] = 2};
static const uint8_t set_waves[SIRAGUMON_SET_BYTES] = {[X(2, 0)] = 2, [X(1, 1)] = 1, [X(2, 1)] = 1, [X(1, 2)] = 2};
static const uint8_t falling[SIRAGUMON_SET_BYTES] = {[X(1, 0)] = 3, [X(1, 1)] = 2};
/* {x^2, x^3} and {x^3, x^4} */
static const uint8_t both_sets[2 * SIRAGUMON_SET_BYTES] = {
    [X(1, 0)] = 2,
    [X(1, 1)] = 3,
    [SIRAGUMON_SET_BYTES + X(1, 0)] = 3,
    [SIRAGUMON_SET_BYTES + X(1, 1)] = 4,
};
/* x'=x^4+x^3 wired by the first of them, as a system of six variables */
static const uint8_t first_wired[] = {
    1, 0, 8, 0, COEFFICIENT(1), 1, 1, 8, 0, COEFFICIENT(1), 7, 1, 8, 0, COEFFICIENT(2),
    7, 7, 8, 0, COEFFICIENT(2), 8, 7, 8, 0, COEFFICIENT(3), 8, 8, 8, 0, COEFFICIENT(3),
};

/* Sets as an owner makes them by hand: powers of x1, but for the last three. */
static const uint8_t by_hand[SIRAGUMON_SET_BYTES] = {[X(1, 0)] = 2, [X(1, 1)] = 3, [X(1, 2)] = 4};
static const uint8_t none_can_go[SIRAGUMON_SET_BYTES] = {[X(1, 0)] = 3, [X(1, 1)] = 5, [X(1, 2)] = 6};
static const uint8_t six_powers[SIRAGUMON_SET_BYTES] = {
    [X(1, 0)] = 2, [X(1, 1)] = 3, [X(1, 2)] = 4, [X(1, 3)] = 5, [X(1, 4)] = 6, [X(1, 5)] = 7,
};
static const uint8_t five_ways[SIRAGUMON_SET_BYTES] = {
    [X(1, 0)] = 2, [X(1, 1)] = 4, [X(1, 2)] = 5, [X(1, 3)] = 6, [X(1, 4)] = 7, [X(1, 5)] = 9,
};
static const uint8_t power_in[SIRAGUMON_SET_BYTES] = {SIRAGUMON_SET_EXPONENT_MOST};
static const uint8_t power_out[SIRAGUMON_SET_BYTES] = {SIRAGUMON_SET_EXPONENT_MOST + 1};
static const uint8_t set_x1x2_square[SIRAGUMON_SET_BYTES] = {[X(1, 0)] = 1, [X(2, 0)] = 1, [X(1, 1)] = 2, [X(2, 1)] = 2};
static const uint8_t set_square_of_product[SIRAGUMON_SET_BYTES] = {2, 2};
static const uint8_t u_in_last[SIRAGUMON_SET_BYTES] = {[X(1, 0)] = 2, [X(1, 1)] = 2, [X(3, 1)] = 1};
static const uint8_t set_waves_z2[SIRAGUMON_SET_BYTES] = {
    [X(3, 0)] = 2, [X(2, 1)] = 2, [X(1, 2)] = 1, [X(2, 2)] = 1, [X(1, 3)] = 2,
};
/* the square of each variable */
static uint8_t squares[SIRAGUMON_SET_BYTES];
/* the highest power of each variable, all in one monomial */
static uint8_t highest[SIRAGUMON_SET_BYTES];

/* The smallest of `five_ways` for x'=x^4. */
#define WAY(way, first, second, third) \
    [SIRAGUMON_SET_BYTES * (way) + X(1, 0)] = first, [SIRAGUMON_SET_BYTES * (way) + X(1, 1)] = second, [SIRAGUMON_SET_BYTES * (way) + X(1, 2)] = third
static const uint8_t ways[5 * SIRAGUMON_SET_BYTES] = {WAY(0, 2, 4, 5), WAY(1, 2, 5, 7), WAY(2, 4, 5, 6), WAY(3, 4, 5, 7), WAY(4, 4, 6, 9)};

/* The record of a variable, from 1, that is fed by a power of itself. */
static void power(uint8_t *record, unsigned variable, uint8_t exponent) {
    uint8_t *exponents = record + 2;
    for (int i = 0; i < SIRAGUMON_TERM_BYTES; i++) record[i] = 0;
    record[0] = (uint8_t)variable;
    exponents[variable - 1] = exponent;
    exponents[SIRAGUMON_VARIABLES] = 1; /* the coefficient's low byte */
}

/* ---- the calls */

static void plan(const char *name, uint64_t n, uint64_t marks, uint64_t degree, uint64_t cap, uint64_t limit, const uint8_t *system, size_t len,
                 size_t room, const uint64_t *five, const uint8_t *is, size_t is_len) {
    cases++;
    lend(&terms, system, len);
    lend(&out, 0, room);
    lend_row();
    siragumon_plan(n, marks, degree, cap, limit, bytes(&terms), len, bytes(&out), room, row + 1);
    expect_row(name, five);
    expect(holds(&out, is, is_len), name, "another buffer");
    expect(guarded(&out) && guarded(&terms), name, "wrote beside the buffer");
    expect(unchanged(&terms, system), name, "changed the terms");
}

/* A call that lists something of a given set: wiring and thinning. */
typedef void lister(uint64_t n, uint64_t marks, uint64_t degree, const uint8_t *terms, size_t terms_len, const uint8_t *set, size_t set_len,
                    uint8_t *out, size_t out_len, uint64_t *five);

static void list(lister call, const char *name, uint64_t n, uint64_t marks, uint64_t degree, const uint8_t *system, size_t len, const uint8_t *record,
                 size_t record_len, size_t room, const uint64_t *five, const uint8_t *is, size_t is_len) {
    cases++;
    lend(&terms, system, len);
    lend(&set, record, record_len);
    lend(&out, 0, room);
    lend_row();
    call(n, marks, degree, bytes(&terms), len, bytes(&set), record_len, bytes(&out), room, row + 1);
    expect_row(name, five);
    expect(holds(&out, is, is_len), name, "another buffer");
    expect(guarded(&out) && guarded(&terms) && guarded(&set), name, "wrote beside the buffer");
    expect(unchanged(&terms, system) && unchanged(&set, record), name, "changed what it read");
}

static void wire(const char *name, uint64_t n, uint64_t marks, uint64_t degree, const uint8_t *system, size_t len, const uint8_t *record,
                 size_t record_len, size_t room, const uint64_t *five, const uint8_t *is, size_t is_len) {
    list(siragumon_wire, name, n, marks, degree, system, len, record, record_len, room, five, is, is_len);
}

/* The verdict alone, into no buffer and into the longest that holds no record. */
static void verdict(const char *name, uint64_t n, uint64_t marks, uint64_t degree, const uint8_t *system, size_t len, const uint8_t *record,
                    size_t record_len, const uint64_t *five) {
    wire(name, n, marks, degree, system, len, record, record_len, 0, five, NO_BYTES);
    wire(name, n, marks, degree, system, len, record, record_len, SIRAGUMON_WIRE_BYTES - 1, five, NO_BYTES);
}

static int is_quadratic(uint64_t n, uint64_t marks, uint64_t degree, const uint8_t *system, size_t len, const uint8_t *record) {
    uint64_t five[SIRAGUMON_NUMBERS];
    siragumon_wire(n, marks, degree, system, len, record, SIRAGUMON_SET_BYTES, NULL, 0, five);
    return five[SIRAGUMON_CODE] == SIRAGUMON_DONE || five[SIRAGUMON_CODE] == SIRAGUMON_FULL;
}

/* The smallest quadratic subsets of a set, by the verdict on each subset alone. A mask has a bit for each signal, the
   first signal's the highest: so from the highest mask down the subsets of one size ascend. */
static struct {
    size_t count;
    uint8_t sets[SIRAGUMON_SUBSETS_BYTES];
} by_verdicts;

static void judge_subsets(uint64_t n, uint64_t marks, uint64_t degree, const uint8_t *system, size_t len, const uint8_t *record, size_t size) {
    size_t least = size;
    by_verdicts.count = 0;
    for (unsigned mask = 1u << size; mask-- > 0;) {
        uint8_t subset[SIRAGUMON_SET_BYTES] = {0};
        size_t kept = 0;
        for (size_t i = 0; i < size; i++) {
            if ((mask >> (size - 1 - i) & 1) == 0) continue;
            for (size_t j = 0; j < SIRAGUMON_VARIABLES; j++)
                subset[SIRAGUMON_VARIABLES * kept + j] = record[SIRAGUMON_VARIABLES * i + j];
            kept++;
        }
        if (kept > least || !is_quadratic(n, marks, degree, system, len, subset)) continue;
        if (kept < least) by_verdicts.count = 0;
        least = kept;
        for (size_t j = 0; j < sizeof subset; j++) by_verdicts.sets[SIRAGUMON_SET_BYTES * by_verdicts.count + j] = subset[j];
        by_verdicts.count++;
    }
}

static struct lent listed;

/* Where it is done, the list is also what the verdict on each subset gives, and each of its sets is wired. */
static void thin(const char *name, uint64_t n, uint64_t marks, uint64_t degree, const uint8_t *system, size_t len, const uint8_t *record,
                 size_t record_len, size_t room, const uint64_t *five, const uint8_t *is, size_t is_len) {
    list(siragumon_thin, name, n, marks, degree, system, len, record, record_len, room, five, is, is_len);
    if (five[SIRAGUMON_CODE] != SIRAGUMON_DONE && five[SIRAGUMON_CODE] != SIRAGUMON_FULL) return;
    siragumon_wire(n, marks, degree, system, len, record, record_len, NULL, 0, row + 1);
    judge_subsets(n, marks, degree, system, len, record, row[1 + SIRAGUMON_ORDER]);
    size_t found = by_verdicts.count;
    if (five[SIRAGUMON_CODE] == SIRAGUMON_FULL) {
        expect(room / SIRAGUMON_SET_BYTES < found, name, "full, where there is room for all");
        return;
    }
    expect(found == five[SIRAGUMON_COUNT] && holds(&out, by_verdicts.sets, SIRAGUMON_SET_BYTES * found), name, "another list than by verdicts");
    listed = out;
    for (size_t i = 0; i < found; i++) {
        cases++;
        lend(&out, 0, SIRAGUMON_WIRES_BYTES);
        siragumon_wire(n, marks, degree, system, len, bytes(&listed) + SIRAGUMON_SET_BYTES * i, SIRAGUMON_SET_BYTES, bytes(&out), out.len, row + 1);
        expect(row[1 + SIRAGUMON_CODE] == SIRAGUMON_DONE && row[1 + SIRAGUMON_ORDER] == five[SIRAGUMON_ORDER], name, "a listed set is not wired");
    }
}

/* Reads a text. Where it is done, wiring takes the set that came back, whatever the room, and never as not quadratic. */
static void read_text(const char *name, uint64_t n, uint64_t marks, uint64_t degree, const uint8_t *system, size_t len, const uint8_t *listing,
                      size_t listing_len, const uint64_t *five, const uint8_t *is, size_t is_len) {
    cases++;
    lend(&terms, system, len);
    lend(&text, listing, listing_len);
    lend(&set, 0, SIRAGUMON_SET_BYTES);
    lend_row();
    siragumon_read_listing(n, marks, degree, bytes(&terms), len, bytes(&text), listing_len, bytes(&set), row + 1);
    expect_row(name, five);
    expect(holds(&set, is, is_len), name, "another set");
    expect(guarded(&set) && guarded(&terms) && guarded(&text), name, "wrote beside the set");
    expect(unchanged(&terms, system) && unchanged(&text, listing), name, "changed what it read");
    if (five[SIRAGUMON_CODE] != SIRAGUMON_DONE) return;
    cases += 2;
    lend(&out, 0, SIRAGUMON_WIRES_BYTES);
    siragumon_wire(n, marks, degree, system, len, bytes(&set), SIRAGUMON_SET_BYTES, bytes(&out), out.len, row + 1);
    expect(row[1 + SIRAGUMON_CODE] == SIRAGUMON_DONE && row[1 + SIRAGUMON_ORDER] == five[SIRAGUMON_ORDER], name, "its set is not wired");
    expect(is_quadratic(n, marks, degree, system, len, bytes(&set)), name, "its set is not quadratic");
}

/* A refusal of the two that take a set, whatever is lent: the numbers, and a buffer of zeros. */
static void refused(const char *name, uint64_t n, uint64_t marks, uint64_t degree, const uint8_t *system, size_t len, const uint8_t *record,
                    size_t record_len, const uint64_t *five) {
    verdict(name, n, marks, degree, system, len, record, record_len, five);
    wire(name, n, marks, degree, system, len, record, record_len, 101, five, NO_BYTES);
    thin(name, n, marks, degree, system, len, record, record_len, 101, five, NO_BYTES);
}

/* A refusal of all four, of reading before it reads what is no listing. */
static void all_refuse(const char *name, uint64_t n, uint64_t marks, uint64_t degree, const uint8_t *system, size_t len, const uint8_t *record,
                       size_t record_len, const uint64_t *five) {
    plan(name, n, marks, degree, CAP, LIMIT, system, len, 101, five, NO_BYTES);
    refused(name, n, marks, degree, system, len, record, record_len, five);
    read_text(name, n, marks, degree, system, len, TEXT("?"), five, NO_BYTES);
}

/* Document 01's sums worked by hand. */
static void worked(void) {
    plan("no records", 1, NO_MARKS, FULL_KIT, CAP, LIMIT, NO_BYTES, ROOM, FIVE(0, 0, 1, 1, 0), BYTES(empty));
    plan("x'=x^2", 1, NO_MARKS, FULL_KIT, CAP, LIMIT, BYTES(x2), ROOM, FIVE(0, 0, 1, 1, 0), BYTES(empty));
    plan("x'=x^2, room 0", 1, NO_MARKS, FULL_KIT, CAP, LIMIT, BYTES(x2), SIRAGUMON_SET_BYTES - 1, FIVE(6, 0, 0, 1, 0), NO_BYTES);
    plan("x'=x^3", 1, NO_MARKS, FULL_KIT, CAP, LIMIT, BYTES(x3), ROOM, FIVE(0, 1, 1, 6, 0), BYTES(set_x2));
    plan("x'=x^3, cap 0", 1, NO_MARKS, FULL_KIT, 0, LIMIT, BYTES(x3), ROOM, FIVE(5, 1, 0, 1, 0), NO_BYTES);
    plan("x'=x^5, limit 7", 1, NO_MARKS, FULL_KIT, CAP, 7, BYTES(x5), ROOM, FIVE(0, 1, 1, 7, 0), BYTES(set_x4));
    plan("x'=x^5, limit 6", 1, NO_MARKS, FULL_KIT, CAP, 6, BYTES(x5), ROOM, FIVE(7, 1, 0, 6, 0), NO_BYTES);
    plan("x'=x^4+x^3", 1, NO_MARKS, FULL_KIT, CAP, LIMIT, BYTES(x4_x3), ROOM, FIVE(0, 2, 2, 23, 0), BYTES(both_sets));
    plan("x'=x^4+x^3, room 1", 1, NO_MARKS, FULL_KIT, CAP, LIMIT, BYTES(x4_x3), 2 * SIRAGUMON_SET_BYTES - 1, FIVE(6, 2, 0, 15, 0), NO_BYTES);
    plan("document 000", 2, NO_MARKS, FULL_KIT, CAP, LIMIT, BYTES(two), ROOM, FIVE(0, 2, 1, 23, 0), BYTES(set_squares));
    plan("two that cancel", 2, NO_MARKS, FULL_KIT, CAP, LIMIT, BYTES(cancelling), ROOM, FIVE(0, 1, 1, 8, 0), BYTES(set_x1x2));
    plan("x2 unfed", 2, NO_MARKS, FULL_KIT, CAP, LIMIT, BYTES(unfed), ROOM, FIVE(0, 1, 1, 8, 0), BYTES(set_x1x2));
    plan("six variables, five unused", 6, NO_MARKS, FULL_KIT, CAP, LIMIT, BYTES(x4_x3), ROOM, FIVE(0, 2, 2, 23, 0), BYTES(both_sets));

    static const uint8_t list[] = {1, 1, 3, 0, COEFFICIENT(1), 2, 2, 3, 0, COEFFICIENT(-1)};
    wire("two that cancel", 2, NO_MARKS, FULL_KIT, BYTES(cancelling), BYTES(set_x1x2), SIRAGUMON_WIRES_BYTES, FIVE(0, 1, 2, 0, 0), BYTES(list));
    wire("x'=x^4+x^3 of six", 6, NO_MARKS, FULL_KIT, BYTES(x4_x3), both_sets, SIRAGUMON_SET_BYTES, SIRAGUMON_WIRES_BYTES, FIVE(0, 2, 6, 0, 0),
         BYTES(first_wired));
    verdict("Rabinovich-Fabrikant", 3, NO_MARKS, FULL_KIT, BYTES(waves), BYTES(set_waves), FIVE(6, 3, 0, 0, 0));

    static const uint8_t one[] = {1, 0, 1, 0, COEFFICIENT(SIRAGUMON_COEFFICIENT_MOST)};
    wire("coefficient 1,000,000", 1, NO_MARKS, FULL_KIT, BYTES(coefficient_in), BYTES(empty), sizeof one, FIVE(0, 0, 1, 0, 0), BYTES(one));
    verdict("coefficient 1,000,000", 1, NO_MARKS, FULL_KIT, BYTES(coefficient_in), BYTES(empty), FIVE(6, 0, 0, 0, 0));
    refused("coefficient 1,000,001", 1, NO_MARKS, FULL_KIT, BYTES(coefficient_out), BYTES(empty), FIVE(3, 0, 0, 0, 1));
    verdict("exponent 9", 1, NO_MARKS, FULL_KIT, BYTES(exponent_in), BYTES(empty), FIVE(9, 0, 0, 0, 1));
    refused("exponent 10", 1, NO_MARKS, FULL_KIT, BYTES(exponent_out), BYTES(empty), FIVE(3, 0, 0, 0, 1));
    verdict("32 records", 6, NO_MARKS, FULL_KIT, many, SIRAGUMON_TERMS_BYTES, BYTES(empty), FIVE(6, 0, 0, 0, 0));
    plan("32 records", 6, NO_MARKS, FULL_KIT, CAP, LIMIT, many, SIRAGUMON_TERMS_BYTES, ROOM, FIVE(0, 0, 1, 1, 0), BYTES(empty));
    refused("33 records", 6, NO_MARKS, FULL_KIT, BYTES(many), BYTES(empty), FIVE(2, 0, 0, 0, 0));
    refused("x'=x twice", 1, NO_MARKS, FULL_KIT, BYTES(twice), BYTES(empty), FIVE(4, 0, 0, 0, 2));
}

/* The verdict does not hang on the room: full and done are quadratic, done into no room where the list is empty. */
static void verdicts(void) {
    verdict("x'=x^3", 1, NO_MARKS, FULL_KIT, BYTES(x3), BYTES(set_x2), FIVE(6, 1, 0, 0, 0));
    verdict("x'=x^4+x^3", 1, NO_MARKS, FULL_KIT, BYTES(x4_x3), both_sets, SIRAGUMON_SET_BYTES, FIVE(6, 2, 0, 0, 0));
    verdict("two that cancel", 2, NO_MARKS, FULL_KIT, BYTES(cancelling), BYTES(set_x1x2), FIVE(6, 1, 0, 0, 0));
    verdict("six cubes", 6, NO_MARKS, FULL_KIT, BYTES(cubes), BYTES(squares), FIVE(6, 6, 0, 0, 0));
    verdict("x^54", 1, NO_MARKS, FULL_KIT, BYTES(x1), BYTES(power_in), FIVE(6, 1, 0, 0, 0));

    verdict("no records", 1, NO_MARKS, FULL_KIT, NO_BYTES, BYTES(empty), FIVE(0, 0, 0, 0, 0));
    verdict("no records, a signal", 1, NO_MARKS, FULL_KIT, NO_BYTES, BYTES(set_x2), FIVE(0, 1, 0, 0, 0));
    verdict("no records, six signals", 6, NO_MARKS, FULL_KIT, NO_BYTES, BYTES(squares), FIVE(0, 6, 0, 0, 0));
    wire("no records, room for every list", 6, NO_MARKS, FULL_KIT, NO_BYTES, BYTES(squares), SIRAGUMON_WIRES_BYTES, FIVE(0, 6, 0, 0, 0), NO_BYTES);

    verdict("one signal too few", 1, NO_MARKS, FULL_KIT, BYTES(x4_x3), BYTES(set_x2), FIVE(9, 1, 0, 0, 2));
    wire("one signal too few, room for every list", 1, NO_MARKS, FULL_KIT, BYTES(x4_x3), BYTES(set_x2), SIRAGUMON_WIRES_BYTES, FIVE(9, 1, 0, 0, 2),
         NO_BYTES);
    /* the variable has a record and the new signal none: nothing of the list is left */
    wire("x'=x^4 with x^2, room for every list", 1, NO_MARKS, FULL_KIT, BYTES(x4), BYTES(set_x2), SIRAGUMON_WIRES_BYTES, FIVE(9, 1, 0, 0, 2),
         NO_BYTES);
    wire("x'=x^4 alone, room for every list", 1, NO_MARKS, FULL_KIT, BYTES(x4), BYTES(empty), SIRAGUMON_WIRES_BYTES, FIVE(9, 0, 0, 0, 1), NO_BYTES);
}

/* What can go from sets made by hand. */
static void thinned(void) {
    thin("x'=x^4+x^3 by hand", 1, NO_MARKS, FULL_KIT, BYTES(x4_x3), BYTES(by_hand), ROOM, FIVE(0, 2, 2, 8, 0), BYTES(both_sets));
    thin("x'=x^4+x^3 by hand, of six", 6, NO_MARKS, FULL_KIT, BYTES(x4_x3), BYTES(by_hand), ROOM, FIVE(0, 2, 2, 8, 0), BYTES(both_sets));
    wire("its first subset", 6, NO_MARKS, FULL_KIT, BYTES(x4_x3), bytes(&listed), SIRAGUMON_SET_BYTES, SIRAGUMON_WIRES_BYTES, FIVE(0, 2, 6, 0, 0),
         BYTES(first_wired));

    const uint8_t *two_powers = both_sets;
    size_t len = SIRAGUMON_SET_BYTES;
    thin("x'=x, all can go", 1, NO_MARKS, FULL_KIT, BYTES(x1), two_powers, len, ROOM, FIVE(0, 0, 1, 4, 0), BYTES(empty));
    thin("x'=x, 36 bytes", 1, NO_MARKS, FULL_KIT, BYTES(x1), two_powers, len, len, FIVE(0, 0, 1, 4, 0), BYTES(empty));
    thin("x'=x, 35 bytes", 1, NO_MARKS, FULL_KIT, BYTES(x1), two_powers, len, len - 1, FIVE(6, 0, 0, 4, 0), NO_BYTES);
    thin("x'=x, all six can go", 1, NO_MARKS, FULL_KIT, BYTES(x1), BYTES(six_powers), ROOM, FIVE(0, 0, 1, 64, 0), BYTES(empty));
    thin("no records", 1, NO_MARKS, FULL_KIT, NO_BYTES, BYTES(set_x2), ROOM, FIVE(0, 0, 1, 2, 0), BYTES(empty));
    thin("32 records", 6, NO_MARKS, FULL_KIT, many, SIRAGUMON_TERMS_BYTES, BYTES(set_x2), ROOM, FIVE(0, 0, 1, 2, 0), BYTES(empty));
    thin("the empty set", 1, NO_MARKS, FULL_KIT, BYTES(x2), BYTES(empty), ROOM, FIVE(0, 0, 1, 1, 0), BYTES(empty));
    thin("the empty set, 35 bytes", 1, NO_MARKS, FULL_KIT, BYTES(x2), BYTES(empty), len - 1, FIVE(6, 0, 0, 1, 0), NO_BYTES);

    thin("x'=x^3, none can go", 1, NO_MARKS, FULL_KIT, BYTES(x3), BYTES(set_x2), ROOM, FIVE(0, 1, 1, 2, 0), BYTES(set_x2));
    /* planning finds {x^4}, which is no subset */
    thin("x'=x^5, none can go", 1, NO_MARKS, FULL_KIT, BYTES(x5), BYTES(none_can_go), ROOM, FIVE(0, 3, 1, 8, 0), BYTES(none_can_go));
    thin("six cubes, none can go", 6, NO_MARKS, FULL_KIT, BYTES(cubes), BYTES(squares), ROOM, FIVE(0, 6, 1, 64, 0), BYTES(squares));

    thin("x'=x^4, five ways", 1, NO_MARKS, FULL_KIT, BYTES(x4), BYTES(five_ways), ROOM, FIVE(0, 3, 5, 64, 0), BYTES(ways));
    thin("x'=x^4, always enough", 1, NO_MARKS, FULL_KIT, BYTES(x4), BYTES(five_ways), SIRAGUMON_SUBSETS_BYTES, FIVE(0, 3, 5, 64, 0), BYTES(ways));
    thin("x'=x^4, 180 bytes", 1, NO_MARKS, FULL_KIT, BYTES(x4), BYTES(five_ways), sizeof ways, FIVE(0, 3, 5, 64, 0), BYTES(ways));
    thin("x'=x^4, 179 bytes", 1, NO_MARKS, FULL_KIT, BYTES(x4), BYTES(five_ways), sizeof ways - 1, FIVE(6, 3, 0, 64, 0), NO_BYTES);

    /* y^2, x*y and x^2 are also the set of Rabinovich-Fabrikant */
    thin("document 000", 2, NO_MARKS, FULL_KIT, BYTES(two), BYTES(set_waves), ROOM, FIVE(0, 2, 1, 8, 0), BYTES(set_squares));
    thin("two that cancel", 2, NO_MARKS, FULL_KIT, BYTES(cancelling), BYTES(set_x1x2_square), ROOM, FIVE(0, 1, 1, 4, 0), BYTES(set_x1x2));
    thin("Rabinovich-Fabrikant", 3, NO_MARKS, FULL_KIT, BYTES(waves), BYTES(set_waves_z2), ROOM, FIVE(0, 3, 1, 16, 0), BYTES(set_waves));
    thin("x^54", 1, NO_MARKS, FULL_KIT, BYTES(x1), BYTES(power_in), ROOM, FIVE(0, 0, 1, 2, 0), BYTES(empty));
}

/* Every refusal leaves zeros where junk was. */
static void refusals(void) {
    plan("n 0", 0, NO_MARKS, FULL_KIT, CAP, LIMIT, BYTES(x3), 101, FIVE(1, 0, 0, 0, 0), NO_BYTES);
    plan("n above the variables", SIRAGUMON_VARIABLES + 1, NO_MARKS, FULL_KIT, CAP, LIMIT, BYTES(x3), 101, FIVE(1, 0, 0, 0, 0), NO_BYTES);
    plan("n of 64 bits", UINT64_MAX, NO_MARKS, FULL_KIT, CAP, LIMIT, BYTES(x3), 101, FIVE(1, 0, 0, 0, 0), NO_BYTES);
    plan("cap above the cards", 1, NO_MARKS, FULL_KIT, SIRAGUMON_CARDS + 1, LIMIT, BYTES(x3), 101, FIVE(1, 0, 0, 0, 0), NO_BYTES);
    plan("cap of 64 bits", 1, NO_MARKS, FULL_KIT, (uint64_t)1 << 32, LIMIT, BYTES(x3), 101, FIVE(1, 0, 0, 0, 0), NO_BYTES);
    plan("limit 0", 1, NO_MARKS, FULL_KIT, CAP, 0, BYTES(x3), 101, FIVE(1, 0, 0, 0, 0), NO_BYTES);
    plan("limit 1,000,000,000", 1, NO_MARKS, FULL_KIT, CAP, SIRAGUMON_STEPS_MOST, BYTES(x3), 101, FIVE(0, 1, 1, 6, 0), BYTES(set_x2));
    plan("limit 1,000,000,001", 1, NO_MARKS, FULL_KIT, CAP, SIRAGUMON_STEPS_MOST + 1, BYTES(x3), 101, FIVE(1, 0, 0, 0, 0), NO_BYTES);
    plan("13 bytes", 1, NO_MARKS, FULL_KIT, CAP, LIMIT, x4_x3, SIRAGUMON_TERM_BYTES + 1, 101, FIVE(2, 0, 0, 0, 0), NO_BYTES);
    plan("33 records", 6, NO_MARKS, FULL_KIT, CAP, LIMIT, BYTES(many), 101, FIVE(2, 0, 0, 0, 0), NO_BYTES);
    plan("exponent 10", 1, NO_MARKS, FULL_KIT, CAP, LIMIT, BYTES(exponent_out), 101, FIVE(3, 0, 0, 0, 1), NO_BYTES);
    plan("equation 2 of 1", 1, NO_MARKS, FULL_KIT, CAP, LIMIT, BYTES(two), 101, FIVE(3, 0, 0, 0, 2), NO_BYTES);
    plan("x'=x twice", 1, NO_MARKS, FULL_KIT, CAP, LIMIT, BYTES(twice), 101, FIVE(4, 0, 0, 0, 2), NO_BYTES);
    plan("spent at once", 1, NO_MARKS, FULL_KIT, CAP, 1, BYTES(x3), 101, FIVE(7, 1, 0, 1, 0), NO_BYTES);

    refused("n 0", 0, NO_MARKS, FULL_KIT, BYTES(x3), BYTES(set_x2), FIVE(1, 0, 0, 0, 0));
    refused("n above the variables", SIRAGUMON_VARIABLES + 1, NO_MARKS, FULL_KIT, BYTES(x3), BYTES(set_x2), FIVE(1, 0, 0, 0, 0));
    refused("n of 64 bits", UINT64_MAX, NO_MARKS, FULL_KIT, BYTES(x3), BYTES(set_x2), FIVE(1, 0, 0, 0, 0));
    refused("n that is 1 in its low half", ((uint64_t)1 << 32) + 1, NO_MARKS, FULL_KIT, BYTES(x3), BYTES(set_x2), FIVE(1, 0, 0, 0, 0));
    refused("13 bytes", 1, NO_MARKS, FULL_KIT, x4_x3, SIRAGUMON_TERM_BYTES + 1, BYTES(set_x2), FIVE(2, 0, 0, 0, 0));
    refused("a set that lacks a byte", 1, NO_MARKS, FULL_KIT, BYTES(x3), set_x2, SIRAGUMON_SET_BYTES - 1, FIVE(2, 0, 0, 0, 0));
    refused("two sets", 1, NO_MARKS, FULL_KIT, BYTES(x3), BYTES(both_sets), FIVE(2, 0, 0, 0, 0));
    refused("a single variable", 1, NO_MARKS, FULL_KIT, BYTES(x3), BYTES(set_x1), FIVE(8, 0, 0, 0, 0));
    refused("a falling set", 1, NO_MARKS, FULL_KIT, BYTES(x3), BYTES(falling), FIVE(8, 0, 0, 0, 0));
    refused("x^55", 1, NO_MARKS, FULL_KIT, BYTES(x1), BYTES(power_out), FIVE(8, 0, 0, 0, 0));
    refused("a variable beyond n", 1, NO_MARKS, FULL_KIT, BYTES(x3), BYTES(set_x1x2), FIVE(8, 0, 0, 0, 0));
    refused("not quadratic", 1, NO_MARKS, FULL_KIT, BYTES(x4), BYTES(set_x2), FIVE(9, 1, 0, 0, 2));
    refused("not quadratic, of six", 6, NO_MARKS, FULL_KIT, BYTES(x4), BYTES(set_x2), FIVE(9, 1, 0, 0, 7));
    refused("not quadratic, the variable", 1, NO_MARKS, FULL_KIT, BYTES(x4), BYTES(empty), FIVE(9, 0, 0, 0, 1));

    /* The first that fails is the reply. */
    refused("n before the lengths", 0, NO_MARKS, FULL_KIT, x4_x3, SIRAGUMON_TERM_BYTES + 1, BYTES(both_sets), FIVE(1, 0, 0, 0, 0));
    refused("the set's length before the terms", 1, NO_MARKS, FULL_KIT, BYTES(exponent_out), set_x2, SIRAGUMON_SET_BYTES - 1, FIVE(2, 0, 0, 0, 0));
    refused("a term before the set", 1, NO_MARKS, FULL_KIT, BYTES(exponent_out), BYTES(set_x1), FIVE(3, 0, 0, 0, 1));
    refused("twice before the set", 1, NO_MARKS, FULL_KIT, BYTES(twice), BYTES(set_x1), FIVE(4, 0, 0, 0, 2));
    refused("twice before a later term", 1, NO_MARKS, FULL_KIT, BYTES(twice_then_out), BYTES(empty), FIVE(4, 0, 0, 0, 2));
    refused("a term before a later twice", 1, NO_MARKS, FULL_KIT, BYTES(out_then_twice), BYTES(empty), FIVE(3, 0, 0, 0, 2));
    refused("the set before what it makes", 1, NO_MARKS, FULL_KIT, BYTES(x4), BYTES(falling), FIVE(8, 0, 0, 0, 0));
    thin("not quadratic before no room", 1, NO_MARKS, FULL_KIT, BYTES(x4), BYTES(set_x2), 0, FIVE(9, 1, 0, 0, 2), NO_BYTES);
}

/* Buffers of every length: how many records fit, and zeros to the last byte. */
static void lengths(void) {
    static const uint8_t list[] = {1, 1, 2, 0, COEFFICIENT(1), 2, 2, 2, 0, COEFFICIENT(2)};
    for (size_t room = 0; room <= 80; room++) {
        if (room < SIRAGUMON_SET_BYTES)
            plan("x'=x^3, no room", 1, NO_MARKS, FULL_KIT, CAP, LIMIT, BYTES(x3), room, FIVE(6, 1, 0, 6, 0), NO_BYTES);
        else
            plan("x'=x^3, room", 1, NO_MARKS, FULL_KIT, CAP, LIMIT, BYTES(x3), room, FIVE(0, 1, 1, 6, 0), BYTES(set_x2));
        if (room < sizeof list)
            wire("x'=x^3, no room", 1, NO_MARKS, FULL_KIT, BYTES(x3), BYTES(set_x2), room, FIVE(6, 1, 0, 0, 0), NO_BYTES);
        else
            wire("x'=x^3, room", 1, NO_MARKS, FULL_KIT, BYTES(x3), BYTES(set_x2), room, FIVE(0, 1, 2, 0, 0), BYTES(list));
        if (room < sizeof both_sets)
            thin("x'=x^4+x^3 by hand, no room", 1, NO_MARKS, FULL_KIT, BYTES(x4_x3), BYTES(by_hand), room, FIVE(6, 2, 0, 8, 0), NO_BYTES);
        else
            thin("x'=x^4+x^3 by hand, room", 1, NO_MARKS, FULL_KIT, BYTES(x4_x3), BYTES(by_hand), room, FIVE(0, 2, 2, 8, 0), BYTES(both_sets));
    }
    plan("x'=x^4+x^3, room 2", 1, NO_MARKS, FULL_KIT, CAP, LIMIT, BYTES(x4_x3), 2 * SIRAGUMON_SET_BYTES, FIVE(0, 2, 2, 23, 0), BYTES(both_sets));

    static const uint8_t six[] = {
        1, 0, 2, 0, COEFFICIENT(1), 1, 0, 3, 0, COEFFICIENT(1), 2, 1, 3, 0, COEFFICIENT(3),
        2, 2, 2, 0, COEFFICIENT(3), 3, 2, 2, 0, COEFFICIENT(4), 3, 2, 3, 0, COEFFICIENT(4),
    };
    const uint8_t *second = both_sets + SIRAGUMON_SET_BYTES;
    size_t len = SIRAGUMON_SET_BYTES;
    wire("{x^3, x^4}, 47 bytes", 1, NO_MARKS, FULL_KIT, BYTES(x4_x3), second, len, sizeof six - 1, FIVE(6, 2, 0, 0, 0), NO_BYTES);
    wire("{x^3, x^4}, 48 bytes", 1, NO_MARKS, FULL_KIT, BYTES(x4_x3), second, len, sizeof six, FIVE(0, 2, 6, 0, 0), BYTES(six));
}

/* Where the length is 0, NULL will do. A signal from outside that no term contains changes only the numbers of the new
   signals, which come after the n variables. */
static void null(uint64_t n, uint64_t marks) {
    cases += 9;
    lend_row();
    siragumon_plan(n, marks, FULL_KIT, CAP, LIMIT, NULL, 0, NULL, 0, row + 1);
    expect_row("NULL terms and buffer", FIVE(6, 0, 0, 1, 0));
    lend_row();
    siragumon_plan(n, marks, FULL_KIT, CAP, LIMIT, x3, sizeof x3, NULL, 0, row + 1);
    expect_row("NULL buffer", FIVE(6, 1, 0, 6, 0));
    lend_row();
    siragumon_wire(n, marks, FULL_KIT, NULL, 0, NULL, 0, NULL, 0, row + 1);
    expect_row("NULL set", FIVE(2, 0, 0, 0, 0));
    lend_row();
    siragumon_wire(n, marks, FULL_KIT, NULL, 0, empty, sizeof empty, NULL, 0, row + 1);
    expect_row("an empty list into NULL", FIVE(0, 0, 0, 0, 0));
    lend_row();
    siragumon_wire(n, marks, FULL_KIT, x3, sizeof x3, set_x2, sizeof set_x2, NULL, 0, row + 1);
    expect_row("a list into NULL", FIVE(6, 1, 0, 0, 0));
    lend_row();
    siragumon_wire(n, marks, FULL_KIT, x4, sizeof x4, set_x2, sizeof set_x2, NULL, 0, row + 1);
    expect_row("no list into NULL", FIVE(9, 1, 0, 0, n + 1));
    lend_row();
    siragumon_thin(n, marks, FULL_KIT, NULL, 0, empty, sizeof empty, NULL, 0, row + 1);
    expect_row("the empty set, thinned into NULL", FIVE(6, 0, 0, 1, 0));
    lend_row();
    siragumon_thin(n, marks, FULL_KIT, x4_x3, sizeof x4_x3, by_hand, sizeof by_hand, NULL, 0, row + 1);
    expect_row("subsets into NULL", FIVE(6, 2, 0, 8, 0));
    lend_row();
    siragumon_thin(n, marks, FULL_KIT, NULL, 0, NULL, 0, NULL, 0, row + 1);
    expect_row("NULL set, thinned", FIVE(2, 0, 0, 0, 0));
}

/* Signals fed from outside: what is found, wired and thinned with them. */
static void outside(void) {
    /* With u a knob, document 01 finds {x1 u}; with u a signal there is no set of any size. */
    static const uint64_t steps[] = {1, 6, 16, 32, 55, 86, 126};
    for (uint64_t cap = 0; cap <= SIRAGUMON_CARDS; cap++)
        plan("x1'=x1^2 u", 2, MARK(2), FULL_KIT, cap, LIMIT, BYTES(unfed), ROOM, FIVE(5, cap + 1, 0, steps[cap], 0), NO_BYTES);
    plan("x1'=x1^2 u, limit 126", 2, MARK(2), FULL_KIT, CAP, 126, BYTES(unfed), ROOM, FIVE(5, 7, 0, 126, 0), NO_BYTES);
    plan("x1'=x1^2 u, limit 125", 2, MARK(2), FULL_KIT, CAP, 125, BYTES(unfed), ROOM, FIVE(7, 6, 0, 125, 0), NO_BYTES);

    size_t len = SIRAGUMON_SET_BYTES;
    plan("Example 5.3", 3, MARK(3), FULL_KIT, CAP, LIMIT, BYTES(example_5_3), ROOM, FIVE(0, 1, 1, 6, 0), BYTES(set_x2));
    plan("Example 5.3, limit 6", 3, MARK(3), FULL_KIT, CAP, 6, BYTES(example_5_3), ROOM, FIVE(0, 1, 1, 6, 0), BYTES(set_x2));
    plan("Example 5.3, limit 5", 3, MARK(3), FULL_KIT, CAP, 5, BYTES(example_5_3), ROOM, FIVE(7, 1, 0, 5, 0), NO_BYTES);
    plan("Example 5.3, 36 bytes", 3, MARK(3), FULL_KIT, CAP, LIMIT, BYTES(example_5_3), len, FIVE(0, 1, 1, 6, 0), BYTES(set_x2));
    plan("Example 5.3, 35 bytes", 3, MARK(3), FULL_KIT, CAP, LIMIT, BYTES(example_5_3), len - 1, FIVE(6, 1, 0, 5, 0), NO_BYTES);
    static const uint8_t as_knob[3 * SIRAGUMON_SET_BYTES] = {
        [X(1, 0)] = 1,
        [X(3, 0)] = 1,
        [SIRAGUMON_SET_BYTES + X(1, 0)] = 2,
        [2 * SIRAGUMON_SET_BYTES + X(1, 0)] = 2,
        [2 * SIRAGUMON_SET_BYTES + X(3, 0)] = 1,
    };
    plan("Example 5.3, u a knob", 3, NO_MARKS, FULL_KIT, CAP, LIMIT, BYTES(example_5_3), ROOM, FIVE(0, 1, 3, 8, 0), BYTES(as_knob));
    plan("x1'=x1^3+u x1", 2, MARK(2), FULL_KIT, CAP, LIMIT, BYTES(x3_ux), ROOM, FIVE(0, 1, 1, 6, 0), BYTES(set_x2));
    plan("x1'=x1^3+u^2 x1", 2, MARK(2), FULL_KIT, CAP, LIMIT, BYTES(x3_uux), ROOM, FIVE(5, 7, 0, 55, 0), NO_BYTES);
    plan("a knob and a signal", 3, MARK(3), FULL_KIT, CAP, LIMIT, BYTES(knob_and_u), ROOM, FIVE(0, 1, 1, 8, 0), BYTES(set_x1x2));
    plan("a product with a signal", 4, MARK(3), FULL_KIT, CAP, LIMIT, BYTES(product), ROOM, FIVE(0, 1, 1, 7, 0), BYTES(set_x1x2));
    plan("a product with two", 4, MARK(2) | MARK(3), FULL_KIT, CAP, LIMIT, BYTES(product), ROOM, FIVE(5, 7, 0, 31, 0), NO_BYTES);
    plan("signals alone", 3, MARK(1) | MARK(2) | MARK(3), FULL_KIT, CAP, LIMIT, NO_BYTES, ROOM, FIVE(0, 0, 1, 1, 0), BYTES(empty));
    uint64_t unused = MARK(2) | MARK(3) | MARK(4) | MARK(5) | MARK(6);
    plan("signals that no term contains", 6, unused, FULL_KIT, CAP, LIMIT, BYTES(x4_x3), ROOM, FIVE(0, 2, 2, 23, 0), BYTES(both_sets));

    /* nothing is listed for signal 3, which is u */
    static const uint8_t list[] = {
        1, 0, 1, 0, COEFFICIENT(1), 1, 1, 3, 0, COEFFICIENT(1), 2, 3, 4, 0, COEFFICIENT(1),
        4, 0, 4, 0, COEFFICIENT(2), 4, 3, 4, 0, COEFFICIENT(2),
    };
    wire("Example 5.3", 3, MARK(3), FULL_KIT, BYTES(example_5_3), BYTES(set_x2), SIRAGUMON_WIRES_BYTES, FIVE(0, 1, 5, 0, 0), BYTES(list));
    wire("Example 5.3, 40 bytes", 3, MARK(3), FULL_KIT, BYTES(example_5_3), BYTES(set_x2), sizeof list, FIVE(0, 1, 5, 0, 0), BYTES(list));
    wire("Example 5.3, 39 bytes", 3, MARK(3), FULL_KIT, BYTES(example_5_3), BYTES(set_x2), sizeof list - 1, FIVE(6, 1, 0, 0, 0), NO_BYTES);
    verdict("Example 5.3", 3, MARK(3), FULL_KIT, BYTES(example_5_3), BYTES(set_x2), FIVE(6, 1, 0, 0, 0));
    verdict("signals alone", 3, MARK(1) | MARK(2) | MARK(3), FULL_KIT, NO_BYTES, BYTES(empty), FIVE(0, 0, 0, 0, 0));
    wire("the same list, signals unused", 6, unused, FULL_KIT, BYTES(x4_x3), both_sets, len, SIRAGUMON_WIRES_BYTES, FIVE(0, 2, 6, 0, 0),
         BYTES(first_wired));

    thin("Example 5.3", 3, MARK(3), FULL_KIT, BYTES(example_5_3), BYTES(by_hand), ROOM, FIVE(0, 1, 1, 8, 0), BYTES(set_x2));
    thin("Example 5.3, 36 bytes", 3, MARK(3), FULL_KIT, BYTES(example_5_3), BYTES(by_hand), len, FIVE(0, 1, 1, 8, 0), BYTES(set_x2));
    thin("Example 5.3, 35 bytes", 3, MARK(3), FULL_KIT, BYTES(example_5_3), BYTES(by_hand), len - 1, FIVE(6, 1, 0, 8, 0), NO_BYTES);
    thin("a product with a signal", 4, MARK(3), FULL_KIT, BYTES(product), BYTES(set_waves), ROOM, FIVE(0, 1, 1, 8, 0), BYTES(set_x1x2));
    thin("signals alone", 3, MARK(1) | MARK(2) | MARK(3), FULL_KIT, NO_BYTES, BYTES(empty), ROOM, FIVE(0, 0, 1, 1, 0), BYTES(empty));
    thin("signals that no term contains", 6, unused, FULL_KIT, BYTES(x4_x3), BYTES(by_hand), ROOM, FIVE(0, 2, 2, 8, 0), BYTES(both_sets));
}

/* Sets that need more new signals than there are cards are closed: the same sets in fewer steps. */
static void closing(void) {
    static const uint8_t fabrikant[] = {
        TERM(1, 0, 1, 1, 1), TERM(1, 0, 1, 0, -1), TERM(1, 2, 1, 0, 1), TERM(1, 1, 0, 0, 1), TERM(2, 1, 0, 1, 3),
        TERM(2, 1, 0, 0, 1), TERM(2, 3, 0, 0, -1), TERM(2, 0, 1, 0, 1), TERM(3, 0, 0, 1, -2), TERM(3, 1, 1, 1, -2),
    };
    static const uint8_t fabrikant_set[SIRAGUMON_SET_BYTES] = {0, 2, 0, 0, 0, 0, 1, 1, 0, 0, 0, 0, 2, 0, 0, 0, 0, 0};
    plan("Rabinovich-Fabrikant", 3, NO_MARKS, FULL_KIT, CAP, 70, BYTES(fabrikant), ROOM, FIVE(0, 3, 1, 70, 0), BYTES(fabrikant_set));
    plan("Rabinovich-Fabrikant, limit 69", 3, NO_MARKS, FULL_KIT, CAP, 69, BYTES(fabrikant), ROOM, FIVE(7, 3, 0, 69, 0), NO_BYTES);

    static const uint8_t two_powers[] = {TERM(1, 4, 0, 0, 1), TERM(1, 2, 3, 0, 1), TERM(2, 3, 1, 0, 1)};
    static const uint8_t two_powers_set[SIRAGUMON_SET_BYTES] = {1, 3, 0, 0, 0, 0, 3, 0, 0, 0, 0, 0};
    plan("x1^4+x1^2 x2^3, x1^3 x2", 2, NO_MARKS, FULL_KIT, CAP, 24, BYTES(two_powers), ROOM, FIVE(0, 2, 1, 24, 0), BYTES(two_powers_set));
    plan("the same, limit 23", 2, NO_MARKS, FULL_KIT, CAP, 23, BYTES(two_powers), ROOM, FIVE(7, 2, 0, 23, 0), NO_BYTES);
    plan("the same, no room", 2, NO_MARKS, FULL_KIT, CAP, LIMIT, BYTES(two_powers), 35, FIVE(6, 2, 0, 19, 0), NO_BYTES);

    /* the pairs that add a single monomial come first: full sooner, and where it was spent */
    static const uint8_t example_3[] = {TERM(1, 0, 4, 0, 1), TERM(2, 2, 0, 0, 1)};
    plan("Example 3, no room", 2, NO_MARKS, FULL_KIT, CAP, LIMIT, BYTES(example_3), 35, FIVE(6, 3, 0, 107, 0), NO_BYTES);
    plan("the same, limit 107", 2, NO_MARKS, FULL_KIT, CAP, 107, BYTES(example_3), 35, FIVE(6, 3, 0, 107, 0), NO_BYTES);
    plan("the same, limit 106", 2, NO_MARKS, FULL_KIT, CAP, 106, BYTES(example_3), 35, FIVE(7, 3, 0, 106, 0), NO_BYTES);
    static const uint8_t ninths[] = {TERM(1, 9, 9, 0, 1)};
    plan("x1^9 x2^9, no room", 2, NO_MARKS, FULL_KIT, CAP, LIMIT, BYTES(ninths), 35, FIVE(6, 1, 0, 8, 0), NO_BYTES);
    plan("the same, limit 54", 2, NO_MARKS, FULL_KIT, CAP, 54, BYTES(ninths), 36, FIVE(7, 1, 0, 54, 0), NO_BYTES);
    /* the last pair is one of equal factors, and cheap: so it comes before the rest */
    static const uint8_t eighths[] = {TERM(1, 0, 8, 8, 1)};
    plan("x2^8 x3^8, room 3", 3, NO_MARKS, FULL_KIT, CAP, LIMIT, BYTES(eighths), 108, FIVE(6, 1, 0, 10, 0), NO_BYTES);
    plan("the same, limit 9", 3, NO_MARKS, FULL_KIT, CAP, 9, BYTES(eighths), 108, FIVE(7, 1, 0, 9, 0), NO_BYTES);

    /* more than 1,000,000 steps where nothing is closed */
    static const uint8_t three[] = {
        TERM(1, 3, 6, 3, 2), TERM(1, 4, 7, 7, 2), TERM(2, 1, 6, 5, 1), TERM(2, 0, 6, 4, 3), TERM(3, 5, 1, 2, -2), TERM(3, 7, 2, 6, 1),
    };
    static const uint8_t three_set[SIRAGUMON_SET_BYTES] = {
        0, 5, 4, 0, 0, 0, 1, 5, 5, 0, 0, 0, 2, 6, 3, 0, 0, 0, 3, 7, 7, 0, 0, 0, 5, 1, 1, 0, 0, 0, 7, 2, 5, 0, 0, 0,
    };
    plan("three variables", 3, NO_MARKS, FULL_KIT, CAP, 16230, BYTES(three), ROOM, FIVE(0, 6, 1, 16230, 0), BYTES(three_set));
    plan("three variables, limit 16,229", 3, NO_MARKS, FULL_KIT, CAP, 16229, BYTES(three), ROOM, FIVE(7, 6, 0, 16229, 0), NO_BYTES);
}

static void outside_refused(void) {
    all_refuse("a mark for each bit", 6, UINT64_MAX, FULL_KIT, BYTES(x3), BYTES(set_x2), FIVE(1, 0, 0, 0, 0));
    all_refuse("one mark of two beyond xn", 2, MARK(2) | MARK(3), FULL_KIT, BYTES(x3_ux), BYTES(set_x2), FIVE(1, 0, 0, 0, 0));
    all_refuse("13 bytes", 2, MARK(2), FULL_KIT, x4_x3, SIRAGUMON_TERM_BYTES + 1, BYTES(set_x2), FIVE(2, 0, 0, 0, 0));
    refused("two sets", 2, MARK(2), FULL_KIT, BYTES(x3), BYTES(both_sets), FIVE(2, 0, 0, 0, 0));
    all_refuse("the third record is a signal's", 2, MARK(2), FULL_KIT, BYTES(two), BYTES(set_squares), FIVE(3, 0, 0, 0, 3));
    all_refuse("x'=x twice", 2, MARK(2), FULL_KIT, BYTES(twice), BYTES(set_x2), FIVE(4, 0, 0, 0, 2));
    refused("a signal in the last monomial", 3, MARK(3), FULL_KIT, BYTES(example_5_3), BYTES(u_in_last), FIVE(8, 0, 0, 0, 0));
    refused("Example 5.3 alone", 3, MARK(3), FULL_KIT, BYTES(example_5_3), BYTES(empty), FIVE(9, 0, 0, 0, 2));
    refused("a signal before the variable", 6, MARK(1), FULL_KIT, cubes + SIRAGUMON_TERM_BYTES, SIRAGUMON_TERM_BYTES, BYTES(empty),
            FIVE(9, 0, 0, 0, 2));

    /* The first that fails is the reply. */
    all_refuse("a mark before the lengths", 2, MARK(3), FULL_KIT, x4_x3, SIRAGUMON_TERM_BYTES + 1, BYTES(both_sets), FIVE(1, 0, 0, 0, 0));
    refused("the set's length before a signal's record", 2, MARK(1), FULL_KIT, BYTES(x3), set_x2, SIRAGUMON_SET_BYTES - 1, FIVE(2, 0, 0, 0, 0));
    all_refuse("a signal's record before a later twice", 2, MARK(2), FULL_KIT, BYTES(u_then_twice), BYTES(empty), FIVE(3, 0, 0, 0, 2));
    all_refuse("twice before a later record of a signal", 2, MARK(2), FULL_KIT, BYTES(twice_then_u), BYTES(empty), FIVE(4, 0, 0, 0, 2));
    refused("a signal's record before a signal in the set", 2, MARK(1), FULL_KIT, BYTES(x3), BYTES(set_x2), FIVE(3, 0, 0, 0, 1));
    refused("twice before a signal in the set", 2, MARK(2), FULL_KIT, BYTES(twice), BYTES(set_x1x2), FIVE(4, 0, 0, 0, 2));
    refused("a signal in the set before what the set makes", 2, MARK(2), FULL_KIT, BYTES(x3_ux), BYTES(set_x1x2), FIVE(8, 0, 0, 0, 0));
}

/* All marks for each n: each is its own variable's and no other's, and none stands beyond xn. The record is xi' = xi, the
   set {xi^2}. */
static void all_marks(void) {
    for (unsigned n = 1; n <= SIRAGUMON_VARIABLES; n++) {
        for (unsigned beyond = n + 1; beyond <= 64; beyond++)
            all_refuse("a mark beyond xn", n, MARK(beyond), FULL_KIT, BYTES(x1), BYTES(set_x2), FIVE(1, 0, 0, 0, 0));
        for (unsigned i = 1; i <= n; i++) {
            uint8_t linear[SIRAGUMON_TERM_BYTES], square[SIRAGUMON_SET_BYTES] = {0};
            power(linear, i, 1);
            square[X(i, 0)] = 2;
            for (uint64_t marks = NO_MARKS; marks < MARK(n + 1); marks++) {
                if (marks & MARK(i)) {
                    all_refuse("a signal's record", n, marks, FULL_KIT, BYTES(linear), BYTES(empty), FIVE(3, 0, 0, 0, 1));
                    refused("a signal in the set", n, marks, FULL_KIT, NO_BYTES, BYTES(square), FIVE(8, 0, 0, 0, 0));
                } else {
                    plan("no signal's record", n, marks, FULL_KIT, CAP, LIMIT, BYTES(linear), ROOM, FIVE(0, 0, 1, 1, 0), BYTES(empty));
                    verdict("no signal in the set", n, marks, FULL_KIT, BYTES(linear), BYTES(square), FIVE(6, 1, 0, 0, 0));
                    thin("no signal in the set", n, marks, FULL_KIT, BYTES(linear), BYTES(square), ROOM, FIVE(0, 0, 1, 2, 0), BYTES(empty));
                }
            }
        }
    }
}

/* Kits with a limit on the total degree of a new signal: what is found, wired and thinned within it. */
static void junior(void) {
    size_t len = SIRAGUMON_SET_BYTES;
    plan("x'=x^4+x^3, degree 2", 1, NO_MARKS, 2, CAP, LIMIT, BYTES(x4_x3), ROOM, FIVE(5, 7, 0, 40, 0), NO_BYTES);
    plan("x'=x^4+x^3, degree 3", 1, NO_MARKS, 3, CAP, LIMIT, BYTES(x4_x3), ROOM, FIVE(0, 2, 1, 19, 0), both_sets, len);
    plan("x'=x^4+x^3, degree 4", 1, NO_MARKS, 4, CAP, LIMIT, BYTES(x4_x3), ROOM, FIVE(0, 2, 2, 21, 0), BYTES(both_sets));
    for (uint64_t degree = 5; degree <= SIRAGUMON_JUNIOR_MOST; degree++)
        plan("x'=x^4+x^3, degree 5 and more", 1, NO_MARKS, degree, CAP, LIMIT, BYTES(x4_x3), ROOM, FIVE(0, 2, 2, 23, 0), BYTES(both_sets));
    plan("x'=x^4+x^3, the full kit", 1, NO_MARKS, FULL_KIT, CAP, LIMIT, BYTES(x4_x3), ROOM, FIVE(0, 2, 2, 23, 0), BYTES(both_sets));
    plan("x'=x^5, degree 3", 1, NO_MARKS, 3, CAP, LIMIT, BYTES(x5), ROOM, FIVE(5, 7, 0, 46, 0), NO_BYTES);
    plan("x'=x^5, degree 4", 1, NO_MARKS, 4, CAP, LIMIT, BYTES(x5), ROOM, FIVE(0, 1, 1, 6, 0), BYTES(set_x4));

    /* none, spent and full within a kit */
    plan("x'=x^4+x^3, degree 2, limit 40", 1, NO_MARKS, 2, CAP, 40, BYTES(x4_x3), ROOM, FIVE(5, 7, 0, 40, 0), NO_BYTES);
    plan("x'=x^4+x^3, degree 2, limit 39", 1, NO_MARKS, 2, CAP, 39, BYTES(x4_x3), ROOM, FIVE(7, 6, 0, 39, 0), NO_BYTES);
    plan("x'=x^4+x^3, degree 3, cap 1", 1, NO_MARKS, 3, 1, LIMIT, BYTES(x4_x3), ROOM, FIVE(5, 2, 0, 6, 0), NO_BYTES);
    plan("x'=x^4+x^3, degree 3, room 1", 1, NO_MARKS, 3, CAP, LIMIT, BYTES(x4_x3), len, FIVE(0, 2, 1, 19, 0), both_sets, len);
    plan("x'=x^4+x^3, degree 4, room 1", 1, NO_MARKS, 4, CAP, LIMIT, BYTES(x4_x3), len, FIVE(6, 2, 0, 14, 0), NO_BYTES);
    plan("x'=x^5, degree 4, limit 5", 1, NO_MARKS, 4, CAP, 5, BYTES(x5), ROOM, FIVE(7, 1, 0, 5, 0), NO_BYTES);

    /* One new signal will do where it may be x1^8. Below that it takes two that multiply to x1^9, and no two do where both
       are below x1^5. */
    static const uint8_t pairs[3 * SIRAGUMON_SET_BYTES] = {WAY(0, 2, 7, 0), WAY(1, 3, 6, 0), WAY(2, 4, 5, 0)};
    static const uint8_t powers[2 * SIRAGUMON_SET_BYTES] = {WAY(0, 8, 0, 0), WAY(1, 9, 0, 0)};
    static const struct {
        uint64_t degree, five[SIRAGUMON_NUMBERS];
        const uint8_t *sets;
    } kits[] = {
        {2, {5, 7, 0, 37, 0}, 0},
        {3, {5, 7, 0, 37, 0}, 0},
        {4, {5, 7, 0, 37, 0}, 0},
        {5, {0, 2, 1, 14, 0}, pairs + 2 * SIRAGUMON_SET_BYTES},
        {6, {0, 2, 2, 15, 0}, pairs + SIRAGUMON_SET_BYTES},
        {7, {0, 2, 3, 16, 0}, pairs},
        {8, {0, 1, 1, 8, 0}, powers},
        {9, {0, 1, 2, 9, 0}, powers},
        {FULL_KIT, {0, 1, 2, 9, 0}, powers},
    };
    for (size_t i = 0; i < sizeof kits / sizeof *kits; i++)
        plan("x2'=x1^9", 2, NO_MARKS, kits[i].degree, CAP, LIMIT, BYTES(x2_x9), ROOM, kits[i].five, kits[i].sets,
             len * kits[i].five[SIRAGUMON_COUNT]);

    /* Counting leaves out the quotients above the kit's limit: with them the steps would be 70, 149 and 278. */
    plan("x'=x^9, degree 5", 1, NO_MARKS, 5, CAP, LIMIT, BYTES(exponent_in), ROOM, FIVE(5, 7, 0, 63, 0), NO_BYTES);
    plan("x'=x^9, degree 6", 1, NO_MARKS, 6, CAP, LIMIT, BYTES(exponent_in), ROOM, FIVE(5, 7, 0, 127, 0), NO_BYTES);
    plan("x1'=x1^3 x2^2, degree 3", 2, NO_MARKS, 3, CAP, LIMIT, BYTES(square_of_product), ROOM, FIVE(5, 7, 0, 240, 0), NO_BYTES);

    /* the total degree of several variables, and signals fed from outside */
    plan("x1'=x1^3 x2^2, degree 4", 2, NO_MARKS, 4, CAP, LIMIT, BYTES(square_of_product), ROOM, FIVE(0, 1, 1, 10, 0), BYTES(set_square_of_product));
    plan("x1'=x1^2 x2 u, degree 2", 3, MARK(3), 2, CAP, LIMIT, BYTES(three_factors), ROOM, FIVE(5, 7, 0, 43, 0), NO_BYTES);
    plan("x1'=x1^2 x2 u, degree 3", 3, MARK(3), 3, CAP, LIMIT, BYTES(three_factors), ROOM, FIVE(5, 7, 0, 109, 0), NO_BYTES);
    plan("Example 5.3, degree 2", 3, MARK(3), 2, CAP, LIMIT, BYTES(example_5_3), ROOM, FIVE(0, 1, 1, 6, 0), BYTES(set_x2));

    static const uint8_t list[] = {1, 1, 2, 0, COEFFICIENT(1), 2, 2, 2, 0, COEFFICIENT(4)};
    wire("x'=x^5, degree 4", 1, NO_MARKS, 4, BYTES(x5), BYTES(set_x4), SIRAGUMON_WIRES_BYTES, FIVE(0, 1, 2, 0, 0), BYTES(list));
    verdict("x'=x^5, degree 4", 1, NO_MARKS, 4, BYTES(x5), BYTES(set_x4), FIVE(6, 1, 0, 0, 0));
    verdict("x1'=x1^3 x2^2, degree 4", 2, NO_MARKS, 4, BYTES(square_of_product), BYTES(set_square_of_product), FIVE(6, 1, 0, 0, 0));
    thin("x'=x^4+x^3 by hand, degree 4", 1, NO_MARKS, 4, BYTES(x4_x3), BYTES(by_hand), ROOM, FIVE(0, 2, 2, 8, 0), BYTES(both_sets));
    thin("x1'=x1^3 x2^2, degree 4", 2, NO_MARKS, 4, BYTES(square_of_product), BYTES(set_square_of_product), ROOM, FIVE(0, 1, 1, 2, 0),
         BYTES(set_square_of_product));
    /* the terms may be above it */
    verdict("x'=x^9, degree 2", 1, NO_MARKS, 2, BYTES(exponent_in), BYTES(empty), FIVE(9, 0, 0, 0, 1));
}

static void junior_refused(void) {
    uint64_t high = (uint64_t)1 << 32;
    all_refuse("degree of 64 bits", 1, NO_MARKS, UINT64_MAX, BYTES(x3), BYTES(set_x2), FIVE(1, 0, 0, 0, 0));
    all_refuse("degree that is 4 in its low half", 1, NO_MARKS, high + 4, BYTES(x3), BYTES(set_x2), FIVE(1, 0, 0, 0, 0));
    all_refuse("degree that is the full kit's in its low half", 1, NO_MARKS, high + FULL_KIT, BYTES(x3), BYTES(set_x2), FIVE(1, 0, 0, 0, 0));
    refused("x^4, degree 3", 1, NO_MARKS, 3, BYTES(x5), BYTES(set_x4), FIVE(8, 0, 0, 0, 0));
    refused("x1^2 x2^2, degree 3", 2, NO_MARKS, 3, BYTES(square_of_product), BYTES(set_square_of_product), FIVE(8, 0, 0, 0, 0));
    refused("the last of three, degree 3", 1, NO_MARKS, 3, BYTES(x4_x3), BYTES(by_hand), FIVE(8, 0, 0, 0, 0));
    refused("all variables, degree 9", 6, NO_MARKS, 9, NO_BYTES, BYTES(highest), FIVE(8, 0, 0, 0, 0));

    /* The first that fails is the reply. */
    all_refuse("degree before the lengths", 1, NO_MARKS, 10, x4_x3, SIRAGUMON_TERM_BYTES + 1, BYTES(both_sets), FIVE(1, 0, 0, 0, 0));
    refused("the set's length before what is in it", 1, NO_MARKS, 3, BYTES(x5), set_x4, SIRAGUMON_SET_BYTES - 1, FIVE(2, 0, 0, 0, 0));
    refused("a term before a set above degree 3", 1, NO_MARKS, 3, BYTES(exponent_out), BYTES(set_x4), FIVE(3, 0, 0, 0, 1));
    refused("twice before a set above degree 3", 1, NO_MARKS, 3, BYTES(twice), BYTES(set_x4), FIVE(4, 0, 0, 0, 2));
    refused("a set above degree 3 before what it makes", 1, NO_MARKS, 3, BYTES(x4), BYTES(set_x4), FIVE(8, 0, 0, 0, 0));
    refused("the same within degree 4", 1, NO_MARKS, 4, BYTES(x4), BYTES(set_x4), FIVE(9, 1, 0, 0, 2));
}

/* Each number up to one above the full kit's limit: a kit's or not. The sets of a junior kit hold each product of two
   variables' powers up to its limit, and none above it. */
static void all_degrees(void) {
    for (uint64_t degree = 0; degree <= SIRAGUMON_FULL_DEGREE + 1; degree++) {
        if (degree == FULL_KIT) {
            verdict("the highest powers", 6, NO_MARKS, degree, NO_BYTES, BYTES(highest), FIVE(0, 1, 0, 0, 0));
            thin("the highest powers", 6, NO_MARKS, degree, NO_BYTES, BYTES(highest), ROOM, FIVE(0, 0, 1, 2, 0), BYTES(empty));
            continue;
        }
        if (degree < SIRAGUMON_JUNIOR_LEAST || SIRAGUMON_JUNIOR_MOST < degree) {
            all_refuse("no kit's limit", 1, NO_MARKS, degree, BYTES(x3), BYTES(set_x2), FIVE(1, 0, 0, 0, 0));
            continue;
        }
        for (unsigned i = 1; i <= SIRAGUMON_VARIABLES; i++) {
            for (unsigned j = 1; j <= SIRAGUMON_VARIABLES; j++) {
                uint8_t within[SIRAGUMON_SET_BYTES] = {0}, above[SIRAGUMON_SET_BYTES] = {0};
                within[X(i, 0)] = (uint8_t)(degree - 1);
                within[X(j, 0)]++;
                above[X(i, 0)] = (uint8_t)degree;
                above[X(j, 0)]++;
                verdict("at the limit", 6, NO_MARKS, degree, NO_BYTES, BYTES(within), FIVE(0, 1, 0, 0, 0));
                thin("at the limit", 6, NO_MARKS, degree, NO_BYTES, BYTES(within), ROOM, FIVE(0, 0, 1, 2, 0), BYTES(empty));
                refused("above the limit", 6, NO_MARKS, degree, NO_BYTES, BYTES(above), FIVE(8, 0, 0, 0, 0));
            }
        }
    }
}

/* ---- listings of the desktop tool */

#define HEADING "Introduced variables:\n"
#define SQUARES HEADING "w0 = x1**2\nw1 = x2**2\n\n"

/* document 000's, in its lines */
#define X1 "x1' = x1*w0 + w1\n"
#define X2 "x2' = x1 + x2\n"
#define W0 "w0' = 2*x1*w1 + 2*w0**2\n"
#define W1 "w1' = 2*x1*x2 + 2*w1\n"
static const char of_two[] = SQUARES X1 X2 W0 W1;

/* A listing as it is shown here, with a bar before the byte where it is not readable on. */
static struct {
    uint8_t bytes[SIRAGUMON_TEXT_MOST];
    size_t len, place;
} shown;

static void show(const char *listing) {
    shown.len = shown.place = 0;
    for (; *listing; listing++) {
        if (*listing == '|')
            shown.place = shown.len + 1;
        else
            shown.bytes[shown.len++] = (uint8_t)*listing;
    }
}

static void right(const char *name, uint64_t n, uint64_t marks, uint64_t degree, const uint8_t *system, size_t len, const char *listing,
                  uint64_t order, const uint8_t *record) {
    show(listing);
    read_text(name, n, marks, degree, system, len, shown.bytes, shown.len, FIVE(0, order, 0, 0, 0), record, SIRAGUMON_SET_BYTES);
}

static void no_set(const char *name, uint64_t n, uint64_t marks, uint64_t degree, const uint8_t *system, size_t len, const char *listing) {
    show(listing);
    read_text(name, n, marks, degree, system, len, shown.bytes, shown.len, FIVE(8, 0, 0, 0, 0), NO_BYTES);
}

static void false_line(const char *name, uint64_t n, uint64_t marks, const uint8_t *system, size_t len, const char *listing, uint64_t line) {
    show(listing);
    read_text(name, n, marks, FULL_KIT, system, len, shown.bytes, shown.len, FIVE(11, 0, 0, 0, line), NO_BYTES);
}

/* The place is the same whatever follows its byte, and where the text stops short of it. */
static void unreadable(const char *name, uint64_t n, uint64_t marks, const char *listing) {
    show(listing);
    const uint64_t *five = FIVE(10, 0, 0, 0, shown.place);
    read_text(name, n, marks, FULL_KIT, NO_BYTES, shown.bytes, shown.len, five, NO_BYTES);
    for (size_t len = shown.place - 1; len <= shown.place && len < shown.len; len++)
        read_text(name, n, marks, FULL_KIT, NO_BYTES, shown.bytes, len, five, NO_BYTES);
}

static void right_listings(void) {
    right("document 000", 2, NO_MARKS, FULL_KIT, BYTES(two), of_two, 2, set_squares);
    right("document 000, degree 2", 2, NO_MARKS, 2, BYTES(two), of_two, 2, set_squares);
    right("document 000, its names turned", 2, NO_MARKS, FULL_KIT, BYTES(two),
          HEADING "w0 = x2**2\nw1 = x1**2\n\nx1' = x1*w1 + w0\nx2' = x1 + x2\nw0' = 2*x1*x2 + 2*w0\nw1' = 2*x1*w0 + 2*w1**2\n", 2, set_squares);
    right("document 000, terms in any order", 2, NO_MARKS, FULL_KIT, BYTES(two),
          SQUARES "x1' = w1 + w0*x1\nx2' = x2 + x1\nw0' = 2*w0*w0 + 2*w1*x1\nw1' = w1 + 2*x2*x1 + x2**2\n", 2, set_squares);

    /* x1^4 is x1*w1 in the wiring list and w0**2 here */
    right("other pairs", 1, NO_MARKS, FULL_KIT, BYTES(x4_x3),
          HEADING "w0 = x1**2\nw1 = x1**3\n\nx1' = w1 + w0**2\nw0' = 2*w0**2 + 2*w0*w1\nw1' = 3*w0*w1 + 3*w1**2\n", 2, both_sets);
    right("products more than once", 1, NO_MARKS, FULL_KIT, BYTES(x4_x3),
          HEADING "w0 = x1**2\nw1 = x1**3\n\n"
                  "x1' = -w1 + x1*w1 + 2*x1*w0\nw0' = w0**2 + 5*w0*w1 + x1*w1 - 3*w1*w0\nw1' = 7*w1**2 + 3*w0*w1 - 4*w1*w1\n",
          2, both_sets);
    right("names by products", 1, NO_MARKS, FULL_KIT, BYTES(x4_x3),
          HEADING "w0 = x1*x1**2\nw1 = x1**1*x1*x1**1*x1\n\nx1' = w0 + w1\nw0' = 3*x1*w1 + 3*w0**2\nw1' = 4*w0**2 + 4*w0*w1\n", 2,
          both_sets + SIRAGUMON_SET_BYTES);
    right("two that cancel", 2, NO_MARKS, FULL_KIT, BYTES(cancelling), HEADING "w0 = x2*x1\n\nx1' = x1*w0\nx2' = -x2*w0\nw0' = 0\n", 1, set_x1x2);
    right("two that cancel, both written", 2, NO_MARKS, FULL_KIT, BYTES(cancelling),
          HEADING "w0 = x1*x2\n\nx1' = x1*w0\nx2' = -w0*x2\nw0' = w0**2 - w0**2\n", 1, set_x1x2);
    right("a knob", 2, NO_MARKS, FULL_KIT, BYTES(unfed), HEADING "w0 = x1*x2\n\nx1' = x1*w0\nx2' = 0\nw0' = w0**2\n", 1, set_x1x2);
    right("no new names", 1, NO_MARKS, FULL_KIT, BYTES(x2), HEADING "\nx1' = x1**2\n", 0, empty);
    right("no new names, a product", 1, NO_MARKS, FULL_KIT, BYTES(x2), HEADING "\nx1' = 1*x1*x1\n", 0, empty);
    right("a constant", 1, NO_MARKS, FULL_KIT, BYTES(constant), HEADING "\nx1' = 5\n", 0, empty);
    right("a constant, in parts", 1, NO_MARKS, FULL_KIT, BYTES(constant), HEADING "\nx1' = -1 + 2*x1 + 6 - x1 - x1\n", 0, empty);

    /* a derivative that is zero */
    right("0", 1, NO_MARKS, FULL_KIT, NO_BYTES, HEADING "\nx1' = 0\n", 0, empty);
    right("x1 - x1", 1, NO_MARKS, FULL_KIT, NO_BYTES, HEADING "\nx1' = x1 - x1\n", 0, empty);
    right("-x1 + x1", 1, NO_MARKS, FULL_KIT, NO_BYTES, HEADING "\nx1' = -x1 + x1\n", 0, empty);
    right("3 - 2 - 1", 1, NO_MARKS, FULL_KIT, NO_BYTES, HEADING "\nx1' = 3 - 2 - 1\n", 0, empty);
    right("x1**2 - w0", 1, NO_MARKS, FULL_KIT, NO_BYTES, HEADING "w0 = x1**2\n\nx1' = x1**2 - w0\nw0' = x1*w0 - w0*x1\n", 1, set_x2);

    /* the highest numbers */
    right("1,000,000,000", 1, NO_MARKS, FULL_KIT, BYTES(x1), HEADING "\nx1' = 1000000000*x1 - 999999999*x1\n", 0, empty);
    right("coefficient 1,000,000", 1, NO_MARKS, FULL_KIT, BYTES(coefficient_in), HEADING "\nx1' = 1000000*x1\n", 0, empty);
    right("x^54", 1, NO_MARKS, FULL_KIT, BYTES(x1), HEADING "w0 = x1**54\n\nx1' = x1\nw0' = 54*w0\n", 1, power_in);
    right("x^27 x^27", 1, NO_MARKS, FULL_KIT, BYTES(x1), HEADING "w0 = x1**27*x1**27\n\nx1' = x1\nw0' = 54*w0\n", 1, power_in);
    right("the highest powers", 6, NO_MARKS, FULL_KIT, NO_BYTES,
          HEADING "w0 = x6**54*x5**54*x4**54*x3**54*x2**54*x1**54\n\nx1' = 0\nx2' = 0\nx3' = 0\nx4' = 0\nx5' = 0\nx6' = 0\nw0' = 0\n", 1, highest);
    right("six cubes", 6, NO_MARKS, FULL_KIT, BYTES(cubes),
          HEADING "w0 = x1**2\nw1 = x2**2\nw2 = x3**2\nw3 = x4**2\nw4 = x5**2\nw5 = x6**2\n\n"
                  "x1' = x1*w0\nx2' = x2*w1\nx3' = x3*w2\nx4' = x4*w3\nx5' = x5*w4\nx6' = x6*w5\n"
                  "w0' = 2*w0**2\nw1' = 2*w1**2\nw2' = 2*w2**2\nw3' = 2*w3**2\nw4' = 2*w4**2\nw5' = 2*w5**2\n",
          6, squares);

    /* A signal fed from outside has no line of its own, and may stand in any other. */
    right("Example 5.3", 3, MARK(3), FULL_KIT, BYTES(example_5_3), HEADING "w0 = x1**2\n\nx1' = x1 + x1*x3\nx2' = w0*x3\nw0' = 2*w0 + 2*w0*x3\n", 1,
          set_x2);
    right("x1'=x1^3+u x1", 2, MARK(2), FULL_KIT, BYTES(x3_ux), HEADING "w0 = x1*x1\n\nx1' = x2*x1 + x1*w0\nw0' = 2*w0*x2 + 2*w0**2\n", 1, set_x2);
    right("a signal squared", 2, MARK(2), FULL_KIT, NO_BYTES, HEADING "\nx1' = x2**2 - x2*x2\n", 0, empty);
    right("signals alone", 3, MARK(1) | MARK(2) | MARK(3), FULL_KIT, NO_BYTES, HEADING "\n", 0, empty);
    right("the first is a signal", 2, MARK(1), FULL_KIT, NO_BYTES, HEADING "\nx2' = 0\n", 0, empty);
}

/* Readable, and the names form no set: so no line is looked at. */
static void no_sets(void) {
    /* over 54: some are 2 in 8, 16, 32 or 64 bits */
    static const char *const powers[] = {
        "x1**55", "x1**28*x1**27", "x1**54*x1", "x1**256", "x1**258", "x1**200*x1**58", "x1**65538", "x1**4294967298", "x1**4294967297*x1",
        "x1**18446744073709551618", "x1**18446744073709551615*x1**3", "x1**10000000000000000000000000000000000000002",
    };
    for (size_t i = 0; i < sizeof powers / sizeof *powers; i++) {
        uint8_t listing[200];
        size_t len = 0;
        const char *parts[] = {HEADING "w0 = ", powers[i], "\n\nx1' = 0\nw0' = 0\n"};
        for (size_t j = 0; j < 3; j++)
            for (const char *p = parts[j]; *p; p++) listing[len++] = (uint8_t)*p;
        read_text(powers[i], 1, NO_MARKS, FULL_KIT, NO_BYTES, listing, len, FIVE(8, 0, 0, 0, 0), NO_BYTES);
    }
    no_set("a single variable", 1, NO_MARKS, FULL_KIT, NO_BYTES, HEADING "w0 = x1\n\nx1' = 0\nw0' = 0\n");
    no_set("a single variable, to the power of 1", 1, NO_MARKS, FULL_KIT, NO_BYTES, HEADING "w0 = x1**1\n\nx1' = 0\nw0' = 0\n");
    no_set("one name twice", 1, NO_MARKS, FULL_KIT, NO_BYTES, HEADING "w0 = x1**2\nw1 = x1**2\n\nx1' = 0\nw0' = 0\nw1' = 0\n");
    no_set("one name twice, in other words", 2, NO_MARKS, FULL_KIT, NO_BYTES,
           HEADING "w0 = x1*x2**2\nw1 = x1**2\nw2 = x2*x1*x2\n\nx1' = 0\nx2' = 0\nw0' = 0\nw1' = 0\nw2' = 0\n");
    no_set("a signal", 2, MARK(2), FULL_KIT, BYTES(x3_ux), HEADING "w0 = x1**2\nw1 = x1*x2\n\nx1' = x1*w0 + w1\nw0' = 2*w0**2 + 2*x1*w1\nw1' = 0\n");
    no_set("a signal alone", 1, MARK(1), FULL_KIT, NO_BYTES, HEADING "w0 = x1**2\n\nw0' = 0\n");
    no_set("x^4, degree 3", 1, NO_MARKS, 3, BYTES(x5), HEADING "w0 = x1**4\n\nx1' = x1*w0\nw0' = 4*w0**2\n");
    right("x^4, degree 4", 1, NO_MARKS, 4, BYTES(x5), HEADING "w0 = x1**4\n\nx1' = x1*w0\nw0' = 4*w0**2\n", 1, set_x4);
    no_set("x1^2 x2^2, degree 3", 2, NO_MARKS, 3, NO_BYTES, HEADING "w0 = x1**2*x2**2\n\nx1' = 0\nx2' = 0\nw0' = 0\n");
    no_set("the names before the lines", 1, NO_MARKS, FULL_KIT, BYTES(x3), HEADING "w0 = x1**55\n\nx1' = 1\nw0' = 1\n");
}

static void false_lines(void) {
    false_line("a coefficient in line 5", 2, NO_MARKS, BYTES(two), SQUARES "x1' = 2*x1*w0 + w1\n" X2 W0 W1, 5);
    false_line("another name in line 5", 2, NO_MARKS, BYTES(two), SQUARES "x1' = x1*w1 + w1\n" X2 W0 W1, 5);
    false_line("a sign in line 6", 2, NO_MARKS, BYTES(two), SQUARES X1 "x2' = x1 - x2\n" W0 W1, 6);
    false_line("a coefficient in line 7", 2, NO_MARKS, BYTES(two), SQUARES X1 X2 "w0' = 2*x1*w1 + 3*w0**2\n" W1, 7);
    false_line("another square in line 7", 2, NO_MARKS, BYTES(two), SQUARES X1 X2 "w0' = 2*x1*w1 + 2*w1**2\n" W1, 7);
    false_line("a term less in line 8", 2, NO_MARKS, BYTES(two), SQUARES X1 X2 W0 "w1' = 2*x1*x2\n", 8);
    false_line("a term more in line 8", 2, NO_MARKS, BYTES(two), SQUARES X1 X2 W0 "w1' = 2*x1*x2 + 2*w1 + 1\n", 8);
    false_line("0 in lines 6 and 8", 2, NO_MARKS, BYTES(two), SQUARES X1 "x2' = 0\n" W0 "w1' = 0\n", 6);
    false_line("a constant", 1, NO_MARKS, BYTES(constant), HEADING "\nx1' = 5*x1\n", 3);
    false_line("no constant", 1, NO_MARKS, BYTES(x1), HEADING "\nx1' = 1\n", 3);
    false_line("x1 where nothing feeds it", 1, NO_MARKS, NO_BYTES, HEADING "\nx1' = x1\n", 3);
    false_line("w0 - x1", 1, NO_MARKS, NO_BYTES, HEADING "w0 = x1**2\n\nx1' = w0 - x1\nw0' = 0\n", 4);
    false_line("x^3 for x'=x^4", 1, NO_MARKS, BYTES(x4), HEADING "w0 = x1**2\n\nx1' = x1*w0\nw0' = 2*w0**2\n", 4);
    /* its set is not quadratic, so one line is false */
    false_line("one signal too few", 1, NO_MARKS, BYTES(x4), HEADING "w0 = x1**2\n\nx1' = w0**2\nw0' = 2*w0**2\n", 5);

    /* sums that are 1, 1 and 0 in 32 bits */
#define MUCH "1000000000*x1"
    false_line("2^32 + 1", 1, NO_MARKS, BYTES(x1), HEADING "\nx1' = " MUCH " + " MUCH " + " MUCH " + " MUCH " + 294967297*x1\n", 3);
    false_line("-2^32 + 1", 1, NO_MARKS, BYTES(x1), HEADING "\nx1' = -" MUCH " - " MUCH " - " MUCH " - " MUCH " - 294967295*x1\n", 3);
    false_line("2^32", 1, NO_MARKS, NO_BYTES, HEADING "\nx1' = " MUCH " + " MUCH " + " MUCH " + " MUCH " + 294967296*x1\n", 3);
    right("2^32 + 1 and back", 1, NO_MARKS, FULL_KIT, BYTES(x1),
          HEADING "\nx1' = " MUCH " + " MUCH " + " MUCH " + " MUCH " + 294967297*x1 - " MUCH " - " MUCH " - " MUCH " - " MUCH " - 294967296*x1\n", 0,
          empty);

    /* lines of the text, and not numbers of signals */
    false_line("the last of six and six", 6, NO_MARKS, BYTES(cubes),
               HEADING "w0 = x1**2\nw1 = x2**2\nw2 = x3**2\nw3 = x4**2\nw4 = x5**2\nw5 = x6**2\n\n"
                       "x1' = x1*w0\nx2' = x2*w1\nx3' = x3*w2\nx4' = x4*w3\nx5' = x5*w4\nx6' = x6*w5\n"
                       "w0' = 2*w0**2\nw1' = 2*w1**2\nw2' = 2*w2**2\nw3' = 2*w3**2\nw4' = 2*w4**2\nw5' = 2*w4**2\n",
               20);
    false_line("behind a signal", 3, MARK(2), NO_BYTES, HEADING "\nx1' = 0\nx3' = x2\n", 4);
    false_line("the first is a signal", 2, MARK(1), NO_BYTES, HEADING "w0 = x2**2\n\nx2' = 0\nw0' = x1\n", 5);
}

static void unreadable_texts(void) {
    unreadable("no text", 1, NO_MARKS, "|");
    unreadable("a mark of byte order", 1, NO_MARKS, "|\xef\xbb\xbf" HEADING "\nx1' = 0\n");
    unreadable("no heading", 1, NO_MARKS, "|w0 = x1**2\n\nx1' = 0\nw0' = 0\n");
    unreadable("a small letter", 1, NO_MARKS, "|introduced variables:\n\nx1' = 0\n");
    unreadable("a heading in other words", 1, NO_MARKS, "Introduced variables|\n\nx1' = 0\n");
    unreadable("a line end of two bytes", 1, NO_MARKS, "Introduced variables:|\r\n\r\nx1' = 0\r\n");

    /* names */
    unreadable("x0", 2, NO_MARKS, HEADING "w0 = x|0**2\n\nx1' = 0\nx2' = 0\nw0' = 0\n");
    unreadable("x3 of two", 2, NO_MARKS, HEADING "w0 = x|3**2\n\nx1' = 0\nx2' = 0\nw0' = 0\n");
    unreadable("x7 of six", 6, NO_MARKS, HEADING "w0 = x|7**2\n");
    unreadable("x12", 6, NO_MARKS, HEADING "w0 = x1|2**2\n");
    unreadable("w1 before w0", 1, NO_MARKS, HEADING "w|1 = x1**2\n");
    unreadable("w0 twice", 1, NO_MARKS, HEADING "w0 = x1**2\nw|0 = x1**3\n");
    unreadable("w2 behind w0", 1, NO_MARKS, HEADING "w0 = x1**2\nw|2 = x1**3\n");
    unreadable("a seventh name", 6, NO_MARKS,
               HEADING "w0 = x1**2\nw1 = x2**2\nw2 = x3**2\nw3 = x4**2\nw4 = x5**2\nw5 = x6**2\n|w6 = x1*x2\n\nx1' = 0\n");
    unreadable("a name of a name", 1, NO_MARKS, HEADING "w0 = x1**2\nw1 = |w0*x1\n");
    unreadable("w0 = 1", 1, NO_MARKS, HEADING "w0 = |1\n");
    unreadable("w0 = 2*x1", 1, NO_MARKS, HEADING "w0 = |2*x1\n");
    unreadable("an exponent of 0", 1, NO_MARKS, HEADING "w0 = x1**|0\n");
    unreadable("a zero before an exponent", 1, NO_MARKS, HEADING "w0 = x1**|02\n");
    unreadable("a negative exponent", 1, NO_MARKS, HEADING "w0 = x1**|-2\n");
    unreadable("a caret", 1, NO_MARKS, HEADING "w0 = x1|^2\n");
    unreadable("three stars", 1, NO_MARKS, HEADING "w0 = x1**|*2\n");
    unreadable("a star at the end", 1, NO_MARKS, HEADING "w0 = x1**2*|\n");
    unreadable("a sum", 1, NO_MARKS, HEADING "w0 = x1**2| + x1\n");
    unreadable("a space before the line end", 1, NO_MARKS, HEADING "w0 = x1**2| \n\n");
    unreadable("no spaces", 1, NO_MARKS, HEADING "w0|=x1**2\n");
    unreadable("a tab", 1, NO_MARKS, HEADING "w0 =|\tx1**2\n");
    unreadable("no blank line", 1, NO_MARKS, HEADING "w0 = x1**2\n|x1' = 0\nw0' = 0\n");
    unreadable("two blank lines", 1, NO_MARKS, HEADING "w0 = x1**2\n\n|\nx1' = 0\nw0' = 0\n");

    /* which lines stand there */
    unreadable("the second line first", 2, NO_MARKS, HEADING "\nx|2' = 0\nx1' = 0\n");
    unreadable("a line twice", 2, NO_MARKS, HEADING "\nx1' = 0\nx|1' = 0\n");
    unreadable("a new name's line too soon", 2, NO_MARKS, HEADING "w0 = x1**2\n\nx1' = 0\n|w0' = 0\nx2' = 0\n");
    unreadable("new names' lines turned", 1, NO_MARKS, HEADING "w0 = x1**2\nw1 = x1**3\n\nx1' = 0\nw|1' = 0\nw0' = 0\n");
    unreadable("no line of a variable", 2, NO_MARKS, HEADING "\nx1' = 0\n|");
    unreadable("no line of a new name", 1, NO_MARKS, HEADING "w0 = x1**2\n\nx1' = 0\n|");
    unreadable("no lines", 1, NO_MARKS, HEADING "\n|");
    unreadable("a signal's line", 2, MARK(1), HEADING "\nx|1' = 0\nx2' = 0\n");
    unreadable("a signal's line between others", 3, MARK(2), HEADING "\nx1' = 0\nx|2' = 0\nx3' = 0\n");
    unreadable("no prime", 1, NO_MARKS, HEADING "\nx1| = 0\n");
    unreadable("no line end at the last", 1, NO_MARKS, HEADING "\nx1' = 0|");

    /* terms */
    unreadable("a third name", 2, NO_MARKS, HEADING "\nx1' = 2*x1*x2|*x1\nx2' = 0\n");
    unreadable("a third name behind a square", 2, NO_MARKS, HEADING "\nx1' = x1**2|*x2\nx2' = 0\n");
    unreadable("a square behind a name", 2, NO_MARKS, HEADING "\nx1' = x2*x1|**2\nx2' = 0\n");
    unreadable("a cube", 1, NO_MARKS, HEADING "\nx1' = x1**|3\n");
    unreadable("an exponent of 1", 1, NO_MARKS, HEADING "\nx1' = x1**|1\n");
    unreadable("an exponent of 22", 1, NO_MARKS, HEADING "\nx1' = x1**2|2\n");
    unreadable("1,000,000,001", 1, NO_MARKS, HEADING "\nx1' = 100000000|1*x1\n");
    unreadable("-1,000,000,001", 1, NO_MARKS, HEADING "\nx1' = -100000000|1*x1\n");
    unreadable("1,000,000,001 behind a sign", 1, NO_MARKS, HEADING "\nx1' = x1 - 100000000|1\n");
    unreadable("10,000,000,000", 1, NO_MARKS, HEADING "\nx1' = 1000000000|0*x1\n");
    unreadable("9,999,999,999", 1, NO_MARKS, HEADING "\nx1' = 999999999|9*x1\n");
    unreadable("2^32 + 1", 1, NO_MARKS, HEADING "\nx1' = 429496729|7*x1\n");
    unreadable("2^64 + 1", 1, NO_MARKS, HEADING "\nx1' = 184467440|73709551617*x1\n");
    unreadable("a coefficient of 0", 1, NO_MARKS, HEADING "\nx1' = 0|*x1\n");
    unreadable("a zero before a coefficient", 1, NO_MARKS, HEADING "\nx1' = 0|1*x1\n");
    unreadable("-0", 1, NO_MARKS, HEADING "\nx1' = -|0\n");
    unreadable("a lone 0 behind a sign", 1, NO_MARKS, HEADING "\nx1' = x1 + |0\n");
    unreadable("0 and more", 1, NO_MARKS, HEADING "\nx1' = 0| + x1\n");
    unreadable("a plus first", 1, NO_MARKS, HEADING "\nx1' = |+x1\n");
    unreadable("a minus and a space", 1, NO_MARKS, HEADING "\nx1' = -| x1\n");
    unreadable("two signs", 1, NO_MARKS, HEADING "\nx1' = x1 + |-x1\n");
    unreadable("no spaces at a sign", 1, NO_MARKS, HEADING "\nx1' = x1|+x1\n");
    unreadable("two spaces", 1, NO_MARKS, HEADING "\nx1' = x1 | + x1\n");
    unreadable("a space before the line end of a term", 1, NO_MARKS, HEADING "\nx1' = x1 |\n");
    unreadable("nothing behind a sign", 1, NO_MARKS, HEADING "\nx1' = x1 +|\n");
    unreadable("nothing", 1, NO_MARKS, HEADING "\nx1' = |\n");
    unreadable("a fraction", 1, NO_MARKS, HEADING "\nx1' = 1|/2*x1\n");
    unreadable("a decimal point", 1, NO_MARKS, HEADING "\nx1' = 1|.5*x1\n");
    unreadable("two coefficients", 1, NO_MARKS, HEADING "\nx1' = 2*|3*x1\n");
    unreadable("a coefficient behind its name", 1, NO_MARKS, HEADING "\nx1' = x1*|2\n");
    unreadable("a bracket", 1, NO_MARKS, HEADING "\nx1' = |(x1)\n");
    unreadable("x2 of one", 1, NO_MARKS, HEADING "\nx1' = x|2\n");
    unreadable("w1 of one", 1, NO_MARKS, HEADING "w0 = x1**2\n\nx1' = w|1\nw0' = 0\n");
    unreadable("w0 of none", 1, NO_MARKS, HEADING "\nx1' = |w0\n");
    unreadable("w0 of none, a factor", 1, NO_MARKS, HEADING "\nx1' = x1*|w0\n");
    unreadable("another letter", 1, NO_MARKS, HEADING "\nx1' = |y1\n");

    /* The text decides before what it says. */
    unreadable("a text that stops short, and names that form no set", 1, NO_MARKS, HEADING "w0 = x1**55\n\nx1' = 0\n|");
    unreadable("a text that stops short, and a false line", 1, NO_MARKS, HEADING "w0 = x1**2\n\nx1' = 1\nw0' = |");

    /* behind the last line */
    static const char beyond[] = "\n w0x\r";
    for (size_t i = 0; i < sizeof beyond; i++) {
        show(of_two);
        shown.bytes[shown.len++] = (uint8_t)beyond[i];
        read_text("a byte behind the last line", 2, NO_MARKS, FULL_KIT, BYTES(two), shown.bytes, shown.len, FIVE(10, 0, 0, 0, sizeof of_two),
                  NO_BYTES);
    }
    read_text("a byte behind signals alone", 1, MARK(1), FULL_KIT, NO_BYTES, TEXT(HEADING "\n\n"), FIVE(10, 0, 0, 0, sizeof HEADING + 1), NO_BYTES);
}

/* Reads what was made of document 000's listing, for its system. */
static void read_shown(const char *name, size_t len, const uint64_t *five, const uint8_t *is, size_t is_len) {
    read_text(name, 2, NO_MARKS, FULL_KIT, BYTES(two), shown.bytes, len, five, is, is_len);
}

/* Each text that it begins with stops short. */
static void cut(void) {
    show(of_two);
    for (size_t len = 0; len < shown.len; len++) read_shown("document 000, cut", len, FIVE(10, 0, 0, 0, len + 1), NO_BYTES);
}

/* Each line of it, with a letter below each byte for the bytes that could stand there after those before it, and one for
   the bytes with which the whole text is readable. A dot is for the byte itself alone. */
static const struct {
    const char *line, *could, *readable;
} lines[] = {
    {HEADING, "......................", "......................"},
    {"w0 = x1**2\n", "n.....vpqed", "......v.qe."},
    {"w1 = x2**2\n", "n.....vpqed", "......v.qe."},
    {"\n", "n", "."},
    {X1, "......rvabkzs.tka", "......fv..k.s.tk."},
    {X2, "......rvas.tva", "......fv.s.hv."},
    {W0, "......rcmvabkzs.tcmkab.z", "......e.mv.mk.s.e..k.q.."},
    {W1, "......rcmvabvzs.tcmka", "......e.mv.qv.s.e.mk."},
};

static const char *const letters[] = {
    ['n'] = "w\n",            /* begins the line of a name, or is the blank line */
    ['v'] = "12",             /* a variable's number */
    ['k'] = "01",             /* a new name's number */
    ['p'] = "*\n",            /* behind a variable of a name's line */
    ['q'] = "*x",             /* behind its star; the whole is readable: a square, or a product with x2 */
    ['e'] = "123456789",      /* the first digit of a number */
    ['d'] = "0123456789*\n",  /* behind a digit of an exponent */
    ['r'] = "0-123456789xw",  /* begins a right side */
    ['f'] = "-123456789xw",   /* the same before a 1: a number or a name */
    ['t'] = "123456789xw",    /* begins a term behind a sign */
    ['h'] = "123456789x",     /* the same before a 2 */
    ['s'] = "+-",             /* a sign */
    ['c'] = "0123456789* \n", /* behind a digit of a coefficient */
    ['m'] = "xw",             /* a name behind a coefficient, or before a 1 */
    ['a'] = "* \n",           /* behind the first name of a term */
    ['b'] = "*xw",            /* behind its star */
    ['z'] = " \n",            /* behind the second name of a term */
};

static int is_of(char letter, char itself, uint8_t byte) {
    if (letter == '.') return byte == (uint8_t)itself;
    for (const char *p = letters[(unsigned char)letter]; *p; p++)
        if (byte == (uint8_t)*p) return 1;
    return 0;
}

/* A byte could stand there, and the text is not readable to its end: the place is behind it, and what is behind the place
   changes nothing. Where the last line ends by it, the text before the place is readable. */
static void followed(size_t at, int ends) {
    cases++;
    siragumon_read_listing(2, NO_MARKS, FULL_KIT, BYTES(two), shown.bytes, shown.len, bytes(&set), row + 1);
    size_t place = (size_t)row[1 + SIRAGUMON_PLACE];
    const uint64_t *five = FIVE(10, 0, 0, 0, place);
    expect(at + 1 < place && place <= shown.len + 1 && (!ends || place == at + 2), "what follows another byte", "another place");
    read_shown("what follows another byte", shown.len, five, NO_BYTES);
    if (place > shown.len) return;
    read_shown("what follows another byte, cut behind it", place, five, NO_BYTES);
    read_shown("what follows another byte, cut before it", place - 1, ends ? FIVE(11, 0, 0, 0, 8) : five, NO_BYTES);
}

/* The byte at a place of a line, both from 0, is another, and the text is readable. */
static void misread(size_t line, size_t place, uint8_t byte) {
    if (line >= 4)
        read_shown("a changed line", shown.len, FIVE(11, 0, 0, 0, line + 1), NO_BYTES);
    else if (line == 2 && byte == 'x')
        read_shown("w1 = x2*x2", shown.len, FIVE(0, 2, 0, 0, 0), BYTES(set_squares));
    else if (lines[line].readable[place] == 'v')
        read_shown("one square twice", shown.len, FIVE(8, 0, 0, 0, 0), NO_BYTES);
    else if (byte == '1')
        read_shown("a single variable", shown.len, FIVE(8, 0, 0, 0, 0), NO_BYTES);
    else
        read_shown("a changed name", shown.len, FIVE(11, 0, 0, 0, 5), NO_BYTES);
}

/* Each byte of it in turn is another: each that a listing may have, and some that none has, 0 among them. */
static void changed(void) {
    static const char others[] = "\n '*+-0123456789:=Iswx?W\t\r\x80\xf7\xff";
    size_t at = 0;
    for (size_t i = 0; i < sizeof lines / sizeof *lines; i++) {
        for (size_t j = 0; lines[i].line[j]; j++, at++) {
            char was = lines[i].line[j], could = lines[i].could[j], readable = lines[i].readable[j];
            expect(is_of(could, was, (uint8_t)was) && is_of(readable, was, (uint8_t)was), "a letter for each byte", "it is not among its own");
            for (size_t k = 0; k < sizeof others; k++) {
                uint8_t byte = (uint8_t)others[k];
                if (byte == (uint8_t)was) continue;
                show(of_two);
                shown.bytes[at] = byte;
                if (!is_of(could, was, byte))
                    read_shown("a byte that cannot stand there", shown.len, FIVE(10, 0, 0, 0, at + 1), NO_BYTES);
                else if (!is_of(readable, was, byte))
                    followed(at, i == 7 && byte == '\n');
                else
                    misread(i, j, byte);
            }
        }
    }
}

static void texts_refused(void) {
    const uint8_t *listing = (const uint8_t *)of_two;
    size_t len = sizeof of_two - 1;
    read_text("n 0", 0, NO_MARKS, FULL_KIT, BYTES(two), listing, len, FIVE(1, 0, 0, 0, 0), NO_BYTES);
    read_text("n above the variables", SIRAGUMON_VARIABLES + 1, NO_MARKS, FULL_KIT, BYTES(two), listing, len, FIVE(1, 0, 0, 0, 0), NO_BYTES);
    read_text("n of 64 bits", UINT64_MAX, NO_MARKS, FULL_KIT, BYTES(two), listing, len, FIVE(1, 0, 0, 0, 0), NO_BYTES);
    read_text("n that is 2 in its low half", ((uint64_t)1 << 32) + 2, NO_MARKS, FULL_KIT, BYTES(two), listing, len, FIVE(1, 0, 0, 0, 0), NO_BYTES);
    read_text("a mark beyond xn", 2, MARK(3), FULL_KIT, BYTES(two), listing, len, FIVE(1, 0, 0, 0, 0), NO_BYTES);
    read_text("no kit's limit", 2, NO_MARKS, 10, BYTES(two), listing, len, FIVE(1, 0, 0, 0, 0), NO_BYTES);
    read_text("13 bytes", 2, NO_MARKS, FULL_KIT, two, SIRAGUMON_TERM_BYTES + 1, listing, len, FIVE(2, 0, 0, 0, 0), NO_BYTES);
    read_text("33 records", 6, NO_MARKS, FULL_KIT, BYTES(many), listing, len, FIVE(2, 0, 0, 0, 0), NO_BYTES);
    read_text("x2 of 1", 1, NO_MARKS, FULL_KIT, BYTES(two), listing, len, FIVE(3, 0, 0, 0, 2), NO_BYTES);
    read_text("a signal's record", 2, MARK(2), FULL_KIT, BYTES(two), listing, len, FIVE(3, 0, 0, 0, 3), NO_BYTES);
    read_text("x'=x twice", 2, NO_MARKS, FULL_KIT, BYTES(twice), listing, len, FIVE(4, 0, 0, 0, 2), NO_BYTES);
    read_text("a term before a later twice", 2, NO_MARKS, FULL_KIT, BYTES(out_then_twice), listing, len, FIVE(3, 0, 0, 0, 2), NO_BYTES);
    read_text("twice before a later term", 2, NO_MARKS, FULL_KIT, BYTES(twice_then_out), listing, len, FIVE(4, 0, 0, 0, 2), NO_BYTES);

    /* The first that fails is the reply: before the text, whatever it is, and its length before the terms. */
    static const size_t lens[] = {0, 1, SIRAGUMON_TEXT_MOST};
    for (size_t i = 0; i < sizeof lens / sizeof *lens; i++) {
        lend(&out, 0, ROOM);
        read_text("n before the text", 0, NO_MARKS, FULL_KIT, BYTES(two), bytes(&out), lens[i], FIVE(1, 0, 0, 0, 0), NO_BYTES);
        read_text("the terms' length before the text", 2, NO_MARKS, FULL_KIT, two, SIRAGUMON_TERM_BYTES - 1, bytes(&out), lens[i], FIVE(2, 0, 0, 0, 0),
                  NO_BYTES);
        read_text("a term before the text", 1, NO_MARKS, FULL_KIT, BYTES(exponent_out), bytes(&out), lens[i], FIVE(3, 0, 0, 0, 1), NO_BYTES);
        read_text("twice before the text", 1, NO_MARKS, FULL_KIT, BYTES(twice), bytes(&out), lens[i], FIVE(4, 0, 0, 0, 2), NO_BYTES);
        read_text("junk", 1, NO_MARKS, FULL_KIT, BYTES(x1), bytes(&out), lens[i], FIVE(10, 0, 0, 0, 1), NO_BYTES);
    }
    static const size_t too_long[] = {SIRAGUMON_TEXT_MOST + 1, 2 * SIRAGUMON_TEXT_MOST, ROOM};
    for (size_t i = 0; i < sizeof too_long / sizeof *too_long; i++) {
        lend(&out, 0, ROOM);
        read_text("n before the text's length", 0, NO_MARKS, FULL_KIT, BYTES(two), bytes(&out), too_long[i], FIVE(1, 0, 0, 0, 0), NO_BYTES);
        read_text("both lengths", 2, NO_MARKS, FULL_KIT, two, SIRAGUMON_TERM_BYTES - 1, bytes(&out), too_long[i], FIVE(2, 0, 0, 0, 0), NO_BYTES);
        read_text("the text's length", 2, NO_MARKS, FULL_KIT, BYTES(two), bytes(&out), too_long[i], FIVE(2, 0, 0, 0, 0), NO_BYTES);
        read_text("the text's length before a term", 1, NO_MARKS, FULL_KIT, BYTES(exponent_out), bytes(&out), too_long[i], FIVE(2, 0, 0, 0, 0),
                  NO_BYTES);
        read_text("the text's length before twice", 1, NO_MARKS, FULL_KIT, BYTES(twice), bytes(&out), too_long[i], FIVE(2, 0, 0, 0, 0), NO_BYTES);
    }
}

/* The longest listing, and one byte more: x1 plus and minus x1 again and again, which is x1. */
static void longest(void) {
    static uint8_t listing[SIRAGUMON_TEXT_MOST + 1];
    size_t len = 0;
    const char *begin = HEADING "\nx1' = 1*x1 - 1*x1 + x1";
    while (*begin) listing[len++] = (uint8_t)*begin++;
    while (len + 1 < SIRAGUMON_TEXT_MOST)
        for (const char *p = " - x1 + x1"; *p; p++) listing[len++] = (uint8_t)*p;
    listing[len++] = '\n';
    listing[len++] = '\n';
    expect(len == sizeof listing, "the longest", "another length");

    len = SIRAGUMON_TEXT_MOST;
    read_text("4,096 bytes", 1, NO_MARKS, FULL_KIT, BYTES(x1), listing, len, FIVE(0, 0, 0, 0, 0), BYTES(empty));
    read_text("4,096 bytes, false", 1, NO_MARKS, FULL_KIT, NO_BYTES, listing, len, FIVE(11, 0, 0, 0, 3), NO_BYTES);
    read_text("4,097 bytes", 1, NO_MARKS, FULL_KIT, BYTES(x1), listing, len + 1, FIVE(2, 0, 0, 0, 0), NO_BYTES);
    read_text("4,095 bytes", 1, NO_MARKS, FULL_KIT, BYTES(x1), listing, len - 1, FIVE(10, 0, 0, 0, len), NO_BYTES);
    listing[len - 1] = '1';
    read_text("4,096 bytes, the last unreadable", 1, NO_MARKS, FULL_KIT, BYTES(x1), listing, len, FIVE(10, 0, 0, 0, len), NO_BYTES);
    listing[len - 1] = ' ';
    read_text("4,096 bytes that stop short", 1, NO_MARKS, FULL_KIT, BYTES(x1), listing, len, FIVE(10, 0, 0, 0, len + 1), NO_BYTES);

    /* one name of the longest exponent */
    static const char end[] = "\n\nx1' = 0\nw0' = 0\n";
    len = 0;
    for (const char *p = HEADING "w0 = x1**"; *p; p++) listing[len++] = (uint8_t)*p;
    while (len < SIRAGUMON_TEXT_MOST - (sizeof end - 1)) listing[len++] = '9';
    for (const char *p = end; *p; p++) listing[len++] = (uint8_t)*p;
    read_text("4,096 bytes, one exponent", 1, NO_MARKS, FULL_KIT, NO_BYTES, listing, len, FIVE(8, 0, 0, 0, 0), NO_BYTES);
}

/* Where the length is 0, NULL will do. */
static void null_texts(void) {
    cases += 4;
    lend(&set, 0, SIRAGUMON_SET_BYTES);
    lend_row();
    siragumon_read_listing(1, NO_MARKS, FULL_KIT, NULL, 0, NULL, 0, bytes(&set), row + 1);
    expect_row("NULL terms and text", FIVE(10, 0, 0, 0, 1));
    expect(holds(&set, NO_BYTES) && guarded(&set), "NULL terms and text", "another set");
    lend(&set, 0, SIRAGUMON_SET_BYTES);
    lend_row();
    siragumon_read_listing(2, NO_MARKS, FULL_KIT, two, sizeof two, NULL, 0, bytes(&set), row + 1);
    expect_row("NULL text", FIVE(10, 0, 0, 0, 1));
    expect(holds(&set, NO_BYTES) && guarded(&set), "NULL text", "another set");
    lend(&set, 0, SIRAGUMON_SET_BYTES);
    lend_row();
    siragumon_read_listing(1, NO_MARKS, FULL_KIT, NULL, 0, TEXT(HEADING "w0 = x1**2\n\nx1' = 0\nw0' = 0\n"), bytes(&set), row + 1);
    expect_row("NULL terms", FIVE(0, 1, 0, 0, 0));
    expect(holds(&set, BYTES(set_x2)) && guarded(&set), "NULL terms", "another set");
    lend(&set, 0, SIRAGUMON_SET_BYTES);
    lend_row();
    siragumon_read_listing(0, NO_MARKS, FULL_KIT, NULL, 0, NULL, 0, bytes(&set), row + 1);
    expect_row("NULL terms and text, n 0", FIVE(1, 0, 0, 0, 0));
    expect(holds(&set, NO_BYTES) && guarded(&set), "NULL terms and text, n 0", "another set");
}

/* Each equation in turn gets all variables but the last, and x1^2: each system of them is quadratic as it is. */
static void fill_many(void) {
    for (int i = 0; i < MANY; i++) {
        uint8_t *r = many + SIRAGUMON_TERM_BYTES * i, *exponents = r + 2;
        int equation = i / SIRAGUMON_VARIABLES, variable = i % SIRAGUMON_VARIABLES;
        for (int j = 0; j < SIRAGUMON_TERM_BYTES; j++) r[j] = 0;
        r[0] = (uint8_t)(1 + equation);
        if (variable < SIRAGUMON_VARIABLES - 1)
            exponents[variable] = 1;
        else
            exponents[0] = 2;
        exponents[SIRAGUMON_VARIABLES] = 1; /* the coefficient's low byte */
    }
}

/* A square for each cube; the squares ascend from the last variable to the first. And the highest powers. */
static void fill_powers(void) {
    for (unsigned i = 0; i < SIRAGUMON_VARIABLES; i++) {
        power(cubes + SIRAGUMON_TERM_BYTES * i, 1 + i, 3);
        squares[X(SIRAGUMON_VARIABLES - i, i)] = 2;
        highest[X(1 + i, 0)] = SIRAGUMON_SET_EXPONENT_MOST;
    }
}

int main(void) {
    fill_many();
    fill_powers();
    worked();
    verdicts();
    thinned();
    refusals();
    lengths();
    null(1, NO_MARKS);
    null(2, MARK(2));
    outside();
    closing();
    outside_refused();
    all_marks();
    junior();
    junior_refused();
    all_degrees();
    right_listings();
    no_sets();
    false_lines();
    unreadable_texts();
    cut();
    changed();
    texts_refused();
    longest();
    null_texts();
    printf("%d calls, %d failures\n", cases, failures);
    return failures == 0 ? 0 : 1;
}
