/*
 * The patch planner for C: planning, wiring, thinning, and reading a listing. Link libplanner_c.a, which `rt lib` makes
 * in crates/planner_c/out when it is called in crates/planner_c.
 *
 * Numbers. A reply is five numbers, written to `five` in every case: code, order, count, steps, place. A number that
 * the table below does not name is 0.
 *
 * Bytes. Term records, set records, wiring records and texts are runs of bytes without header or padding, and a text
 * without a zero at its end. No input is bad: whatever breaks a rule gets a code.
 *
 * Buffers. All memory is the caller's, and none of it is kept after the call. What is const is only read. Every byte of
 * what is lent for the answer, `out` or the `set` that a listing is read into, is filled by every call: after
 * SIRAGUMON_DONE by the answer and then zeros, after every other code by zeros alone. It and `five` overlap nothing
 * else that the call is given, and while it runs nobody else writes to any of it. A length is in bytes and may be any
 * number. Where it is 0 the pointer is not followed, and NULL will do. What has no length is never NULL: `five`, and
 * the `set` of a listing.
 *
 * Calls. There is no state behind them: they may run in any thread and at the same time. They take no heap, call
 * nothing but memcpy and memset, and always return. Stack, measured on x86-64 and rounded up: 6 KB for planning, 5 KB
 * for thinning, 1 KB for wiring, 3 KB for reading a listing.
 */
#ifndef SIRAGUMON_PLANNER_H
#define SIRAGUMON_PLANNER_H

#include <stddef.h>
#include <stdint.h>

#ifdef __cplusplus
extern "C" {
#endif

/* The places of the five numbers. */
enum siragumon_number {
    SIRAGUMON_CODE,
    SIRAGUMON_ORDER,
    SIRAGUMON_COUNT,
    SIRAGUMON_STEPS,
    SIRAGUMON_PLACE,
    SIRAGUMON_NUMBERS
};

/*
 * The codes. The checks run in the order of the codes 1 and 2, then record by record 3 before 4, then planning, or 8,
 * 9, 6, or of a listing 10, 8, 11; the first that fails is the reply.
 */
enum siragumon_code {
    /* plan: all smallest sets; order: size of a set, count of sets, steps.
       wire: the set is quadratic, and this is its list; order: size of the set, count of records.
       thin: all smallest quadratic subsets of the set; order: size of a subset, count of subsets, steps: all subsets
       of the set, 2 to the power of its size.
       read: the listing is right, and this is the set of its names; order: their number. */
    SIRAGUMON_DONE = 0,
    /* n, cap or limit out of range, a mark beyond xn, or a degree that no kit has. */
    SIRAGUMON_SETTING = 1,
    /* terms_len is no multiple of SIRAGUMON_TERM_BYTES or over SIRAGUMON_TERMS_BYTES; set_len is not
       SIRAGUMON_SET_BYTES; text_len is over SIRAGUMON_TEXT_MOST. */
    SIRAGUMON_LENGTH = 2,
    /* A field of a term record breaks its rule, as does the equation of a marked variable; place: the record, from
       1. */
    SIRAGUMON_TERM = 3,
    /* A term record repeats an earlier one's equation and exponents; place: the later record. */
    SIRAGUMON_TWICE = 4,
    /* plan: no set with at most cap new signals, none of them with a marked variable or above the kit's limit; order:
       cap + 1, steps. */
    SIRAGUMON_NONE = 5,
    /* plan: more sets than `out` holds; order: the level, steps with the finding step.
       wire: the set is quadratic, and its list is longer than `out` holds; order: size of the set.
       thin: more smallest subsets than `out` holds; order: size of a subset, steps as after SIRAGUMON_DONE. */
    SIRAGUMON_FULL = 6,
    /* plan: the next step would pass the limit; order: the level of the step not taken, steps: the limit. */
    SIRAGUMON_SPENT = 7,
    /* The set record breaks its rule, as does a monomial with a marked variable or above the kit's limit.
       read: the names form no set: one is a single variable, has an exponent over SIRAGUMON_SET_EXPONENT_MOST or a
       marked variable, is above the kit's limit, or is the same as another. */
    SIRAGUMON_SET = 8,
    /* wire, thin: the set is not quadratic; order: its size, place: number of the first signal whose derivative no
       products of two signals make up. It is never a marked variable. */
    SIRAGUMON_NOT_QUADRATIC = 9,
    /* read: the text is no listing; place: the first byte, from 1, where no listing goes on, or text_len + 1 where the
       text stops short. */
    SIRAGUMON_UNREADABLE = 10,
    /* read: a derivative line, multiplied out, is not the derivative; place: the first such line of the text, from
       1. */
    SIRAGUMON_FALSE_LINE = 11
};

/*
 * The panel's numbers, each once; those that follow from others are computed from them.
 *
 * Variables: the most that a system has, so n is 1 to SIRAGUMON_VARIABLES. A monomial is their exponents, a byte each.
 * Cards: the most new signals that a set has, each with an integrator card of its own.
 */
#define SIRAGUMON_VARIABLES 6
#define SIRAGUMON_CARDS 6

/*
 * Marks say which variables are signals fed from outside. They are one number with a bit for each: x2 and x3 are
 * SIRAGUMON_MARK(2) | SIRAGUMON_MARK(3). A mark's variable is 1 to n.
 *
 * A variable without term records is a knob, which never changes, unless it is marked. How a marked one changes is not
 * known: terms may contain it, but it has no term records of its own, and no new signal contains it.
 */
#define SIRAGUMON_NO_MARKS ((uint64_t)0)
#define SIRAGUMON_MARK(variable) ((uint64_t)1 << ((variable) - 1))

/* The most that `limit` may be. */
#define SIRAGUMON_STEPS_MOST 1000000000

/*
 * A term record: equation (1 to n, of a variable that is not marked), zero, exponents (0 to SIRAGUMON_EXPONENT_MOST,
 * zero beyond xn), coefficient (four bytes, two's complement, low byte first; not zero, at most
 * SIRAGUMON_COEFFICIENT_MOST either way). Up to SIRAGUMON_TERMS_MOST of them, in any order.
 */
#define SIRAGUMON_EXPONENT_MOST 9
#define SIRAGUMON_COEFFICIENT_MOST 1000000
#define SIRAGUMON_TERM_BYTES (2 + SIRAGUMON_VARIABLES + 4)
#define SIRAGUMON_TERMS_MOST 32
#define SIRAGUMON_TERMS_BYTES (SIRAGUMON_TERMS_MOST * SIRAGUMON_TERM_BYTES)

/*
 * A set record: a monomial for each card (exponents 0 to SIRAGUMON_SET_EXPONENT_MOST, zero beyond xn and for marked
 * variables, their sum at most `degree`), strictly ascending, none of them 1 or a single variable, then zeros for
 * unused places. All zeros are the empty set.
 */
#define SIRAGUMON_SET_EXPONENT_MOST (SIRAGUMON_CARDS * SIRAGUMON_EXPONENT_MOST)
#define SIRAGUMON_SET_BYTES (SIRAGUMON_CARDS * SIRAGUMON_VARIABLES)

/*
 * The kit's limit, `degree`: no new signal has a total degree, the sum of its exponents, above it. Terms may.
 *
 * A junior kit has no cascade bus, and its limit is printed on it: SIRAGUMON_JUNIOR_LEAST to SIRAGUMON_JUNIOR_MOST. The
 * full kit's is SIRAGUMON_FULL_DEGREE and leaves nothing out: no monomial of a set record is above it, nor any of a set
 * that planning opens. No kit has another limit.
 */
#define SIRAGUMON_JUNIOR_LEAST 2
#define SIRAGUMON_JUNIOR_MOST 9
#define SIRAGUMON_FULL_DEGREE (SIRAGUMON_VARIABLES * SIRAGUMON_SET_EXPONENT_MOST)

/* The most subsets that a set has: each signal is kept or dropped. */
#define SIRAGUMON_SUBSETS_MOST (1 << SIRAGUMON_CARDS)
#define SIRAGUMON_SUBSETS_BYTES (SIRAGUMON_SUBSETS_MOST * SIRAGUMON_SET_BYTES)

/*
 * A wiring record: left signal, first factor a, second factor b (a <= b), zero, coefficient (four bytes as above). The
 * derivative of the left signal is the sum of its records' coefficient times a times b. Signal 0 is 1, signals 1 to n
 * are the variables, and those from n + 1 on are the monomials of the set in their order. A marked variable keeps its
 * number and may be a factor; it is the left signal of no record, and that says nothing of its derivative. No list is
 * longer than SIRAGUMON_WIRES_MOST records: a term stands in the derivative of its variable, and at most once in that of
 * each new signal.
 */
#define SIRAGUMON_WIRE_BYTES 8
#define SIRAGUMON_WIRES_MOST ((1 + SIRAGUMON_CARDS) * SIRAGUMON_TERMS_MOST)
#define SIRAGUMON_WIRES_BYTES (SIRAGUMON_WIRES_MOST * SIRAGUMON_WIRE_BYTES)

/* The most bytes of a listing. */
#define SIRAGUMON_TEXT_MOST 4096

/*
 * Plans: finds all smallest sets of new signals that make the system quadratic, up to `cap` of them (0 to
 * SIRAGUMON_CARDS), within `limit` steps (1 to SIRAGUMON_STEPS_MOST). They are the smallest among the sets that the kit
 * can build: those that contain no marked variable and no monomial above its limit. `out` holds
 * out_len / SIRAGUMON_SET_BYTES sets, rounded down; they are written ascending. A step is a set that is opened or a
 * pair of factors that is tried: first those that add a single new signal, then the others. A pair that would add what
 * the kit cannot build opens nothing, and of a set that counting shows to need too many more no pair is tried.
 */
void siragumon_plan(uint64_t n, uint64_t marks, uint64_t degree, uint64_t cap, uint64_t limit, const uint8_t *terms,
                    size_t terms_len, uint8_t *out, size_t out_len, uint64_t five[SIRAGUMON_NUMBERS]);

/*
 * Wires: says whether a set of new signals makes the system quadratic, and writes the wiring list of one that does: for
 * each left signal ascending, each monomial of its derivative ascending. `out` holds out_len / SIRAGUMON_WIRE_BYTES
 * records, rounded down; SIRAGUMON_WIRES_BYTES are always enough.
 *
 * However long `out` is, SIRAGUMON_DONE and SIRAGUMON_FULL say that the set is quadratic, and SIRAGUMON_NOT_QUADRATIC
 * that it is not. Who wants this verdict alone lends an `out` of length 0: then SIRAGUMON_FULL says that the set is
 * quadratic and its list is not empty, SIRAGUMON_DONE that it is quadratic and its list is empty.
 */
void siragumon_wire(uint64_t n, uint64_t marks, uint64_t degree, const uint8_t *terms, size_t terms_len,
                    const uint8_t *set, size_t set_len, uint8_t *out, size_t out_len,
                    uint64_t five[SIRAGUMON_NUMBERS]);

/*
 * Thins: finds all smallest quadratic subsets of a quadratic set, which the set itself and the empty set may be. They
 * are the smallest of the subsets of that set and of nothing else: planning may find sets that are smaller. `out` holds
 * out_len / SIRAGUMON_SET_BYTES subsets, rounded down; they are written ascending, and each of them can be wired.
 * SIRAGUMON_SUBSETS_BYTES are always enough.
 */
void siragumon_thin(uint64_t n, uint64_t marks, uint64_t degree, const uint8_t *terms, size_t terms_len,
                    const uint8_t *set, size_t set_len, uint8_t *out, size_t out_len,
                    uint64_t five[SIRAGUMON_NUMBERS]);

/*
 * Reads a listing of the desktop tool, and says whether it is right for the system: whether its names form a set, and
 * each of its derivative lines, multiplied out, is the derivative. A true line may use other pairs of signals than the
 * wiring list, its terms in any order, and products more than once. docs/LISTING.md has the listing byte by byte: the
 * variables are x1 to xn, the new names w0 to w5, and a coefficient is an integer of at most 1,000,000,000 either way.
 *
 * After SIRAGUMON_DONE `set` is a set record: the names' monomials ascending, in whatever order the text has them. The
 * set is quadratic: wiring says SIRAGUMON_DONE or SIRAGUMON_FULL of it. SIRAGUMON_NOT_QUADRATIC is said neither here nor
 * of that set.
 */
void siragumon_read_listing(uint64_t n, uint64_t marks, uint64_t degree, const uint8_t *terms, size_t terms_len,
                            const uint8_t *text, size_t text_len, uint8_t set[SIRAGUMON_SET_BYTES],
                            uint64_t five[SIRAGUMON_NUMBERS]);

#ifdef __cplusplus
}
#endif

#endif
