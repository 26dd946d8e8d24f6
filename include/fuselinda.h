/*
 * Fuselinda: the two calls of the static library, for C99 and C++. `tools/build` writes it to
 * target/staticlib/libcapi.a. It is for x86-64 and calls nothing but memcpy and memset.
 * examples/tablet.c uses both calls; docs/ANSWER.md says more on what they answer.
 */
#ifndef FUSELINDA_H
#define FUSELINDA_H

#include <stddef.h>
#include <stdint.h>

#ifdef __cplusplus
extern "C" {
#endif

/*
 * A problem is bytes: four sections, each after a count byte, and nothing after them.
 *   constants    two bytes each, strictly ascending, from -32,000 to 32,000
 *   variables    a letter each, a to z, strictly ascending
 *   sets         a letter each, A to Z, strictly ascending
 *   constraints  a kind byte, then one-byte operands
 * Two bytes are one number: low byte first, two's complement.
 * Terms are numbered from 0: the constants, then the variables, then one witness for each constraint of
 * kind 6, in their order. A witness is a number that is in one of the two sets only. Sets and constraints
 * are numbered from 0 too. An operand is the number of a term (t, u, i, j) or of a set (A, B, C), never of
 * a witness.
 *
 *   kind  operands          meaning                                        rules in the trace
 *   1     t A               t is in A                                      1
 *   2     t A               t is not in A                                  2
 *   3     t u               t = u                                          3
 *   4     t u               t and u differ                                 4
 *   5     A B               A = B                                          5, 6
 *   6     A B               A and B differ                                 7 (a split)
 *   7     A B C             C is the union of A and B                      8 to 11, 12 (a split)
 *   8     A B               A and B share nothing                          13, 14
 *   9     A B               A is a subset of B                             15
 *   10    A B C             C is the intersection of A and B               16 to 18
 *   11    A n, then n terms A is exactly their values (n may be 0)         19, 20 (a split)
 *   12    A i j             A is all from constant i to j; empty if j < i  19, 20 (a split)
 */

#define FUSELINDA_PROBLEM_MAX 4096   /* bytes of a problem */
#define FUSELINDA_SETS_MAX 8
#define FUSELINDA_CONSTRAINTS_MAX 48
#define FUSELINDA_TERMS_MAX 64       /* constants, variables and witnesses together */
#define FUSELINDA_BUDGET_MAX 10000   /* steps */
#define FUSELINDA_TERM_BYTES 3       /* of a term in a form's record */
#define FUSELINDA_RECORD_MAX 192     /* bytes of a form's record: 3 for each of 64 terms */
#define FUSELINDA_STEP_BYTES 4       /* of a step in the trace */
#define FUSELINDA_TRACE_MAX 40000    /* a trace buffer of this length is enough for every budget */
#define FUSELINDA_FREE 32001         /* in the model, a class without a constant has this + its root */
#define FUSELINDA_MODEL_MAX 1085     /* a model's bytes: 26 variables and 8 sets of 64 members at most */
#define FUSELINDA_STACK 1300000      /* bytes of stack that are enough for every call */

/*
 * Runs a problem. Writes the solved forms to `forms` and the steps to `trace`, each from the start; later
 * bytes stay as they were. A form buffer may have any length; `trace_len` must be at least 4 x budget, or
 * the call is refused with 13, however few steps the problem needs.
 *
 * forms: one record for each form that the word counts, 3 bytes for each term, in the terms' order:
 *   0  its root, the lowest term of its class: terms with one root are equal;
 *      different roots do not mean different values
 *   1  the sets that its class is in: bit s is set s
 *   2  the sets that its class is out of
 *   Of a set in neither mask the record says nothing. A problem without terms has records of 0 bytes.
 * trace: 4 bytes for each step that the word counts:
 *   0  the rule
 *   1  the constraint
 *   2  the root concerned, before the step (kinds 1 to 4: of t; rule 7: of the witness; rule 19: of the entry)
 *   3  the children left: of a split how many, of another rule 1; 0 if the branch closed
 *
 * Of both calls:
 * - Every pointer must point to as many bytes as its length says, and must not be null even where the
 *   length is 0.
 * - `forms` and `trace` must not overlap each other or the problem. The other slices are only read.
 * - No other thread may write a slice, or read `forms` or `trace`, during the call.
 * - Nothing is kept, allocated or shared between calls: they may run in several threads at once.
 * - What the buffers held before does not matter to the answer.
 * - Stack: FUSELINDA_STACK follows from the proved depth of a run and the measured size of its frames. The
 *   deepest run tried took less than 0.9 MB. A check takes less than 8 KB.
 */
uint64_t fuselinda_run(const uint8_t *problem, size_t problem_len, uint64_t budget,
                       uint8_t *forms, size_t forms_len, uint8_t *trace, size_t trace_len);

/*
 * Checks an assignment that was worked by hand. Writes nothing.
 * The assignment's bytes: a count byte equal to the number of variables, and two bytes for the value of
 * each. Then for each set a count byte and two bytes for each member, strictly ascending. Nothing more.
 * Values may be any from -32,768 to 32,767.
 */
uint64_t fuselinda_check(const uint8_t *problem, size_t problem_len,
                         const uint8_t *assignment, size_t assignment_len);

/* Bits 0 to 7 of the word that both calls answer. */
enum fuselinda_verdict {
    FUSELINDA_REFUSED = 0, /* bits 8 to 15 say why (enum fuselinda_refusal); nothing was written */
    /* of a run: */
    FUSELINDA_FORMS = 1,   /* all forms are listed: together they have exactly the problem's solutions */
    FUSELINDA_FALSE = 2,   /* nothing satisfies the problem (it does not mean that the run gave up) */
    FUSELINDA_SPENT = 3,   /* the budget is used up: the listed forms are right, more may be left */
    FUSELINDA_NO_ROOM = 4, /* the next form did not fit: the listed forms are right, at least that one is left */
    /* of a check: */
    FUSELINDA_HOLDS = 5,   /* every constraint is true of the assignment */
    FUSELINDA_FAILS = 6    /* a constraint is false of it; the word has the lowest one's number */
};

/* Bits 8 to 15 where the verdict is REFUSED: the first question that was answered "no". */
enum fuselinda_refusal {
    FUSELINDA_BAD_LENGTH = 1,      /* the problem has more than 4,096 bytes */
    FUSELINDA_BAD_END = 2,         /* the problem ends too early */
    FUSELINDA_BAD_CONSTANTS = 3,   /* the constants do not ascend strictly, or one is out of range */
    FUSELINDA_BAD_VARIABLES = 4,   /* the variables are not letters a to z, or do not ascend strictly */
    FUSELINDA_BAD_SETS = 5,        /* the sets are not letters A to Z, do not ascend strictly or exceed 8 */
    FUSELINDA_BAD_COUNT = 6,       /* more than 48 constraints */
    FUSELINDA_BAD_KIND = 7,        /* a constraint's kind is not 1 to 12 */
    FUSELINDA_BAD_OPERAND = 8,     /* an operand numbers no constant, variable or set, as the kind wants */
    FUSELINDA_BAD_INTERVAL = 9,    /* kind 12: an end is a variable, or a number between the ends is no constant */
    FUSELINDA_BAD_REST = 10,       /* bytes follow the last constraint */
    FUSELINDA_BAD_TERMS = 11,      /* more than 64 terms */
    FUSELINDA_BAD_BUDGET = 12,     /* run: the budget is above 10,000 */
    FUSELINDA_BAD_TRACE = 13,      /* run: the trace buffer is shorter than 4 x budget bytes */
    FUSELINDA_BAD_ASSIGNMENT = 14  /* check: a wrong count of variables, members that do not ascend strictly,
                                      or bytes too few or too many */
};

static inline enum fuselinda_verdict fuselinda_verdict_of(uint64_t word)
{
    return (enum fuselinda_verdict)(word & 0xFF);
}

/* The refusal of REFUSED, the number of the constraint of FAILS, else 0. */
static inline unsigned fuselinda_number_of(uint64_t word)
{
    return (unsigned)(word >> 8 & 0xFF);
}

/* The steps taken, at most the budget: bits 16 to 31. */
static inline unsigned fuselinda_steps_of(uint64_t word)
{
    return (unsigned)(word >> 16 & 0xFFFF);
}

/* The forms listed, at most 650,001: bits 32 to 63. */
static inline unsigned fuselinda_forms_of(uint64_t word)
{
    return (unsigned)(word >> 32);
}

/* The bytes of one form's record. */
static inline size_t fuselinda_record_bytes(size_t terms)
{
    return FUSELINDA_TERM_BYTES * terms;
}

/* Where the three bytes of a term of a form (both from 0) begin in the form buffer. */
static inline size_t fuselinda_term_at(size_t terms, size_t form, size_t term)
{
    return FUSELINDA_TERM_BYTES * (terms * form + term);
}

/* Where the four bytes of a step (from 0) begin in the trace buffer; also the bytes that a budget needs. */
static inline size_t fuselinda_step_at(size_t step)
{
    return FUSELINDA_STEP_BYTES * step;
}

#ifdef __cplusplus
}
#endif

#endif
