/*
 * The calls as the program of the cab's tablet makes them: runs a problem, shows what was written, and
 * checks assignments. examples/run-tablet compiles and runs this; examples/tablet.stdout is what it writes.
 */
#include "fuselinda.h"

#include <stdio.h>

enum { BUDGET = 100, FORM_BYTES = 8 * FUSELINDA_RECORD_MAX };

/* C1 of document 01. */
static const uint8_t c1[] = {
    2, 3, 0, 4, 0, /* two constants, 3 and 4: terms 0 and 1 */
    1, 'x',        /* one variable: term 2 */
    1, 'A',        /* one set: set 0 */
    3,             /* three constraints: */
    1, 2, 0,       /* 0: x is in A */
    12, 0, 0, 1,   /* 1: A is all numbers from constant 0 to constant 1 */
    4, 2, 0        /* 2: x and 3 differ */
};

/* The counts of a problem, and where its first three sections stand. */
struct layout {
    size_t constants, variables, sets, terms;
    const uint8_t *constant, *variable, *set;
};

/* Only for a problem that was not refused: then no byte is missing. */
static struct layout layout_of(const uint8_t *problem)
{
    struct layout l;
    const uint8_t *at = problem;

    l.constants = *at++;
    l.constant = at;
    at += 2 * l.constants;
    l.variables = *at++;
    l.variable = at;
    at += l.variables;
    l.sets = *at++;
    l.set = at;
    at += l.sets;
    l.terms = l.constants + l.variables;
    for (unsigned left = *at++; left > 0; left--) {
        switch (at[0]) {
        case 6: /* this kind has a witness */
            l.terms++;
            at += 3;
            break;
        case 7: case 10: case 12:
            at += 4;
            break;
        case 11:
            at += 3 + at[2];
            break;
        default:
            at += 3;
        }
    }
    return l;
}

static int number_at(const uint8_t *two)
{
    int n = two[0] + 256 * two[1];
    return n < 32768 ? n : n - 65536;
}

static void put_number(uint8_t *two, int n)
{
    unsigned bits = (unsigned)n;
    two[0] = (uint8_t)(bits & 0xFF);
    two[1] = (uint8_t)(bits >> 8 & 0xFF);
}

/* The model's value of a class. Constants are the lowest terms, so a class with one has it as its root. */
static int class_value(const struct layout *l, size_t root)
{
    return root < l->constants ? number_at(l->constant + 2 * root) : FUSELINDA_FREE + (int)root;
}

/* Writes a record's model as an assignment, and returns its length. */
static size_t write_model(const struct layout *l, const uint8_t *record, uint8_t out[FUSELINDA_MODEL_MAX])
{
    size_t n = 0;

    out[n++] = (uint8_t)l->variables;
    for (size_t v = 0; v < l->variables; v++) {
        put_number(out + n, class_value(l, record[fuselinda_term_at(l->terms, 0, l->constants + v)]));
        n += 2;
    }
    for (size_t s = 0; s < l->sets; s++) {
        size_t count = n++;
        out[count] = 0;
        for (size_t t = 0; t < l->terms; t++) { /* the values of classes rise with their roots */
            const uint8_t *term = record + fuselinda_term_at(l->terms, 0, t);
            if (term[0] == t && (term[1] >> s & 1)) {
                put_number(out + n, class_value(l, t));
                n += 2;
                out[count]++;
            }
        }
    }
    return n;
}

static void print_assignment(const struct layout *l, const uint8_t *a)
{
    const char *gap = "";

    a++; /* the count of variables */
    for (size_t v = 0; v < l->variables; v++, a += 2, gap = " ")
        printf("%s%c=%d", gap, l->variable[v], number_at(a));
    for (size_t s = 0; s < l->sets; s++, gap = " ") {
        printf("%s%c={", gap, l->set[s]);
        unsigned count = *a++;
        for (unsigned m = 0; m < count; m++, a += 2)
            printf("%s%d", m == 0 ? "" : ",", number_at(a));
        printf("}");
    }
    printf("\n");
}

static void print_answer(uint64_t word)
{
    static const char *const names[] = {"REFUSED", "FORMS", "FALSE", "SPENT", "NO ROOM", "HOLDS", "FAILS"};
    enum fuselinda_verdict verdict = fuselinda_verdict_of(word);

    printf("%s", names[verdict]);
    if (verdict == FUSELINDA_REFUSED)
        printf(" %u\n", fuselinda_number_of(word));
    else if (verdict == FUSELINDA_FAILS)
        printf(" constraint %u\n", fuselinda_number_of(word));
    else if (verdict == FUSELINDA_HOLDS)
        printf("\n");
    else
        printf(", steps %u, forms %u\n", fuselinda_steps_of(word), fuselinda_forms_of(word));
}

static void print_trace(uint64_t word, const uint8_t *trace)
{
    for (unsigned i = 0; i < fuselinda_steps_of(word); i++) {
        const uint8_t *step = trace + fuselinda_step_at(i);
        printf("step %u: rule %d, constraint %d, root %d, children %d\n", i, step[0], step[1], step[2], step[3]);
    }
}

static void print_forms(uint64_t word, const struct layout *l, const uint8_t *forms)
{
    for (unsigned i = 0; i < fuselinda_forms_of(word); i++) {
        printf("form %u:", i);
        for (size_t t = 0; t < l->terms; t++) {
            const uint8_t *term = forms + fuselinda_term_at(l->terms, i, t);
            printf("%s root %d in %02x out %02x", t == 0 ? "" : ",", term[0], term[1], term[2]);
        }
        printf("\n");
    }
}

/* A thread that calls fuselinda_run needs up to FUSELINDA_STACK bytes of stack; here the main thread has them. */
int main(void)
{
    uint8_t forms[FORM_BYTES] = {0};
    uint8_t trace[FUSELINDA_STEP_BYTES * BUDGET] = {0};
    uint64_t word = fuselinda_run(c1, sizeof c1, BUDGET, forms, sizeof forms, trace, sizeof trace);

    print_answer(word);
    if (fuselinda_verdict_of(word) == FUSELINDA_REFUSED)
        return 1;
    struct layout l = layout_of(c1);
    print_trace(word, trace);
    print_forms(word, &l, forms);

    if (fuselinda_forms_of(word) > 0) { /* else there is no record, and no model */
        uint8_t assignment[FUSELINDA_MODEL_MAX];
        size_t length = write_model(&l, forms, assignment);
        print_assignment(&l, assignment);
        print_answer(fuselinda_check(c1, sizeof c1, assignment, length));

        put_number(assignment + 1, 3); /* the first variable: x = 3 */
        print_assignment(&l, assignment);
        print_answer(fuselinda_check(c1, sizeof c1, assignment, length));
    }

    /* Without its last byte the problem is refused with FUSELINDA_BAD_END. */
    print_answer(fuselinda_run(c1, sizeof c1 - 1, BUDGET, forms, sizeof forms, trace, sizeof trace));
    return 0;
}
