/* The primitives. Each finds its arguments in R_ARGS, the first two also in R_A and R_B, and answers in R_VAL. */
#include "lisp.h"

enum { ANY_NUMBER = UINT16_MAX };

static _Noreturn void wrong(void)
{
    get(R_NAME, R_OPER, OPERATOR_NAME);
    fail_named("wrong arguments", R_NAME);
}

static void need(bool right)
{
    if (!right)
        wrong();
}

static int64_t integer(reg s)
{
    need(kind_of(s) == NUMBER);
    return (int64_t)word(s, NUMBER_VALUE);
}

static int64_t next_integer(void)
{
    take(R_A, R_ARGS);
    return integer(R_A);
}

static void no_overflow(bool overflow)
{
    if (overflow)
        fail("integer overflow");
}

static void answer(bool b) { copy(R_VAL, b ? R_TRUE : R_FALSE); }
static void answer_nothing(void) { copy(R_VAL, R_VOID); }

static void p_cons(void) { cons_into(R_VAL, R_A, R_B); }
static void p_list(void) { copy(R_VAL, R_ARGS); }

static void p_car(void)
{
    need(kind_of(R_A) == PAIR);
    get(R_VAL, R_A, CAR);
}

static void p_cdr(void)
{
    need(kind_of(R_A) == PAIR);
    get(R_VAL, R_A, CDR);
}

static void p_set_car(void)
{
    need(kind_of(R_A) == PAIR);
    set(R_A, CAR, R_B);
    answer_nothing();
}

static void p_set_cdr(void)
{
    need(kind_of(R_A) == PAIR);
    set(R_A, CDR, R_B);
    answer_nothing();
}

static void p_is_pair(void) { answer(kind_of(R_A) == PAIR); }
static void p_is_null(void) { answer(is_nil(R_A)); }
static void p_is_symbol(void) { answer(kind_of(R_A) == SYMBOL); }
static void p_is_number(void) { answer(kind_of(R_A) == NUMBER); }
static void p_not(void) { answer(same(R_A, R_FALSE)); }

/* Numbers are the same if they are equal: which objects they are is nobody's matter. */
static void p_eq(void)
{
    bool numbers = kind_of(R_A) == NUMBER && kind_of(R_B) == NUMBER;
    answer(numbers ? integer(R_A) == integer(R_B) : same(R_A, R_B));
}

static void p_add(void)
{
    int64_t n = 0;
    while (!is_nil(R_ARGS))
        no_overflow(__builtin_add_overflow(n, next_integer(), &n));
    number_into(R_VAL, n);
}

static void p_subtract(void)
{
    int64_t n = next_integer();
    if (is_nil(R_ARGS))
        no_overflow(__builtin_sub_overflow(0, n, &n));
    while (!is_nil(R_ARGS))
        no_overflow(__builtin_sub_overflow(n, next_integer(), &n));
    number_into(R_VAL, n);
}

static void p_multiply(void)
{
    int64_t n = 1;
    while (!is_nil(R_ARGS))
        no_overflow(__builtin_mul_overflow(n, next_integer(), &n));
    number_into(R_VAL, n);
}

static int64_t divisor(void)
{
    int64_t n = integer(R_B);
    if (n == 0)
        fail("division by zero");
    return n;
}

static void p_quotient(void)
{
    int64_t n = integer(R_A), by = divisor();
    no_overflow(n == INT64_MIN && by == -1);
    number_into(R_VAL, n / by);
}

/* What is left by -1 is 0, though C has no answer for the least integer. */
static void p_remainder(void)
{
    int64_t n = integer(R_A), by = divisor();
    number_into(R_VAL, by == -1 ? 0 : n % by);
}

static void p_equal(void) { answer(integer(R_A) == integer(R_B)); }
static void p_less(void) { answer(integer(R_A) < integer(R_B)); }
static void p_greater(void) { answer(integer(R_A) > integer(R_B)); }
static void p_at_most(void) { answer(integer(R_A) <= integer(R_B)); }
static void p_at_least(void) { answer(integer(R_A) >= integer(R_B)); }

static void p_display(void)
{
    print_value(R_A, false);
    answer_nothing();
}

static void p_newline(void)
{
    out('\n');
    answer_nothing();
}

static void p_collect(void)
{
    heap_collect();
    answer_nothing();
}

static const struct primitive {
    const char *name;
    unsigned least, most;
    void (*call)(void);
} primitives[] = {
    {"cons", 2, 2, p_cons}, {"car", 1, 1, p_car}, {"cdr", 1, 1, p_cdr}, {"list", 0, ANY_NUMBER, p_list},
    {"set-car!", 2, 2, p_set_car}, {"set-cdr!", 2, 2, p_set_cdr},
    {"pair?", 1, 1, p_is_pair}, {"null?", 1, 1, p_is_null}, {"symbol?", 1, 1, p_is_symbol},
    {"number?", 1, 1, p_is_number}, {"not", 1, 1, p_not}, {"eq?", 2, 2, p_eq},
    {"+", 0, ANY_NUMBER, p_add}, {"-", 1, ANY_NUMBER, p_subtract}, {"*", 0, ANY_NUMBER, p_multiply},
    {"quotient", 2, 2, p_quotient}, {"remainder", 2, 2, p_remainder},
    {"=", 2, 2, p_equal}, {"<", 2, 2, p_less}, {">", 2, 2, p_greater},
    {"<=", 2, 2, p_at_most}, {">=", 2, 2, p_at_least},
    {"display", 1, 1, p_display}, {"newline", 0, 0, p_newline}, {"collect", 0, 0, p_collect},
};

void install_primitives(void)
{
    for (unsigned i = 0; i < sizeof primitives / sizeof *primitives; i++)
        install(primitives[i].name, SPECIALS + i);
}

/* Calls the primitive in R_OPER. */
void call_primitive(void)
{
    const struct primitive *p = &primitives[word(R_OPER, OPERATOR_CODE) - SPECIALS];
    uint64_t n = length(R_ARGS);
    need(p->least <= n && n <= p->most);
    if (n > 0)
        get(R_A, R_ARGS, CAR);
    if (n > 1) {
        get(R_B, R_ARGS, CDR);
        get(R_B, R_B, CAR);
    }
    p->call();
}
