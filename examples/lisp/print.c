/* The printer: writes values. The lists that it is inside of, however deep, are kept in the heap. */
#include "lisp.h"

#include <inttypes.h>
#include <stdio.h>

static bool line_begun;

void out(int c)
{
    putchar(c);
    line_begun = c != '\n';
}

void out_string(const char *s)
{
    while (*s)
        out((unsigned char)*s++);
}

/* Values and errors begin on a line of their own, whatever a program displayed before. */
void fresh_line(void)
{
    if (line_begun)
        out('\n');
}

static void print_text(reg s)
{
    uint64_t bytes = word(s, TEXT_LENGTH);
    for (uint64_t i = 0; i < bytes; i++)
        out(text_byte(s, i));
}

/* As it is written in a program. */
static void print_quoted(reg s)
{
    uint64_t bytes = word(s, TEXT_LENGTH);
    out('"');
    for (uint64_t i = 0; i < bytes; i++) {
        int c = text_byte(s, i);
        if (c == '"' || c == '\\' || c == '\n' || c == '\t')
            out('\\');
        out(c == '\n' ? 'n' : c == '\t' ? 't' : c);
    }
    out('"');
}

static void print_operator(reg s, const char *what)
{
    out_string(what);
    get(R_TMP, s, OPERATOR_NAME);
    print_text(R_TMP);
    out('>');
}

static void print_integer(int64_t n)
{
    printf("%" PRId64, n);
    line_begun = true;
}

/* Prints anything but a pair, and takes no memory. */
void print_atom(reg s, bool quoted)
{
    switch (kind_of(s)) {
    case NIL: out_string("()"); break;
    case CONSTANT: out_string(same(s, R_TRUE) ? "#t" : same(s, R_FALSE) ? "#f" : "#<void>"); break;
    case NUMBER: print_integer((int64_t)word(s, NUMBER_VALUE)); break;
    case STRING: (quoted ? print_quoted : print_text)(s); break;
    case SYMBOL: print_text(s); break;
    case PRIMITIVE: print_operator(s, "#<primitive "); break;
    case SPECIAL: print_operator(s, "#<special "); break;
    case CLOSURE: out_string("#<closure>"); break;
    case PAIR: out_string("(...)"); break;
    }
}

/* R_ITEM becomes what comes next in the lists of R_OPEN, and those that end are closed. Answers false at the end. */
static bool next_item(bool quoted)
{
    for (; !is_nil(R_OPEN); get(R_OPEN, R_OPEN, CDR)) {
        get(R_ITEM, R_OPEN, CAR);
        if (kind_of(R_ITEM) == PAIR) {
            out(' ');
            get(R_TMP, R_ITEM, CDR);
            set(R_OPEN, CAR, R_TMP);
            get(R_ITEM, R_ITEM, CAR);
            return true;
        }
        if (!is_nil(R_ITEM)) {
            out_string(" . ");
            print_atom(R_ITEM, quoted);
        }
        out(')');
    }
    return false;
}

/* Prints what is in s; quoted, strings are printed as they are written. Lists without sharing have fewer pairs than the
 * heap has words: after so many items it goes round in a circle, and is cut off. */
void print_value(reg s, bool quoted)
{
    size_t items = 0;
    copy(R_ITEM, s);
    clear(R_OPEN);
    do {
        if (++items > heap_words()) {
            out_string("...");
            break;
        }
        while (kind_of(R_ITEM) == PAIR) {
            out('(');
            get(R_TMP, R_ITEM, CDR);
            cons_into(R_OPEN, R_TMP, R_OPEN);
            get(R_ITEM, R_ITEM, CAR);
        }
        print_atom(R_ITEM, quoted);
    } while (next_item(quoted));
    clear(R_ITEM);
    clear(R_OPEN);
}
