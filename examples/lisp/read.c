/* The reader: turns text into values. Lists that are open, however deep, are frames in the heap. */
#include "lisp.h"

#include <ctype.h>
#include <stdio.h>
#include <string.h>

/* In a frame of the reader, the first and the last pair of the list so far. */
enum { READ_FIRST = FRAME_REST, READ_LAST = FRAME_DONE };

/* Where in the text the reader is. When an expression has been read, it is BETWEEN, at depth 0, again. */
static enum { BETWEEN, IN_WORD, IN_STRING, IN_COMMENT, BEHIND_QUOTE } inside;
static unsigned long depth;

static bool delimits(int c) { return c == EOF || isspace(c) || strchr("()\"';", c); }

/* The next character that is neither blank nor part of a comment. */
static int next_visible(void)
{
    for (;;) {
        int c = getchar();
        if (c == ';')
            while (c != '\n' && c != EOF)
                c = getchar();
        if (c == EOF || !isspace(c))
            return c;
    }
}

static int escaped(int c) { return c == 'n' ? '\n' : c == 't' ? '\t' : c; }

static void read_string(void)
{
    inside = IN_STRING;
    text_start();
    for (int c; (c = getchar()) != '"';) {
        if (c == '\\')
            c = escaped(getchar());
        if (c == EOF)
            fail("end of input in a string");
        text_add((unsigned char)c);
    }
    inside = BETWEEN;
    text_into(R_VAL, STRING_PLACES);
}

/* Is the text an integer? It is added up below zero, since there is one integer more there than above. */
static bool text_is_integer(int64_t *n)
{
    uint64_t bytes = word(R_TEXT, TEXT_LENGTH);
    bool minus = text_byte(R_TEXT, 0) == '-';
    uint64_t i = minus || text_byte(R_TEXT, 0) == '+';
    bool too_large = false;
    *n = 0;
    if (i == bytes)
        return false;
    for (; i < bytes; i++) {
        int c = text_byte(R_TEXT, i);
        if (!isdigit(c))
            return false;
        too_large |= __builtin_mul_overflow(*n, 10, n) || __builtin_sub_overflow(*n, c - '0', n);
    }
    if (too_large || (!minus && __builtin_sub_overflow(0, *n, n)))
        fail("integer too large");
    return true;
}

static void word_into_value(void)
{
    int64_t n;
    if (text_is_integer(&n)) {
        number_into(R_VAL, n);
    } else if (text_byte(R_TEXT, 0) != '#') {
        intern(R_VAL);
    } else {
        unsigned char c = text_byte(R_TEXT, 1);
        if (word(R_TEXT, TEXT_LENGTH) != strlen("#t") || (c != 't' && c != 'f'))
            fail("unknown constant");
        copy(R_VAL, c == 't' ? R_TRUE : R_FALSE);
    }
}

static bool in_frame(enum step step) { return !is_nil(R_STACK) && word(R_STACK, FRAME_STEP) == step; }

/* A dot behind at least one value: the next value is the tail. */
static void start_tail(void)
{
    if (in_frame(READ_LIST)) {
        get(R_TMP, R_STACK, READ_LAST);
        if (!is_nil(R_TMP)) {
            set_word(R_STACK, FRAME_STEP, READ_TAIL);
            return;
        }
    }
    fail("unexpected .");
}

/* Reads a number, a constant or a symbol into R_VAL. Answers false for a dot. */
static bool read_word(int c)
{
    inside = IN_WORD;
    text_start();
    do {
        text_add((unsigned char)c);
        c = getchar();
    } while (!delimits(c));
    ungetc(c, stdin);
    inside = BETWEEN;
    if (word(R_TEXT, TEXT_LENGTH) == strlen(".") && text_byte(R_TEXT, 0) == '.') {
        start_tail();
        return false;
    }
    word_into_value();
    return true;
}

static void open_frame(enum step step)
{
    clear(R_REST);
    clear(R_DONE);
    push(step);
}

static void close_list(void)
{
    depth -= depth > 0;
    if (!in_frame(READ_LIST) && !in_frame(READ_END))
        fail("unbalanced parenthesis: unexpected )");
    get(R_VAL, R_STACK, READ_FIRST);
    pop();
}

/* Puts R_VAL behind the last value of the list that is open. */
static void append(void)
{
    cons_into(R_VAL, R_VAL, R_NIL);
    get(R_TMP, R_STACK, READ_LAST);
    if (is_nil(R_TMP))
        set(R_STACK, READ_FIRST, R_VAL);
    else
        set(R_TMP, CDR, R_VAL);
    set(R_STACK, READ_LAST, R_VAL);
}

/* A value has been read into R_VAL: it goes where the frames want it. Answers whether it is the whole expression. */
static bool is_whole(void)
{
    while (in_frame(READ_QUOTE)) {
        cons_into(R_VAL, R_VAL, R_NIL);
        cons_into(R_VAL, R_QUOTE, R_VAL);
        pop();
    }
    if (is_nil(R_STACK))
        return true;
    if (in_frame(READ_LIST)) {
        append();
    } else if (in_frame(READ_TAIL)) {
        get(R_TMP, R_STACK, READ_LAST);
        set(R_TMP, CDR, R_VAL);
        set_word(R_STACK, FRAME_STEP, READ_END);
    } else {
        fail("more than one value behind .");
    }
    return false;
}

/* Takes one piece of the text that begins with c. Answers whether it completes a value, in R_VAL. */
static bool read_piece(int c)
{
    inside = c == '\'' ? BEHIND_QUOTE : BETWEEN;
    switch (c) {
    case '(':
        depth++;
        open_frame(READ_LIST);
        return false;
    case '\'':
        open_frame(READ_QUOTE);
        return false;
    case ')':
        close_list();
        return true;
    case '"':
        read_string();
        return true;
    default:
        return read_word(c);
    }
}

/* Reads an expression into R_EXPR. Answers false at the end of input. */
bool read_expression(void)
{
    for (;;) {
        int c = next_visible();
        if (c == EOF && is_nil(R_STACK))
            return false;
        if (c == EOF)
            fail("unbalanced parenthesis: end of input");
        if (read_piece(c) && is_whole())
            break;
    }
    move(R_EXPR, R_VAL);
    clear(R_TEXT);
    return true;
}

static void skip(int c)
{
    if (inside == IN_COMMENT) {
        inside = c == '\n' ? BETWEEN : IN_COMMENT;
    } else if (inside == IN_STRING) {
        if (c == '\\')
            getchar();
        inside = c == '"' ? BETWEEN : IN_STRING;
    } else {
        bool quote = c == '\'' || (isspace(c) && inside == BEHIND_QUOTE);
        depth += c == '(';
        depth -= c == ')' && depth > 0;
        inside = quote ? BEHIND_QUOTE : c == ';' ? IN_COMMENT : c == '"' ? IN_STRING : delimits(c) ? BETWEEN : IN_WORD;
    }
}

/* Passes over the rest of an expression whose reading failed, so that the next one is read from its beginning. */
void skip_rest(void)
{
    int c = 0;
    while (c != EOF && (depth > 0 || inside != BETWEEN)) {
        c = getchar();
        if (depth == 0 && inside == IN_WORD && delimits(c)) {
            ungetc(c, stdin);
            break;
        }
        skip(c);
    }
    depth = 0;
    inside = BETWEEN;
}
