/* The heap: the manager's calls on registers, and what is built of them: pairs, numbers, frames, texts and symbols. */
#include "lisp.h"

#include <stdio.h>
#include <stdlib.h>

#ifdef INLINE
#include "pagzimul_inline.h"
#define CALL(name) pagzimul_inline_##name
#else
#include "pagzimul.h"
#define CALL(name) pagzimul_##name
#endif

enum { SIZES_UNIT = 65536, FIRST_TEXT_WORDS = 3 };

static uint64_t lent[MOST_WORDS];
static size_t lent_count;

#define HEAP lent, lent_count, REGISTERS

/* The interpreter looks before it asks, so any other answer is a fault of its own. */
static uint64_t done(pagzimul_told told)
{
    if (told.code != PAGZIMUL_DONE) {
        fputs("fault: a call that the manager cannot answer\n", stderr);
        abort();
    }
    return told.val;
}

bool heap_start(size_t count)
{
    lent_count = count;
    return count <= MOST_WORDS && pagzimul_start(HEAP);
}

size_t heap_words(void) { return lent_count; }
void heap_collect(void) { done(pagzimul_collect(HEAP)); }
void get(reg t, reg s, unsigned place) { done(CALL(get)(HEAP, t, s, place)); }
void set(reg s, unsigned place, reg t) { done(CALL(set)(HEAP, s, place, t)); }
uint64_t word(reg s, uint64_t i) { return done(CALL(read)(HEAP, s, i)); }
void set_word(reg s, uint64_t i, uint64_t x) { done(CALL(write)(HEAP, s, i, x)); }
void copy(reg t, reg s) { done(CALL(copy)(HEAP, t, s)); }
void clear(reg t) { done(CALL(clear)(HEAP, t)); }
bool same(reg s, reg t) { return done(CALL(same)(HEAP, s, t)); }
bool is_nil(reg s) { return same(s, R_NIL); }

/* As copy, but the object is not held twice. */
void move(reg t, reg s)
{
    copy(t, s);
    clear(s);
}

bool try_make(reg t, uint64_t places, uint64_t words)
{
    return pagzimul_new(HEAP, t, places, words).code == PAGZIMUL_DONE;
}

void make(reg t, uint64_t places, uint64_t words)
{
    pagzimul_told told = pagzimul_new(HEAP, t, places, words);
    if (told.code == PAGZIMUL_FULL)
        fail("out of memory");
    if (told.code == PAGZIMUL_NO_PLACE)
        fail("text too long");
    done(told);
}

kind kind_of(reg s)
{
    if (is_nil(s))
        return NIL;
    uint64_t sizes = done(CALL(sizes)(HEAP, s)), places = sizes / SIZES_UNIT, words = sizes % SIZES_UNIT;
    switch (places) {
    case NUMBER_PLACES:
        return words == CONSTANT_WORDS ? CONSTANT : words == NUMBER_WORDS ? NUMBER : STRING;
    case OPERATOR_PLACES:
        return word(s, OPERATOR_CODE) < SPECIALS ? SPECIAL : PRIMITIVE;
    case PAIR_PLACES:
        return words == PAIR_WORDS ? PAIR : SYMBOL;
    default:
        return CLOSURE;
    }
}

/* t may be car or cdr: the pair is made beside, so that it holds what they held before. */
void cons_into(reg t, reg car, reg cdr)
{
    make(R_FRESH, PAIR_PLACES, PAIR_WORDS);
    set(R_FRESH, CAR, car);
    set(R_FRESH, CDR, cdr);
    move(t, R_FRESH);
}

void number_into(reg t, int64_t n)
{
    make(t, NUMBER_PLACES, NUMBER_WORDS);
    set_word(t, NUMBER_VALUE, (uint64_t)n);
}

/* Takes the first of a list that is part of a program. */
void take(reg t, reg list)
{
    if (kind_of(list) != PAIR)
        fail("malformed expression");
    get(t, list, CAR);
    get(list, list, CDR);
}

/* Turns a list round in place. */
void reverse(reg list)
{
    clear(R_A);
    while (!is_nil(list)) {
        get(R_TMP, list, CDR);
        set(list, CDR, R_A);
        copy(R_A, list);
        copy(list, R_TMP);
    }
    move(list, R_A);
}

uint64_t length(reg list)
{
    uint64_t n = 0;
    for (copy(R_TMP, list); !is_nil(R_TMP); get(R_TMP, R_TMP, CDR))
        n++;
    return n;
}

void push(enum step step)
{
    make(R_FRESH, FRAME_PLACES, FRAME_WORDS);
    set_word(R_FRESH, FRAME_STEP, step);
    set(R_FRESH, FRAME_BELOW, R_STACK);
    set(R_FRESH, FRAME_ENV, R_ENV);
    set(R_FRESH, FRAME_REST, R_REST);
    set(R_FRESH, FRAME_DONE, R_DONE);
    move(R_STACK, R_FRESH);
}

void pop(void)
{
    get(R_ENV, R_STACK, FRAME_ENV);
    get(R_REST, R_STACK, FRAME_REST);
    get(R_DONE, R_STACK, FRAME_DONE);
    get(R_STACK, R_STACK, FRAME_BELOW);
}

/* How many words a text takes: two at least, so that no string looks like a number. */
static uint64_t text_words(uint64_t bytes) { return TEXT_BYTES + 1 + bytes / BYTES_IN_WORD; }

void text_start(void) { make(R_TEXT, STRING_PLACES, FIRST_TEXT_WORDS); }

static void text_grow(uint64_t words)
{
    make(R_FRESH, STRING_PLACES, 2 * words);
    for (uint64_t i = 0; i < words; i++)
        set_word(R_FRESH, i, word(R_TEXT, i));
    move(R_TEXT, R_FRESH);
}

void text_add(unsigned char c)
{
    uint64_t bytes = word(R_TEXT, TEXT_LENGTH), words = done(CALL(sizes)(HEAP, R_TEXT)) % SIZES_UNIT;
    if (text_words(bytes + 1) > words)
        text_grow(words);
    uint64_t i = TEXT_BYTES + bytes / BYTES_IN_WORD, shift = bytes % BYTES_IN_WORD * BITS_IN_BYTE;
    set_word(R_TEXT, i, word(R_TEXT, i) | (uint64_t)c << shift);
    set_word(R_TEXT, TEXT_LENGTH, bytes + 1);
}

/* The text that was read, in an object of just its size. */
void text_into(reg t, uint64_t places)
{
    uint64_t words = text_words(word(R_TEXT, TEXT_LENGTH));
    make(R_FRESH, places, words);
    for (uint64_t i = 0; i < words; i++)
        set_word(R_FRESH, i, word(R_TEXT, i));
    move(t, R_FRESH);
}

unsigned char text_byte(reg s, uint64_t i)
{
    return (unsigned char)(word(s, TEXT_BYTES + i / BYTES_IN_WORD) >> i % BYTES_IN_WORD * BITS_IN_BYTE);
}

static bool same_text(reg s, reg t)
{
    uint64_t bytes = word(s, TEXT_LENGTH);
    if (word(t, TEXT_LENGTH) != bytes)
        return false;
    for (uint64_t i = TEXT_BYTES; i < text_words(bytes); i++)
        if (word(s, i) != word(t, i))
            return false;
    return true;
}

/* The one symbol whose name is the text that was read. */
void intern(reg t)
{
    for (copy(t, R_SYMBOLS); !is_nil(t); get(t, t, SYMBOL_NEXT))
        if (same_text(t, R_TEXT))
            return;
    text_into(t, SYMBOL_PLACES);
    set(t, SYMBOL_VALUE, R_VOID);
    set(t, SYMBOL_NEXT, R_SYMBOLS);
    copy(R_SYMBOLS, t);
}

void intern_name(reg t, const char *name)
{
    text_start();
    while (*name)
        text_add((unsigned char)*name++);
    intern(t);
}

/* Binds a name of the language to its primitive or special form. */
void install(const char *name, unsigned code)
{
    intern_name(R_NAME, name);
    make(R_VAL, OPERATOR_PLACES, OPERATOR_WORDS);
    set(R_VAL, OPERATOR_NAME, R_NAME);
    set_word(R_VAL, OPERATOR_CODE, code);
    set(R_NAME, SYMBOL_VALUE, R_VAL);
}
