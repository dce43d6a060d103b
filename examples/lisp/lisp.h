/* What the parts of the interpreter share: the registers, the layout of objects, and the functions of each part. */
#ifndef LISP_H
#define LISP_H

#include <stdbool.h>
#include <stddef.h>
#include <stdint.h>

/* The registers are the slots of the manager. Making an object may move all others, so nothing else ever stands for an
 * object: C code passes registers about, as numbers. */
typedef enum reg {
    R_NIL,                        /* always empty: the empty list is no object */
    R_TRUE, R_FALSE, R_VOID,      /* the constants; R_VOID is what define answers, and the value of an unbound symbol */
    R_SYMBOLS,                    /* the symbol table: all symbols, each linked to the next */
    R_QUOTE, R_LAMBDA, R_ELSE,    /* symbols that the interpreter itself writes or looks for */
    R_WORKING,                    /* the registers from here on are cleared for each top-level expression */
    R_EXPR = R_WORKING,           /* what is evaluated, and what was read */
    R_ENV,                        /* the innermost rib; none at the top level */
    R_VAL,                        /* the last value */
    R_STACK,                      /* the topmost frame */
    R_REST, R_DONE,               /* what is still to be evaluated, and what has been: saved in frames with R_ENV */
    R_OPER, R_ARGS,               /* what is called, and with which list of values */
    R_NAME,                       /* the symbol that is being bound */
    R_RIB, R_NAMES, R_CELL,       /* the search for a variable */
    R_A, R_B,                     /* the first two arguments of a primitive */
    R_ITEM, R_OPEN,               /* what is printed, and what is to come of the lists around it */
    R_TEXT,                       /* the word or string that is being read */
    R_TMP,                        /* for a few lines: most functions may overwrite it */
    R_FRESH,                      /* an object that is being filled */
    R_RESERVE,                    /* held while evaluating, so that a full heap leaves room to read the way out */
    REGISTERS
} reg;

/* The kind of an object is told by how many places and words it has: none keeps a tag. */
typedef enum kind { NIL, CONSTANT, NUMBER, STRING, PRIMITIVE, SPECIAL, PAIR, SYMBOL, CLOSURE } kind;

enum { CONSTANT_PLACES = 0, CONSTANT_WORDS = 0 };
enum { NUMBER_VALUE, NUMBER_WORDS, NUMBER_PLACES = 0 };
enum { CAR, CDR, PAIR_PLACES, PAIR_WORDS = 0 };
/* A text is its length in bytes, then the bytes, eight to a word. A string is a text without places, a symbol is one
 * with two. */
enum { TEXT_LENGTH, TEXT_BYTES, BYTES_IN_WORD = 8, BITS_IN_BYTE = 8, STRING_PLACES = 0 };
enum { SYMBOL_VALUE, SYMBOL_NEXT, SYMBOL_PLACES };
/* Primitives and special forms; the codes below SPECIALS are those of special forms. */
enum { OPERATOR_NAME, OPERATOR_PLACES };
enum { OPERATOR_CODE, OPERATOR_WORDS };
enum { CLOSURE_PARAMS, CLOSURE_BODY, CLOSURE_ENV, CLOSURE_PLACES, CLOSURE_WORDS = 0 };
/* Ribs and frames are never values, so their sizes need not differ from all others. A rib is the variables of one call:
 * the names and the values, in two lists, and the rib outside. */
enum { RIB_NAMES, RIB_VALUES, RIB_OUTER, RIB_PLACES, RIB_WORDS = 0 };
enum { FRAME_BELOW, FRAME_ENV, FRAME_REST, FRAME_DONE, FRAME_PLACES };
enum { FRAME_STEP, FRAME_WORDS };

/* What is to be done when the value that a frame waits for is there. */
enum step {
    STEP_OPERAND, STEP_SEQUENCE, STEP_IF, STEP_DEFINE, STEP_SET, STEP_COND, STEP_AND, STEP_OR,
    READ_LIST, READ_QUOTE, READ_TAIL, READ_END
};

enum special { QUOTE, IF, DEFINE, SET, LAMBDA, LET, BEGIN, COND, AND, OR, SPECIALS };

enum { MOST_WORDS = 1 << 20, DEFAULT_WORDS = 8192 };

/* heap.c: the calls of the manager on registers. A call that cannot be answered ends the program, so kinds are asked
 * for first; making an object fails with "out of memory". */
bool heap_start(size_t count);
size_t heap_words(void);
void heap_collect(void);
bool try_make(reg t, uint64_t places, uint64_t words);
void make(reg t, uint64_t places, uint64_t words);
void get(reg t, reg s, unsigned place);
void set(reg s, unsigned place, reg t);
uint64_t word(reg s, uint64_t i);
void set_word(reg s, uint64_t i, uint64_t x);
void copy(reg t, reg s);
void clear(reg t);
void move(reg t, reg s);
bool same(reg s, reg t);
bool is_nil(reg s);
kind kind_of(reg s);

void cons_into(reg t, reg car, reg cdr);
void number_into(reg t, int64_t n);
void take(reg t, reg list);
void reverse(reg list);
uint64_t length(reg list);
void push(enum step step);
void pop(void);

void text_start(void);
void text_add(unsigned char c);
void text_into(reg t, uint64_t places);
unsigned char text_byte(reg s, uint64_t i);
void intern(reg t);
void intern_name(reg t, const char *name);
void install(const char *name, unsigned code);

/* read.c */
bool read_expression(void);
void skip_rest(void);

/* print.c */
void out(int c);
void out_string(const char *s);
void fresh_line(void);
void print_atom(reg s, bool quoted);
void print_value(reg s, bool quoted);

/* eval.c */
void install_specials(void);
void evaluate(void);

/* primitives.c */
void install_primitives(void);
void call_primitive(void);

/* main.c: an error prints a line and goes back to the top level. */
_Noreturn void fail(const char *what);
_Noreturn void fail_named(const char *what, reg name);

#endif
