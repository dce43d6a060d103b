/* The top level: reads, evaluates and prints, one expression after another; errors come back to it. */
#define _POSIX_C_SOURCE 200809L
#include "lisp.h"

#include <setjmp.h>
#include <stdio.h>
#include <stdlib.h>
#include <unistd.h>

enum { RESERVE_WORDS = 128, EXIT_USAGE = 2 };

static jmp_buf top_level;
static bool started;

static _Noreturn void give_up(const char *why)
{
    fprintf(stderr, "lisp: %s\n", why);
    exit(EXIT_USAGE);
}

static _Noreturn void back(void)
{
    out('\n');
    skip_rest();
    longjmp(top_level, 1);
}

static void begin_error(const char *what)
{
    if (!started)
        give_up("too few words");
    fresh_line();
    out_string("error: ");
    out_string(what);
}

_Noreturn void fail(const char *what)
{
    begin_error(what);
    back();
}

_Noreturn void fail_named(const char *what, reg name)
{
    begin_error(what);
    out_string(": ");
    print_atom(name, true);
    back();
}

static size_t wanted_words(int argc, char **argv)
{
    const char *usage = "usage: lisp [-w WORDS] < PROGRAM";
    size_t words = DEFAULT_WORDS;
    for (int option; (option = getopt(argc, argv, ":w:")) != -1;) {
        char *end = NULL;
        if (option != 'w')
            give_up(usage);
        words = strtoul(optarg, &end, 10);
        if (*optarg < '0' || *optarg > '9' || *end || words > MOST_WORDS)
            give_up("WORDS is no number up to 1048576");
    }
    if (optind != argc)
        give_up(usage);
    return words;
}

static void clear_working(void)
{
    for (reg r = R_WORKING; r < REGISTERS; r++)
        clear(r);
}

static void start_heap(size_t words)
{
    if (!heap_start(words))
        give_up("too few words");
    make(R_TRUE, CONSTANT_PLACES, CONSTANT_WORDS);
    make(R_FALSE, CONSTANT_PLACES, CONSTANT_WORDS);
    make(R_VOID, CONSTANT_PLACES, CONSTANT_WORDS);
    install_specials();
    install_primitives();
    started = true;
}

/* On a terminal only. What is typed ends the line of the prompt, so it is not counted as one that was begun. */
static void prompt(const char *text)
{
    if (!isatty(STDIN_FILENO))
        return;
    fresh_line();
    fputs(text, stdout);
    fflush(stdout);
}

static void print_answer(void)
{
    if (same(R_VAL, R_VOID))
        return;
    fresh_line();
    print_value(R_VAL, true);
    out('\n');
}

/* Whatever an expression keeps, the reserve is free again to read the next one. Where not all of it fits, the
 * expression is evaluated with less: it may be the one that gives memory back. */
static void evaluate_with_reserve(void)
{
    for (uint64_t words = RESERVE_WORDS; words > 0 && !try_make(R_RESERVE, 0, words);)
        words /= 2;
    evaluate();
    clear(R_RESERVE);
}

int main(int argc, char **argv)
{
    start_heap(wanted_words(argc, argv));
    (void)setjmp(top_level);
    for (;;) {
        clear_working();
        prompt("> ");
        if (!read_expression())
            break;
        evaluate_with_reserve();
        print_answer();
    }
    fresh_line();
    prompt("\n");
    return EXIT_SUCCESS;
}
