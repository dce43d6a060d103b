/* What the tests share: how much is played, how a test ends, and the tests themselves. */
#ifndef TESTS_H
#define TESTS_H

#include "script.h"

/* The seed, how many damaged rows there are, where what Rust compares is written, and the scripts. */
typedef struct plan {
    uint64_t seed, rows;
    const char *folder;
    char **paths;
    size_t count;
} plan;

/* Is what must hold there? Else says so and ends the program. */
void require(bool holds, const char *what);

_Noreturn void fail(const char *where, const char *what);

/* So many cleared items; ends the program where there is no memory. */
void *test_memory(size_t count, size_t size);

/* Says what is played, for when a fault ends the program; the number of the call is counted from 1, 0 before the first. */
void playing(const char *path, size_t call);

void print_playing_at_death(void);

/* Scripts with the answers of play, through the library and through the inline calls; damaged and never started words; what lies at the edges. */
void test_scripts(plan plan);
void test_inline(plan plan);
void test_damaged(plan plan);
void test_never_started(plan plan);
void test_edges(void);

#endif
