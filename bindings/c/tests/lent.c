/* Words that are lent to the library, laid so that a touch outside of them is seen. */
#define _DEFAULT_SOURCE
#include "lent.h"
#include <stdio.h>
#include <stdlib.h>
#include <sys/mman.h>
#include <unistd.h>

enum { GUARDS = 64, EXIT_NO_MEMORY = 3 };

#define GUARD UINT64_C(0xA5C3A5C3A5C3A5C3)
#define FILL_STEP UINT64_C(0x9E3779B97F4A7C15)

static const char *const names[PLACINGS] = {"exact block", "guard words", "fence behind", "fence before"};

const char *placing_name(placing how) {
    return names[how];
}

static void no_memory(void) {
    fputs("the tests have no memory\n", stderr);
    exit(EXIT_NO_MEMORY);
}

/* A different guard word for each position, so that a shifted copy is seen, too. */
static uint64_t guard_of(size_t i) {
    return GUARD ^ (uint64_t)i;
}

static void put_guards(lent *l) {
    for (size_t i = 0; i < l->before; i++) *(l->words - 1 - i) = guard_of(i);
    for (size_t i = 0; i < l->after; i++) l->words[l->count + i] = guard_of(i);
}

void lent_fill(lent *l) {
    for (size_t i = 0; i < l->count; i++) l->words[i] = (i + 1) * FILL_STEP;
}

bool lent_is_guarded(const lent *l) {
    for (size_t i = 0; i < l->before; i++) {
        if (*(l->words - 1 - i) != guard_of(i)) return false;
    }
    for (size_t i = 0; i < l->after; i++) {
        if (l->words[l->count + i] != guard_of(i)) return false;
    }
    return true;
}

static void take_block(lent *l) {
    size_t guards = l->placing == GUARDED ? GUARDS : 0;
    l->before = l->after = guards;
    l->bytes = (guards + l->count + guards) * sizeof(uint64_t);
    l->block = malloc(l->bytes == 0 ? 1 : l->bytes);
    if (l->block == NULL) no_memory();
    l->words = (uint64_t *)l->block + guards;
}

/* Whole pages for the words, and a page without access on either side. */
static void take_pages(lent *l) {
    size_t page = (size_t)sysconf(_SC_PAGESIZE);
    size_t wanted = l->count * sizeof(uint64_t);
    size_t inner = (wanted + page - 1) / page * page;
    l->bytes = page + inner + page;
    l->block = mmap(NULL, l->bytes, PROT_NONE, MAP_PRIVATE | MAP_ANONYMOUS, -1, 0);
    if (l->block == MAP_FAILED) no_memory();
    char *first = (char *)l->block + page;
    if (mprotect(first, inner, PROT_READ | PROT_WRITE) != 0) no_memory();
    size_t guards = (inner - wanted) / sizeof(uint64_t);
    l->before = l->placing == FENCED_END ? guards : 0;
    l->after = guards - l->before;
    l->words = (uint64_t *)(void *)first + l->before;
}

lent lent_take(placing how, size_t count) {
    lent l = {0};
    l.placing = how;
    l.count = count;
    if (how == EXACT || how == GUARDED) {
        take_block(&l);
    } else {
        take_pages(&l);
    }
    put_guards(&l);
    return l;
}

void lent_drop(lent *l) {
    if (l->placing == EXACT || l->placing == GUARDED) {
        free(l->block);
    } else {
        munmap(l->block, l->bytes);
    }
}
