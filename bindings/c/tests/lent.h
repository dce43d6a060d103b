/* Words that are lent to the library, laid so that a touch outside of them is seen. */
#ifndef LENT_H
#define LENT_H

#include <stdbool.h>
#include <stddef.h>
#include <stdint.h>

typedef enum placing {
    EXACT,       /* a block of just this size: AddressSanitizer sees a touch outside by code that it was built into */
    GUARDED,     /* guard words before and after: a write outside is seen afterwards */
    FENCED_END,  /* the words end at a page that nobody may touch: a touch beyond faults; guard words before */
    FENCED_START /* the words begin behind such a page; guard words after */
} placing;

enum { PLACINGS = 4 };

typedef struct lent {
    uint64_t *words;
    size_t count;
    placing placing;
    /* All that was taken, with the guard words that it has before and after the words. */
    void *block;
    size_t bytes, before, after;
} lent;

const char *placing_name(placing how);

/* So many words, with anything in them. */
lent lent_take(placing how, size_t count);

/* Fills the words with what a heap must not rely on, the same for each placing. */
void lent_fill(lent *l);

/* Are the guard words as they were? */
bool lent_is_guarded(const lent *l);

void lent_drop(lent *l);

#endif
