/* Calls: read from a line of a script, and played on the library. Which calls there are is said by calls.inc, printed from the list. */
#ifndef CALLS_H
#define CALLS_H

#include "../pagzimul.h"

enum { MOST_NUMBERS = 3, CODES = 5 };

/* A size, a slot's or a place's number is below this. */
enum { SIZE_LIMIT = 65536 };

/* The words lent and the slots: what every call is handed. */
typedef struct heap {
    uint64_t *words;
    size_t count;
    uint64_t slots;
} heap;

/* A kind of call: its name, a letter for each of its numbers (s slot, i place or word, n size, x any number), and its function. */
typedef struct form {
    const char *name;
    const char *kinds;
    pagzimul_told (*none)(uint64_t *, size_t, uint64_t);
    pagzimul_told (*one)(uint64_t *, size_t, uint64_t, uint64_t);
    pagzimul_told (*two)(uint64_t *, size_t, uint64_t, uint64_t, uint64_t);
    pagzimul_told (*three)(uint64_t *, size_t, uint64_t, uint64_t, uint64_t, uint64_t);
} form;

/* A call, its numbers in the order of the script text; those that it does not have are 0. */
typedef struct call {
    const form *form;
    uint64_t numbers[MOST_NUMBERS];
} call;

/* The call that a line of a script spells; false if it spells none. */
bool call_read(const char *line, call *read);

pagzimul_told call_play(const call *asked, heap on);

bool call_is(const call *asked, const char *name);

#endif
