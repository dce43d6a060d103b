/* The calls that only read and write, once more as inline C over the row of words: get, set, read, write, copy, clear, same
 * and sizes, which a runtime makes so often that calling a function costs more than the work. Whoever includes this opts in:
 *
 *     pagzimul_told told = pagzimul_inline_read(words, 4096, 8, 0, 0);      as pagzimul_read, without a call
 *
 * Each takes what the call in pagzimul.h takes, for any numbers, answers the same, and reads and writes the same words; what
 * is asked of the caller is the same, too. Both kinds of calls may be made on the same words, by turns.
 *
 * None of it is proved: the contracts are those of the library's functions, and this is C that was written beside them. It
 * is tested only: bindings/test replays scripts through both, and compares every answer and every word of the row. It knows
 * what a row looks like (docs/ARCHITECTURE.md, "The row"), so it belongs to the library that it came with.
 */
#ifndef PAGZIMUL_INLINE_H
#define PAGZIMUL_INLINE_H

#include "pagzimul.h"

/* The slots come behind the manager's own words; an object's places behind its header and its second word, and then its
 * words. A header has the places in bits 0 to 15 and the words in 16 to 31. A reference word, in a slot or a place, has a
 * low byte, and above it where an object begins, or 0 for none. */
enum {
    PAGZIMUL_INLINE_OWN = 64,
    PAGZIMUL_INLINE_HEADS = 2,
    PAGZIMUL_INLINE_SIZE_MASK = 0xffff,
    PAGZIMUL_INLINE_WORDS_SHIFT = 16,
    PAGZIMUL_INLINE_LOW_BYTE = 0xff,
    PAGZIMUL_INLINE_ADDRESS_SHIFT = 8
};

static inline pagzimul_told pagzimul_inline_told(uint8_t code, uint64_t val)
{
    pagzimul_told told = { code, val };
    return told;
}

/* Where the object begins that a reference leads to; 0 for none. */
static inline uint64_t pagzimul_inline_target(uint64_t reference)
{
    return reference >> PAGZIMUL_INLINE_ADDRESS_SHIFT;
}

/* Another target for the reference at a word; its low byte stays. */
static inline void pagzimul_inline_retarget(uint64_t *reference, uint64_t target)
{
    *reference = target << PAGZIMUL_INLINE_ADDRESS_SHIFT | (*reference & PAGZIMUL_INLINE_LOW_BYTE);
}

static inline uint64_t pagzimul_inline_places(uint64_t header)
{
    return header & PAGZIMUL_INLINE_SIZE_MASK;
}

static inline uint64_t pagzimul_inline_words(uint64_t header)
{
    return header >> PAGZIMUL_INLINE_WORDS_SHIFT & PAGZIMUL_INLINE_SIZE_MASK;
}

/* Where the object in slot s begins; 0 where there is none, and the code says why. */
static inline uint64_t pagzimul_inline_object(const uint64_t *words, uint64_t slots, uint64_t s, uint8_t *code)
{
    *code = s < slots ? PAGZIMUL_NOTHING : PAGZIMUL_NO_SLOT;
    return s < slots ? pagzimul_inline_target(words[PAGZIMUL_INLINE_OWN + s]) : 0;
}

/* Where place i of the object in slot s stands; NULL where the code says why not. */
static inline uint64_t *pagzimul_inline_place(uint64_t *words, uint64_t slots, uint64_t s, uint64_t i, uint8_t *code)
{
    uint64_t at = pagzimul_inline_object(words, slots, s, code);

    if (at == 0)
        return NULL;
    bool there = i < pagzimul_inline_places(words[at]);
    *code = there ? PAGZIMUL_DONE : PAGZIMUL_NO_PLACE;
    return there ? words + at + PAGZIMUL_INLINE_HEADS + i : NULL;
}

/* Where word i of the object in slot s stands; NULL where the code says why not. */
static inline uint64_t *pagzimul_inline_word(uint64_t *words, uint64_t slots, uint64_t s, uint64_t i, uint8_t *code)
{
    uint64_t at = pagzimul_inline_object(words, slots, s, code);

    if (at == 0)
        return NULL;
    uint64_t header = words[at];
    bool there = i < pagzimul_inline_words(header);
    *code = there ? PAGZIMUL_DONE : PAGZIMUL_NO_PLACE;
    return there ? words + at + PAGZIMUL_INLINE_HEADS + pagzimul_inline_places(header) + i : NULL;
}

static inline pagzimul_told pagzimul_inline_get(uint64_t *words, size_t count, uint64_t slots, uint64_t t, uint64_t s, uint64_t i)
{
    uint8_t code = PAGZIMUL_NO_SLOT;
    const uint64_t *place = t < slots ? pagzimul_inline_place(words, slots, s, i, &code) : NULL;

    (void)count;
    if (place != NULL)
        pagzimul_inline_retarget(words + PAGZIMUL_INLINE_OWN + t, pagzimul_inline_target(*place));
    return pagzimul_inline_told(code, 0);
}

static inline pagzimul_told pagzimul_inline_set(uint64_t *words, size_t count, uint64_t slots, uint64_t s, uint64_t i, uint64_t t)
{
    uint8_t code = PAGZIMUL_NO_SLOT;
    uint64_t *place = t < slots ? pagzimul_inline_place(words, slots, s, i, &code) : NULL;

    (void)count;
    if (place != NULL)
        pagzimul_inline_retarget(place, pagzimul_inline_target(words[PAGZIMUL_INLINE_OWN + t]));
    return pagzimul_inline_told(code, 0);
}

static inline pagzimul_told pagzimul_inline_read(uint64_t *words, size_t count, uint64_t slots, uint64_t s, uint64_t i)
{
    uint8_t code;
    const uint64_t *word = pagzimul_inline_word(words, slots, s, i, &code);

    (void)count;
    return pagzimul_inline_told(code, word == NULL ? 0 : *word);
}

static inline pagzimul_told pagzimul_inline_write(uint64_t *words, size_t count, uint64_t slots, uint64_t s, uint64_t i, uint64_t x)
{
    uint8_t code;
    uint64_t *word = pagzimul_inline_word(words, slots, s, i, &code);

    (void)count;
    if (word != NULL)
        *word = x;
    return pagzimul_inline_told(code, 0);
}

static inline pagzimul_told pagzimul_inline_copy(uint64_t *words, size_t count, uint64_t slots, uint64_t t, uint64_t s)
{
    (void)count;
    if (t >= slots || s >= slots)
        return pagzimul_inline_told(PAGZIMUL_NO_SLOT, 0);
    pagzimul_inline_retarget(words + PAGZIMUL_INLINE_OWN + t, pagzimul_inline_target(words[PAGZIMUL_INLINE_OWN + s]));
    return pagzimul_inline_told(PAGZIMUL_DONE, 0);
}

static inline pagzimul_told pagzimul_inline_clear(uint64_t *words, size_t count, uint64_t slots, uint64_t t)
{
    (void)count;
    if (t >= slots)
        return pagzimul_inline_told(PAGZIMUL_NO_SLOT, 0);
    pagzimul_inline_retarget(words + PAGZIMUL_INLINE_OWN + t, 0);
    return pagzimul_inline_told(PAGZIMUL_DONE, 0);
}

static inline pagzimul_told pagzimul_inline_same(uint64_t *words, size_t count, uint64_t slots, uint64_t s, uint64_t t)
{
    (void)count;
    if (s >= slots || t >= slots)
        return pagzimul_inline_told(PAGZIMUL_NO_SLOT, 0);
    uint64_t left = pagzimul_inline_target(words[PAGZIMUL_INLINE_OWN + s]);
    uint64_t right = pagzimul_inline_target(words[PAGZIMUL_INLINE_OWN + t]);
    return pagzimul_inline_told(PAGZIMUL_DONE, left == right);
}

static inline pagzimul_told pagzimul_inline_sizes(uint64_t *words, size_t count, uint64_t slots, uint64_t s)
{
    uint8_t code;
    uint64_t at = pagzimul_inline_object(words, slots, s, &code);

    (void)count;
    if (at == 0)
        return pagzimul_inline_told(code, 0);
    uint64_t header = words[at];
    uint64_t sizes = pagzimul_inline_places(header) << PAGZIMUL_INLINE_WORDS_SHIFT | pagzimul_inline_words(header);
    return pagzimul_inline_told(PAGZIMUL_DONE, sizes);
}

#endif
