/* The C interface of the memory manager: one function for each call, for starting and for checking memory.
 *
 * A heap is words that the caller lends: a pointer to `count` 64-bit words, and a number of slots. The manager keeps
 * nothing else: no allocation, no global state, nothing of the C library but memset. Hand the same three to every call:
 *
 *     uint64_t words[4096];
 *     if (!pagzimul_start(words, 4096, 8)) ...            too few words for 8 slots
 *     pagzimul_new(words, 4096, 8, 0, 2, 1);              an object with 2 places and 1 word, in slot 0
 *     pagzimul_write(words, 4096, 8, 0, 0, 42);
 *     pagzimul_told told = pagzimul_read(words, 4096, 8, 0, 0);   told.code is PAGZIMUL_DONE, told.val is 42
 *
 * A mutator sees a plain world in which nothing moves and nothing vanishes. An object has places, each for an object or
 * none, and words of 64 bits; how many of each is said when it is made, and they are none and 0 at first. Objects are
 * named by the slots that hold them, never by where they lie: a collection moves them, so no address inside of the
 * words may be kept. What no slot comes to, from place to place, is taken back when room is wanted.
 *
 * An object weighs two words, and one for each of its places and words; the world's weight is that of what is reached.
 * What of the words can hold objects, to the last word, is the room: count - 64 - slots.
 *
 * What is asked of the caller, and checked by nothing here:
 *   - `words` points to `count` words that nobody else reads or writes during a call, and that may be written but for
 *     pagzimul_fits (NULL is allowed with count 0);
 *   - every call but pagzimul_fits, pagzimul_start and pagzimul_is_sound is made on words for which pagzimul_start or
 *     pagzimul_is_sound answered true, with the same count and slots, and that only these calls have written since; so
 *     they are never NULL, which none of these calls looks at.
 * Every other number may be any number: one that is out of range is answered by its code. Slots are looked at from the
 * left, then whether there is something in the slot whose object is read or written, then the place or the size.
 *
 * Calls on different words may run at the same time; calls on the same words may not.
 */
#ifndef PAGZIMUL_H
#define PAGZIMUL_H

#include <stdbool.h>
#include <stddef.h>
#include <stdint.h>

#ifdef __cplusplus
extern "C" {
#endif

/* What an answer's code says. */
enum {
    PAGZIMUL_FULL = 0,     /* what is reached and the new object do not fit */
    PAGZIMUL_DONE = 1,
    PAGZIMUL_NO_SLOT = 2,  /* no such slot */
    PAGZIMUL_NOTHING = 3,  /* nothing in the slot */
    PAGZIMUL_NO_PLACE = 4  /* no such place or word; in pagzimul_new, no such size */
};

/* An answer: a code and a number, which is 0 where nothing is said. */
typedef struct pagzimul_told {
    uint8_t code;
    uint64_t val;
} pagzimul_told;

/* Are there enough words for so many slots: at least 64 + slots, with slots below 65,536 and count below 2^56?
 * Reads nothing. */
bool pagzimul_fits(const uint64_t *words, size_t count, uint64_t slots);

/* Makes an empty heap of words, whatever stands in them: every slot is empty, there is no object. Where
 * pagzimul_fits says no it answers false and writes nothing. Touches 67 + slots words. */
bool pagzimul_start(uint64_t *words, size_t count, uint64_t slots);

/* Do the words hold a sound heap with so many slots? Exact for any words whatever, damaged or never started, and it
 * needs no memory of its own: it writes to headers meanwhile, and when it answers every word is as it was, so it is not
 * for words that may only be read. Calls may be made on words for which it says true. It takes time linear in the words
 * in use: touches at most 3 words, 4 for each slot, and 9 for two words behind the slots. */
bool pagzimul_is_sound(uint64_t *words, size_t count, uint64_t slots);

/* The calls. calls: begin (scripts/print-calls) */
/* New: an object with r places and n words, in slot s. Full exactly if the world's weight and 2 + r + n are more than
 * the room; then nothing has changed that the mutator can tell. What stood in s counts, too. It may collect. FULL,
 * DONE, NO_SLOT, NO_PLACE if r or n is 65,536 or more. */
pagzimul_told pagzimul_new(uint64_t *words, size_t count, uint64_t slots, uint64_t s, uint64_t r, uint64_t n);

/* Get: slot t becomes place i of the object in s. DONE, NO_SLOT, NOTHING, NO_PLACE. */
pagzimul_told pagzimul_get(uint64_t *words, size_t count, uint64_t slots, uint64_t t, uint64_t s, uint64_t i);

/* Set: place i of the object in s becomes what is in t, which may be empty. DONE, NO_SLOT, NOTHING, NO_PLACE. */
pagzimul_told pagzimul_set(uint64_t *words, size_t count, uint64_t slots, uint64_t s, uint64_t i, uint64_t t);

/* Read: the number is word i of the object in s. DONE, NO_SLOT, NOTHING, NO_PLACE. */
pagzimul_told pagzimul_read(uint64_t *words, size_t count, uint64_t slots, uint64_t s, uint64_t i);

/* Write: word i of the object in s becomes x. DONE, NO_SLOT, NOTHING, NO_PLACE. */
pagzimul_told pagzimul_write(uint64_t *words, size_t count, uint64_t slots, uint64_t s, uint64_t i, uint64_t x);

/* Copy: slot t becomes what is in s. DONE, NO_SLOT. */
pagzimul_told pagzimul_copy(uint64_t *words, size_t count, uint64_t slots, uint64_t t, uint64_t s);

/* Clear: slot t becomes empty. DONE, NO_SLOT. */
pagzimul_told pagzimul_clear(uint64_t *words, size_t count, uint64_t slots, uint64_t t);

/* Same: the number is 1 if both hold the same object or both none, else 0. DONE, NO_SLOT. */
pagzimul_told pagzimul_same(uint64_t *words, size_t count, uint64_t slots, uint64_t s, uint64_t t);

/* Sizes: the number is 65,536 times the places, and the words, of the object in s. DONE, NO_SLOT, NOTHING. */
pagzimul_told pagzimul_sizes(uint64_t *words, size_t count, uint64_t slots, uint64_t s);

/* Collect: what is not reached is taken back; nothing that the mutator can tell. DONE. */
pagzimul_told pagzimul_collect(uint64_t *words, size_t count, uint64_t slots);
/* calls: end */

#ifdef __cplusplus
}
#endif

#endif
