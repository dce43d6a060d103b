/* Numbers as if at random, the same for the same seed. */
#ifndef RANDOM_H
#define RANDOM_H

#include <stdbool.h>
#include <stddef.h>
#include <stdint.h>

typedef struct random_state {
    uint64_t last;
} random_state;

/* The numbers of one script: each script of a seed has its own. */
random_state random_of_script(uint64_t seed, uint64_t script);

uint64_t random_word(random_state *random);

/* A number below the limit; 0 where the limit is 0. */
size_t random_below(random_state *random, size_t limit);

/* A number above 65,535: one of some, or with the same low bits as a number in range. Code that cut numbers off would be seen. */
uint64_t random_out_of_range(random_state *random, uint64_t in_range);

#endif
