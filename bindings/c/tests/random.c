/* Numbers as if at random: splitmix64, a counter with an odd step and its bits stirred. */
#include "random.h"

#define STEP UINT64_C(0x9E3779B97F4A7C15)
#define FIRST_FACTOR UINT64_C(0xBF58476D1CE4E5B9)
#define SECOND_FACTOR UINT64_C(0x94D049BB133111EB)

enum { FIRST_SHIFT = 30, SECOND_SHIFT = 27, LAST_SHIFT = 31 };

random_state random_of_script(uint64_t seed, uint64_t script) {
    random_state first = {seed};
    random_state random = {random_word(&first) ^ script * FIRST_FACTOR};
    return random;
}

uint64_t random_word(random_state *random) {
    random->last += STEP;
    uint64_t word = random->last;
    word = (word ^ (word >> FIRST_SHIFT)) * FIRST_FACTOR;
    word = (word ^ (word >> SECOND_SHIFT)) * SECOND_FACTOR;
    return word ^ (word >> LAST_SHIFT);
}

size_t random_below(random_state *random, size_t limit) {
    return limit == 0 ? 0 : (size_t)(random_word(random) % limit);
}

static const uint64_t out_of_range[] = {
    65536, 65537, UINT64_C(1) << 32, (UINT64_C(1) << 32) + 1, UINT64_C(1) << 48, UINT64_C(1) << 63, UINT64_MAX - 1, UINT64_MAX};

enum { OUT_OF_RANGE = sizeof out_of_range / sizeof out_of_range[0], LOW_BITS = 0xffff };

uint64_t random_out_of_range(random_state *random, uint64_t in_range) {
    uint64_t number = out_of_range[random_below(random, OUT_OF_RANGE)];
    return random_below(random, 2) == 0 ? number : (number & ~(uint64_t)LOW_BITS) + (in_range & LOW_BITS);
}
