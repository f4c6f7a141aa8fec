/* words.h: random words of a seed, which random_state is set to. */
#ifndef WORDS_H
#define WORDS_H
#include <stdbool.h>
#include <stddef.h>
#include <stdint.h>

static uint64_t random_state;

/* Returns the next random word (splitmix64). */
static inline uint64_t next(void)
{
    uint64_t z = random_state += UINT64_C(0x9e3779b97f4a7c15);
    z = (z ^ (z >> 30)) * UINT64_C(0xbf58476d1ce4e5b9);
    z = (z ^ (z >> 27)) * UINT64_C(0x94d049bb133111eb);
    return z ^ (z >> 31);
}

/* Returns a number below a bound, and 0 if that is 0. */
static inline size_t below(size_t bound)
{
    return bound == 0 ? 0 : (size_t)(next() % bound);
}

/* Returns true once in `times`. */
static inline bool once_in(size_t times)
{
    return below(times) == 0;
}
#endif
