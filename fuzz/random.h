/* Random numbers that a seed repeats. */
#ifndef RANDOM_H
#define RANDOM_H

#include <stdbool.h>
#include <stdint.h>

struct random {
    uint64_t state;
};

/* The next number of 64 bits, by splitmix64. */
static inline uint64_t next_number(struct random *random) {
    uint64_t mixed = random->state += 0x9e3779b97f4a7c15;
    mixed = (mixed ^ (mixed >> 30)) * 0xbf58476d1ce4e5b9;
    mixed = (mixed ^ (mixed >> 27)) * 0x94d049bb133111eb;
    return mixed ^ (mixed >> 31);
}

/* A number below `bound`, or 0 if that is 0. */
static inline uint64_t below(struct random *random, uint64_t bound) {
    return bound ? next_number(random) % bound : 0;
}

/* True once in so many times. */
static inline bool once_in(struct random *random, uint64_t times) {
    return below(random, times) == 0;
}

#endif
