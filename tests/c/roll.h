/* A fixed random sequence (xorshift), the same on every machine, for tests and benchmarks. */
#ifndef ROLL_H
#define ROLL_H

#include <stdint.h>

/* the next number from 0 to below - 1 */
static unsigned roll(unsigned below)
{
    static uint64_t state = UINT64_C(0x9E3779B97F4A7C15);

    state ^= state << 13;
    state ^= state >> 7;
    state ^= state << 17;
    return (unsigned)((state >> 33) % below);
}

#endif
