// Chance for the tests: a generator of our own, so that every machine does alike (xorshift64*).
#ifndef UZ_CHANCE_H
#define UZ_CHANCE_H

#include <stdint.h>

static uint64_t chance = 1;

static uint64_t any(uint64_t below) {
    chance ^= chance >> 12;
    chance ^= chance << 25;
    chance ^= chance >> 27;
    return (chance * UINT64_C(0x2545F4914F6CDD1D) >> 32) % below;
}

#endif
