/* A word into bytes, little-endian, for the tests that make strips, books and stores. */
#ifndef WORDS_H
#define WORDS_H

#include <stdint.h>

static void put(uint8_t *at, uint32_t word)
{
    for (int i = 0; i < 4; i++)
        at[i] = (uint8_t)(word >> (8 * i));
}

#endif
