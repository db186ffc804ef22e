/* Words in bytes: u32, least significant byte first, at any address. */

#ifndef WORDS_H
#define WORDS_H

#include <stddef.h>
#include <stdint.h>

static inline uint32_t get_word(const uint8_t *bytes, size_t index)
{
    const uint8_t *b = bytes + 4 * index;
    return (uint32_t)b[0] | (uint32_t)b[1] << 8 | (uint32_t)b[2] << 16 | (uint32_t)b[3] << 24;
}

static inline void put_word(uint8_t *bytes, size_t index, uint32_t word)
{
    for (size_t k = 0; k < 4; k++)
        bytes[4 * index + k] = (uint8_t)(word >> (8 * k));
}

#endif
