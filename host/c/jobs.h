/* The jobs of the C tests: the rules' J, and a full one. Kept in bytes as a host would hold them. */

#ifndef JOBS_H
#define JOBS_H

#include "words.h"

enum {
    CIRCUIT_WORDS = 27,                                     /* of J, from word 0 */
    PUBLIC_WORDS = 3,                                       /* of J, behind the circuit */
    J_WORDS = 39,
    FULL_ROWS = 256,
    FULL_SECTION_WORDS = 1 + 3 * 1024,
    FULL_CIRCUIT_WORDS = 3 + 3 * FULL_SECTION_WORDS,
    FULL_WORDS = FULL_CIRCUIT_WORDS + FULL_ROWS + 2 + 6     /* the longest job there is */
};

static const uint32_t J[J_WORDS] = {
    2, 2, 4,  2, 1, 3, 1, 2, 4, 1,  3, 1, 3, 1, 2, 1, 2, 2, 3, 1,  2, 1, 4, 1, 2, 2, 1,
    2, 1, 45,  2, 3, 9,  3, 1, 2, 3,  1, 3
};

/* Four entries in each row of each matrix and all values 1: a row is 4 times 4 equals 16. */
static inline void put_full_job(uint8_t *bytes)
{
    static const uint32_t value[3] = {1, 1, 4};
    static const uint32_t tail[6] = {3, 2013265920, 2, 3, 1, 1234567890};
    size_t at = 0;
    put_word(bytes, at++, FULL_ROWS);
    put_word(bytes, at++, 10);
    put_word(bytes, at++, FULL_ROWS);
    for (size_t matrix = 0; matrix < 3; matrix++) {
        put_word(bytes, at++, 1024);
        for (uint32_t row = 1; row <= FULL_ROWS; row++) {
            for (uint32_t k = 0; k < 4; k++) {
                put_word(bytes, at++, row);
                put_word(bytes, at++, 1 + 64 * k + (row + 7 * (uint32_t)matrix) % 64);
                put_word(bytes, at++, value[matrix]);
            }
        }
    }
    put_word(bytes, at++, 10);
    for (size_t k = 0; k < 10; k++)
        put_word(bytes, at++, 1);
    put_word(bytes, at++, FULL_ROWS - 10);
    for (size_t k = 10; k < FULL_ROWS; k++)
        put_word(bytes, at++, 1);
    for (size_t k = 0; k < 6; k++)
        put_word(bytes, at++, tail[k]);
}

#endif
