/* The row prover's two exported functions: answers for the box, check for the tablet.
 *
 * Link with librowprover.a (x86-64). Both functions are pure: they keep no state, allocate nothing, read only the bytes
 * lent to them, and may be called from several threads at once. Any bytes are allowed as input; bad ones are refused
 * with a number and a place.
 *
 * Buffers: they are lent for the call alone and not kept. No alignment is needed. The output must not overlap the
 * input; two inputs may overlap. For a length of 0 pass any pointer but NULL: nothing is read or written through it.
 * All words inside the bytes are u32, least significant byte first. A call takes about 44 KiB of stack.
 *
 * What check means by 0: exactly that the four numbers satisfy the equation (RULES 5) at the point, for the circuit and
 * the public values. The box's numbers for private values with which every row holds always do. Alone they bind
 * nobody: whoever knows the point can choose three numbers and work out the fourth. The commitment layer above adds
 * that, by fixing the polynomials before the point is drawn. One triple of blinders must serve one point only. */

#ifndef ROWPROVER_H
#define ROWPROVER_H

#include <stddef.h>
#include <stdint.h>

#ifdef __cplusplus
extern "C" {
#endif

/* The result of both functions is 256 times a place plus a number. */
#define ROWPROVER_NUMBER(result) ((unsigned)((result) & 255u))
#define ROWPROVER_PLACE(result) ((uint64_t)(result) >> 8)

/* The numbers, and what the place is. 9 belongs to calls that are not exported. */
enum rowprover_number {
    ROWPROVER_DONE = 0,         /* done, or accepted; place 0 */
    ROWPROVER_CIRCUIT = 1,      /* circuit words run out, or are left over; words given */
    ROWPROVER_RANGE = 2,        /* m, n, q or an entry count outside its range; index of that word */
    ROWPROVER_POSITION = 3,     /* row or column outside its range; index of the entry's first word */
    ROWPROVER_VALUE = 4,        /* an entry's value is 0 or above p - 1; index of the entry's first word */
    ROWPROVER_ORDER = 5,        /* entry not above the one before it; index of the entry's first word */
    ROWPROVER_SECTION = 6,      /* assignment or public section: length or count disagrees with the circuit; 0 */
    ROWPROVER_ASSIGNED = 7,     /* first public value not 1, or a value above p - 1; its index in the assignment */
    ROWPROVER_OUTPUT = 8,       /* answers: the output is not 16 bytes; 16 */
    ROWPROVER_COLUMN = 9,       /* matrix or column number outside its range; 0 */
    ROWPROVER_ROW = 10,         /* answers: a row fails; the lowest failing row, counted from 1 */
    ROWPROVER_POINT = 11,       /* point above p - 1, or a row (1 to m); 0 */
    ROWPROVER_WORD = 12,        /* blinder or answer above p - 1; its index, 0 to 2 or 0 to 3 */
    ROWPROVER_EQUALITY = 13,    /* check: the equality is false, the answers are rejected; 0 */
    ROWPROVER_SHAPE = 14        /* a slice is too long, no whole number of words, or not well shaped; 0 */
};

#define ROWPROVER_PRIME 2013265921u      /* p; a field word is 0 to p - 1 */
#define ROWPROVER_MOST_BYTES 37944u      /* the longest job, circuit or public section */
#define ROWPROVER_ANSWERS_BYTES 16u      /* the output of answers: four words */
#define ROWPROVER_QUERY_BYTES 20u        /* the query of check: the point and the four answers */

/* The four answers to a job: circuit, assignment, count 3 and three blinders, count 1 and the point. After
 * ROWPROVER_DONE the 16 bytes at out hold them; after any other number out is as it was. The numbers are tried in
 * the order 14 (length), circuit 1 to 5 from its front, 6, 7, 14 (what remains), 12, 11, 8, 10. */
uint64_t rowprover_answers(const uint8_t *job, size_t job_len, uint8_t *out, size_t out_len);

/* Do the four answers satisfy the equation at the point, for this circuit and these public values? The public section
 * is the count q and the q public values. ROWPROVER_DONE: they do. ROWPROVER_EQUALITY: they do not. Any other number
 * refuses to look. The order is 14, circuit 1 to 5 from its front and its length last, 6, 7, 12, 11, 13. */
uint64_t rowprover_check(const uint8_t *circuit, size_t circuit_len,
                         const uint8_t *public_section, size_t public_len,
                         const uint8_t *query, size_t query_len);

#ifdef __cplusplus
}
#endif

#endif
