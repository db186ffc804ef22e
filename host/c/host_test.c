/* A C host: links the static library, calls both functions as a service would and checks every result. Each input
 * ends where a page ends that nobody may touch, and is read-only, so a read past its end or a write to it kills the
 * test. The last line is 'N passed, M failed'. */

#define _DEFAULT_SOURCE
#include <stdio.h>
#include <stdlib.h>
#include <string.h>
#include <sys/mman.h>

#include "jobs.h"
#include "rowprover.h"

enum { PAGE = 4096, ROOM = 12 * PAGE, OUT_ROOM = 128, OUT_AT = 33, KNOWN = 0xA5 };

static unsigned passed, failed;

static void expect(int good, const char *name, long detail)
{
    if (good) {
        passed++;
    } else {
        failed++;
        printf("failed: %s (%ld)\n", name, detail);
    }
}

static void expect_result(uint64_t result, unsigned number, uint64_t place, const char *name, long detail)
{
    if (result != 256 * place + number)
        printf("number %u, place %llu, wanted %u, %llu:\n", ROWPROVER_NUMBER(result),
               (unsigned long long)ROWPROVER_PLACE(result), number, (unsigned long long)place);
    expect(result == 256 * place + number, name, detail);
}

/* Lent inputs: three rooms, each before a page without any access. */

static uint8_t *room[3];

static void make_rooms(void)
{
    for (int k = 0; k < 3; k++) {
        void *pages = mmap(NULL, ROOM + PAGE, PROT_READ | PROT_WRITE, MAP_PRIVATE | MAP_ANONYMOUS, -1, 0);
        if (pages == MAP_FAILED || mprotect((uint8_t *)pages + ROOM, PAGE, PROT_NONE) != 0) {
            perror("host_test");
            exit(2);
        }
        room[k] = pages;
    }
}

/* The bytes at the end of room k, read-only. With length 0 it points to the first byte nobody may touch. */
static const uint8_t *lend(int k, const uint8_t *bytes, size_t length)
{
    uint8_t *start = room[k] + ROOM - length;
    mprotect(room[k], ROOM, PROT_READ | PROT_WRITE);
    if (length > 0)
        memcpy(start, bytes, length);
    mprotect(room[k], ROOM, PROT_READ);
    return start;
}

/* One call of answers on a lent job: out is filled first and must be the four words, or as it was. */

static uint8_t answer_bytes[ROWPROVER_ANSWERS_BYTES];

static uint64_t answers(const uint8_t *job, size_t job_len, size_t out_len)
{
    uint8_t around[OUT_ROOM], as_it_was[OUT_ROOM];
    memset(around, KNOWN, sizeof around);
    memset(as_it_was, KNOWN, sizeof as_it_was);
    uint64_t result = rowprover_answers(lend(0, job, job_len), job_len, around + OUT_AT, out_len);
    if (result == ROWPROVER_DONE && out_len == sizeof answer_bytes) {
        memcpy(answer_bytes, around + OUT_AT, sizeof answer_bytes);
        memset(around + OUT_AT, KNOWN, sizeof answer_bytes);
    }
    expect(memcmp(around, as_it_was, sizeof around) == 0, "bytes that must stay", (long)job_len);
    return result;
}

static uint64_t check(const uint8_t *circuit, size_t circuit_len, const uint8_t *public_section, size_t public_len,
                      const uint8_t *query, size_t query_len)
{
    return rowprover_check(lend(0, circuit, circuit_len), circuit_len, lend(1, public_section, public_len),
                           public_len, lend(2, query, query_len), query_len);
}

static uint8_t job[4 * J_WORDS];
static uint8_t query[ROWPROVER_QUERY_BYTES];

/* J as RULES 7 prints it, and its query: the point and the four printed answers. */
static void fresh(void)
{
    static const uint32_t words[5] = {3, 17, 7, 2013265918, 50};
    for (size_t k = 0; k < J_WORDS; k++)
        put_word(job, k, J[k]);
    for (size_t k = 0; k < 5; k++)
        put_word(query, k, words[k]);
}

static uint64_t check_j(void)
{
    return check(job, 4 * CIRCUIT_WORDS, job + 4 * CIRCUIT_WORDS, 4 * PUBLIC_WORDS, query, sizeof query);
}

static void test_j(void)
{
    fresh();
    expect_result(answers(job, sizeof job, 16), 0, 0, "answers of J", 0);
    expect(memcmp(answer_bytes, query + 4, 16) == 0, "the four printed words", 0);
    expect_result(check_j(), 0, 0, "check of J", 0);
    for (size_t k = 1; k <= 4; k++) {
        fresh();
        put_word(query, k, get_word(query, k) + 1);
        expect_result(check_j(), 13, 0, "check of a wrong answer", (long)k);
    }
}

/* One word of J changed: what answers says, and what check says (-1: the word is not in what it reads). */

struct change {
    uint32_t index, word;
    int number, place, check_number, check_place;
};

static const struct change changes[] = {
    {0, 0, 2, 0, 2, 0},             {0, 257, 2, 0, 2, 0},           {1, 0, 2, 1, 2, 1},
    {1, 5, 2, 1, 2, 1},             {2, 0, 2, 2, 2, 2},             {2, 257, 2, 2, 2, 2},
    {3, 1025, 2, 3, 2, 3},          {3, 0xFFFFFFFF, 2, 3, 2, 3},    {20, 1024, 1, 39, 1, 27},
    {20, 1, 7, 1, 1, 27},           {4, 0, 3, 4, 3, 4},             {4, 3, 3, 4, 3, 4},
    {5, 5, 3, 4, 3, 4},             {6, 0, 4, 4, 4, 4},             {6, 2013265921, 4, 4, 4, 4},
    {26, 0xFFFFFFFF, 4, 24, 4, 24}, {7, 1, 10, 1, 0, 0},            {8, 0, 3, 7, 3, 7},
    {17, 1, 5, 17, 5, 17},          {18, 1, 5, 17, 5, 17},          {27, 1, 6, 0, 6, 0},
    {27, 0xFFFFFFFF, 6, 0, 6, 0},   {28, 2, 7, 1, 7, 1},            {28, 2013265922, 7, 1, 7, 1},
    {29, 2013265921, 7, 2, 7, 2},   {29, 46, 10, 2, 13, 0},         {30, 1, 6, 0, -1, 0},
    {32, 0xFFFFFFFF, 7, 5, -1, 0},  {32, 10, 10, 1, -1, 0},         {33, 2, 14, 0, -1, 0},
    {34, 2013265921, 12, 0, -1, 0}, {36, 0xFFFFFFFF, 12, 2, -1, 0}, {37, 0, 14, 0, -1, 0},
    {38, 1, 11, 0, -1, 0},          {38, 2, 11, 0, -1, 0},          {38, 2013265921, 11, 0, -1, 0},
};

static void test_changes(void)
{
    for (size_t k = 0; k < sizeof changes / sizeof changes[0]; k++) {
        const struct change *c = &changes[k];
        fresh();
        put_word(job, c->index, c->word);
        expect_result(answers(job, sizeof job, 16), (unsigned)c->number, (uint64_t)c->place, "changed word", (long)k);
        if (c->check_number >= 0)
            expect_result(check_j(), (unsigned)c->check_number, (uint64_t)c->check_place, "same in check", (long)k);
    }
}

static void test_query_words(void)
{
    for (uint32_t k = 1; k <= 4; k++) {
        fresh();
        put_word(query, 0, 1);
        put_word(query, k, 2013265921);
        expect_result(check_j(), 12, k - 1, "answer above p - 1, before a point on a row", (long)k);
    }
    static const uint32_t on_a_row[4] = {1, 2, 2013265921, 0xFFFFFFFF};
    for (size_t k = 0; k < 4; k++) {
        fresh();
        put_word(query, 0, on_a_row[k]);
        expect_result(check_j(), 11, 0, "point of check", (long)k);
    }
}

/* Points off the rows are answered, and the answers accepted. */
static void test_points(void)
{
    static const uint32_t points[4] = {0, 3, 1000000007, 2013265920};
    for (size_t k = 0; k < 4; k++) {
        fresh();
        put_word(job, 38, points[k]);
        put_word(query, 0, points[k]);
        expect_result(answers(job, sizeof job, 16), 0, 0, "answers at a point", (long)k);
        memcpy(query + 4, answer_bytes, 16);
        expect_result(check_j(), 0, 0, "and their check", (long)k);
    }
}

/* Every length of the job, down to the empty slice. */
static void test_cut_jobs(void)
{
    fresh();
    for (size_t length = 0; length < sizeof job; length++) {
        uint64_t words = length / 4;
        uint64_t result = answers(job, length, 16);
        if (length % 4 != 0 || words > 32)
            expect_result(result, 14, 0, "cut job", (long)length);
        else if (words >= CIRCUIT_WORDS)
            expect_result(result, 6, 0, "cut job", (long)length);
        else
            expect_result(result, 1, words, "cut job", (long)length);
    }
}

static void test_output_lengths(void)
{
    static const size_t lengths[5] = {0, 4, 15, 17, 32};
    for (size_t k = 0; k < 5; k++) {
        fresh();
        expect_result(answers(job, sizeof job, lengths[k]), 8, 16, "output length", (long)lengths[k]);
        put_word(job, 32, 10);
        expect_result(answers(job, sizeof job, lengths[k]), 8, 16, "8 before 10", (long)lengths[k]);
        put_word(job, 38, 1);
        expect_result(answers(job, sizeof job, lengths[k]), 11, 0, "11 before 8", (long)lengths[k]);
    }
}

static void test_check_lengths(void)
{
    static const uint8_t zeros[ROWPROVER_MOST_BYTES + 4];
    const uint8_t *public_section = job + 4 * CIRCUIT_WORDS;
    fresh();
    for (size_t length = 0; length < 4 * CIRCUIT_WORDS; length++) {
        uint64_t result = check(job, length, public_section, 12, query, 20);
        if (length % 4 != 0)
            expect_result(result, 14, 0, "cut circuit", (long)length);
        else
            expect_result(result, 1, length / 4, "cut circuit", (long)length);
    }
    expect_result(check(job, 112, public_section, 12, query, 20), 1, 28, "a word left over", 112);
    for (size_t length = 0; length <= 16; length++)
        if (length != 12)
            expect_result(check(job, 108, public_section, length, query, 20), length % 4 ? 14 : 6, 0,
                          "public section's length", (long)length);
    for (size_t length = 0; length < 20; length++)
        expect_result(check(job, 108, public_section, 12, query, length), 14, 0, "query length", (long)length);
    expect_result(check(job, 108, public_section, 12, zeros, 24), 14, 0, "query length", 24);
    expect_result(check(zeros, ROWPROVER_MOST_BYTES, public_section, 12, query, 20), 2, 0, "longest circuit", 0);
    expect_result(check(zeros, ROWPROVER_MOST_BYTES + 4, public_section, 12, query, 20), 14, 0, "over-long", 0);
    expect_result(check(job, 108, zeros, ROWPROVER_MOST_BYTES, query, 20), 6, 0, "longest public section", 0);
    expect_result(check(job, 108, zeros, ROWPROVER_MOST_BYTES + 4, query, 20), 14, 0, "over-long public", 0);
    expect_result(check(zeros, 0, zeros, 0, zeros, 0), 14, 0, "all slices empty", 0);
    expect_result(answers(zeros, ROWPROVER_MOST_BYTES, 16), 2, 0, "longest job", 0);
    expect_result(answers(zeros, ROWPROVER_MOST_BYTES + 4, 16), 14, 0, "over-long job", 0);
    expect_result(answers(zeros, ROWPROVER_MOST_BYTES + 4, 0), 14, 0, "over-long job, no output", 0);
}

/* The longest job: answered and accepted; one answer more or less is not. */
static void test_full_job(void)
{
    static uint8_t full[4 * FULL_WORDS];
    const uint8_t *public_section = full + 4 * FULL_CIRCUIT_WORDS;
    uint8_t asked[ROWPROVER_QUERY_BYTES];
    put_full_job(full);
    expect(sizeof full == ROWPROVER_MOST_BYTES, "the longest job's length", (long)sizeof full);
    expect_result(answers(full, sizeof full, 16), 0, 0, "answers of the longest job", 0);
    put_word(asked, 0, get_word(full, FULL_WORDS - 1));
    memcpy(asked + 4, answer_bytes, 16);
    expect_result(check(full, 4 * FULL_CIRCUIT_WORDS, public_section, 44, asked, 20), 0, 0, "and its check", 0);
    put_word(asked, 4, (get_word(asked, 4) + 1) % ROWPROVER_PRIME);
    expect_result(check(full, 4 * FULL_CIRCUIT_WORDS, public_section, 44, asked, 20), 13, 0, "one more", 0);
    put_word(full, FULL_WORDS - 7, 2);
    expect_result(answers(full, sizeof full, 16), 10, 49, "the last value changed breaks row 49 first", 0);
}

/* Nothing needs alignment, and a second call gives the same. */
static void test_unaligned(void)
{
    uint8_t bytes[4 * J_WORDS + 8], out[16 + 8];
    fresh();
    for (size_t shift = 0; shift < 8; shift++) {
        memcpy(bytes + shift, job, sizeof job);
        memset(out, 0, sizeof out);
        expect_result(rowprover_answers(bytes + shift, sizeof job, out + 7 - shift, 16), 0, 0, "shifted", (long)shift);
        expect(memcmp(out + 7 - shift, query + 4, 16) == 0, "words of the shifted job", (long)shift);
        uint64_t result = rowprover_check(bytes + shift, 4 * CIRCUIT_WORDS, bytes + shift + 4 * CIRCUIT_WORDS,
                                          4 * PUBLIC_WORDS, query, sizeof query);
        expect_result(result, 0, 0, "check of the shifted job", (long)shift);
    }
}

int main(void)
{
    make_rooms();
    test_j();
    test_changes();
    test_query_words();
    test_points();
    test_cut_jobs();
    test_output_lengths();
    test_check_lengths();
    test_full_job();
    test_unaligned();
    printf("%u passed, %u failed\n", passed, failed);
    return failed == 0 && passed > 0 ? 0 : 1;
}
