/* count JOB CALL TIMES: makes a call as often as TIMES says and prints nothing, so that its instructions can be counted.
 * CALL is answers or check on the parts of the job file, which has to be valid; or answers-refused or check-refused,
 * where the point is p: that is found last, when everything else is read.
 * count JOB: prints what each of the calls gives. Linked with the archive, and again with host/c/linear.c. */

#include <stdio.h>
#include <stdlib.h>
#include <string.h>

#include "rowprover.h"
#include "words.h"

static uint8_t job[ROWPROVER_MOST_BYTES + 1], refused_job[ROWPROVER_MOST_BYTES];
static uint8_t query[ROWPROVER_QUERY_BYTES], refused_query[ROWPROVER_QUERY_BYTES];
static uint8_t out[ROWPROVER_ANSWERS_BYTES];
static size_t job_len, circuit_len, public_len;

static void give_up(const char *why)
{
    fprintf(stderr, "count: %s\n", why);
    exit(1);
}

static void read_job(const char *path)
{
    FILE *file = fopen(path, "rb");
    if (file == NULL)
        give_up("the job cannot be opened");
    job_len = fread(job, 1, sizeof job, file);
    fclose(file);
    if (rowprover_answers(job, job_len, out, sizeof out) != ROWPROVER_DONE)
        give_up("the job is not valid");
    size_t words = 3;
    for (int matrix = 0; matrix < 3; matrix++)
        words += 1 + 3 * (size_t)get_word(job, words);
    circuit_len = 4 * words;
    public_len = 4 * (1 + (size_t)get_word(job, words));
    memcpy(query, job + job_len - 4, 4);
    memcpy(query + 4, out, sizeof out);
    memcpy(refused_job, job, job_len);
    put_word(refused_job, job_len / 4 - 1, ROWPROVER_PRIME);
    memcpy(refused_query, query, sizeof query);
    put_word(refused_query, 0, ROWPROVER_PRIME);
}

static uint64_t answers(void)
{
    return rowprover_answers(job, job_len, out, sizeof out);
}

static uint64_t answers_refused(void)
{
    return rowprover_answers(refused_job, job_len, out, sizeof out);
}

static uint64_t check(void)
{
    return rowprover_check(job, circuit_len, job + circuit_len, public_len, query, sizeof query);
}

static uint64_t check_refused(void)
{
    return rowprover_check(job, circuit_len, job + circuit_len, public_len, refused_query, sizeof refused_query);
}

static const struct {
    const char *name;
    uint64_t (*make)(void);
} calls[] = {
    {"answers", answers}, {"answers-refused", answers_refused}, {"check", check}, {"check-refused", check_refused}
};
enum { CALLS = sizeof calls / sizeof calls[0] };

int main(int argc, char **argv)
{
    if (argc != 2 && argc != 4) {
        fprintf(stderr, "usage: count JOB [CALL TIMES]\n");
        return 2;
    }
    read_job(argv[1]);
    for (size_t i = 0; i < CALLS; i++) {
        if (argc == 2) {
            printf("%s %llu", calls[i].name, (unsigned long long)calls[i].make());
            for (size_t k = 0; k < 4; k++)
                printf(" %lu", (unsigned long)get_word(out, k));
            printf("\n");
        } else if (strcmp(argv[2], calls[i].name) == 0) {
            for (long times = atol(argv[3]); times > 0; times--)
                calls[i].make();
            return 0;
        }
    }
    return argc == 2 ? 0 : 2;
}
