/* stack_test ANSWERS_LIMIT CHECK_LIMIT: how deep does each call go on the stack? Each call runs on a stack of its
 * own that is painted first; the deepest byte that lost its paint tells. Counted from the top of that stack, so a few
 * bytes of the test's own entry are in it. Link statically: the dynamic linker's first-call work would be counted.
 * A frame that is taken and never written is not seen. The last line is 'N passed, M failed'. */

#define _DEFAULT_SOURCE
#include <stdio.h>
#include <stdlib.h>
#include <string.h>
#include <sys/mman.h>
#include <ucontext.h>

#include "jobs.h"
#include "rowprover.h"

enum { STACK = 1 << 20, PAGE = 4096, PAINT = 0xC7 };

static uint8_t *stack;
static ucontext_t here, there;

/* What the call on the painted stack reads and gives. */
static uint8_t full[4 * FULL_WORDS], small[4 * J_WORDS];
static uint8_t out[ROWPROVER_ANSWERS_BYTES], query[ROWPROVER_QUERY_BYTES];
static const uint8_t *job;
static size_t job_len, circuit_len, public_len;
static uint64_t result;

static void call_nothing(void)
{
    result = 0;
}

static void call_answers(void)
{
    result = rowprover_answers(job, job_len, out, sizeof out);
}

static void call_check(void)
{
    result = rowprover_check(job, circuit_len, job + circuit_len, public_len, query, sizeof query);
}

/* Bytes of the painted stack that the call reached. */
static size_t deepest(void (*call)(void))
{
    memset(stack, PAINT, STACK);
    if (getcontext(&there) != 0) {
        perror("stack_test");
        exit(2);
    }
    there.uc_stack.ss_sp = stack;
    there.uc_stack.ss_size = STACK;
    there.uc_link = &here;
    makecontext(&there, call, 0);
    if (swapcontext(&here, &there) != 0) {
        perror("stack_test");
        exit(2);
    }
    size_t untouched = 0;
    while (untouched < STACK && stack[untouched] == PAINT)
        untouched++;
    return STACK - untouched;
}

static void use_small(void)
{
    for (size_t k = 0; k < J_WORDS; k++)
        put_word(small, k, J[k]);
    job = small;
    job_len = sizeof small;
    circuit_len = 4 * CIRCUIT_WORDS;
    public_len = 4 * PUBLIC_WORDS;
}

static void use_full(void)
{
    put_full_job(full);
    job = full;
    job_len = sizeof full;
    circuit_len = 4 * FULL_CIRCUIT_WORDS;
    public_len = 4 * 11;
}

/* Answers, then the check of those answers; each must be done, or the depth would be that of a refusal. */
static int measure(const char *name, size_t depths[2])
{
    size_t answers = deepest(call_answers);
    uint64_t answered = result;
    put_word(query, 0, get_word(job, job_len / 4 - 1));
    memcpy(query + 4, out, sizeof out);
    size_t check = deepest(call_check);
    printf("%s: answers %zu bytes, check %zu bytes\n", name, answers, check);
    depths[0] = answers > depths[0] ? answers : depths[0];
    depths[1] = check > depths[1] ? check : depths[1];
    return answered == 0 && result == 0;
}

static int hold(const char *name, size_t depth, const char *limit)
{
    char *end;
    unsigned long most = strtoul(limit, &end, 10);
    int good = end != limit && *end == '\0' && depth <= most;
    printf("%s: deepest %zu bytes, limit %s%s\n", name, depth, limit, good ? "" : ": EXCEEDED");
    return good;
}

int main(int count, char **words)
{
    if (count != 3) {
        fprintf(stderr, "usage: stack_test ANSWERS_LIMIT CHECK_LIMIT (bytes)\n");
        return 2;
    }
    void *pages = mmap(NULL, PAGE + STACK, PROT_READ | PROT_WRITE, MAP_PRIVATE | MAP_ANONYMOUS, -1, 0);
    if (pages == MAP_FAILED || mprotect(pages, PAGE, PROT_NONE) != 0) {
        perror("stack_test");
        return 2;
    }
    stack = (uint8_t *)pages + PAGE;
    printf("the test's own entry: %zu bytes\n", deepest(call_nothing));
    size_t depths[2] = {0, 0};
    int passed = 0;
    use_small();
    passed += measure("J", depths);
    use_full();
    passed += measure("longest job", depths);
    passed += hold("answers", depths[0], words[1]);
    passed += hold("check", depths[1], words[2]);
    printf("%d passed, %d failed\n", passed, 4 - passed);
    return passed == 4 ? 0 : 1;
}
