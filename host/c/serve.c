/* serve: the two functions as a process, for a caller that cannot link them (host/rust/src/served.rs). It reads calls
 * from standard input and writes what came of each to standard output, until the input ends.
 *
 *   a call      kind (1 answers, 2 check), three lengths, then the bytes of three slices. Those of answers are the
 *               job, the output as it is before the call, and an empty one.
 *   an outcome  the result in 8 bytes; 1 where a byte changed that has to stay, else 0; for answers the output
 *
 * Kind, length and that 0 or 1 are words of 4 bytes; the least significant byte is the first everywhere. Each slice is
 * lent at an odd address, between known bytes. Exit status 1: the input is not made of calls, or a stream failed. */

#include <stdio.h>
#include <stdlib.h>
#include <string.h>

#include "rowprover.h"
#include "words.h"

enum { ANSWERS = 1, CHECK = 2, SLICES = 3, HEAD = 4 * (1 + SLICES), MOST = 1 << 16, MARGIN = 64, KNOWN = 0xA5 };

struct slice {
    uint8_t *lent; /* in the room, at an odd address */
    size_t length;
    uint8_t as_read[MOST];
    uint8_t room[MARGIN + 1 + MOST + MARGIN];
};

static struct slice slices[SLICES];

static void give_up(const char *why)
{
    fprintf(stderr, "serve: %s\n", why);
    exit(1);
}

static void lend(struct slice *slice, size_t length)
{
    if (length > MOST || fread(slice->as_read, 1, length, stdin) != length)
        give_up("a slice is too long or cut");
    uint8_t *middle = slice->room + MARGIN;
    slice->lent = (uintptr_t)middle % 2 == 1 ? middle : middle + 1;
    slice->length = length;
    memset(slice->room, KNOWN, MARGIN + 1);
    memcpy(slice->lent, slice->as_read, length);
    memset(slice->lent + length, KNOWN, MARGIN);
}

static int all_known(const uint8_t *from, const uint8_t *to)
{
    while (from < to && *from == KNOWN)
        from++;
    return from == to;
}

static int margins_stayed(const struct slice *slice)
{
    const uint8_t *end = slice->lent + slice->length;
    return all_known(slice->room, slice->lent) && all_known(end, end + MARGIN);
}

static int content_stayed(const struct slice *slice)
{
    return memcmp(slice->lent, slice->as_read, slice->length) == 0;
}

static uint64_t call(uint32_t kind)
{
    struct slice *s = slices;
    if (kind == ANSWERS)
        return rowprover_answers(s[0].lent, s[0].length, s[1].lent, s[1].length);
    return rowprover_check(s[0].lent, s[0].length, s[1].lent, s[1].length, s[2].lent, s[2].length);
}

static void serve(const uint8_t *head)
{
    uint32_t kind = get_word(head, 0);
    if (kind != ANSWERS && kind != CHECK)
        give_up("no such kind of call");
    for (size_t k = 0; k < SLICES; k++)
        lend(&slices[k], get_word(head, 1 + k));

    uint64_t result = call(kind);
    int stayed = 1;
    for (size_t k = 0; k < SLICES; k++) {
        int is_output = kind == ANSWERS && k == 1;
        stayed = stayed && margins_stayed(&slices[k]) && (is_output || content_stayed(&slices[k]));
    }

    uint8_t outcome[12];
    put_word(outcome, 0, (uint32_t)result);
    put_word(outcome, 1, (uint32_t)(result >> 32));
    put_word(outcome, 2, stayed ? 0 : 1);
    fwrite(outcome, 1, sizeof outcome, stdout);
    if (kind == ANSWERS)
        fwrite(slices[1].lent, 1, slices[1].length, stdout);
    /* The caller waits for it. */
    if (fflush(stdout) != 0)
        give_up("standard output failed");
}

int main(void)
{
    static char in[1 << 16], out[1 << 16];
    uint8_t head[HEAD];
    size_t got;
    setvbuf(stdin, in, _IOFBF, sizeof in);
    setvbuf(stdout, out, _IOFBF, sizeof out);
    while ((got = fread(head, 1, HEAD, stdin)) == HEAD)
        serve(head);
    if (got != 0 || ferror(stdin))
        give_up("the input ends inside a call, or failed");
    return 0;
}
