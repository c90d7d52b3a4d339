/* Answers a batch of requests through the C boundary: standard input and output as the program `second answer` of
 * tests/second has them. The areas stand at odd addresses between guards, an empty one is handed over as NULL, and what
 * must stay as it was is compared after every call. The most stack that a call took goes to standard error, in bytes.
 * Exit status 1: a bad batch; 3: a call wrote where it must not. */
#include "shellquiver.h"

#include <stdio.h>
#include <string.h>

enum { LONGEST = 65536, GUARD = 17, ROOM = GUARD + LONGEST + GUARD, DEEPEST = 16384 };

struct area {
    uint8_t room[ROOM];
    uint8_t before[ROOM];
    size_t length;
};

static struct area file, input, output;

static int take(void *place, size_t length) { return fread(place, 1, length, stdin) == length; }

static int take_number(uint32_t *number)
{
    uint8_t b[4];
    if (!take(b, 4))
        return 0;
    *number = b[0] | (uint32_t)b[1] << 8 | (uint32_t)b[2] << 16 | (uint32_t)b[3] << 24;
    return 1;
}

static int take_area(struct area *a)
{
    uint32_t length;
    if (!take_number(&length) || length > LONGEST)
        return 0;
    a->length = length;
    memset(a->room, 0xee, ROOM);
    if (!take(a->room + GUARD, length))
        return 0;
    memcpy(a->before, a->room, ROOM);
    return 1;
}

static uint8_t *bytes(struct area *a) { return a->length ? a->room + GUARD : NULL; }

static int stayed(const struct area *a) { return memcmp(a->room, a->before, ROOM) == 0; }

static int guarded(const struct area *a)
{
    size_t end = GUARD + a->length;
    return memcmp(a->room, a->before, GUARD) == 0 && memcmp(a->room + end, a->before + end, ROOM - end) == 0;
}

static uint64_t answered(uint32_t call)
{
    const uint8_t *f = bytes(&file), *i = bytes(&input);
    uint8_t *o = bytes(&output);
    size_t n = file.length, m = input.length, k = output.length;
    switch (call) {
    case 1: return sq_check(f, n);
    case 2: return sq_array_run(f, n, i, m, o, k);
    case 3: return sq_stream_run(f, n, i, m, o, k);
    case 4: return sq_lay_out(f, n, i, m, o, k);
    default: return sq_put_back(f, n, i, m, o, k);
    }
}

/* The stack below its caller: marks DEEPEST words of it, or counts those that no call has used since, from the far end. */
static size_t stack_below(int mark)
{
    const uint64_t marked = 0xa5c35aa53c5ac33c;
    uint64_t words[DEEPEST];
    volatile uint64_t *volatile stack = words; /* which hides that nothing here wrote what is read */
    size_t k = 0;
    if (mark)
        while (k < DEEPEST)
            stack[k++] = marked;
    else
        while (k < DEEPEST && stack[k] == marked)
            k++;
    return k;
}

/* Called through pointers, so that each has its frame in the same place. */
static size_t (*volatile unused_stack)(int) = stack_below;
static uint64_t (*volatile answer_to)(uint32_t) = answered;

int main(void)
{
    uint32_t call;
    size_t unused = DEEPEST;
    while (take_number(&call)) {
        if (call < 1 || call > 5 || !take_area(&file) || !take_area(&input) || !take_area(&output))
            return 1;
        unused_stack(1);
        uint64_t answer = answer_to(call);
        size_t left = unused_stack(0);
        unused = left < unused ? left : unused;
        unsigned number = sq_number(answer);
        int untouched = call == 1 || (number != SQ_DONE && number < SQ_UNSET_REGISTER);
        if (!stayed(&file) || !stayed(&input) || !guarded(&output) || (untouched && !stayed(&output)))
            return 3;
        for (int k = 0; k < 8; k++)
            putchar((int)(answer >> (8 * k) & 0xff));
        fwrite(output.room + GUARD, 1, output.length, stdout);
    }
    fprintf(stderr, "%u\n", (unsigned)((DEEPEST - unused) * sizeof(uint64_t)));
    return 0;
}
