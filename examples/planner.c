/* An example planner: checks a kernel file, runs its stream program on a job and holds the result to the array program's.
 *
 *     planner FILE NUMBER..
 *
 * The numbers are the input array memory: the input arrays' cells end to end in file order. Prints the output array
 * memory. Exit status: 0 done; 1 the file is refused or a run stuck; 2 misuse, or a file that cannot be read. */
#include "shellquiver.h"

#include <errno.h>
#include <stdio.h>
#include <stdlib.h>
#include <string.h>

enum { DONE = 0, REFUSED = 1, MISUSE = 2 };

/* A file that goes on behind this many bytes is too long, whatever follows, so no more of it is read. */
static uint8_t file[SQ_LONGEST_FILE + 4];

static uint8_t input[SQ_LONGEST_MEMORY], laid[SQ_LONGEST_MEMORY];
static uint8_t items[SQ_LONGEST_MEMORY], back[SQ_LONGEST_MEMORY], output[SQ_LONGEST_MEMORY];

/* ---- numbers in a byte area */

static int32_t number_at(const uint8_t *area, size_t i)
{
    const uint8_t *b = area + 4 * i;
    uint32_t word = b[0] | (uint32_t)b[1] << 8 | (uint32_t)b[2] << 16 | (uint32_t)b[3] << 24;
    return word < 0x80000000u ? (int32_t)word : -(int32_t)~word - 1;
}

static void put_number(uint8_t *area, size_t i, int32_t number)
{
    uint32_t word = (uint32_t)number;
    for (int k = 0; k < 4; k++)
        area[4 * i + (size_t)k] = (uint8_t)(word >> (8 * k));
}

/* ---- how many numbers each memory has */

struct sizes {
    size_t input_cells, input_items, output_cells, output_items;
};

/* Worked out from the array records, as the calls do it. In a file that reads they are there and in their ranges: the third
 * number of the file says how many they are, and each is 8 numbers, the first 1 for an input, the second the length, the
 * fourth the count. (Asking with any memory and looking for 21 would tell that it is wrong, not what is right.) */
static struct sizes sizes_of(const uint8_t *kernel)
{
    struct sizes s = {0, 0, 0, 0};
    int32_t arrays = number_at(kernel, 2);
    for (int32_t a = 0; a < arrays; a++) {
        size_t record = 3 + 8 * (size_t)a;
        size_t length = (size_t)number_at(kernel, record + 1), count = (size_t)number_at(kernel, record + 3);
        if (number_at(kernel, record) == 1) {
            s.input_cells += length;
            s.input_items += count;
        } else {
            s.output_cells += length;
            s.output_items += count;
        }
    }
    return s;
}

/* ---- answers in words */

static const char *meaning(unsigned number)
{
    switch (number) {
    case SQ_BAD_LENGTH: return "length not a multiple of 4, too short, or something left over";
    case SQ_BAD_COUNT: return "a count outside its range";
    case SQ_BAD_FIELD: return "a field or code outside its range, or lengths over 8,192";
    case SQ_BAD_BLOCKS: return "blocks don't match";
    case SQ_TOO_DEEP: return "too deep, too many passes, or a counter not around";
    case SQ_NO_FIT: return "rule doesn't fit the next statements, or hold rows don't fit the for";
    case SQ_NOT_BELOW_COUNT: return "position not below count";
    case SQ_NOT_NEXT_INDEX: return "index is not the next index";
    case SQ_NOT_HELD: return "buffer doesn't hold that array and index";
    case SQ_ROWS_NOT_TRUE: return "hold rows not true at entry";
    case SQ_ROWS_NOT_KEPT: return "hold rows not kept";
    case SQ_BRANCHES_DIFFER: return "positions of both branches not equal";
    case SQ_STATEMENTS_LEFT: return "derivation over, statements left";
    case SQ_BLOCK_OPEN: return "none left, but a block open";
    case SQ_COUNT_NOT_MET: return "some stream's position isn't its count";
    case SQ_BAD_MEMORY: return "memory of a wrong length";
    case SQ_UNSET_REGISTER: return "an unset register";
    case SQ_ZERO_DIVISOR: return "a zero divisor";
    case SQ_INDEX_OUTSIDE: return "an index outside the array";
    case SQ_STREAM_EMPTY: return "an empty stream";
    case SQ_STREAM_FULL: return "a stream that has its full count";
    default: return "no number of document 01";
    }
}

/* Whether a call was refused or stuck; says so where it was. */
static int refused(const char *call, uint64_t answer)
{
    unsigned number = sq_number(answer);
    if (number == SQ_DONE)
        return 0;
    fprintf(stderr, "%s: %s %u: %s", call, number >= SQ_UNSET_REGISTER ? "stuck" : "refused", number, meaning(number));
    if (number >= SQ_UNSET_REGISTER)
        fprintf(stderr, " (statement %u)", sq_statement(answer));
    else if (number >= SQ_NO_FIT && number <= SQ_COUNT_NOT_MET)
        fprintf(stderr, " (derivation record %u, array record %u, stream record %u)", sq_derivation_record(answer),
                sq_array_record(answer), sq_stream_record(answer));
    else
        fprintf(stderr, " (section %u, record %u)", sq_section(answer), sq_record(answer));
    fputc('\n', stderr);
    return 1;
}

/* ---- what is given */

static int read_file(const char *path, size_t *length)
{
    FILE *f = fopen(path, "rb");
    if (f) {
        *length = fread(file, 1, sizeof file, f);
        int failed = ferror(f);
        fclose(f);
        if (!failed)
            return 1;
    }
    fprintf(stderr, "planner: cannot read '%s': %s\n", path, strerror(errno));
    return 0;
}

static int read_numbers(char **words, size_t given, size_t wanted)
{
    if (given != wanted) {
        fprintf(stderr, "planner: the input arrays have %zu numbers; %zu were given\n", wanted, given);
        return 0;
    }
    for (size_t i = 0; i < given; i++) {
        char *end;
        errno = 0;
        long long n = strtoll(words[i], &end, 10);
        if (end == words[i] || *end || errno || n < INT32_MIN || n > INT32_MAX) {
            fprintf(stderr, "planner: '%s' is no number of 32 bits; expected -2147483648 to 2147483647\n", words[i]);
            return 0;
        }
        put_number(input, i, (int32_t)n);
    }
    return 1;
}

int main(int argc, char **argv)
{
    size_t n;
    if (argc < 2) {
        fprintf(stderr, "usage: planner FILE NUMBER..\n");
        return MISUSE;
    }
    if (!read_file(argv[1], &n))
        return MISUSE;
    if (refused("check", sq_check(file, n)))
        return REFUSED;

    struct sizes s = sizes_of(file);
    if (!read_numbers(argv + 2, (size_t)argc - 2, s.input_cells))
        return MISUSE;

    uint64_t array = sq_array_run(file, n, input, 4 * s.input_cells, output, 4 * s.output_cells);
    if (refused("laying out", sq_lay_out(file, n, input, 4 * s.input_cells, laid, 4 * s.input_items)))
        return REFUSED;
    uint64_t stream = sq_stream_run(file, n, laid, 4 * s.input_items, items, 4 * s.output_items);
    if (refused("putting back", sq_put_back(file, n, items, 4 * s.output_items, back, 4 * s.output_cells)))
        return REFUSED;

    /* Of an accepted file this is proved, ended or stuck; a planner need not ask. */
    if (sq_number(array) != sq_number(stream) || memcmp(output, back, 4 * s.output_cells) != 0) {
        fprintf(stderr, "planner: the two runs differ\n");
        return REFUSED;
    }
    int stuck = refused("array run", array);
    stuck |= refused("stream run", stream);
    if (stuck) {
        fprintf(stderr, "stream run: %u items read, %u written\n", sq_items_read(stream), sq_items_written(stream));
        return REFUSED;
    }

    for (size_t i = 0; i < s.output_cells; i++)
        printf("%s%ld", i ? " " : "", (long)number_at(back, i));
    putchar('\n');
    return DONE;
}
