/* Shellquiver for C: the check of a kernel file, its two runs, laying out and putting back.
 *
 * Link with libplanner.a (x86-64, System V calls; `./quiver archive` makes it) and a C library, of which it uses
 * memcpy and memset. What a kernel file is and what each number means is fixed by docs/01-scope.md.
 *
 * Areas. A memory is a row of signed 32-bit numbers: four bytes a number, low byte first, at any address. Each area is
 * given as a pointer and its length in bytes. The area that is written must not overlap the others, and nothing else may
 * write any of them during the call. Where a length is 0 the pointer may be NULL: nothing is read or written through it.
 * No call keeps anything, so calls may be made at the same time on written areas of their own. 48 KB of stack are enough
 * for every call (the check of eight blocks inside each other takes at most 34 KB, every other call less than 8 KB).
 *
 * Sizes. A run, laying out or putting back is refused (21) where a memory has any other length than the one named at the
 * call. "Lengths" and "counts" there are those of the file's array records, added up over its input arrays or over its
 * output arrays.
 *
 * Answers. Each is one word of four 16-bit parts, lowest first:
 *
 *   check        accepted               0, 0, 0, 0
 *                refused by reading     number (1 to 5), section, record, 0
 *                refused by the check   number (10 to 19), derivation, array and stream record
 *   array run    ended                  0, 0, 0, 0
 *                stuck                  reason (31 to 35), statement, 0, 0
 *                refused                number (1 to 5, 21), section, record, 0
 *   stream run   ended                  0, 0, items read, items written
 *                stuck                  reason (31 to 35), statement, items read, items written
 *                refused                number (1 to 5, 21), section, record, 0
 *   lay out,     done                   0, 0, 0, 0
 *   put back     refused                number (1 to 5, 21), section, record, 0
 *
 * A refusal leaves the area to be written untouched. Runs, laying out and putting back take unchecked files as well.
 */
#ifndef SHELLQUIVER_H
#define SHELLQUIVER_H

#include <stddef.h>
#include <stdint.h>

#ifdef __cplusplus
extern "C" {
#endif

/* ---- calls */

/* Checks a kernel file: accepted, or why it does not read, or the first rule that does not hold. The two programs of an
 * accepted file agree on every input memory; docs/TRUST.md says what that means. */
uint64_t sq_check(const uint8_t *file, size_t file_length);

/* Runs the array program. Input: array memory, 4 bytes x lengths of the input arrays. Output: array memory, 4 bytes x
 * lengths of the output arrays; afterwards it holds what was written, and 0 elsewhere, ended or stuck. */
uint64_t sq_array_run(const uint8_t *file, size_t file_length, const uint8_t *input, size_t input_length,
                      uint8_t *output, size_t output_length);

/* Runs the stream program. Input: stream memory, 4 bytes x counts of the input arrays. Output: stream memory, 4 bytes x
 * counts of the output arrays; afterwards it holds what was written, and 0 elsewhere, ended or stuck. */
uint64_t sq_stream_run(const uint8_t *file, size_t file_length, const uint8_t *input, size_t input_length,
                       uint8_t *output, size_t output_length);

/* Copies each input array's elements at first, first + step, .. into its stream. Arrays: 4 bytes x lengths of the input
 * arrays. Streams: 4 bytes x counts of the input arrays, all of them written. */
uint64_t sq_lay_out(const uint8_t *file, size_t file_length, const uint8_t *arrays, size_t arrays_length,
                    uint8_t *streams, size_t streams_length);

/* Clears the output memory and places each output item at its index. Streams: 4 bytes x counts of the output arrays.
 * Arrays: 4 bytes x lengths of the output arrays, all of them written. */
uint64_t sq_put_back(const uint8_t *file, size_t file_length, const uint8_t *streams, size_t streams_length,
                     uint8_t *arrays, size_t arrays_length);

/* ---- limits: the longest file that reads and the longest memory, in bytes */

#define SQ_LONGEST_FILE 49432
#define SQ_LONGEST_MEMORY 32768

/* ---- numbers given back: the first part of an answer */

enum sq_numbers {
    SQ_DONE = 0, /* accepted, ended, done */

    /* refused by reading; place: section, record */
    SQ_BAD_LENGTH = 1, /* length not a multiple of 4, too short, or something left over; place 0, 0 */
    SQ_BAD_COUNT = 2,  /* a count outside its range; place section, 0 */
    SQ_BAD_FIELD = 3,  /* a field or code outside its range, or lengths over 8,192 (at the array record that passes it) */
    SQ_BAD_BLOCKS = 4, /* blocks don't match (at section end: record = its count) */
    SQ_TOO_DEEP = 5,   /* too deep, too many passes, or a counter not around */

    /* refused by the check; place: derivation, array and stream record, the next ones that no rule has taken */
    SQ_NO_FIT = 10,          /* rule doesn't fit the next statements, or hold rows missing, out of order, stray or naming
                                a counter not around */
    SQ_NOT_BELOW_COUNT = 11, /* position not below count */
    SQ_NOT_NEXT_INDEX = 12,  /* load or store index is not the next index */
    SQ_NOT_HELD = 13,        /* buffer doesn't hold that array and index, or holds nothing to move */
    SQ_ROWS_NOT_TRUE = 14,   /* hold rows not true at entry */
    SQ_ROWS_NOT_KEPT = 15,   /* hold rows not kept */
    SQ_BRANCHES_DIFFER = 16, /* positions of both branches not equal */
    SQ_STATEMENTS_LEFT = 17, /* derivation over, statements left */
    SQ_BLOCK_OPEN = 18,      /* none left, but a block open */
    SQ_COUNT_NOT_MET = 19,   /* some stream's position isn't its count */

    /* refused by a run, laying out or putting back */
    SQ_BAD_MEMORY = 21, /* memory of a wrong length; place 0, 0 */

    /* a run stuck; place: statement */
    SQ_UNSET_REGISTER = 31, /* using an unset register */
    SQ_ZERO_DIVISOR = 32,   /* a zero divisor */
    SQ_INDEX_OUTSIDE = 33,  /* an index outside the array */
    SQ_STREAM_EMPTY = 34,   /* an empty stream */
    SQ_STREAM_FULL = 35     /* a stream that has its full count */
};

/* Sections of a file. Records and statements are numbered from 0 in each section. */
enum sq_sections {
    SQ_REGISTERS = 1,
    SQ_BUFFERS = 2,
    SQ_ARRAYS = 3,
    SQ_ARRAY_PROGRAM = 4,
    SQ_STREAM_PROGRAM = 5,
    SQ_DERIVATION = 6
};

/* ---- the parts of an answer */

/* Part 0, 1, 2 or 3. */
static inline unsigned sq_part(uint64_t answer, unsigned part) { return (unsigned)(answer >> (16 * part) & 0xffff); }

/* Of every answer: 0, the number of a refusal, or the reason why a run stuck. */
static inline unsigned sq_number(uint64_t answer) { return sq_part(answer, 0); }

/* Of a refusal by reading. */
static inline unsigned sq_section(uint64_t answer) { return sq_part(answer, 1); }
static inline unsigned sq_record(uint64_t answer) { return sq_part(answer, 2); }

/* Of a refusal by the check. */
static inline unsigned sq_derivation_record(uint64_t answer) { return sq_part(answer, 1); }
static inline unsigned sq_array_record(uint64_t answer) { return sq_part(answer, 2); }
static inline unsigned sq_stream_record(uint64_t answer) { return sq_part(answer, 3); }

/* Of a run that stuck. */
static inline unsigned sq_statement(uint64_t answer) { return sq_part(answer, 1); }

/* Of a stream run that ended or stuck. */
static inline unsigned sq_items_read(uint64_t answer) { return sq_part(answer, 2); }
static inline unsigned sq_items_written(uint64_t answer) { return sq_part(answer, 3); }

#ifdef __cplusplus
}
#endif

#endif
