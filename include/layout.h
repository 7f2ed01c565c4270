/* Block layout: the proved calls, for C and C++ on x86-64 Linux.
 *
 * Link target/staticlib/liblayout.a, which `tools/archive` makes. A call keeps nothing between
 * calls and may be made from any number of threads at once.
 */
#ifndef LAYOUT_H
#define LAYOUT_H

#include <stdbool.h>
#include <stddef.h>
#include <stdint.h>

#ifdef __cplusplus
extern "C" {
#endif

/* What every call answers. After a refusal only the fields that say so are other than 0. */
typedef struct Answer {
    uint64_t refusal; /* 0, or the number of the refusal, 1 to 10 */
    uint64_t place;   /* a refusal's record index; 0 for refusals 1, 2 and 10, and on success */
    uint64_t needed;  /* the bytes that the result needs, for refusal 10 only */
    uint64_t written; /* the bytes written to the front of the lent output */
    uint64_t blocks;  /* the blocks of the result, without bridges */
    uint64_t bridges; /* the bridges made; writing back makes none */
    uint64_t moved;   /* the arms that forwarding moved; writing back moves none */
    uint64_t split;   /* the place of the cold part's first block, or 256 for none */
} Answer;

/* The refusals, in the order in which they are looked for:
 *
 *    1  length over 8,192
 *    2  length not a multiple of 16
 *    then records in file order, a block by 3, 4, 5, 6 and an arm by 3, 7, 4, 8:
 *    3  a field outside the record layout
 *    4  a block after an arm, or an arm whose from-block is listed before the last arm's
 *    5  block number listed before
 *    6  second entry mark
 *    7  from or to not listed before this record
 *    8  385th arm
 *    then:
 *    9  two arms with end 0 or 1; three or more with end 0, 1, 2 or 6
 *   10  lent output shorter than the result
 */

/* Reads a file of records and writes it back.
 *
 * input, input_len  the file; any bytes of any length are answered
 * out, out_len      the lent output: on success the file is written to its first bytes and the
 *                   rest is kept, and on a refusal no byte changes
 *
 * Neither pointer may be null, also where its length is 0, and the two must not overlap.
 */
Answer layout_write_back(const uint8_t *input, size_t input_len, uint8_t *out, size_t out_len);

/* Reads a file of records, lays its blocks and writes the laid records.
 *
 * input, input_len  the file; any bytes of any length are answered
 * forward           whether arms into blocks that only lead on are first moved to where those lead
 * reorder           whether blocks are laid by weight: in traces along the heaviest arms, loops
 *                   turned so that the block they are left from comes last; else in the plain
 *                   order (depth-first)
 * out, out_len      the lent output: on success the laid records are written to its first bytes
 *                   and the rest is kept, and on a refusal no byte changes; no result is longer
 *                   than 12,288 bytes
 *
 * Whatever is chosen, cold blocks stand behind the warm ones where the entry is warm.
 *
 * Laid records are a file's, the blocks and bridges in laid order and then the arms of each in
 * that order. What is new in a block's record:
 *
 *   byte 0  3 for a bridge, which has a number from 128 up and end 0
 *   byte 2  mark bit 7 for the head of a loop
 *   byte 4  1 on the cold part's first block, else 0
 *   byte 5  the exit: 0 nothing, 1 a jump to arm 0, 2 a branch taken on true, 3 one with its arms
 *           exchanged
 *
 * Neither pointer may be null, also where its length is 0, and the two must not overlap.
 */
Answer layout_blocks(const uint8_t *input, size_t input_len, bool forward, bool reorder,
                     uint8_t *out, size_t out_len);

#ifdef __cplusplus
}
#endif

#endif
