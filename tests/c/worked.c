/* The worked example of document 01 from C: written back whole, laid by all four choices, and
 * refused when damaged.
 *
 * It ends with 0, or with the number of the first check that failed.
 */
#include "layout.h"

enum { FILE_LEN = 128, LENT = 200, PATTERN = 0x5a };

#define WEIGHT(low, middle, high) low, middle, high, 0, 0, 0, 0, 0

static const uint8_t worked[FILE_LEN] = {
    1, 0, 1, 1, 0, 0, 0, 0, WEIGHT(0x10, 0x27, 0x00), /* block 0, entry, end 1, 10000 */
    1, 1, 0, 2, 0, 0, 0, 0, WEIGHT(0xa0, 0x86, 0x01), /* block 1, end 2, 100000 */
    1, 2, 0, 1, 0, 0, 0, 0, WEIGHT(0x90, 0x5f, 0x01), /* block 2, end 1, 90000 */
    1, 3, 0, 1, 0, 0, 0, 0, WEIGHT(0x10, 0x27, 0x00), /* block 3, end 1, 10000 */
    2, 0, 1, 0, 0, 0, 0, 0, WEIGHT(0x10, 0x27, 0x00), /* 0 to 1, 10000 */
    2, 1, 2, 0, 0, 0, 0, 0, WEIGHT(0x90, 0x5f, 0x01), /* 1 to 2, 90000 */
    2, 1, 3, 0, 0, 0, 0, 0, WEIGHT(0x10, 0x27, 0x00), /* 1 to 3, 10000 */
    2, 2, 1, 0, 0, 0, 0, 0, WEIGHT(0x90, 0x5f, 0x01), /* 2 to 1, 90000 */
};

/* The same laid in the plain order, as the Rust text lays it with reordering off. */
static const uint8_t plain[FILE_LEN] = {
    1, 0, 1, 1, 0, 0, 0, 0,   WEIGHT(0x10, 0x27, 0x00), /* block 0, falls into the next */
    1, 1, 128, 2, 0, 3, 0, 0, WEIGHT(0xa0, 0x86, 0x01), /* block 1, a head, exchanged */
    1, 2, 0, 1, 0, 1, 0, 0,   WEIGHT(0x90, 0x5f, 0x01), /* block 2, a jump */
    1, 3, 0, 1, 0, 0, 0, 0,   WEIGHT(0x10, 0x27, 0x00), /* block 3, goes nowhere */
    2, 0, 1, 0, 0, 0, 0, 0,   WEIGHT(0x10, 0x27, 0x00), /* 0 to 1 */
    2, 1, 3, 0, 0, 0, 0, 0,   WEIGHT(0x10, 0x27, 0x00), /* 1 to 3 */
    2, 1, 2, 0, 0, 0, 0, 0,   WEIGHT(0x90, 0x5f, 0x01), /* 1 to 2 */
    2, 2, 1, 0, 0, 0, 0, 0,   WEIGHT(0x90, 0x5f, 0x01), /* 2 to 1 */
};

/* The same reordered, as document 01 lists it: the loop is turned, and its test comes last. */
static const uint8_t turned[FILE_LEN] = {
    1, 0, 1, 1, 0, 1, 0, 0,   WEIGHT(0x10, 0x27, 0x00), /* block 0, a jump */
    1, 2, 128, 1, 0, 0, 0, 0, WEIGHT(0x90, 0x5f, 0x01), /* block 2, a head, falls into the next */
    1, 1, 0, 2, 0, 2, 0, 0,   WEIGHT(0xa0, 0x86, 0x01), /* block 1, a branch */
    1, 3, 0, 1, 0, 0, 0, 0,   WEIGHT(0x10, 0x27, 0x00), /* block 3, goes nowhere */
    2, 0, 1, 0, 0, 0, 0, 0,   WEIGHT(0x10, 0x27, 0x00), /* 0 to 1 */
    2, 2, 1, 0, 0, 0, 0, 0,   WEIGHT(0x90, 0x5f, 0x01), /* 2 to 1 */
    2, 1, 2, 0, 0, 0, 0, 0,   WEIGHT(0x90, 0x5f, 0x01), /* 1 to 2 */
    2, 1, 3, 0, 0, 0, 0, 0,   WEIGHT(0x10, 0x27, 0x00), /* 1 to 3 */
};

/* The worked example with its last arm to a number that is not listed. */
static uint8_t damaged[FILE_LEN];
static uint8_t lent[LENT];

static void fill(void)
{
    for (size_t at = 0; at < LENT; at++)
        lent[at] = PATTERN;
}

static bool kept_from(size_t at)
{
    for (; at < LENT; at++)
        if (lent[at] != PATTERN)
            return false;
    return true;
}

/* Whether those bytes were written, and not one behind them. */
static bool written(const uint8_t *file)
{
    for (size_t at = 0; at < FILE_LEN; at++)
        if (lent[at] != file[at])
            return false;
    return kept_from(FILE_LEN);
}

static bool same(Answer a, Answer b)
{
    return a.refusal == b.refusal && a.place == b.place && a.needed == b.needed &&
           a.written == b.written && a.blocks == b.blocks && a.bridges == b.bridges &&
           a.moved == b.moved && a.split == b.split;
}

static const Answer done = {0, 0, 0, FILE_LEN, 4, 0, 0, 256};
static const Answer refused = {7, 7, 0, 0, 0, 0, 0, 0};
static const Answer short_room = {10, 0, FILE_LEN, 0, 0, 0, 0, 0};

static int check_write_back(void)
{
    fill();
    if (!same(layout_write_back(worked, FILE_LEN, lent, LENT), done))
        return 1;
    if (!written(worked))
        return 2;
    fill();
    if (!same(layout_write_back(damaged, FILE_LEN, lent, LENT), refused))
        return 3;
    if (!same(layout_write_back(worked, FILE_LEN, lent, FILE_LEN - 1), short_room))
        return 4;
    return kept_from(0) ? 0 : 5;
}

static int check_layout(bool forward, bool reorder)
{
    fill();
    if (!same(layout_blocks(worked, FILE_LEN, forward, reorder, lent, LENT), done))
        return 11;
    if (!written(reorder ? turned : plain))
        return 12;
    fill();
    if (!same(layout_blocks(damaged, FILE_LEN, forward, reorder, lent, LENT), refused))
        return 13;
    if (!same(layout_blocks(worked, FILE_LEN, forward, reorder, lent, FILE_LEN - 1), short_room))
        return 14;
    return kept_from(0) ? 0 : 15;
}

/* The document's P5, 0 to 1 to 2 with 1 a way through: one arm moves, if forwarding is asked for. */
static int check_forward(bool reorder)
{
    static const uint8_t p5[5 * 16] = {
        1, 0, 1, 1, 0, 0, 0, 0, WEIGHT(10, 0, 0), 1, 1, 0, 0, 0, 0, 0, 0, WEIGHT(10, 0, 0),
        1, 2, 0, 1, 0, 0, 0, 0, WEIGHT(10, 0, 0), 2, 0, 1, 0, 0, 0, 0, 0, WEIGHT(10, 0, 0),
        2, 1, 2, 0, 0, 0, 0, 0, WEIGHT(10, 0, 0),
    };
    static const Answer kept = {0, 0, 0, 80, 3, 0, 0, 256}, moved = {0, 0, 0, 64, 3, 0, 1, 256};
    if (!same(layout_blocks(p5, sizeof p5, false, reorder, lent, LENT), kept))
        return 21;
    return same(layout_blocks(p5, sizeof p5, true, reorder, lent, LENT), moved) ? 0 : 22;
}

int main(void)
{
    for (size_t at = 0; at < FILE_LEN; at++)
        damaged[at] = worked[at];
    damaged[7 * 16 + 2] = 99;

    int failed = check_write_back();
    for (int reorder = 0; reorder < 2 && failed == 0; reorder++) {
        failed = check_forward(reorder);
        for (int forward = 0; forward < 2 && failed == 0; forward++)
            failed = check_layout(forward, reorder);
    }
    return failed;
}
