/* Makes the call that each request on standard input asks for and answers on standard output.
 *
 * A request is the call's number, the input's length, the lent length, the input, and the lent
 * bytes with GUARD bytes before and behind them. A reply is the answer and then the lent bytes
 * with their guards.
 */
#include "layout.h"

/* As the C library has them, in plain types. */
long read(int file, void *to, size_t len);
long write(int file, const void *from, size_t len);

enum { GUARD = 32, MOST = 1 << 17 };

/* The calls by number: those under WRITE_BACK are layouts, with one bit for each choice. */
enum { FORWARD = 1, REORDER = 2, WRITE_BACK = 4, CALLS };

/* What a request begins with. */
typedef struct Head {
    uint64_t call;
    uint64_t input_len;
    uint64_t lent_len;
} Head;

static uint8_t input[MOST];
static uint8_t lent[MOST + 2 * GUARD];

static bool take(void *to, size_t len)
{
    for (size_t done = 0; done < len;) {
        long got = read(0, (uint8_t *)to + done, len - done);
        if (got <= 0)
            return false;
        done += (size_t)got;
    }
    return true;
}

static bool give(const void *from, size_t len)
{
    for (size_t done = 0; done < len;) {
        long put = write(1, (const uint8_t *)from + done, len - done);
        if (put <= 0)
            return false;
        done += (size_t)put;
    }
    return true;
}

static Answer made(Head head)
{
    size_t input_len = (size_t)head.input_len, lent_len = (size_t)head.lent_len;
    bool forward = (head.call & FORWARD) != 0, reorder = (head.call & REORDER) != 0;
    if (head.call == WRITE_BACK)
        return layout_write_back(input, input_len, lent + GUARD, lent_len);
    return layout_blocks(input, input_len, forward, reorder, lent + GUARD, lent_len);
}

int main(void)
{
    Head head;
    while (take(&head, sizeof head)) {
        if (head.call >= CALLS || head.input_len > MOST || head.lent_len > MOST)
            return 1;
        size_t guarded = (size_t)head.lent_len + 2 * GUARD;
        if (!take(input, (size_t)head.input_len) || !take(lent, guarded))
            return 2;
        Answer answer = made(head);
        if (!give(&answer, sizeof answer) || !give(lent, guarded))
            return 3;
    }
    return 0;
}
