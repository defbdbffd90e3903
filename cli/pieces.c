/*
 * The pieces of a text for CDATA sections. Each call of the library checks all that it is handed, so that it is handed
 * windows: from the piece's start on, each twice as long as the one before, until one has the cut. A piece of n bytes takes
 * windows of about 2 n + 64 bytes in all. No window begins or ends within a character or `]]>`, so a cut lies in one window.
 */
#include "cli.h"

#include <string.h>

#define FIRST_WINDOW ((size_t)64)

/* Would an end here break a character or `]]>`? The text is UTF-8, and goes on here. */
static int breaks(const struct request *q, size_t at)
{
    if ((q->text[at] & 0xC0) == 0x80)
        return 1;
    for (size_t start = at >= 2 ? at - 2 : 0; start < at; start++)
        if (q->text_length - start >= 3 && memcmp(q->text + start, "]]>", 3) == 0)
            return 1;
    return 0;
}

/* Where a window of up to `size` bytes ends; of fewer, where that would break something. */
static size_t window_end(const struct request *q, size_t start, size_t size)
{
    size_t end = start + size;
    if (size >= q->text_length - start)
        return q->text_length;
    while (breaks(q, end))
        end--;
    return end;
}

/* The piece at the cursor of a text that was accepted: what govlezna_cdata_next gives for the whole text. */
uint32_t next_piece(const struct request *q, struct govlezna_cursor *cursor, uint64_t answer[2])
{
    struct govlezna_cursor inside;
    size_t at = cursor->offset, size = FIRST_WINDOW;
    if (cursor->finished)
        return GOVLEZNA_NO_MORE;
    do {
        uint32_t number;
        inside = (struct govlezna_cursor){ 0, 0 };
        number = govlezna_cdata_next(q->text + at, window_end(q, at, size) - at, &inside, answer);
        if (number != 0)
            return number;
        at += answer[1];
        size *= 2;
    } while (inside.finished && at < q->text_length);
    answer[0] = cursor->offset;
    answer[1] = at - cursor->offset;
    if (inside.finished)
        cursor->finished = 1;
    else
        cursor->offset = at;
    return 0;
}
