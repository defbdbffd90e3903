/*
 * The tokens of a list. Each call of the library checks all that it is handed, so that it is handed windows: from the offset
 * on, each twice as long as the one before, until one has the end of the token. None ends within a character.
 */
#include "cli.h"

#define FIRST_WINDOW ((size_t)64)

/* Where a window of up to `size` bytes ends. The text is UTF-8. */
static size_t window_end(struct span text, size_t start, size_t size)
{
    size_t end = start + size;
    if (size >= text.length - start)
        return text.length;
    while ((text.bytes[end] & 0xC0) == 0x80)
        end--;
    return end;
}

int next_token(struct span result, size_t *offset, struct span *token)
{
    size_t at = *offset;
    if (at == result.length)
        return 0;
    for (size_t size = FIRST_WINDOW;; size *= 2) {
        uint64_t answer[2], inside = 0;
        size_t end = window_end(result, at, size);
        uint32_t number = govlezna_next_nmtoken(result.bytes + at, end - at, &inside, answer);
        if (number == 0 && (inside < end - at || end == result.length)) {
            *token = (struct span){ result.bytes + at + answer[0], answer[1] };
            *offset = at + inside;
            return 1;
        }
        if (number == GOVLEZNA_TOO_LONG)
            fail("nmtokens", "a token of over 16,777,216 bytes");
        if (end == result.length)
            return 0;
    }
}
