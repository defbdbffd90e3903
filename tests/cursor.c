/*
 * The cursor as the header declares it has no padding, and each call leaves all its 16 bytes as the header says: moved by a
 * piece, kept by a refusal and by "no more". It lies in a block of just 16 bytes, so that a sanitizer sees one more or less.
 */
#include <inttypes.h>
#include <stdio.h>
#include <stdlib.h>
#include <string.h>

#include "govlezna.h"

typedef char no_padding[sizeof(struct govlezna_cursor) == 2 * sizeof(uint64_t) ? 1 : -1];

static const uint64_t flags[] = { 0, 1, 2, 0xFF, 0x100, 0x8000, UINT64_C(1) << 32, UINT64_C(1) << 63, UINT64_MAX };

static int wrong;

static void leaves(const char *text, uint64_t offset, uint64_t finished, uint32_t number, uint64_t to, uint64_t flag)
{
    unsigned char expected[16];
    uint64_t answer[2];
    struct govlezna_cursor *cursor = malloc(sizeof *cursor);
    if (!cursor)
        exit(2);
    cursor->offset = offset;
    cursor->finished = finished;
    memcpy(expected, &to, 8);
    memcpy(expected + 8, &flag, 8);
    uint32_t got = govlezna_cdata_next((const uint8_t *)text, strlen(text), cursor, answer);
    if (got != number || memcmp(cursor, expected, 16) != 0) {
        printf("\"%s\", { %" PRIu64 ", %" PRIu64 " }: number %" PRIu32 ", { %" PRIu64 ", %" PRIu64 " }\n", text, offset,
               finished, got, cursor->offset, cursor->finished);
        wrong++;
    }
    free(cursor);
}

int main(void)
{
    leaves("ab", 0, 0, 0, 0, 1);
    leaves("", 0, 0, 0, 0, 1);
    leaves("]]>", 0, 0, 0, 2, 0);
    leaves("]]>", 2, 0, 0, 2, 1);
    for (size_t i = 0; i < sizeof flags / sizeof *flags; i++) {
        uint64_t flag = flags[i];
        if (flag != 0)
            leaves("ab", 1, flag, GOVLEZNA_NO_MORE, 1, flag);
        leaves("ab", 3, flag, GOVLEZNA_CURSOR_OUTSIDE, 3, flag);
        leaves("ab", UINT64_MAX, flag, GOVLEZNA_CURSOR_OUTSIDE, UINT64_MAX, flag);
        leaves("\xC3\xA9", 1, flag, GOVLEZNA_CURSOR_OUTSIDE, 1, flag);
        leaves("\xC3", 0, flag, GOVLEZNA_NOT_UTF8, 0, flag);
    }
    return wrong != 0;
}
