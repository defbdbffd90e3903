/*
 * An office's declarations from C: the text becomes an entity table, in buffers of the lengths that the library asks for, and values are
 * read through that table. Of a text that is refused the place is shown.
 */
#include "govlezna.h"

#include <inttypes.h>
#include <stdio.h>
#include <stdlib.h>
#include <string.h>

static const char office[] = "<!ENTITY maker \"Segelmacherei Gro&#xDF;\">\r\n"
                             "<!ENTITY sail  'Fock of &maker;'>\r\n"
                             "<!ENTITY maker \"somebody else\">\r\n"
                             "<!ENTITY two   \"&#xD;&#xA;\">\r\n";

/* An entity table in memory of its own. */
struct table {
    uint8_t *list, *pool;
    uint64_t lengths[2];
};

static const uint8_t *bytes(const char *s)
{
    return (const uint8_t *)s;
}

/* Reads declarations as XML 1.0: without room they are judged, and the lengths needed come back. 0: the table is there. */
static uint32_t read_table(const char *text, struct table *t)
{
    size_t length = strlen(text);
    uint32_t number = govlezna_read_declarations(bytes(text), length, 1, NULL, 0, NULL, 0, t->lengths);
    if (number != GOVLEZNA_NO_TABLE_ROOM)
        return number;
    t->list = malloc(t->lengths[0]);
    t->pool = malloc(t->lengths[1] + 1); /* never 0 bytes */
    if (t->list == NULL || t->pool == NULL)
        exit(1);
    return govlezna_read_declarations(bytes(text), length, 1, t->list, t->lengths[0], t->pool, t->lengths[1], t->lengths);
}

static void free_table(struct table *t)
{
    free(t->list);
    free(t->pool);
}

/* The canonical form of a value, read through the table. */
static void show_value(const char *text, const struct table *t)
{
    uint64_t answer[2];
    uint8_t hand[4], out[100];
    uint32_t number = govlezna_canonical_form(bytes(text), strlen(text), 1, 8, 100, t->list, t->lengths[0], t->pool,
                                              t->lengths[1], hand, sizeof hand, out, sizeof out, answer);
    if (number == 0)
        printf("%s: [%.*s], openings %" PRIu64 "\n", text, (int)answer[0], (const char *)out, answer[1]);
    else
        printf("%s: refused by %" PRIu32 " (%" PRIu64 ", %" PRIu64 ")\n", text, number, answer[0], answer[1]);
}

static void show_office(const char *text)
{
    struct table t = { NULL, NULL, { 0, 0 } };
    uint32_t number = read_table(text, &t);
    if (number != 0) {
        printf("declarations: refused by %" PRIu32 " (%" PRIu64 ", %" PRIu64 ")\n", number, t.lengths[0], t.lengths[1]);
    } else {
        printf("declarations: list of %" PRIu64 " bytes, pool of %" PRIu64 "\n", t.lengths[0], t.lengths[1]);
        show_value("&sail; &lt;3>", &t);
        show_value("a&two;b", &t);
        show_value("&boom;", &t);
    }
    free_table(&t);
}

int main(void)
{
    show_office(office);
    show_office("<!ENTITY sail SYSTEM \"sail.txt\">");
    show_office("<!ENTITY sail \"100 %\">");
    return 0;
}
