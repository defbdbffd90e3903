/*
 * A job rehearsed from C before it runs: the values of its panels are found in the job's text as spans, and one call for each setting
 * says how many of them would be accepted, and why the others would not. No value is written anywhere.
 */
#include "govlezna.h"

#include <inttypes.h>
#include <stdio.h>
#include <string.h>

#define MOST_PANELS 16

static const char job[] = "<job>\n"
                          "  <panel name=\"Fock &number;\"/>\n"
                          "  <panel name=\"&sail;\"/>\n"
                          "  <panel name=\"&sail; &lt;3>\"/>\n"
                          "  <panel name=\"Klüver\"/>\n"
                          "  <panel name=\"&boom;\"/>\n"
                          "</job>\n";

static const char office[] = "<!ENTITY number \"12\">"
                             "<!ENTITY sail 'Fock &number; of &maker;'>"
                             "<!ENTITY maker \"Segelmacherei\">";

/* The office's entity table: three commands of 12 bytes, a mark and an end. */
static uint8_t list[64], pool[128];
static uint64_t lengths[2];

static const uint8_t *bytes(const char *s)
{
    return (const uint8_t *)s;
}

/* The value of each `name`, from behind its quote to the next one, as a span of the text; how many there are. */
static size_t find_names(const char *text, struct govlezna_span spans[MOST_PANELS])
{
    static const char attribute[] = "name=\"";
    const char *at = text;
    size_t count = 0;
    while (count < MOST_PANELS && (at = strstr(at, attribute)) != NULL) {
        at += strlen(attribute);
        spans[count].start = (uint64_t)(at - text);
        spans[count].length = strcspn(at, "\"");
        count++;
    }
    return count;
}

/* The report under this depth and this limit of openings: the counts that are not 0, and the length of all accepted values. */
static void rehearse(const struct govlezna_span *spans, size_t count, uint64_t depth, uint64_t limit)
{
    uint64_t report[29], answer[2];
    uint32_t number = govlezna_rehearse(bytes(job), strlen(job), spans, count, 1, depth, limit, list, lengths[0], pool, lengths[1],
                                        report, answer);
    printf("depth %" PRIu64 ", limit %" PRIu64 ": ", depth, limit);
    if (number != 0) {
        printf("refused by %" PRIu32 " (%" PRIu64 ", %" PRIu64 ")\n", number, answer[0], answer[1]);
        return;
    }
    printf("%" PRIu64 " of %zu accepted, %" PRIu64 " bytes", report[0], count, report[28]);
    for (int refusal = 1; refusal < 28; refusal++)
        if (report[refusal] > 0)
            printf("; %" PRIu64 " refused by %d", report[refusal], refusal);
    putchar('\n');
}

int main(void)
{
    struct govlezna_span spans[MOST_PANELS + 1];
    size_t count = find_names(job, spans);
    if (govlezna_read_declarations(bytes(office), strlen(office), 1, list, sizeof list, pool, sizeof pool, lengths) != 0)
        return 1;
    rehearse(spans, count, 0, 1000); /* no reference */
    rehearse(spans, count, 1, 1000); /* references, but none in what they stand for */
    rehearse(spans, count, 2, 1000);
    rehearse(spans, count, 2, 1); /* one opening for each value */
    spans[count].start = strlen(job); /* an empty value at the end is in the text; one more byte leaves it */
    spans[count].length = 0;
    rehearse(spans, count + 1, 2, 1000);
    spans[count].length = 1;
    rehearse(spans, count + 1, 2, 1000);
    return 0;
}
