/* Linked by --wrap in front of the calls that walk over a text with a table: at the end, how often they were made, into the file CALLS. */
#include "govlezna.h"

#include <stdio.h>
#include <stdlib.h>

static unsigned long calls;

static void say(void)
{
    FILE *to = fopen(getenv("CALLS"), "w");
    if (to == NULL)
        return;
    fprintf(to, "%lu\n", calls);
    fclose(to);
}

static void count(void)
{
    if (calls++ == 0)
        atexit(say);
}

#define TEXT const uint8_t *text, size_t n
#define TABLE const uint8_t *list, size_t ln, const uint8_t *pool, size_t pn
#define SCRATCH uint8_t *scratch, size_t sn
#define OUT uint8_t *out, size_t on, uint64_t answer[2]
#define SETTINGS uint8_t version, uint64_t depth, uint64_t limit
#define WRAP(name, parameters, ...)                 \
    uint32_t __real_##name parameters;              \
    uint32_t __wrap_##name parameters;              \
    uint32_t __wrap_##name parameters               \
    {                                               \
        count();                                    \
        return __real_##name(__VA_ARGS__);          \
    }

WRAP(govlezna_unescape, (TEXT, TABLE, OUT), text, n, list, ln, pool, pn, out, on, answer)
WRAP(govlezna_normalize_attribute_value, (TEXT, SETTINGS, TABLE, OUT), text, n, version, depth, limit, list, ln, pool, pn, out, on,
     answer)
WRAP(govlezna_normalize_attribute_value_strict, (TEXT, SETTINGS, TABLE, OUT), text, n, version, depth, limit, list, ln, pool, pn,
     out, on, answer)
WRAP(govlezna_least_depth, (TEXT, uint8_t version, uint64_t limit, TABLE, uint64_t answer[2]), text, n, version, limit, list, ln, pool,
     pn, answer)
WRAP(govlezna_canonical_form, (TEXT, SETTINGS, TABLE, SCRATCH, OUT), text, n, version, depth, limit, list, ln, pool, pn, scratch,
     sn, out, on, answer)
WRAP(govlezna_canonical_form_strict, (TEXT, SETTINGS, TABLE, SCRATCH, OUT), text, n, version, depth, limit, list, ln, pool, pn,
     scratch, sn, out, on, answer)
WRAP(govlezna_normalize_nmtokens, (TEXT, SETTINGS, TABLE, SCRATCH, OUT), text, n, version, depth, limit, list, ln, pool, pn,
     scratch, sn, out, on, answer)
