/* The library's calls. Each is asked first for the length that it needs, then given that much room. */
#include "cli.h"

#include <stdlib.h>

/* The scratch is for a list of tokens: a canonical form needs 4 bytes, however long it is. */
static uint32_t call(const struct request *q, uint8_t *scratch, size_t scratch_length, uint8_t *out, size_t length,
                     uint64_t answer[2])
{
    const struct arguments *a = q->arguments;
    uint8_t hand[4];
    switch (a->command) {
    case ESCAPE:
        return govlezna_escape(q->text, q->text_length, a->level, out, length, answer);
    case UNESCAPE:
        return govlezna_unescape(q->text, q->text_length, q->list, q->list_length, q->pool, q->pool_length, out, length,
                                 answer);
    case NORMALIZE:
    case USED:
        return (a->strict ? govlezna_normalize_attribute_value_strict : govlezna_normalize_attribute_value)(
            q->text, q->text_length, a->version, a->depth, a->limit, q->list, q->list_length, q->pool, q->pool_length, out,
            length, answer);
    case CANONICAL:
        return (a->strict ? govlezna_canonical_form_strict : govlezna_canonical_form)(
            q->text, q->text_length, a->version, a->depth, a->limit, q->list, q->list_length, q->pool, q->pool_length, hand,
            sizeof hand, out, length, answer);
    case NMTOKENS:
        return govlezna_normalize_nmtokens(q->text, q->text_length, a->version, a->depth, a->limit, q->list, q->list_length,
                                           q->pool, q->pool_length, scratch, scratch_length, out, length, answer);
    case EOLS:
        return govlezna_normalize_eols(q->text, q->text_length, a->version, out, length, answer);
    case C14N:
        return (a->node == ATTRIBUTE ? govlezna_c14n_attribute : govlezna_c14n_text)(q->text, q->text_length, out, length,
                                                                                     answer);
    default:
        return govlezna_check_utf8(q->text, q->text_length, answer);
    }
}

static uint32_t write_result(const struct request *q, struct outcome *o)
{
    uint8_t *scratch = NULL;
    size_t scratch_length = 0;
    o->number = call(q, NULL, 0, NULL, 0, o->answer);
    if (o->number == GOVLEZNA_NO_SCRATCH) {
        scratch_length = o->answer[0];
        scratch = allocate(scratch_length);
        o->number = call(q, scratch, scratch_length, NULL, 0, o->answer);
    }
    if (o->number == GOVLEZNA_NO_ROOM) {
        size_t length = o->answer[0];
        o->bytes = allocate(length);
        o->number = call(q, scratch, scratch_length, o->bytes, length, o->answer);
    }
    free(scratch);
    return o->number;
}

static uint32_t trim(const struct request *q, uint64_t answer[2])
{
    switch (q->arguments->side) {
    case START: return govlezna_trim_xml_start(q->text, q->text_length, answer);
    case END: return govlezna_trim_xml_end(q->text, q->text_length, answer);
    default: return govlezna_trim_xml_spaces(q->text, q->text_length, answer);
    }
}

/* The second word is the number of definitions. */
static uint32_t check(const struct request *q, uint64_t answer[2])
{
    uint64_t table[2];
    uint32_t number = govlezna_check_utf8(q->text, q->text_length, answer);
    if (number != 0)
        return number;
    number = govlezna_check_table(q->list, q->list_length, q->pool, q->pool_length, table);
    if (number != 0)
        answer[0] = table[0], answer[1] = table[1];
    else
        answer[1] = table[0];
    return number;
}

/* The value itself is not made: it can be far longer than what was read. */
static uint32_t read_only(const struct request *q, uint64_t answer[2])
{
    uint32_t number = call(q, NULL, 0, NULL, 0, answer);
    return number == GOVLEZNA_NO_SCRATCH || number == GOVLEZNA_NO_ROOM ? 0 : number;
}

static uint32_t least_depth(const struct request *q, uint64_t answer[2])
{
    return govlezna_least_depth(q->text, q->text_length, q->arguments->version, q->arguments->limit, q->list, q->list_length,
                                q->pool, q->pool_length, answer);
}

/* The strict rule may refuse at depth 128 what the lenient one accepts; what it accepts it reads as the lenient one does. */
uint32_t find_depth(const struct request *q, uint64_t *depth)
{
    struct arguments arguments = *q->arguments;
    struct request deepest = *q;
    uint64_t answer[2];
    uint32_t number;
    arguments.depth = DEEPEST;
    deepest.arguments = &arguments;
    number = arguments.strict ? read_only(&deepest, answer) : 0;
    if (number != 0)
        return number;
    number = least_depth(q, answer);
    *depth = answer[0];
    return number == GOVLEZNA_NO_DEPTH ? GOVLEZNA_TOO_DEEP : number;
}

uint32_t make_call(const struct request *q, struct outcome *o)
{
    struct govlezna_cursor cursor = { 0, 0 };
    *o = (struct outcome){ .number = 0 };
    switch (q->arguments->command) {
    case TRIM: return o->number = trim(q, o->answer);
    case CDATA: return o->number = govlezna_cdata_next(q->text, q->text_length, &cursor, o->answer);
    case CHECK: return o->number = check(q, o->answer);
    case USED: return o->number = read_only(q, o->answer);
    case LEAST_DEPTH: return o->number = least_depth(q, o->answer);
    case REHEARSE: return rehearse(q, o);
    default: return write_result(q, o);
    }
}
