/*
 * Where a refusal lies. The library's offsets are in the text that was being read, which may be the text of an entity, and some
 * refusals have none. So the texts are looked through here, in the order of the library's walk, for what it refused and for nothing
 * else: whatever comes before was accepted. How many openings a text took at a depth is kept, so that each is looked through once, and
 * once more on the way to the place: no more than what the library has walked. On the way the trail says what was read of each text.
 */
#include "cli.h"

#include <stdlib.h>
#include <string.h>

#define DEPTHS 129
#define KEPT 16

struct range {
    size_t start, end;
};

/* A definition of the table, and for each depth how many openings its text took, plus 1; 0: that is not known yet. */
struct cost {
    const uint8_t *command;
    uint32_t took[DEPTHS];
};

/* What is looked for, and what is known so far. */
struct search {
    const struct request *request;
    const struct outcome *outcome;
    struct cost *costs;
    struct cost **slots; /* at the hash of the name, or the next that is free; their number is a power of two */
    size_t slot_count;
    uint64_t left; /* of the limit of openings */
    struct trail *trail;
    struct place place;
};

/* A reference that was accepted, and how many openings it took. */
struct accepted {
    struct span reference;
    uint64_t took;
};

/* A text that is looked through: the one given has no name, and level 0. And some of its references so far. */
struct reading {
    struct span text, name;
    uint64_t depth;
    size_t level;
    struct accepted kept[KEPT];
};

/* ---- the table */

static size_t little_endian(const uint8_t *bytes, size_t width)
{
    size_t value = 0;
    while (width > 0)
        value = value << 8 | bytes[--width];
    return value;
}

struct definition read_definition(const struct request *q, const uint8_t *command)
{
    return (struct definition){ .name = { q->pool + little_endian(command + 1, 4), command[5] },
                                .text = { q->pool + little_endian(command + 6, 4), little_endian(command + 10, 2) } };
}

static struct span name_of(const struct request *q, const uint8_t *command)
{
    return (struct span){ q->pool + little_endian(command + 1, 4), command[5] };
}

static int same(struct span a, struct span b)
{
    return a.length == b.length && memcmp(a.bytes, b.bytes, a.length) == 0;
}

/* What the name is bound to by this command, the first that defines it; NULL: there is none. */
static enum bound bound_by(const struct request *q, const uint8_t *command, struct span name, struct span *text)
{
    static const char *const predefined[] = { "lt", "gt", "amp", "apos", "quot" };
    if (command != NULL && command[0] == 2)
        return EXTERNAL_ENTITY;
    if (command != NULL) {
        *text = read_definition(q, command).text;
        return TABLE_TEXT;
    }
    for (size_t i = 0; i < sizeof predefined / sizeof predefined[0]; i++)
        if (same(name, (struct span){ (const uint8_t *)predefined[i], strlen(predefined[i]) }))
            return PREDEFINED;
    return UNKNOWN;
}

enum bound look_up(const struct request *q, struct span name, struct span *text)
{
    const uint8_t *command = first_command(q);
    while (command[0] != 0 && !same(name_of(q, command), name))
        command += command_size(command);
    return bound_by(q, command[0] != 0 ? command : NULL, name, text);
}

/* Where that of the first definition of this name is, or would be. */
static struct cost **slot_of(const struct search *s, struct span name)
{
    size_t hash = 0;
    for (size_t i = 0; i < name.length; i++)
        hash = hash * 31 + name.bytes[i];
    while (s->slots[hash & (s->slot_count - 1)] != NULL &&
           !same(name_of(s->request, s->slots[hash & (s->slot_count - 1)]->command), name))
        hash++;
    return &s->slots[hash & (s->slot_count - 1)];
}

/* Of each name the first definition. */
static void index_table(struct search *s)
{
    const struct request *q = s->request;
    size_t count = 0;
    for (const uint8_t *command = first_command(q); command[0] != 0; command += command_size(command))
        count++;
    for (s->slot_count = 16; s->slot_count < 2 * count; s->slot_count *= 2)
        continue;
    s->costs = calloc(count + 1, sizeof *s->costs);
    s->slots = calloc(s->slot_count, sizeof *s->slots);
    if (s->costs == NULL || s->slots == NULL)
        fail("out of memory", "the place of the refusal is not found");
    count = 0;
    for (const uint8_t *command = first_command(q); command[0] != 0; command += command_size(command)) {
        struct cost **slot = slot_of(s, name_of(q, command));
        if (*slot == NULL) {
            *slot = &s->costs[count++];
            (*slot)->command = command;
        }
    }
}

/* ---- references */

/* Attribute values are read, and what they open; only unescape copies the texts of the table. */
static int attribute(const struct search *s)
{
    return s->request->arguments->command != UNESCAPE;
}

/* Where the next & is, or else the text's end. Mostly it is near. */
static size_t next_reference(struct span text, size_t at)
{
    const uint8_t *far;
    for (size_t near = text.length - at < 16 ? text.length : at + 16; at < near; at++)
        if (text.bytes[at] == '&')
            return at;
    far = memchr(text.bytes + at, '&', text.length - at);
    return far == NULL ? text.length : (size_t)(far - text.bytes);
}

/* Where the reference ends: after its ; or, without one, where the library gives up. */
static size_t reference_end(const struct search *s, struct span text, size_t start)
{
    uint8_t other = attribute(s) ? ';' : '&';
    size_t at = start + 1;
    while (at < text.length && text.bytes[at] != ';' && text.bytes[at] != other)
        at++;
    return at < text.length && text.bytes[at] == ';' ? at + 1 : at;
}

int asked_name(struct span reference, struct span *name)
{
    *name = (struct span){ reference.bytes + 1, reference.length - 2 };
    return reference.bytes[reference.length - 1] == ';' && !(name->length > 0 && name->bytes[0] == '#') &&
           !(name->length == 3 && memcmp(name->bytes, "amp", 3) == 0);
}

/* unescape asks for amp too. */
static int asks(const struct search *s, struct span reference, struct span *name)
{
    return asked_name(reference, name) || (!attribute(s) && reference.bytes[reference.length - 1] == ';' &&
                                           same(*name, (struct span){ (const uint8_t *)"amp", 3 }));
}

/* May a reference name the character, or a text of the table hold it? `given`: the text given (section 2.2 of XML 1.0 and 1.1). */
static int is_allowed(const struct search *s, uint64_t c, int given)
{
    if (c == 0 || c == 0xFFFE || c == 0xFFFF)
        return 0;
    if (c == '\t' || c == '\n' || c == '\r' || c == 0x85 || (c >= 0x20 && c < 0x7F) || c > 0x9F)
        return 1;
    return s->request->arguments->version == 2 ? !given : c >= 0x20;
}

/* Is it this number, between &# and ; , that was refused? */
static int refused_number(struct search *s, struct span digits)
{
    uint64_t answer[2];
    uint32_t number = govlezna_parse_number(digits.bytes, digits.length, answer);
    s->place.character = answer[0];
    return s->outcome->number == GOVLEZNA_FORBIDDEN_REFERENCE ? number == 0 && !is_allowed(s, answer[0], 0)
                                                              : number == s->outcome->number;
}

/* Is it this reference that was refused? */
static int refused_here(struct search *s, struct span reference, enum bound bound)
{
    switch (s->outcome->number) {
    case GOVLEZNA_UNTERMINATED_ENTITY: return reference.bytes[reference.length - 1] != ';';
    case GOVLEZNA_UNRECOGNIZED_ENTITY: return bound == UNKNOWN;
    case GOVLEZNA_EXTERNAL_ENTITY: return bound == EXTERNAL_ENTITY;
    case GOVLEZNA_TOO_MANY_OPENINGS: return bound == TABLE_TEXT && s->left == 0;
    case GOVLEZNA_TOO_DEEP:
    case GOVLEZNA_NO_DEPTH:
    case GOVLEZNA_FORBIDDEN_CHARACTER: return 0;
    default:
        return reference.length > 2 && reference.bytes[1] == '#' &&
               refused_number(s, (struct span){ reference.bytes + 2, reference.length - 3 });
    }
}

/* ---- the search */

static int found_at(struct search *s, const struct reading *r, size_t start, size_t end)
{
    s->place.known = 1;
    s->place.text = r->text;
    s->place.entity = r->name;
    s->place.start = start;
    s->place.end = end;
    return 1;
}

/* What of the reference is shown: of 10 and 17 the &, of 11 the name, else all of it. */
static int found_reference(struct search *s, const struct reading *r, struct range reference)
{
    switch (s->outcome->number) {
    case GOVLEZNA_UNTERMINATED_ENTITY:
    case GOVLEZNA_TOO_MANY_OPENINGS: return found_at(s, r, reference.start, reference.start + 1);
    case GOVLEZNA_UNRECOGNIZED_ENTITY: return found_at(s, r, reference.start + 1, reference.end - 1);
    default: return found_at(s, r, reference.start, reference.end);
    }
}

/* This much of the text was read whole, then it went on or ended at the reference; none: at a character. */
static void leave_trail(struct search *s, const struct reading *r, size_t read, struct range reference)
{
    s->trail->steps[r->level] = (struct step){ { r->text.bytes, read },
                                               { r->text.bytes + reference.start, reference.end - reference.start } };
    if (s->trail->count <= r->level)
        s->trail->count = r->level + 1;
}

/* Is it a character between these two offsets that was refused? Its offset is the library's. */
static int search_characters(struct search *s, const struct reading *r, size_t from, size_t to)
{
    size_t at = s->outcome->answer[0], length;
    if (s->outcome->number != GOVLEZNA_FORBIDDEN_CHARACTER || at < from || at >= to || (r->text.bytes[at] & 0xC0) == 0x80)
        return 0;
    s->place.character = decode(r->text, at, &length);
    if (is_allowed(s, s->place.character, r->level == 0))
        return 0;
    leave_trail(s, r, at, (struct range){ 0, 0 });
    return found_at(s, r, at, at + length);
}

/* The first byte at which a text read at depth 0 is refused. An entity's text in a marked list has no line ends of XML 1.1. */
static size_t first_stop(const struct request *q, const struct reading *r)
{
    int newer = q->arguments->version == 2 && !(r->level > 0 && q->list[0] == 3);
    const char *stops = newer ? "\t\n\r&\xC2\xE2" : "\t\n\r&";
    size_t at = 0;
    while (at < r->text.length && (r->text.bytes[at] == 0 || strchr(stops, r->text.bytes[at]) == NULL))
        at++;
    return at;
}

/* Was a depth used up: the one given, or 128? */
static int is_too_deep(uint32_t number)
{
    return number == GOVLEZNA_TOO_DEEP || number == GOVLEZNA_NO_DEPTH;
}

static int search_at_depth_0(struct search *s, const struct reading *r)
{
    size_t stop = first_stop(s->request, r);
    if (search_characters(s, r, 0, r->text.length))
        return 1;
    return is_too_deep(s->outcome->number) && stop < r->text.length && found_at(s, r, stop, stop + 1);
}

static int search_text(struct search *s, struct reading *r);

/* Looks through the text that a reference opens; not where it is known that the limit is enough for it. */
static int search_opened(struct search *s, const struct reading *r, struct cost *cost, struct span name, struct span text)
{
    struct reading inner = { .text = text, .name = name, .depth = r->depth - 1, .level = r->level + 1 };
    uint32_t *took = &cost->took[inner.depth];
    uint64_t before = --s->left;
    if (*took != 0 && *took - 1 <= s->left) {
        s->left -= *took - 1;
        return 0;
    }
    if (search_text(s, &inner))
        return 1;
    *took = (uint32_t)(before - s->left + 1);
    return 0;
}

/* Where the reference here is kept: by the three bytes after its &. */
static struct accepted *kept_at(struct reading *r, size_t start)
{
    const uint8_t *bytes = r->text.bytes + start;
    return &r->kept[r->text.length - start < 4 ? 0 : (bytes[1] + 3u * bytes[2] + 5u * bytes[3]) % KEPT];
}

/* Is the reference here one that is kept? It is accepted as it was before, if the limit is enough for it. */
static int repeats(struct search *s, struct reading *r, struct range *reference)
{
    const struct accepted *kept = kept_at(r, reference->start);
    size_t length = kept->reference.length;
    if (length == 0 || length > r->text.length - reference->start || kept->took > s->left ||
        memcmp(r->text.bytes + reference->start, kept->reference.bytes, length) != 0)
        return 0;
    reference->end = reference->start + length;
    s->left -= kept->took;
    return 1;
}

/* Looks at the reference, whose end it finds, and through what it opens. */
static int search_reference(struct search *s, struct reading *r, struct range *reference)
{
    struct span whole = { r->text.bytes + reference->start, 0 }, name, text;
    struct cost *cost = NULL;
    enum bound bound = PREDEFINED;
    uint64_t before = s->left;
    reference->end = reference_end(s, r->text, reference->start);
    whole.length = reference->end - reference->start;
    if (asks(s, whole, &name)) {
        cost = *slot_of(s, name);
        bound = bound_by(s->request, cost != NULL ? cost->command : NULL, name, &text);
    }
    if (refused_here(s, whole, bound))
        return found_reference(s, r, *reference);
    if (bound == TABLE_TEXT && attribute(s) && search_opened(s, r, cost, name, text))
        return 1;
    *kept_at(r, reference->start) = (struct accepted){ whole, before - s->left };
    return 0;
}

/* From left to right, into what is opened. 1: it is there, and the place is known. */
static int search_text(struct search *s, struct reading *r)
{
    struct range reference = { 0, 0 };
    if (attribute(s) && r->depth == 0)
        return search_at_depth_0(s, r);
    do {
        reference.start = next_reference(r->text, reference.end);
        if (search_characters(s, r, reference.end, reference.start))
            return 1;
        if (reference.start == r->text.length)
            return 0;
    } while (repeats(s, r, &reference) || !search_reference(s, r, &reference));
    leave_trail(s, r, reference.start, reference);
    if (r->level == 0)
        s->place.opened = reference.start;
    return 1;
}

/* Is it the walk over a text that was refused? */
static int ended_the_walk(const struct outcome *o)
{
    uint32_t number = o->number;
    return !o->declarations && ((number >= GOVLEZNA_UNTERMINATED_ENTITY && number <= GOVLEZNA_TOO_MANY_OPENINGS) ||
                                number == GOVLEZNA_EXTERNAL_ENTITY || number == GOVLEZNA_NO_DEPTH || is_forbidden(number));
}

static struct place find_in_walk(const struct request *q, const struct outcome *o, struct trail *trail)
{
    struct search s = { .request = q, .outcome = o, .left = q->arguments->limit, .trail = trail };
    struct reading given = { .text = { q->text, q->text_length }, .depth = q->arguments->depth };
    index_table(&s);
    search_text(&s, &given);
    free(s.costs);
    free(s.slots);
    return s.place;
}

struct place find_place(const struct request *q, const struct outcome *o)
{
    struct trail trail = { .count = 0 };
    if (o->declarations)
        return declarations_place(q, o);
    if (o->number == GOVLEZNA_SPAN_OUTSIDE)
        return span_place(q, o);
    if (o->number == GOVLEZNA_NOT_UTF8)
        return (struct place){ .known = 1,
                               .text = { q->text, q->text_length },
                               .start = o->answer[0],
                               .end = o->answer[0] + 1 };
    return ended_the_walk(o) ? find_in_walk(q, o, &trail) : (struct place){ .known = 0 };
}

int find_trail(const struct request *q, const struct outcome *o, struct trail *trail)
{
    trail->count = 0;
    if (!ended_the_walk(o))
        return 0;
    find_in_walk(q, o, trail);
    return 1;
}
