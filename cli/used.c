/*
 * The names that reading a value asks the table for. What was read whole asks for every name in it, and for those in the texts
 * of these names; where the reading was refused, the trail to that place says what was read of each text on the way.
 */
#include "cli.h"

#include <stdlib.h>
#include <string.h>

/* The names so far, and their numbers in the order of the alphabet, so that a name is found quickly. */
struct found {
    const struct request *request;
    struct names names;
    size_t *sorted;
    size_t room;
};

const char *bound_name(enum bound bound)
{
    static const char *const names[] = { "text", "external", "predefined", "unknown" };
    return names[bound];
}

static int compare(struct span a, struct span b)
{
    int order = memcmp(a.bytes, b.bytes, a.length < b.length ? a.length : b.length);
    return order != 0 ? order : (a.length > b.length) - (a.length < b.length);
}

/* Where in the alphabet the name stands, or would. */
static size_t place_of(const struct found *f, struct span name)
{
    size_t low = 0, high = f->names.count;
    while (low < high) {
        size_t middle = low + (high - low) / 2;
        if (compare(f->names.names[f->sorted[middle]].name, name) < 0)
            low = middle + 1;
        else
            high = middle;
    }
    return low;
}

static void *grown(void *bytes, size_t length)
{
    bytes = realloc(bytes, length);
    if (bytes == NULL)
        fail("out of memory", "the names do not fit");
    return bytes;
}

/* Adds a name that is new. 0: it is not. */
static int add_name(struct found *f, struct span name, enum bound *bound, struct span *text)
{
    size_t at = place_of(f, name), count = f->names.count;
    if (at < count && compare(f->names.names[f->sorted[at]].name, name) == 0)
        return 0;
    if (count == f->room) {
        f->room = 2 * f->room + 16;
        f->names.names = grown(f->names.names, f->room * sizeof *f->names.names);
        f->sorted = grown(f->sorted, f->room * sizeof *f->sorted);
    }
    memmove(f->sorted + at + 1, f->sorted + at, (count - at) * sizeof *f->sorted);
    f->sorted[at] = count;
    *bound = look_up(f->request, name, text);
    f->names.names[f->names.count++] = (struct name){ name, *bound };
    return 1;
}

/* Adds the names of what was read whole: texts nest no deeper than the depth, as the library has read them. */
static void add_names(struct found *f, struct span read)
{
    const uint8_t *at = read.bytes, *end = read.bytes + read.length;
    while ((at = memchr(at, '&', (size_t)(end - at))) != NULL) {
        const uint8_t *after = (const uint8_t *)memchr(at, ';', (size_t)(end - at)) + 1;
        struct span name, text;
        enum bound bound;
        if (asked_name((struct span){ at, (size_t)(after - at) }, &name) && add_name(f, name, &bound, &text) &&
            bound == TABLE_TEXT)
            add_names(f, text);
        at = after;
    }
}

struct names find_names(const struct request *q, const struct outcome *o)
{
    struct found f = { q, { NULL, 0 }, NULL, 0 };
    struct trail trail;
    struct span name, text;
    enum bound bound;
    if (!find_trail(q, o, &trail) && o->number == 0)
        add_names(&f, (struct span){ q->text, q->text_length });
    for (size_t i = 0; i < trail.count; i++) {
        add_names(&f, trail.steps[i].read);
        if (trail.steps[i].reference.length > 0 && asked_name(trail.steps[i].reference, &name))
            add_name(&f, name, &bound, &text);
    }
    free(f.sorted);
    return f.names;
}
