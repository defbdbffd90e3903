/*
 * Files of entity declarations: the table of one, its definitions, and the place where one is refused. The library counts its offsets
 * after line ends, and has none for a character number that it refuses; the place in the file itself is found here.
 */
#include "cli.h"

#include <string.h>

/* The library's answer on the first part of the declarations, of this length: without room they are judged alone. */
static uint32_t judge(const struct request *q, size_t length, uint64_t answer[2])
{
    return govlezna_read_declarations(q->declarations, length, q->arguments->version, NULL, 0, NULL, 0, answer);
}

uint32_t declare(struct request *q, struct outcome *o)
{
    o->number = judge(q, q->declarations_length, o->answer);
    if (o->number == GOVLEZNA_NO_TABLE_ROOM) { /* again, where its pool is too long for a table */
        q->list_length = o->answer[0];
        q->pool_length = o->answer[1];
        q->list = allocate(q->list_length);
        q->pool = allocate(q->pool_length);
        o->number = govlezna_read_declarations(q->declarations, q->declarations_length, q->arguments->version, q->list,
                                               q->list_length, q->pool, q->pool_length, o->answer);
    }
    o->declarations = 1;
    return o->number;
}

const char *declarations_name(const struct request *q)
{
    return strcmp(q->arguments->declarations, "-") == 0 ? "standard input" : q->arguments->declarations;
}

/* How many bytes the line end here has; 0: there is none. */
static size_t line_end(struct span text, size_t at, int newer)
{
    const uint8_t *here = text.bytes + at;
    size_t left = text.length - at;
    if (left >= 2 && memcmp(here, "\r\n", 2) == 0)
        return 2;
    if (newer && left >= 3 && (memcmp(here, "\r\xC2\x85", 3) == 0 || memcmp(here, "\xE2\x80\xA8", 3) == 0))
        return 3;
    if (newer && left >= 2 && memcmp(here, "\xC2\x85", 2) == 0)
        return 2;
    return here[0] == '\n' || here[0] == '\r';
}

/* Where in the file the byte stands that has this offset after line ends. */
static size_t in_file(const struct request *q, size_t offset)
{
    struct span text = { q->declarations, q->declarations_length };
    size_t at = 0;
    for (size_t passed = 0; passed < offset && at < text.length; passed++) {
        size_t width = line_end(text, at, q->arguments->version == 2);
        at += width > 0 ? width : 1;
    }
    return at;
}

/* After the character here; at the end it is the end. */
static size_t after_character(struct span text, size_t at)
{
    if (at < text.length)
        at++;
    while (at < text.length && (text.bytes[at] & 0xC0) == 0x80)
        at++;
    return at;
}

/* The end of the character reference that is refused: a first part is refused for it exactly if it has the reference's ; . */
static size_t reference_end(const struct request *q, uint32_t number)
{
    uint64_t answer[2];
    size_t without = 0, with = q->declarations_length;
    while (with - without > 1) {
        size_t middle = without + (with - without) / 2, end = middle;
        while (end > without && (q->declarations[end] & 0xC0) == 0x80) /* no part ends within a character */
            end--;
        if (end == without || judge(q, end, answer) != number)
            without = middle;
        else
            with = end;
    }
    return with;
}

/* Where it begins: after the ; before its own there is no & but its first. */
static size_t reference_start(const struct request *q, size_t end)
{
    size_t at = end - 1;
    while (at > 0 && q->declarations[at - 1] != ';')
        at--;
    while (q->declarations[at] != '&')
        at++;
    return at;
}

struct place declarations_place(const struct request *q, const struct outcome *o)
{
    struct place place = { .known = 1, .text = { q->declarations, q->declarations_length }, .file = declarations_name(q) };
    switch (o->number) {
    case GOVLEZNA_NOT_UTF8:
        place.start = o->answer[0];
        place.end = place.start + 1;
        break;
    case GOVLEZNA_MALFORMED_DECLARATION:
    case GOVLEZNA_DECLARATION_TOO_LARGE:
        place.start = in_file(q, o->answer[0]);
        place.end = after_character(place.text, place.start);
        break;
    case GOVLEZNA_UNEXPECTED_SIGN:
    case GOVLEZNA_INVALID_NUMBER:
    case GOVLEZNA_INVALID_CODEPOINT:
    case GOVLEZNA_ILLEGAL_CHARACTER:
        place.end = reference_end(q, o->number);
        place.start = reference_start(q, place.end);
        break;
    default:
        place.known = 0;
    }
    return place;
}

int next_definition(const struct request *q, const uint8_t **command, struct definition *definition)
{
    struct span binding;
    if (**command == 0)
        return 0;
    *definition = read_definition(q, *command);
    look_up(q, definition->name, &binding);
    definition->shadowed = binding.bytes != definition->text.bytes; /* a name is before each text, so no two start together */
    *command += command_size(*command);
    return 1;
}
