/* A refusal in words, with the line of the text and carets under its place. */
#include "cli.h"

#include <inttypes.h>
#include <string.h>

/* How much of a long line is shown: this many columns up to the place, and in all. */
#define BEFORE 50
#define SHOWN 76

/* The line, from 1. Lines end by LF, CR or both. */
size_t line_of(struct span text, size_t offset)
{
    size_t line = 1;
    for (size_t i = 0; i < offset; i++)
        if (text.bytes[i] == '\n' || (text.bytes[i] == '\r' && (i + 1 >= text.length || text.bytes[i + 1] != '\n')))
            line++;
    return line;
}

static int ends_line(struct span text, size_t at)
{
    return at >= text.length || text.bytes[at] == '\n' || text.bytes[at] == '\r';
}

/* The bytes of the character at this offset; 0 where there is none. */
static size_t character(struct span text, size_t at)
{
    uint64_t answer[2];
    for (size_t length = 1; length <= 4 && length <= text.length - at; length++)
        if (govlezna_check_utf8(text.bytes + at, length, answer) == 0)
            return length;
    return 0;
}

uint64_t decode(struct span text, size_t at, size_t *length)
{
    uint8_t byte = text.bytes[at];
    uint64_t character = byte;
    *length = byte < 0x80 ? 1 : byte < 0xE0 ? 2 : byte < 0xF0 ? 3 : 4;
    if (*length > 1)
        character &= 0x7Fu >> *length;
    for (size_t i = 1; i < *length; i++)
        character = character << 6 | (text.bytes[at + i] & 0x3F);
    return character;
}

/* Would the terminal take the character as something else than one to print? */
static int control(const uint8_t *bytes, size_t length)
{
    if (length == 1)
        return bytes[0] < 0x20 || bytes[0] == 0x7F;
    if (length == 2)
        return bytes[0] == 0xC2 && bytes[1] < 0xA0;
    if (length == 3 && bytes[0] == 0xEF && bytes[1] == 0xBF)
        return bytes[2] >= 0xBE; /* U+FFFE and U+FFFF */
    return length == 3 && bytes[0] == 0xE2 && bytes[1] == 0x80 && (bytes[2] == 0xA8 || bytes[2] == 0xA9);
}

static void show_character(FILE *to, struct span text, size_t at, size_t length)
{
    if (length == 1 && text.bytes[at] == '\t')
        fputc(' ', to);
    else if (length == 0 || control(text.bytes + at, length))
        fputc('?', to);
    else
        fwrite(text.bytes + at, 1, length, to);
}

/* How many columns it takes, as show_character writes it. */
static int columns(struct span text, size_t at, size_t length)
{
    size_t same;
    return length == 0 || control(text.bytes + at, length) ? 1 : width_of(decode(text, at, &same));
}

/* What a character counts for in the length of a line: one that takes no column counts too, or the line might not end. */
static int counted(int width)
{
    return width > 0 ? width : 1;
}

/* Where to begin, so that the place is in sight. */
static size_t line_start(struct span text, size_t place, int *whole)
{
    size_t at = place;
    for (int count = 0; at > 0 && !ends_line(text, at - 1);) {
        size_t before = at - 1;
        while (before > 0 && (text.bytes[before] & 0xC0) == 0x80)
            before--;
        count += counted(columns(text, before, character(text, before)));
        if (count > BEFORE) {
            *whole = 0;
            return at;
        }
        at = before;
    }
    *whole = 1;
    return at;
}

/* The line, and below it carets from the place's start to its end; one at least. */
static void show_line(struct span text, size_t start, size_t end)
{
    int whole, blanks = 0, carets = 0, shown = 0;
    size_t at = line_start(text, start, &whole);
    fputs(whole ? "    " : "    ...", stderr);
    while (shown < SHOWN && !ends_line(text, at)) {
        size_t length = character(text, at);
        int width = columns(text, at, length);
        show_character(stderr, text, at, length);
        blanks += at < start ? width : 0;
        carets += at >= start && at < end ? width : 0;
        shown += counted(width);
        at += length > 0 ? length : 1;
    }
    fputs(ends_line(text, at) ? "\n" : "...\n", stderr);
    fprintf(stderr, "%*s", (whole ? 4 : 7) + blanks, "");
    do
        fputc('^', stderr);
    while (--carets > 0);
    fputc('\n', stderr);
}

void show_name(FILE *to, struct span name)
{
    for (size_t at = 0; at < name.length;) {
        size_t length = character(name, at);
        show_character(to, name, at, length);
        at += length > 0 ? length : 1;
    }
}

void put_line(struct span text, int null)
{
    size_t length;
    for (size_t at = 0; at < text.length; at += length) {
        uint64_t number = decode(text, at, &length);
        if (!null && control(text.bytes + at, length))
            printf("\\u%04" PRIx64, number);
        else if (!null && number == '\\')
            fputs("\\\\", stdout);
        else
            fwrite(text.bytes + at, 1, length, stdout);
    }
    putchar(null ? '\0' : '\n');
}

void show_text(FILE *to, struct span text)
{
    for (size_t at = 0; at < text.length;) {
        size_t length = character(text, at);
        if (control(text.bytes + at, length))
            fprintf(to, "<U+%04" PRIX64 ">", decode(text, at, &length));
        else
            fwrite(text.bytes + at, 1, length, to);
        at += length;
    }
}

static void show_place(const struct request *q, const struct place *place)
{
    struct span given = { q->text, q->text_length };
    if (place->start == place->text.length)
        fputs(": the end", stderr);
    else if (place->end > place->start + 1)
        fprintf(stderr, ": bytes %zu..%zu", place->start, place->end);
    else
        fprintf(stderr, ": byte %zu", place->start);
    fprintf(stderr, " of %s", place->file == NULL ? "the text" : place->file);
    if (place->entity.length > 0) {
        fputs(" of the entity ", stderr);
        show_name(stderr, place->entity);
    }
    fprintf(stderr, ", line %zu\n", line_of(place->text, place->start));
    show_line(place->text, place->start, place->end);
    if (place->entity.length == 0)
        return;
    fprintf(stderr, "govlezna: opened from byte %zu of the text, line %zu\n", place->opened, line_of(given, place->opened));
    show_line(given, place->opened, place->opened + 1);
}

/* Is it the table that is refused? */
static int is_of_table(uint32_t number)
{
    return number >= GOVLEZNA_MALFORMED_LIST && number <= GOVLEZNA_INVALID_DEFINITION;
}

const char *refused_option(const struct request *q, const struct outcome *o, size_t *occurrence)
{
    const uint8_t *command;
    size_t number[3] = { 0, 0, 0 };
    if (!is_of_table(o->number) || q->arguments->entity_count == 0)
        return NULL;
    for (command = first_command(q); command < q->list + o->answer[0]; command += command_size(command))
        number[command[0]]++;
    *occurrence = number[command[0]] + 1;
    return command[0] == 1 ? "--entity" : "--external";
}

/* The option that is refused, with its value where that is one that the library does not answer. */
static void show_option(const struct request *q, const struct outcome *o)
{
    const struct arguments *a = q->arguments;
    size_t occurrence;
    const char *option = refused_option(q, o, &occurrence);
    if (option != NULL)
        fprintf(stderr, ": %s number %zu", option, occurrence);
    else if (is_of_table(o->number))
        fprintf(stderr, ": byte %" PRIu64 " of the list", o->answer[0]);
    else if (o->number == GOVLEZNA_DEPTH_TOO_LARGE)
        fprintf(stderr, ": --depth %" PRIu64, a->depth);
    else if (o->number == GOVLEZNA_LIMIT_TOO_LARGE)
        fprintf(stderr, ": --limit %" PRIu64, a->limit);
    else if (o->number == GOVLEZNA_UNKNOWN_BYTE && a->command == ESCAPE)
        fprintf(stderr, ": --level %u, expected %s", (unsigned)a->level, expected_level);
    else if (o->number == GOVLEZNA_UNKNOWN_BYTE)
        fprintf(stderr, ": --version %u, expected %s", (unsigned)a->version, expected_version);
}

int is_forbidden(uint32_t number)
{
    return number == GOVLEZNA_FORBIDDEN_REFERENCE || number == GOVLEZNA_FORBIDDEN_CHARACTER;
}

/* What would do in the place of the depth that was used up. */
static void show_depth(const struct request *q)
{
    uint64_t depth;
    uint32_t number = find_depth(q, &depth);
    if (number == 0)
        fprintf(stderr, "govlezna: --depth %" PRIu64 " would do\n", depth);
    else if (number == GOVLEZNA_TOO_DEEP)
        fputs("govlezna: no --depth up to 128 would do\n", stderr);
    else
        fprintf(stderr, "govlezna: no --depth up to 128 would do: with 128 it is refusal %" PRIu32 ": %s\n", number, words_of(number));
}

void report_refusal(const struct request *q, const struct outcome *o)
{
    struct place place = find_place(q, o);
    fprintf(stderr, "govlezna: refusal %" PRIu32 ": %s", o->number, words_of(o->number));
    show_option(q, o);
    if (o->number == GOVLEZNA_INVALID_CODEPOINT)
        fprintf(stderr, ", %" PRIu64, o->answer[0]);
    if (is_forbidden(o->number))
        fprintf(stderr, ", U+%04" PRIX64, place.character);
    if (place.known)
        show_place(q, &place);
    else
        fputc('\n', stderr);
    if (o->number == GOVLEZNA_TOO_DEEP)
        show_depth(q);
    if (o->number == GOVLEZNA_SPAN_OUTSIDE)
        fprintf(stderr, "govlezna: the text has %zu bytes\n", q->text_length);
}
