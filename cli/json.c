/* Answers as one line of JSON. Texts here are UTF-8: results, and names of tables that were checked. */
#include "cli.h"

#include <inttypes.h>
#include <stdlib.h>
#include <string.h>

void json_string(struct span text)
{
    putchar('"');
    for (size_t i = 0; i < text.length; i++) {
        uint8_t byte = text.bytes[i];
        if (byte == '"' || byte == '\\')
            printf("\\%c", byte);
        else if (byte < 0x20 || byte == 0x7F)
            printf("\\u%04x", (unsigned)byte);
        else
            putchar(byte);
    }
    putchar('"');
}

void json_number(const char *name, uint64_t value)
{
    printf(",\"%s\":%" PRIu64, name, value);
}

static void put_result(struct span result)
{
    printf(",\"result\":");
    json_string(result);
}

static void put_pieces(const struct request *q)
{
    struct govlezna_cursor cursor = { 0, 0 };
    uint64_t answer[2];
    const char *between = "";
    printf(",\"pieces\":[");
    while (next_piece(q, &cursor, answer) == 0) {
        printf("%s[%" PRIu64 ",%" PRIu64 "]", between, answer[0], answer[1]);
        between = ",";
    }
    putchar(']');
}

static void put_tokens(struct span result)
{
    struct span token;
    size_t offset = 0;
    const char *between = "";
    printf(",\"tokens\":[");
    while (next_token(result, &offset, &token)) {
        printf("%s[%zu,%zu]", between, (size_t)(token.bytes - result.bytes), token.length);
        between = ",";
    }
    putchar(']');
}

/* Only `used` has names; of a value that is refused too. */
static void put_names(const struct request *q, const struct outcome *o)
{
    struct names names;
    if (q->arguments->command != USED)
        return;
    names = find_names(q, o);
    printf(",\"names\":[");
    for (size_t i = 0; i < names.count; i++) {
        printf("%s{\"name\":", i > 0 ? "," : "");
        json_string(names.names[i].name);
        printf(",\"bound\":\"%s\"}", bound_name(names.names[i].bound));
    }
    putchar(']');
    free(names.names);
}

static void put_definitions(const struct request *q)
{
    const uint8_t *command = first_command(q);
    const char *between = "";
    struct definition definition;
    printf(",\"definitions\":[");
    while (next_definition(q, &command, &definition)) {
        printf("%s{\"name\":", between);
        json_string(definition.name);
        printf(",\"text\":");
        json_string(definition.text);
        printf(",\"shadowed\":%s}", definition.shadowed ? "true" : "false");
        between = ",";
    }
    putchar(']');
}

static void begin(const struct request *q, uint32_t number)
{
    printf("{\"command\":\"%s\"", command_name(q->arguments->command));
    json_number("number", number);
}

void json_success(const struct request *q, const struct outcome *o)
{
    enum command command = q->arguments->command;
    begin(q, 0);
    if (command == CDATA) {
        put_pieces(q);
    } else if (command == CHECK) {
        json_number("length", o->answer[0]);
        json_number("definitions", o->answer[1]);
    } else if (command == TRIM) {
        json_number("start", o->answer[0]);
        json_number("length", o->answer[1]);
        put_result((struct span){ q->text + o->answer[0], o->answer[1] });
    } else if (command == USED) {
        put_names(q, o);
    } else if (command == LEAST_DEPTH) {
        json_number("least_depth", o->answer[0]);
    } else if (command == DECLARATIONS) {
        json_number("list", o->answer[0]);
        json_number("pool", o->answer[1]);
        put_definitions(q);
    } else if (command == REHEARSE) {
        json_report(q, o);
    } else {
        json_number("length", o->answer[0]);
        if (command == NORMALIZE || command == CANONICAL || command == NMTOKENS)
            json_number("openings", o->answer[1]);
        if (command == NMTOKENS)
            put_tokens((struct span){ o->bytes, o->answer[0] });
        put_result((struct span){ o->bytes, o->answer[0] });
    }
    puts("}");
}

/* The depth that would do, or null and the number at depth 128. */
static void put_depth(const struct request *q)
{
    uint64_t depth;
    uint32_t number = find_depth(q, &depth);
    if (number == 0) {
        json_number("least_depth", depth);
        return;
    }
    printf(",\"least_depth\":null");
    json_number("at_128", number);
}

/* No file, or one whose name is not UTF-8, is left out. */
static void put_file(const char *path)
{
    struct span name = { (const uint8_t *)path, path == NULL ? 0 : strlen(path) };
    uint64_t answer[2];
    if (path == NULL || govlezna_check_utf8(name.bytes, name.length, answer) != 0)
        return;
    printf(",\"file\":");
    json_string(name);
}

/* The library's answer, then the place: offsets in the text of `entity`, or else in the text given. */
void json_refusal(const struct request *q, const struct outcome *o)
{
    struct place place = find_place(q, o);
    size_t occurrence;
    const char *option = refused_option(q, o, &occurrence);
    begin(q, o->number);
    printf(",\"words\":\"%s\"", words_of(o->number));
    json_number("first", o->answer[0]);
    json_number("second", o->answer[1]);
    if (option != NULL) {
        printf(",\"option\":\"%s\"", option);
        json_number("occurrence", occurrence);
    }
    if (place.known) {
        put_file(place.file);
        if (place.entity.length > 0) {
            printf(",\"entity\":");
            json_string(place.entity);
            json_number("opened", place.opened);
        }
        json_number("start", place.start);
        json_number("end", place.end);
        json_number("line", line_of(place.text, place.start));
        if (is_forbidden(o->number))
            printf(",\"character\":\"U+%04" PRIX64 "\"", place.character);
    }
    if (o->number == GOVLEZNA_TOO_DEEP)
        put_depth(q);
    if (o->number == GOVLEZNA_SPAN_OUTSIDE)
        json_number("length", q->text_length);
    put_names(q, o);
    puts("}");
}
