/* The text and the entity table, read whole. */
#include "cli.h"

#include <errno.h>
#include <stdlib.h>
#include <string.h>

void fail(const char *what, const char *why)
{
    fprintf(stderr, "govlezna: %s: %s\n", what, why);
    exit(2);
}

/* What was written has to be out, or the program fails. */
void flush_output(void)
{
    if (fflush(stdout) != 0 || ferror(stdout))
        fail("standard output", strerror(errno));
}

/* Never NULL, for a length of 0 too. */
void *allocate(size_t length)
{
    void *bytes = malloc(length > 0 ? length : 1);
    if (bytes == NULL)
        fail("out of memory", "the result does not fit");
    return bytes;
}

/* Reads to the end of the stream, or one byte over the most: enough for the library to refuse the length. */
static uint8_t *read_stream(FILE *stream, const char *path, size_t most, size_t *length)
{
    size_t room = 65536 < most + 1 ? 65536 : most + 1;
    uint8_t *bytes = allocate(room);
    *length = 0;
    for (;;) {
        *length += fread(bytes + *length, 1, room - *length, stream);
        if (ferror(stream)) {
            const char *why = strerror(errno);
            free(bytes);
            fail(path, why);
        }
        if (*length < room || *length > most)
            return bytes;
        room = room < most / 2 ? room * 2 : most + 1;
        bytes = realloc(bytes, room);
        if (bytes == NULL)
            fail(path, strerror(ENOMEM));
    }
}

static uint8_t *read_file(const char *path, size_t most, size_t *length)
{
    FILE *stream = fopen(path, "rb");
    uint8_t *bytes;
    if (stream == NULL)
        fail(path, strerror(errno));
    bytes = read_stream(stream, path, most, length);
    fclose(stream);
    return bytes;
}

uint8_t *read_input(const char *path, size_t most, size_t *length)
{
    if (strcmp(path, "-") == 0)
        return read_stream(stdin, "standard input", most, length);
    return read_file(path, most, length);
}

/* Drops one line end at the end of the text: LF, CR or both. */
static void chomp(struct request *request)
{
    size_t length = request->text_length;
    if (length > 0 && request->text[length - 1] == '\n')
        length--;
    if (length > 0 && request->text[length - 1] == '\r')
        length--;
    request->text_length = length;
}

/* To drop a line end, so much is read that what is left of a text that is too long is too long. */
static void read_text(const struct arguments *a, struct request *request)
{
    size_t most = a->chomp ? TEXT_MOST + 2 : TEXT_MOST;
    if (a->command == DECLARATIONS || (a->command == REGISTER && a->action == LIST)) {
        request->text = allocate(0);
    } else if (a->text != NULL) {
        request->text_length = strlen(a->text);
        request->text = allocate(request->text_length);
        memcpy(request->text, a->text, request->text_length);
    } else {
        request->text = read_input(a->file != NULL ? a->file : "-", most, &request->text_length);
    }
    if (a->chomp)
        chomp(request);
}

const uint8_t *first_command(const struct request *request)
{
    return request->list + (request->list[0] == 3);
}

size_t command_size(const uint8_t *command)
{
    return command[0] == 1 ? 12 : 6;
}

static void put_number(uint8_t *to, size_t width, size_t value)
{
    for (size_t i = 0; i < width; i++)
        to[i] = (uint8_t)(value >> 8 * i & 0xFF);
}

/* Appends to the pool; where the bytes start there. */
static size_t pooled(struct request *request, const void *bytes, size_t length)
{
    size_t start = request->pool_length;
    memcpy(request->pool + start, bytes, length);
    request->pool_length += length;
    return start;
}

/* The table of the --entity and --external options: a command each after the mark, if it is asked for; names and texts one after
 * the other in the pool. */
static void build_table(const struct arguments *a, struct request *request)
{
    uint8_t *command;
    size_t pool_room = 0;
    for (size_t i = 0; i < a->entity_count; i++)
        pool_room += a->entities[i].name.length + (a->entities[i].text == NULL ? 0 : strlen(a->entities[i].text));
    request->list = command = allocate(12 * a->entity_count + 2);
    request->pool = allocate(pool_room);
    if (a->marked)
        *command++ = 3;
    for (size_t i = 0; i < a->entity_count; i++, command += command_size(command)) {
        const struct entity *e = &a->entities[i];
        command[0] = e->text == NULL ? 2 : 1;
        put_number(command + 1, 4, pooled(request, e->name.bytes, e->name.length));
        put_number(command + 5, 1, e->name.length);
        if (e->text == NULL)
            continue;
        put_number(command + 6, 4, pooled(request, e->text, strlen(e->text)));
        put_number(command + 10, 2, strlen(e->text));
    }
    command[0] = 0;
    request->list_length = (size_t)(command - request->list) + 1;
}

void read_request(const struct arguments *a, struct request *request)
{
    *request = (struct request){ .arguments = a };
    if (a->list != NULL) {
        request->list = read_file(a->list, LIST_MOST, &request->list_length);
        request->pool = read_file(a->pool, POOL_MOST, &request->pool_length);
    } else if (a->declarations != NULL) {
        request->declarations = read_input(a->declarations, TEXT_MOST, &request->declarations_length);
    } else {
        build_table(a, request);
    }
    read_text(a, request);
    if (a->command == REHEARSE)
        read_spans(request);
}

void free_request(struct request *request)
{
    free(request->text);
    free(request->declarations);
    free(request->list);
    free(request->pool);
    free(request->spans_text);
    free(request->spans);
}
