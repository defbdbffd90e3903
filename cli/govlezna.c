/* govlezna: the library's calls from the command line. `govlezna --help` says how it is used. */
#define _POSIX_C_SOURCE 200809L

#include "cli.h"

#include <inttypes.h>
#include <stdlib.h>
#include <unistd.h>

static void put(const void *bytes, size_t length)
{
    if (length > 0)
        fwrite(bytes, 1, length, stdout);
}

static void put_sections(const struct request *q)
{
    struct govlezna_cursor cursor = { 0, 0 };
    uint64_t answer[2];
    while (next_piece(q, &cursor, answer) == 0) {
        fputs("<![CDATA[", stdout);
        put(q->text + answer[0], answer[1]);
        fputs("]]>", stdout);
    }
}

static void put_tokens(struct span result, int null)
{
    struct span token;
    size_t offset = 0;
    while (next_token(result, &offset, &token))
        put_line(token, null);
}

static void put_check(const struct request *q, const struct outcome *o)
{
    printf("UTF-8, %" PRIu64 " bytes\n", o->answer[0]);
    if (q->arguments->list != NULL || q->arguments->declarations != NULL || q->arguments->entity_count > 0 ||
        q->arguments->marked)
        printf("table valid, %" PRIu64 " definitions\n", o->answer[1]);
}

static void put_names(const struct request *q, const struct outcome *o)
{
    struct names names = find_names(q, o);
    for (size_t i = 0; i < names.count; i++) {
        show_name(stdout, names.names[i].name);
        printf(": %s\n", bound_name(names.names[i].bound));
    }
    free(names.names);
}

/* One to a line; of those that have no say, that it is so. */
static void put_definitions(const struct request *q)
{
    const uint8_t *command = first_command(q);
    struct definition definition;
    while (next_definition(q, &command, &definition)) {
        show_name(stdout, definition.name);
        fputs(" = ", stdout);
        show_text(stdout, definition.text);
        puts(definition.shadowed ? " (shadowed)" : "");
    }
}

static void put_success(const struct request *q, const struct outcome *o)
{
    switch (q->arguments->command) {
    case CHECK: put_check(q, o); return;
    case NMTOKENS:
        if (q->arguments->lines || q->arguments->null) {
            put_tokens((struct span){ o->bytes, o->answer[0] }, q->arguments->null);
            return;
        }
        put(o->bytes, o->answer[0]);
        break;
    case USED: return;
    case LEAST_DEPTH: printf("%" PRIu64 "\n", o->answer[0]); return;
    case DECLARATIONS: put_definitions(q); return;
    case REHEARSE: put_report(q, o); return;
    case CDATA: put_sections(q); break;
    case TRIM: put(q->text + o->answer[0], o->answer[1]); break;
    default: put(o->bytes, o->answer[0]); break;
    }
    if (!ferror(stdout) && isatty(STDOUT_FILENO)) /* isatty sets errno, which after an error says what it was */
        putchar('\n');
}

static void answer(const struct request *q, const struct outcome *o)
{
    if (q->arguments->json) {
        (o->number == 0 ? json_success : json_refusal)(q, o);
        return;
    }
    if (q->arguments->command == USED)
        put_names(q, o);
    if (o->number == 0)
        put_success(q, o);
    else
        report_refusal(q, o);
}

/* Declarations are read first: where they are refused, nothing else is done. 0: it was refused. */
static int run(struct request *q)
{
    struct outcome outcome = { .number = 0 };
    int accepted;
    if (q->arguments->declarations == NULL || declare(q, &outcome) == 0) {
        if (q->arguments->command == REGISTER)
            return run_register(q);
        if (q->arguments->command != DECLARATIONS)
            make_call(q, &outcome);
    }
    accepted = outcome.number == 0;
    answer(q, &outcome);
    flush_output();
    free(outcome.bytes);
    return accepted;
}

int main(int argc, char **argv)
{
    struct arguments arguments;
    struct request request;
    int accepted;
    open_standard_descriptors();
    read_arguments(argc, argv, &arguments);
    read_request(&arguments, &request);
    accepted = run(&request);
    flush_output();
    free_request(&request);
    free(arguments.entities);
    return accepted ? 0 : 1;
}
