/* The arguments of the command line: taken apart, and refused where they say nothing. */
#include "cli.h"

#include <errno.h>
#include <stdlib.h>
#include <string.h>

static const char *const commands[] = { "escape", "unescape", "normalize", "canonical",    "nmtokens", "eols",  "trim",
                                        "cdata",  "check",    "used",      "c14n",         "declarations", "register", "depth", "rehearse" };
static const char *const actions[] = { "add", "withdraw", "count", "list" };

#define COMMANDS (sizeof commands / sizeof commands[0])
#define ACTIONS (sizeof actions / sizeof actions[0])
#define ROOM_IF_NOT_GIVEN ((size_t)1048576)

enum option {
    LEVEL, VERSION, DEPTH, LIMIT, STRICT, ENTITY, EXTERNAL, MARKED, TABLE, DECLARED, SPANS, LINES, WITH_NULL, AT_START, AT_END, AS_ATTRIBUTE,
    AS_TEXT, ROOM, OF_CANONICAL, TAKE_EMPTY, FROM_FILE, CHOMP, JSON, OPTIONS
};

#define ON(command) (1u << (command))
#define ALL (ON(COMMANDS) - 1)
/* Those that read an attribute value, and those that have a table. */
#define VALUES (ON(NORMALIZE) | ON(CANONICAL) | ON(NMTOKENS) | ON(USED) | ON(LEAST_DEPTH) | ON(REHEARSE))
#define TABLES (VALUES | ON(UNESCAPE) | ON(CHECK))
/* What register takes with --canonical alone. */
#define OF_VALUES (ON(VERSION) | ON(DEPTH) | ON(LIMIT) | ON(STRICT) | ON(ENTITY) | ON(EXTERNAL) | ON(MARKED) | ON(TABLE) | \
                   ON(DECLARED))

/* The options: how many values each takes, and which commands take it. */
static const struct {
    const char *name;
    int values;
    unsigned commands;
} options[OPTIONS] = {
    { "--level", 1, ON(ESCAPE) },
    { "--version", 1, TABLES | ON(EOLS) | ON(DECLARATIONS) | ON(REGISTER) },
    { "--depth", 1, (VALUES & ~ON(LEAST_DEPTH)) | ON(REGISTER) },
    { "--limit", 1, VALUES | ON(REGISTER) },
    { "--strict", 0, ON(NORMALIZE) | ON(CANONICAL) | ON(USED) | ON(REGISTER) },
    { "--entity", 1, TABLES | ON(REGISTER) },
    { "--external", 1, TABLES | ON(REGISTER) },
    { "--marked", 0, TABLES | ON(REGISTER) },
    { "--table", 2, TABLES | ON(REGISTER) },
    { "--declarations", 1, TABLES | ON(REGISTER) },
    { "--spans", 1, ON(REHEARSE) },
    { "--lines", 0, ON(NMTOKENS) | ON(REHEARSE) },
    { "--null", 0, ON(NMTOKENS) | ON(REGISTER) },
    { "--start", 0, ON(TRIM) },
    { "--end", 0, ON(TRIM) },
    { "--attribute", 0, ON(C14N) },
    { "--text", 0, ON(C14N) },
    { "--room", 1, ON(REGISTER) },
    { "--canonical", 0, ON(REGISTER) },
    { "--empty", 0, ON(REGISTER) },
    { "--file", 1, ALL & ~(ON(DECLARATIONS) | ON(REHEARSE)) },
    { "--chomp", 0, ALL & ~(ON(DECLARATIONS) | ON(REHEARSE)) },
    { "--json", 0, ALL },
};

const char expected_level[] = "0, 1, 2 or 3", expected_version[] = "1.0 or 1.1";

const char *command_name(enum command command)
{
    return commands[command];
}

static void end_usage(void)
{
    fputs("\ngovlezna --help says how it is used\n", stderr);
    exit(2);
}

static void bad_usage(const char *what, const char *why)
{
    fprintf(stderr, "govlezna: %s: %s", what, why);
    end_usage();
}

static enum command read_command(const char *word)
{
    for (size_t i = 0; i < COMMANDS; i++)
        if (strcmp(word, commands[i]) == 0)
            return (enum command)i;
    fprintf(stderr, "govlezna: %s: no such command, expected ", word);
    for (size_t i = 0; i < COMMANDS; i++)
        fprintf(stderr, "%s%s", i == 0 ? "" : i + 1 < COMMANDS ? ", " : " or ", commands[i]);
    end_usage();
    return CHECK;
}

static void bad_option(const struct arguments *a, const char *word, const char *why)
{
    const char *between = " ";
    fprintf(stderr, "govlezna: %s: %s, %s takes", word, why, commands[a->command]);
    for (int i = 0; i < OPTIONS; i++)
        if (options[i].commands & ON(a->command)) {
            fprintf(stderr, "%s%s", between, options[i].name);
            between = ", ";
        }
    end_usage();
}

static const char *expected(enum option option)
{
    switch (option) {
    case LEVEL: return expected_level;
    case VERSION: return expected_version;
    case DEPTH: return "a number from 0 to 128";
    case LIMIT: return "a number from 0 to 1,000,000";
    case ENTITY: return "NAME=TEXT";
    case EXTERNAL: return "NAME";
    case TABLE: return "two files, LIST and POOL";
    case DECLARED: return "a file of declarations";
    case SPANS: return "a file of lines START LENGTH";
    case ROOM: return "a number of bytes";
    default: return "PATH";
    }
}

static void bad_value(enum option option, const char *value)
{
    fprintf(stderr, "govlezna: %s %s: expected %s", options[option].name, value, expected(option));
    end_usage();
}

/* A decimal number of at most 64 bits: a larger one is not the library's to refuse. */
static uint64_t read_number(enum option option, const char *value, uint64_t most)
{
    char *end;
    unsigned long long number;
    errno = 0;
    number = strtoull(value, &end, 10);
    if (*value < '0' || *value > '9' || *end != '\0' || errno != 0 || number > most)
        bad_value(option, value);
    return number;
}

static uint8_t read_version(const char *value)
{
    if (strcmp(value, "1.0") == 0)
        return 1;
    if (strcmp(value, "1.1") == 0)
        return 2;
    return (uint8_t)read_number(VERSION, value, UINT8_MAX);
}

/* The option that the word names, which may have a value after =. */
static enum option read_option(const struct arguments *a, const char *word, const char **value)
{
    const char *equals = strchr(word, '=');
    size_t length = equals == NULL ? strlen(word) : (size_t)(equals - word);
    *value = equals == NULL ? NULL : equals + 1;
    for (int i = 0; i < OPTIONS; i++)
        if (strlen(options[i].name) == length && memcmp(word, options[i].name, length) == 0)
            return (enum option)i;
    bad_option(a, word, "no such option");
    return OPTIONS;
}

/* An entity whose name is the first bytes of the value; without a text it is external. */
static void add_entity(struct arguments *a, const char *option, const char *name, size_t length, const char *text)
{
    if (length > 0xFF)
        bad_usage(option, "a name has at most 255 bytes");
    if (text != NULL && strlen(text) > 0xFFFF)
        bad_usage(option, "a text has at most 65,535 bytes");
    a->entities[a->entity_count++] = (struct entity){ { (const uint8_t *)name, length }, text };
}

static void set_entity(struct arguments *a, const char *value)
{
    const char *equals = strchr(value, '=');
    if (equals == NULL)
        bad_value(ENTITY, value);
    else
        add_entity(a, "--entity", value, (size_t)(equals - value), equals + 1);
}

/* Puts an option's values where they belong. */
static void set_option(struct arguments *a, enum option option, char **values)
{
    const char *name = options[option].name;
    switch (option) {
    case LEVEL: a->level = (uint8_t)read_number(option, values[0], UINT8_MAX); break;
    case VERSION: a->version = read_version(values[0]); break;
    case DEPTH: a->depth = read_number(option, values[0], UINT64_MAX); break;
    case LIMIT: a->limit = read_number(option, values[0], UINT64_MAX); break;
    case STRICT: a->strict = 1; break;
    case ENTITY: set_entity(a, values[0]); break;
    case EXTERNAL: add_entity(a, name, values[0], strlen(values[0]), NULL); break;
    case MARKED: a->marked = 1; break;
    case TABLE: a->list = values[0], a->pool = values[1]; break;
    case DECLARED: a->declarations = values[0]; break;
    case SPANS: a->spans = values[0]; break;
    case LINES: a->lines = 1; break;
    case WITH_NULL: a->null = 1; break;
    case AT_START: a->side = START; break;
    case AT_END: a->side = END; break;
    case AS_ATTRIBUTE: a->node = ATTRIBUTE; break;
    case AS_TEXT: a->node = TEXT; break;
    case ROOM: a->room = read_number(option, values[0], SIZE_MAX); break;
    case OF_CANONICAL: a->canonical = 1; break;
    case TAKE_EMPTY: a->empty = 1; break;
    case FROM_FILE: a->file = values[0]; break;
    case CHOMP: a->chomp = 1; break;
    case JSON: a->json = 1; break;
    case OPTIONS: break;
    }
}

/* The first two words of register that are no options: its file, and what is done. */
static int take_action(struct arguments *a, const char *word)
{
    if (a->command != REGISTER || a->action_name != NULL)
        return 0;
    if (a->register_path == NULL) {
        a->register_path = word;
        return 1;
    }
    for (size_t i = 0; i < ACTIONS; i++)
        if (strcmp(word, actions[i]) == 0) {
            a->action = (enum action)i;
            a->action_name = actions[i];
            return 1;
        }
    bad_usage(word, "expected add, withdraw, count or list");
    return 0;
}

static void check_register(const struct arguments *a, unsigned seen)
{
    if (a->action_name == NULL)
        bad_usage("register", "expected FILE and one of add, withdraw, count and list");
    if (a->action == LIST && (a->operand != NULL || a->file != NULL || a->chomp || a->canonical || a->empty))
        bad_usage("list", "takes no form");
    for (int i = 0; i < OPTIONS && !a->canonical; i++)
        if (seen & OF_VALUES & ON(i))
            bad_usage(options[i].name, "goes with --canonical");
}

/* The text, or - for standard input; after -- that is a text too. */
static void take_operand(struct arguments *a, const char *word, int options_end)
{
    if (a->operand != NULL)
        bad_usage(word, "a second text; put one text in quotes");
    a->operand = word;
    if (options_end || strcmp(word, "-") != 0)
        a->text = word;
}

/* The word of declarations, or of rehearse: its file. */
static int take_file(struct arguments *a, const char *word)
{
    const char **file = a->command == DECLARATIONS ? &a->declarations : &a->file;
    if (a->command != DECLARATIONS && a->command != REHEARSE)
        return 0;
    if (*file != NULL)
        bad_usage(word, "a second file");
    *file = word;
    return 1;
}

static int is_input(const char *path)
{
    return path != NULL && strcmp(path, "-") == 0;
}

static int text_from_input(const struct arguments *a)
{
    return a->text == NULL && (a->file == NULL || is_input(a->file));
}

/* The values are spans or lines. */
static void check_rehearsal(const struct arguments *a)
{
    if ((a->spans != NULL) == a->lines)
        bad_usage(a->lines ? "--spans" : "rehearse", a->lines ? "--lines is given too" : "expected --spans FILE or --lines");
    if (is_input(a->spans) && text_from_input(a))
        bad_usage("--spans", "standard input is the text");
    if (is_input(a->spans) && is_input(a->declarations))
        bad_usage("--spans", "standard input is the declarations");
}

/* A file of declarations is the whole table. */
static void check_declarations(const struct arguments *a, unsigned seen)
{
    static const enum option others[] = { ENTITY, EXTERNAL, MARKED, TABLE };
    for (size_t i = 0; i < sizeof others / sizeof others[0]; i++)
        if (seen & ON(others[i]))
            bad_usage("--declarations", "--entity, --external, --marked or --table is given too");
    if (seen & ON(DECLARED) && is_input(a->declarations) && text_from_input(a))
        bad_usage("--declarations", "standard input is the text");
}

static void check_together(const struct arguments *a, unsigned seen)
{
    if (a->operand != NULL && a->file != NULL)
        bad_usage("--file", "the text is given too");
    if (a->chomp && a->text != NULL)
        bad_usage("--chomp", "the text is no file, and is taken as it is");
    if (a->entity_count > 0 && a->list != NULL)
        bad_usage(seen & ON(ENTITY) ? "--entity" : "--external", "--table is given too");
    if (a->marked && a->list != NULL)
        bad_usage("--marked", "--table is given too; a marked list starts with the byte 3");
    if (seen & ON(DECLARED))
        check_declarations(a, seen);
    else if (seen & ON(VERSION) && (a->command == UNESCAPE || a->command == CHECK))
        bad_usage("--version", "not an option of this command without --declarations");
    if ((a->lines || a->null) && a->json && a->command != REHEARSE)
        bad_usage(a->lines ? "--lines" : "--null", "--json is given too, which has the tokens or entries");
    if (a->null && a->command == REGISTER && a->action != LIST)
        bad_usage("--null", "only list takes it");
    if (seen & ON(AT_START) && seen & ON(AT_END))
        bad_usage("--start", "--end is given too; for both ends give neither");
    if (seen & ON(AS_ATTRIBUTE) && seen & ON(AS_TEXT))
        bad_usage("--attribute", "--text is given too");
    if (a->command == C14N && a->node == NEITHER)
        bad_usage("c14n", "expected --attribute or --text");
    if (a->command == REGISTER)
        check_register(a, seen);
    if (a->command == REHEARSE)
        check_rehearsal(a);
}

/* Takes the option at argv[at] with its values; the place after them. */
static int take_option(struct arguments *a, unsigned *seen, int argc, char **argv, int at)
{
    const char *inside;
    enum option option = read_option(a, argv[at], &inside);
    int values = options[option].values;
    char *value = argv[at] + strlen(options[option].name) + 1;
    if (!(options[option].commands & ON(a->command)))
        bad_option(a, options[option].name, "not an option of this command");
    if (option != ENTITY && option != EXTERNAL && *seen & ON(option))
        bad_usage(options[option].name, "given twice");
    *seen |= ON(option);
    if (inside != NULL && values != 1)
        bad_usage(options[option].name, "takes no value after =");
    if (inside == NULL && argc - at - 1 < values) {
        fprintf(stderr, "govlezna: %s: its value is missing, expected %s", options[option].name, expected(option));
        end_usage();
    }
    set_option(a, option, inside != NULL ? &value : argv + at + 1);
    return inside != NULL ? at + 1 : at + 1 + values;
}

void read_arguments(int argc, char **argv, struct arguments *a)
{
    unsigned seen = 0;
    int options_end = 0;
    if (argc < 2) {
        put_help(stderr);
        exit(2);
    }
    for (int at = 1; at < argc && strcmp(argv[at], "--") != 0; at++)
        if (strcmp(argv[at], "--help") == 0) {
            put_help(stdout);
            flush_output();
            exit(0);
        }
    if (strcmp(argv[1], "--about") == 0) {
        if (argc > 2)
            bad_usage(argv[2], "--about stands alone");
        put_about();
        flush_output();
        exit(0);
    }
    *a = (struct arguments){ .command = read_command(argv[1]), .depth = DEEPEST, .limit = 10000,
                              .room = ROOM_IF_NOT_GIVEN };
    a->entities = allocate((size_t)argc * sizeof *a->entities);
    for (int at = 2; at < argc;) {
        if (!options_end && strcmp(argv[at], "--") == 0)
            options_end = 1, at++;
        else if (!options_end && argv[at][0] == '-' && argv[at][1] != '\0')
            at = take_option(a, &seen, argc, argv, at);
        else if (take_action(a, argv[at]) || take_file(a, argv[at]))
            at++;
        else
            take_operand(a, argv[at++], options_end);
    }
    if (a->command == DECLARATIONS && a->declarations == NULL)
        a->declarations = "-";
    check_together(a, seen);
}
