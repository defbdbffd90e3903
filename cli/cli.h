/* What the files of the command line program share. */
#ifndef CLI_H
#define CLI_H

#include "govlezna.h"

#include <stdio.h>

#define TEXT_MOST ((size_t)16777216)
#define LIST_MOST ((size_t)49154)
#define POOL_MOST ((size_t)1048576)
#define DEEPEST ((uint64_t)128)
#define REPORT 29 /* words of a rehearsal's report */

enum command { ESCAPE, UNESCAPE, NORMALIZE, CANONICAL, NMTOKENS, EOLS, TRIM, CDATA, CHECK, USED, C14N, DECLARATIONS, REGISTER, LEAST_DEPTH, REHEARSE };
enum side { BOTH, START, END };
enum node { NEITHER, ATTRIBUTE, TEXT };
enum action { ADD, WITHDRAW, COUNT, LIST };

/* Bytes that are lent. */
struct span {
    const uint8_t *bytes;
    size_t length;
};

/* An entity of the command line: its name, and its text; NULL for one that is external. */
struct entity {
    struct span name;
    const char *text;
};

/* The arguments, taken apart. Pointers are into argv; the entities are in the order given, of either option. */
struct arguments {
    enum command command;
    const char *operand, *text, *file, *list, *pool; /* the operand is the text, or - */
    struct entity *entities;
    size_t entity_count;
    const char *declarations, *spans; /* the files; NULL: none */
    int marked, strict;
    uint8_t level, version;
    uint64_t depth, limit;
    enum side side;
    enum node node;
    const char *register_path, *action_name; /* of register; NULL where they are missing */
    enum action action;
    size_t room;
    int canonical, empty; /* the text is a value, whose form is meant; the form may be empty */
    int chomp, lines, null, json;
};

/* One call to make: the arguments with their text and table read. The buffers are owned. */
struct request {
    const struct arguments *arguments;
    uint8_t *text, *declarations, *list, *pool, *spans_text;
    size_t text_length, declarations_length, list_length, pool_length, spans_text_length;
    struct govlezna_span *spans; /* of rehearse, and the file that they are from, if it is one */
    size_t span_count;
};

/* The library's answer. The bytes are the result, owned; of check, trim and cdata there are none. */
struct outcome {
    uint32_t number;
    uint64_t answer[2];
    uint8_t *bytes;
    uint64_t report[REPORT]; /* of rehearse: all calls added up */
    int declarations; /* on the declarations, not on the text */
};

/* Where a refusal lies. */
struct place {
    int known;
    struct span text;      /* the text that was being read */
    const char *file;      /* the file of declarations or of spans that it is; NULL: the text given, or of an entity */
    struct span entity;    /* the name that it is the text of; no bytes: the text given */
    size_t start, end;
    size_t opened;         /* where in the text given the reference stands that leads there */
    uint64_t character;    /* the character that is not allowed, of refusals 25 and 26 */
};

/* What a name is bound to. */
enum bound { TABLE_TEXT, EXTERNAL_ENTITY, PREDEFINED, UNKNOWN };

/* Of a text that was being read when the walk was refused: the part that was read whole, and the reference behind it. */
struct step {
    struct span read, reference;
};

/* All of these texts, the one given first; the depth is at most 128. */
struct trail {
    size_t count;
    struct step steps[129];
};

/* A name that a reading asks the table for. */
struct name {
    struct span name;
    enum bound bound;
};

/* All of them, each once, in the order of asking. */
struct names {
    struct name *names;
    size_t count;
};

/* A definition of a table: its name and its text. */
struct definition {
    struct span name, text;
    int shadowed; /* by an earlier one of the name */
};

/* descriptors.c: before anything else */
void open_standard_descriptors(void);

/* help.c */
void put_help(FILE *to);

/* about.c */
void put_about(void);

/* options.c */
const char *command_name(enum command command);
/* What may stand as the value of --level, and of --version. */
extern const char expected_level[], expected_version[];
void read_arguments(int argc, char **argv, struct arguments *arguments);

/* input.c. Whatever goes wrong ends the program with status 2. */
void fail(const char *what, const char *why);
void flush_output(void);
void *allocate(size_t length);
/* The bytes of a file of at most so many bytes, or one byte more than that; - is standard input. */
uint8_t *read_input(const char *path, size_t most, size_t *length);
/* Where the commands of a list that is not empty begin: after its mark, if it has one. */
const uint8_t *first_command(const struct request *request);
/* How many bytes the command 1 or 2 of a list takes up. */
size_t command_size(const uint8_t *command);
void read_request(const struct arguments *arguments, struct request *request);
void free_request(struct request *request);

/* calls.c */
uint32_t make_call(const struct request *request, struct outcome *outcome);
/* Of a value that is refused by 16: the least depth that it is accepted at, if the number is 0; else what refuses it at 128. */
uint32_t find_depth(const struct request *request, uint64_t *depth);

/* declarations.c. The table of the declarations, which the request then has; the library's number. */
uint32_t declare(struct request *request, struct outcome *outcome);
const char *declarations_name(const struct request *request);
struct place declarations_place(const struct request *request, const struct outcome *outcome);
/* The definition at the command of a table of declarations, and the command after it; 0 if there is none. */
int next_definition(const struct request *request, const uint8_t **command, struct definition *definition);

/* rehearse.c. The spans of the file, or of the text's lines; the library's answer, whose index is that of all spans. */
void read_spans(struct request *request);
const char *spans_name(const struct request *request);
uint32_t rehearse(const struct request *request, struct outcome *outcome);
/* The line of the span that leaves the text, in the file of spans. */
struct place span_place(const struct request *request, const struct outcome *outcome);
void put_report(const struct request *request, const struct outcome *outcome);
void json_report(const struct request *request, const struct outcome *outcome);

/* pieces.c */
uint32_t next_piece(const struct request *request, struct govlezna_cursor *cursor, uint64_t answer[2]);

/* tokens.c. The token from the offset on: its start and its length, and the offset after it; 0 if there is none. */
int next_token(struct span result, size_t *offset, struct span *token);

/* place.c */
struct place find_place(const struct request *request, const struct outcome *outcome);
/* 0: it was no text that was refused. */
int find_trail(const struct request *request, const struct outcome *outcome, struct trail *trail);
/* The name and the text of a command 1 of a table that was checked. */
struct definition read_definition(const struct request *request, const uint8_t *command);
/* What a name is bound to in such a table, and the table's text. */
enum bound look_up(const struct request *request, struct span name, struct span *text);
/* The number and the length of the character here, in UTF-8 that was checked. */
uint64_t decode(struct span text, size_t at, size_t *length);
/* The name that an attribute's reference asks the table for. 0: it asks for none, as &#1; and &amp; do, and & without ;. */
int asked_name(struct span reference, struct span *name);

/* used.c */
const char *bound_name(enum bound bound);
struct names find_names(const struct request *request, const struct outcome *outcome);

/* words.c. No words for a number that the header has not. */
const char *words_of(uint32_t number);

/* width.c. How many columns of a terminal it takes: 0, 1 or 2. */
int width_of(uint64_t character);

/* report.c */
/* Is it refused for a character that the XML version does not allow? */
int is_forbidden(uint32_t number);
/* The number and the length of the character here, in UTF-8 that was checked. */
uint64_t decode(struct span text, size_t at, size_t *length);
size_t line_of(struct span text, size_t offset);
/* The option that gave the command of the list for which a table is refused, and which of its kind it is, from 1; NULL: a file did. */
const char *refused_option(const struct request *request, const struct outcome *outcome, size_t *occurrence);
/* The name with ? for what a terminal would not print. */
void show_name(FILE *to, struct span name);
/* A text of checked UTF-8 on one line, whatever is in it; with `null` as it is, ended by a zero byte. */
void put_line(struct span text, int null);
/* The text with <U+000D> for what a terminal would not print. */
void show_text(FILE *to, struct span text);
void report_refusal(const struct request *request, const struct outcome *outcome);

/* register.c: the whole command, its answer too. 0: it was refused. */
int run_register(const struct request *request);

/* json.c */
void json_string(struct span text);
void json_number(const char *name, uint64_t value);
void json_success(const struct request *request, const struct outcome *outcome);
void json_refusal(const struct request *request, const struct outcome *outcome);

#endif
