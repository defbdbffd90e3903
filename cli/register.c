/* The command register: the calls on a register that a file holds, and their answers. */
#include "store.h"

#include <errno.h>
#include <inttypes.h>
#include <stdlib.h>
#include <string.h>

#define HEAD ((size_t)8)

struct entry {
    size_t index, offset;
    struct span form;
};

/* ---- entries */

static size_t number_at(const uint8_t *bytes)
{
    return bytes[0] | (size_t)bytes[1] << 8 | (size_t)bytes[2] << 16 | (size_t)bytes[3] << 24;
}

/* What is wrong with the entry at this offset by itself; NULL if nothing is. */
static const char *fault_of(const struct store *s, size_t at)
{
    uint64_t answer[2];
    size_t left = s->used - at;
    if (left < HEAD)
        return "it is cut: fewer than 8 bytes are left";
    if (left - HEAD < number_at(s->buffer + at))
        return "it is cut: its form is longer than what is left";
    if (number_at(s->buffer + at + 4) == 0)
        return "its count is 0";
    /* A form in a file may be longer than a text: it is checked in parts that end between characters. */
    for (size_t start = at + HEAD, end = start + number_at(s->buffer + at); start < end;) {
        size_t part = end - start < TEXT_MOST ? end - start : TEXT_MOST;
        while (part > TEXT_MOST - 4 && start + part < end && (s->buffer[start + part] & 0xC0) == 0x80)
            part--;
        if (govlezna_check_utf8(s->buffer + start, part, answer) != 0)
            return "its form is not UTF-8";
        start += part;
    }
    return NULL;
}

static int by_form(const void *left, const void *right)
{
    const struct entry *a = left, *b = right;
    size_t common = a->form.length < b->form.length ? a->form.length : b->form.length;
    int order = common == 0 ? 0 : memcmp(a->form.bytes, b->form.bytes, common);
    if (order == 0 && a->form.length != b->form.length)
        order = a->form.length < b->form.length ? -1 : 1;
    return order != 0 ? order : (a->index > b->index) - (a->index < b->index);
}

/* The first entry whose form stands before it; the entries are put in the order of their forms. */
static const struct entry *first_repeat(struct entry *entries, size_t count)
{
    const struct entry *first = NULL;
    if (count > 0)
        qsort(entries, count, sizeof *entries, by_form);
    for (size_t i = 1; i < count; i++)
        if (entries[i].form.length == entries[i - 1].form.length &&
            (entries[i].form.length == 0 ||
             memcmp(entries[i].form.bytes, entries[i - 1].form.bytes, entries[i].form.length) == 0) &&
            (first == NULL || entries[i].index < first->index))
            first = &entries[i];
    return first;
}

/* The first entry at fault of a damaged register, and its fault. */
static struct entry find_fault(const struct store *s, const char **fault)
{
    struct entry *entries = allocate((s->used / HEAD + 1) * sizeof *entries), found;
    const struct entry *repeat;
    size_t count = 0, at = 0;
    *fault = NULL;
    while (at < s->used && (*fault = fault_of(s, at)) == NULL) {
        size_t length = number_at(s->buffer + at);
        entries[count] = (struct entry){ count, at, { s->buffer + at + HEAD, length } };
        at += HEAD + length;
        count++;
    }
    found = (struct entry){ count, at, { NULL, 0 } };
    repeat = first_repeat(entries, count);
    if (repeat != NULL) {
        found = *repeat;
        *fault = "its form stands before it too";
    }
    free(entries);
    return found;
}

/* ---- answers */

static uint32_t call(const struct request *q, struct store *s, uint64_t answer[2])
{
    switch (q->arguments->action) {
    case ADD: return govlezna_register_add(q->text, q->text_length, s->buffer, s->length, &s->used, answer);
    case WITHDRAW: return govlezna_register_withdraw(q->text, q->text_length, s->buffer, s->length, &s->used, answer);
    default: return govlezna_register_count(q->text, q->text_length, s->buffer, s->length, s->used, answer);
    }
}

static void put_list(const struct arguments *a, const struct store *s)
{
    const char *between = "";
    for (size_t at = 0; at < s->used;) {
        struct span form = { s->buffer + at + HEAD, number_at(s->buffer + at) };
        size_t count = number_at(s->buffer + at + 4);
        if (a->json) {
            printf("%s[", between);
            json_string(form);
            printf(",%zu]", count);
            between = ",";
        } else {
            printf("%zu ", count);
            put_line(form, a->null);
        }
        at += HEAD + form.length;
    }
}

static void put_success(const struct arguments *a, const struct store *s, uint64_t count)
{
    if (s->created)
        fprintf(stderr, "govlezna: %s: a new register\n", a->register_path);
    if (a->json) {
        printf("{\"command\":\"register\",\"number\":0,\"action\":\"%s\"", a->action_name);
        if (a->action != LIST)
            json_number("count", count);
        json_number("used", s->used);
        if (a->action == LIST) {
            printf(",\"entries\":[");
            put_list(a, s);
            putchar(']');
        }
        puts("}");
    } else if (a->action == LIST) {
        put_list(a, s);
    } else {
        printf("%" PRIu64 "\n", count);
    }
}

/* Whoever does not get the answer is told that it was not for nothing. */
static void flush_change(void)
{
    if (fflush(stdout) == 0 && !ferror(stdout))
        return;
    fprintf(stderr, "govlezna: standard output: %s; the change was made\n", strerror(errno));
    exit(2);
}

static void put_damage(const struct arguments *a, const struct store *s)
{
    const char *fault;
    struct entry entry = find_fault(s, &fault);
    if (a->json) {
        printf("{\"command\":\"register\",\"number\":%d,\"words\":\"%s\",\"first\":0,\"second\":0", GOVLEZNA_DAMAGED_REGISTER,
               words_of(GOVLEZNA_DAMAGED_REGISTER));
        json_number("entry", entry.index + 1);
        json_number("offset", entry.offset);
        printf(",\"fault\":\"%s\"}\n", fault);
    } else {
        fprintf(stderr, "govlezna: refusal %d: %s: entry %zu, at byte %zu of %s: %s\n", GOVLEZNA_DAMAGED_REGISTER,
                words_of(GOVLEZNA_DAMAGED_REGISTER), entry.index + 1, entry.offset, s->path, fault);
    }
}

/* Full is either the room or the form's count. */
static void put_full(const struct request *q, struct store *s)
{
    uint64_t answer[2];
    size_t needed = HEAD + q->text_length;
    int room = govlezna_register_count(q->text, q->text_length, s->buffer, s->length, s->used, answer) == 0 && answer[0] == 0;
    if (q->arguments->json) {
        printf("{\"command\":\"register\",\"number\":%d,\"words\":\"%s\",\"first\":0,\"second\":0", GOVLEZNA_REGISTER_FULL,
               words_of(GOVLEZNA_REGISTER_FULL));
        if (room) {
            json_number("used", s->used);
            json_number("needed", needed);
            json_number("room", s->room);
        } else {
            json_number("count", answer[0]);
        }
        puts("}");
        return;
    }
    fprintf(stderr, "govlezna: refusal %d: %s: ", GOVLEZNA_REGISTER_FULL, words_of(GOVLEZNA_REGISTER_FULL));
    if (room)
        fprintf(stderr, "%" PRIu64 " bytes are used, the form takes %zu more, and --room allows %zu\n", s->used, needed, s->room);
    else
        fprintf(stderr, "it is the form's count\n");
}

/* No number: the library was not asked. */
static void put_missing(const struct arguments *a, const struct store *s)
{
    if (a->json)
        puts("{\"command\":\"register\",\"number\":null,\"words\":\"there is no such register\"}");
    else
        fprintf(stderr, "govlezna: %s: there is no such register\n", s->path);
}

static void put_refusal(const struct request *q, struct store *s, const struct outcome *o)
{
    switch (o->number) {
    case GOVLEZNA_DAMAGED_REGISTER: put_damage(q->arguments, s); break;
    case GOVLEZNA_REGISTER_FULL: put_full(q, s); break;
    default: (q->arguments->json ? json_refusal : report_refusal)(q, o); break;
    }
}

/* The call on the file, for the form that the request has as its text. 0: it was refused. */
static int run_on_file(const struct request *q)
{
    const struct arguments *a = q->arguments;
    struct store store;
    struct outcome outcome = { .number = 0 };
    int found = open_store(a, &store);
    if (!found) {
        put_missing(a, &store);
    } else {
        read_store(a, &store, HEAD + q->text_length);
        outcome.number = call(q, &store, outcome.answer);
        keep(a, &store, outcome.number == 0);
        if (outcome.number != 0)
            put_refusal(q, &store, &outcome);
        else
            put_success(a, &store, outcome.answer[0]);
        if (outcome.number == 0 && is_change(a))
            flush_change();
    }
    close_store(&store);
    return found && outcome.number == 0;
}

/* Puts the canonical form of the request's text in its place. 0: the value is refused, and that was told. */
static int make_canonical(const struct request *q, struct request *form)
{
    struct arguments canonical = *q->arguments;
    struct request value = *q;
    struct outcome outcome;
    canonical.command = CANONICAL;
    value.arguments = &canonical;
    if (make_call(&value, &outcome) != 0) {
        (canonical.json ? json_refusal : report_refusal)(q, &outcome);
        return 0;
    }
    form->text = outcome.bytes;
    form->text_length = outcome.answer[0];
    return 1;
}

/* A pipe hands on the empty text where the command before it failed. */
static void check_form(const struct request *form)
{
    if (form->text_length == 0 && form->arguments->action != LIST && !form->arguments->empty)
        fail("register", "the form is empty; give --empty if that is meant");
}

int run_register(const struct request *q)
{
    struct request form = *q;
    int accepted;
    if (q->arguments->canonical && !make_canonical(q, &form))
        return 0;
    check_form(&form);
    accepted = run_on_file(&form);
    if (q->arguments->canonical)
        free(form.text);
    return accepted;
}
