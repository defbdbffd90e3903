/*
 * The command rehearse: the spans of a job, from a file or as the lines of the text, how its values fare, and where a span leaves the
 * text. The library takes 65,536 spans at a call: more are handed over one window after the other, and the reports are added up.
 */
#define _POSIX_C_SOURCE 200809L

#include "cli.h"

#include <inttypes.h>
#include <string.h>
#include <time.h>
#include <unistd.h>

#define SPANS_MOST ((size_t)268435456) /* bytes of a file of spans */
#define WINDOW_MOST ((size_t)65536)

/* ---- lines */

/* A line from this offset on, without its end, and where the next one starts; 0 if there is none. Lines end by LF, CR or both. */
static int next_line(struct span text, size_t *at, struct span *line)
{
    size_t end = *at;
    if (end >= text.length)
        return 0;
    while (end < text.length && text.bytes[end] != '\n' && text.bytes[end] != '\r')
        end++;
    *line = (struct span){ text.bytes + *at, end - *at };
    *at = end + 1 < text.length && text.bytes[end] == '\r' && text.bytes[end + 1] == '\n' ? end + 2 : end + 1;
    return 1;
}

static size_t count_lines(struct span text)
{
    struct span line;
    size_t count = 0;
    for (size_t at = 0; next_line(text, &at, &line);)
        count++;
    return count;
}

/* ---- spans */

static void skip_blanks(struct span *rest)
{
    while (rest->length > 0 && (rest->bytes[0] == ' ' || rest->bytes[0] == '\t'))
        rest->bytes++, rest->length--;
}

/* Takes a number of at most 64 bits, and the blanks behind it. 0: there is none. */
static int take_number(struct span *rest, uint64_t *number)
{
    const uint8_t *start = rest->bytes;
    *number = 0;
    for (; rest->length > 0 && rest->bytes[0] >= '0' && rest->bytes[0] <= '9'; rest->bytes++, rest->length--) {
        uint64_t digit = rest->bytes[0] - (uint64_t)'0';
        if (*number > (UINT64_MAX - digit) / 10)
            return 0;
        *number = *number * 10 + digit;
    }
    if (rest->bytes == start || (rest->length > 0 && rest->bytes[0] != ' ' && rest->bytes[0] != '\t'))
        return 0;
    skip_blanks(rest);
    return 1;
}

static int read_span(struct span line, struct govlezna_span *span)
{
    skip_blanks(&line);
    return take_number(&line, &span->start) && take_number(&line, &span->length) && line.length == 0;
}

static void read_spans_file(struct request *q)
{
    struct span text = { q->spans_text, q->spans_text_length }, line;
    char why[64];
    for (size_t at = 0; next_line(text, &at, &line); q->span_count++)
        if (!read_span(line, &q->spans[q->span_count])) {
            snprintf(why, sizeof why, "line %zu: expected START LENGTH", q->span_count + 1);
            fail(spans_name(q), why);
        }
}

static void take_lines(struct request *q)
{
    struct span text = { q->text, q->text_length }, line;
    for (size_t at = 0; next_line(text, &at, &line); q->span_count++)
        q->spans[q->span_count] = (struct govlezna_span){ (uint64_t)(line.bytes - q->text), line.length };
}

const char *spans_name(const struct request *q)
{
    return strcmp(q->arguments->spans, "-") == 0 ? "standard input" : q->arguments->spans;
}

void read_spans(struct request *q)
{
    struct span lines = { q->text, q->text_length };
    if (q->arguments->spans != NULL) {
        q->spans_text = read_input(q->arguments->spans, SPANS_MOST, &q->spans_text_length);
        if (q->spans_text_length > SPANS_MOST)
            fail(spans_name(q), "over 268,435,456 bytes");
        lines = (struct span){ q->spans_text, q->spans_text_length };
    }
    q->spans = allocate(count_lines(lines) * sizeof *q->spans);
    if (q->arguments->spans != NULL)
        read_spans_file(q);
    else
        take_lines(q);
}

struct place span_place(const struct request *q, const struct outcome *o)
{
    struct place place = { .known = 1, .text = { q->spans_text, q->spans_text_length }, .file = spans_name(q) };
    struct span line = place.text;
    size_t at = 0;
    for (uint64_t i = 0; i <= o->answer[0]; i++)
        next_line(place.text, &at, &line);
    place.start = (size_t)(line.bytes - place.text.bytes);
    place.end = place.start + line.length;
    return place;
}

/* ---- progress, on a terminal alone */

struct progress {
    int terminal, shown;
    double start, before; /* seconds: of all windows, of the last one */
    size_t window, all;
};

static double seconds(void)
{
    struct timespec now;
    clock_gettime(CLOCK_MONOTONIC, &now);
    return (double)now.tv_sec + (double)now.tv_nsec / 1e9;
}

static struct progress begin_progress(size_t all)
{
    int terminal = isatty(STDERR_FILENO);
    double now = seconds();
    return (struct progress){ terminal, 0, now, now, terminal ? 1 : WINDOW_MOST, all };
}

/* What was done is told from the second second on. A window should take between an eighth and half of one: the first is one value, which
 * may take long by itself. */
static void tell_progress(struct progress *p, size_t done)
{
    double now = seconds();
    if (!p->terminal)
        return;
    if (now - p->before < 0.125 && p->window < WINDOW_MOST)
        p->window *= 2;
    else if (now - p->before > 0.5 && p->window > 1)
        p->window /= 2;
    p->before = now;
    if (now - p->start > 1) {
        fprintf(stderr, "\rgovlezna: %zu of %zu values", done, p->all);
        p->shown = 1;
    }
}

static void end_progress(const struct progress *p)
{
    if (p->shown)
        fputc('\n', stderr);
}

/* ---- the calls */

static uint32_t call(const struct request *q, size_t from, size_t count, uint64_t report[REPORT], uint64_t answer[2])
{
    const struct arguments *a = q->arguments;
    return govlezna_rehearse(q->text, q->text_length, q->spans + from, count, a->version, a->depth, a->limit, q->list,
                             q->list_length, q->pool, q->pool_length, report, answer);
}

/* The first span that leaves the text, or their number. */
static size_t first_outside(const struct request *q)
{
    size_t i = 0;
    while (i < q->span_count && q->spans[i].start <= q->text_length && q->spans[i].length <= q->text_length - q->spans[i].start)
        i++;
    return i;
}

/* One window after the other, from the first span on. */
static uint32_t rehearse_all(const struct request *q, struct outcome *o)
{
    struct progress progress = begin_progress(q->span_count);
    size_t done = 0;
    do {
        uint64_t report[REPORT];
        size_t left = q->span_count - done, count = left < progress.window ? left : progress.window;
        o->number = call(q, done, count, report, o->answer);
        for (size_t i = 0; i < REPORT && o->number == 0; i++)
            o->report[i] += report[i];
        done += count;
        tell_progress(&progress, done);
    } while (o->number == 0 && done < q->span_count);
    end_progress(&progress);
    return o->number;
}

/* A span that leaves the text is handed over alone, so that no value is read in vain: the library refuses it, or what comes before. */
uint32_t rehearse(const struct request *q, struct outcome *o)
{
    size_t outside = first_outside(q);
    if (outside == q->span_count)
        return rehearse_all(q, o);
    o->number = call(q, outside, 1, o->report, o->answer);
    if (o->number == GOVLEZNA_SPAN_OUTSIDE)
        o->answer[0] = outside;
    return o->number;
}

/* ---- the report */

static int digits(uint64_t number)
{
    int count = 1;
    for (; number > 9; number /= 10)
        count++;
    return count;
}

void put_report(const struct request *q, const struct outcome *o)
{
    uint64_t total = o->report[REPORT - 1];
    int width = digits(total > q->span_count ? total : q->span_count);
    printf("%*" PRIu64 "  accepted\n", width, o->report[0]);
    for (uint32_t number = 1; number < REPORT - 1; number++)
        if (o->report[number] > 0)
            printf("%*" PRIu64 "  refusal %" PRIu32 ": %s\n", width, o->report[number], number, words_of(number));
    printf("%*zu  values\n", width, q->span_count);
    printf("%*" PRIu64 "  bytes of the accepted ones, normalized\n", width, total);
}

void json_report(const struct request *q, const struct outcome *o)
{
    const char *between = "";
    json_number("values", q->span_count);
    json_number("accepted", o->report[0]);
    printf(",\"refused\":[");
    for (uint32_t number = 1; number < REPORT - 1; number++)
        if (o->report[number] > 0) {
            printf("%s{\"number\":%" PRIu32 ",\"words\":\"%s\"", between, number, words_of(number));
            json_number("count", o->report[number]);
            putchar('}');
            between = ",";
        }
    putchar(']');
    json_number("length", o->report[REPORT - 1]);
}
