/*
 * How much stack the calls use at depth 128, with a short text and with one that has an index of the table's names made for it, those on a register of
 * 300 forms, unescaping, and the reading of declarations. Each input runs in a thread whose
 * stack was filled with one byte; the bytes that changed are what the thread used. A thread that makes no call is measured first, and taken off.
 */
#define _POSIX_C_SOURCE 200809L

#include "govlezna.h"

#include <pthread.h>
#include <stdio.h>
#include <stdlib.h>
#include <string.h>

#define PROMISED ((size_t)98304) /* as include/govlezna.h says */
#define PROMISED_OF_SHORT_TEXTS ((size_t)73728)
#define PROMISED_OF_REGISTERS ((size_t)32768)
#define DEPTH 128
#define SHORT ((size_t)4)
#define LONG ((size_t)1024)
#define ROOM ((size_t)1 << 20)
#define PAINT 0xA5

/* Entities a0 to a127, of which each opens the next; the last has its own text. */
struct chain {
    uint8_t list[12 * DEPTH + 1], pool[16 * DEPTH];
    size_t pool_length;
};

struct job {
    uint32_t (*call)(const struct job *job, uint64_t answer[2]);
    uint8_t version;
    size_t length; /* of the text: its last bytes */
    struct chain chain;
    uint32_t number; /* what the call answered */
};

/* Ends with `&a0;`. */
static uint8_t text[LONG];
static uint8_t hand[4], scratch[ROOM], out[ROOM];

static void put_number(uint8_t *to, size_t width, size_t value)
{
    for (size_t i = 0; i < width; i++)
        to[i] = (uint8_t)(value >> 8 * i & 0xFF);
}

static void make_chain(struct chain *chain, const char *last)
{
    char name[8], opened[16];
    chain->pool_length = 0;
    memset(chain->list, 0, sizeof chain->list);
    for (int i = 0; i < DEPTH; i++) {
        uint8_t *command = chain->list + 12 * i;
        size_t start = chain->pool_length;
        snprintf(name, sizeof name, "a%d", i);
        snprintf(opened, sizeof opened, "&a%d;", i + 1);
        if (i == DEPTH - 1)
            snprintf(opened, sizeof opened, "%s", last);
        command[0] = 1;
        put_number(command + 1, 4, start);
        put_number(command + 5, 1, strlen(name));
        put_number(command + 6, 4, start + strlen(name));
        put_number(command + 10, 2, strlen(opened));
        memcpy(chain->pool + start, name, strlen(name));
        memcpy(chain->pool + start + strlen(name), opened, strlen(opened));
        chain->pool_length += strlen(name) + strlen(opened);
    }
}

static uint32_t no_call(const struct job *job, uint64_t answer[2])
{
    (void)job;
    answer[0] = answer[1] = 0;
    return 0;
}

static uint32_t normalize(const struct job *job, uint64_t answer[2])
{
    return govlezna_normalize_attribute_value(text + LONG - job->length, job->length, job->version, DEPTH, 1000000, job->chain.list,
                                              sizeof job->chain.list, job->chain.pool, job->chain.pool_length, out, ROOM,
                                              answer);
}

static uint32_t canonical(const struct job *job, uint64_t answer[2])
{
    return govlezna_canonical_form(text + LONG - job->length, job->length, job->version, DEPTH, 1000000, job->chain.list, sizeof job->chain.list,
                                   job->chain.pool, job->chain.pool_length, hand, sizeof hand, out, ROOM, answer);
}

static uint32_t normalize_strictly(const struct job *job, uint64_t answer[2])
{
    return govlezna_normalize_attribute_value_strict(text + LONG - job->length, job->length, job->version, DEPTH, 1000000, job->chain.list,
                                                     sizeof job->chain.list, job->chain.pool, job->chain.pool_length, out,
                                                     ROOM, answer);
}

static uint32_t canonical_strictly(const struct job *job, uint64_t answer[2])
{
    return govlezna_canonical_form_strict(text + LONG - job->length, job->length, job->version, DEPTH, 1000000, job->chain.list,
                                          sizeof job->chain.list, job->chain.pool, job->chain.pool_length, hand,
                                          sizeof hand, out, ROOM, answer);
}

static uint32_t nmtokens(const struct job *job, uint64_t answer[2])
{
    return govlezna_normalize_nmtokens(text + LONG - job->length, job->length, job->version, DEPTH, 1000000, job->chain.list,
                                       sizeof job->chain.list, job->chain.pool, job->chain.pool_length, scratch, ROOM, out, ROOM,
                                       answer);
}

static uint32_t unescape(const struct job *job, uint64_t answer[2])
{
    return govlezna_unescape(text, LONG, job->chain.list, sizeof job->chain.list, job->chain.pool, job->chain.pool_length, out, ROOM,
                             answer);
}

static uint32_t least_depth(const struct job *job, uint64_t answer[2])
{
    uint32_t number = govlezna_least_depth(text + LONG - job->length, job->length, job->version, 1000000, job->chain.list, sizeof job->chain.list,
                                           job->chain.pool, job->chain.pool_length, answer);
    if (number == 0 && answer[0] != DEPTH)
        return UINT32_MAX;
    return number == GOVLEZNA_NO_DEPTH ? GOVLEZNA_TOO_DEEP : number; /* as the calls that are handed the depth */
}

/* The value twice; both have to fare alike. */
static uint32_t rehearse(const struct job *job, uint64_t answer[2])
{
    const struct govlezna_span spans[] = { { 0, job->length }, { 0, job->length } };
    uint64_t report[29];
    uint32_t number = govlezna_rehearse(text + LONG - job->length, job->length, spans, 2, job->version, DEPTH, 1000000, job->chain.list,
                                        sizeof job->chain.list, job->chain.pool, job->chain.pool_length, report, answer);
    if (number != 0)
        return UINT32_MAX;
    while (number < 28 && report[number] != 2)
        number++;
    return number;
}

/* A register of 300 forms of three digits; the version says which call. */
static uint32_t register_call(const struct job *job, uint64_t answer[2])
{
    uint64_t length = 0;
    for (int i = 0; i < 300; i++, length += 11) {
        uint8_t *entry = scratch + length;
        put_number(entry, 4, 3);
        put_number(entry + 4, 4, 1);
        entry[8] = (uint8_t)('0' + i / 100), entry[9] = (uint8_t)('0' + i / 10 % 10), entry[10] = (uint8_t)('0' + i % 10);
    }
    if (job->version == 0)
        return govlezna_register_count(scratch, 0, scratch, ROOM, length, answer);
    return (job->version == 1 ? govlezna_register_add : govlezna_register_withdraw)((const uint8_t *)"299", 3, scratch, ROOM,
                                                                                    &length, answer);
}

/* Every kind of character and reference in a value, a name of 255 bytes, and, under 1, a fault at the end, whose offset is counted after line ends. */
static uint32_t declarations(const struct job *job, uint64_t answer[2])
{
    static char declared[1024];
    char name[256];
    memset(name, 'n', 255), name[255] = 0;
    snprintf(declared, sizeof declared,
             "<!ENTITY %s 'sail'>\r\n<!ENTITY \xC3\xA9 \"\t\r\n\xE2\x82\xAC\xC2\x85&#65;&#x20AC;&#x1F600;&%s;\" >%s", name, name,
             job->version == 1 ? "\r\n%" : "");
    return govlezna_read_declarations((const uint8_t *)declared, strlen(declared), job->version, scratch, ROOM, out, ROOM, answer);
}

static void *run(void *given)
{
    struct job *job = given;
    uint64_t answer[2];
    job->number = job->call(job, answer);
    return NULL;
}

/* The bytes of the stack that the job changed: the stack grows down, so the first changed byte is its deepest. */
static size_t used(struct job *job)
{
    pthread_attr_t attributes;
    pthread_t thread;
    uint8_t *stack;
    size_t kept = 0;
    if (posix_memalign((void **)&stack, 4096, ROOM) != 0)
        exit(2);
    memset(stack, PAINT, ROOM);
    pthread_attr_init(&attributes);
    if (pthread_attr_setstack(&attributes, stack, ROOM) != 0 || pthread_create(&thread, &attributes, run, job) != 0 ||
        pthread_join(thread, NULL) != 0)
        exit(2);
    pthread_attr_destroy(&attributes);
    while (kept < ROOM && stack[kept] == PAINT)
        kept++;
    free(stack);
    return ROOM - kept;
}

/* The walk down the chain to a last text; 0 where its answer is not the expected one. */
static size_t measure(struct job job, const char *last, uint32_t expected)
{
    struct job none = { .call = no_call };
    size_t bytes, before = used(&none);
    make_chain(&job.chain, last);
    bytes = used(&job) - before;
    return job.number == expected ? bytes : 0;
}

/* The most that a call takes with the versions 0 to 2; 0 where one of them has another answer than is expected. */
static size_t measure_versions(uint32_t (*call)(const struct job *, uint64_t *), const uint32_t expected[3])
{
    struct job none = { .call = no_call };
    size_t most = 0, before = used(&none);
    for (uint8_t version = 0; version < 3; version++) {
        struct job job = { .call = call, .version = version };
        size_t bytes = used(&job) - before;
        if (job.number != expected[version])
            return 0;
        most = bytes > most ? bytes : most;
    }
    return most;
}

int main(void)
{
    static uint32_t (*const calls[])(const struct job *, uint64_t *) = { normalize, canonical, normalize_strictly,
                                                                         canonical_strictly, nmtokens, least_depth, rehearse };
    enum { CALLS = sizeof calls / sizeof calls[0] };
    const struct {
        const char *last;
        uint8_t version;
        uint32_t expected;
    } walks[] = { { "x", 0, 0 },        { "x", 2, 0 },
                  { "\t", 0, GOVLEZNA_TOO_DEEP }, { "&a0;", 2, GOVLEZNA_TOO_DEEP },
                  { "\xC2\xBD", 0, 0 }, { "\xC2\xBD", 2, GOVLEZNA_TOO_DEEP } };
    static const uint32_t accepted[3] = { 0 }, faulty[3] = { 0, GOVLEZNA_MALFORMED_DECLARATION, 0 };
    size_t most[2] = { 0 }, least = SIZE_MAX, registers = measure_versions(register_call, accepted),
           reading = measure_versions(declarations, faulty), names;
    memset(text, 'x', LONG), memcpy(text + LONG - SHORT, "&a0;", SHORT);
    names = measure((struct job){ .call = unescape }, "x", 0);
    for (size_t i = 0; i < 2 * CALLS * (sizeof walks / sizeof walks[0]); i++) {
        size_t walk = i / 2 / CALLS;
        struct job job = { .call = calls[i / 2 % CALLS], .version = walks[walk].version, .length = i % 2 == 0 ? SHORT : LONG };
        size_t bytes = measure(job, walks[walk].last, walks[walk].expected);
        most[i % 2] = bytes > most[i % 2] ? bytes : most[i % 2];
        least = bytes < least ? bytes : least;
    }
    printf("stack at depth %d: %zu bytes, with an index of the names %zu; promised: at most %zu and %zu\n", DEPTH, most[0], most[1],
           PROMISED_OF_SHORT_TEXTS, PROMISED);
    printf("stack of unescaping: %zu bytes; promised: at most %zu\n", names, PROMISED);
    printf("stack with 300 forms: %zu bytes; promised: at most %zu\n", registers, PROMISED_OF_REGISTERS);
    printf("stack with declarations: %zu bytes; promised: at most %zu\n", reading, PROMISED);
    return least == 0 || most[0] > PROMISED_OF_SHORT_TEXTS || most[1] > PROMISED || names == 0 || names > PROMISED || registers == 0 ||
           registers > PROMISED_OF_REGISTERS || reading == 0 || reading > PROMISED;
}
