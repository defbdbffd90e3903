/* header NUMBER..: the examples of include/govlezna.h, and what it says of "no table"; and the program has words for each of
 * these numbers. Each line and number that is wrong is said. */
#include "../cli/cli.h"

#include <stdlib.h>
#include <string.h>

static int wrong;
static uint64_t answer[2];
static uint8_t out[64], scratch[64], hand[5];

enum { UNTOUCHED = 0xFF };

static const uint8_t list[] = { 1, 0, 0, 0, 0, 1, 1, 0, 0, 0, 4, 0, 0 }, empty[] = { 0 };
static const uint8_t marked[] = { 3, 1, 0, 0, 0, 0, 1, 1, 0, 0, 0, 4, 0, 0 }, twice_marked[] = { 3, 3, 0 };
static const uint8_t line_end[] = { 3, 1, 0, 0, 0, 0, 1, 1, 0, 0, 0, 2, 0, 0 }, crlf[] = { 'e', '\r', '\n' };
static const uint8_t external[] = { 2, 0, 0, 0, 0, 1, 0 };
static const uint8_t pool[] = { 'e', 's', 'a', 'i', 'l' };

static const uint8_t *bytes(const char *s)
{
    return (const uint8_t *)s;
}

static void expect(int line, uint32_t got, uint32_t number, uint64_t first, uint64_t second)
{
    if (got == number && answer[0] == first && answer[1] == second)
        return;
    wrong = 1;
    printf("line %d: %u (%llu, %llu)\n", line, (unsigned)got, (unsigned long long)answer[0], (unsigned long long)answer[1]);
}

static void expect_bytes(int line, const uint8_t *got, const char *text)
{
    if (memcmp(got, text, strlen(text)) == 0)
        return;
    wrong = 1;
    printf("line %d: other bytes than %s\n", line, text);
}

/* The first 4 bytes of a canonical form's scratch; the rest is as it was. */
static void expect_hand(int line, const char expected[4])
{
    if (memcmp(hand, expected, 4) == 0 && hand[4] == UNTOUCHED)
        return;
    wrong = 1;
    printf("line %d: another character in hand\n", line);
}

static void expect_register(int line, const uint8_t *got, const uint8_t *buffer, uint64_t used, uint64_t length)
{
    if (memcmp(got, buffer, 9) == 0 && used == length)
        return;
    wrong = 1;
    printf("line %d: another register\n", line);
}

static uint32_t unescape(const char *text, const uint8_t *commands, size_t length, const uint8_t *from, size_t size)
{
    return govlezna_unescape(bytes(text), strlen(text), commands, length, from, size, out, sizeof out, answer);
}

static uint32_t normalize(uint64_t depth, uint64_t limit, const uint8_t *commands, size_t length)
{
    const char *text = "&e;\t&#9;";
    return govlezna_normalize_attribute_value(bytes(text), strlen(text), 0, depth, limit, commands, length, pool,
                                              sizeof pool, out, sizeof out, answer);
}

static uint32_t line_ends(const uint8_t *commands, size_t length)
{
    return govlezna_normalize_attribute_value(bytes("&e;"), 3, 0, 2, 10, commands, length, crlf, sizeof crlf, out, sizeof out,
                                              answer);
}

static uint32_t least_depth(const char *text, uint64_t limit, uint8_t text_length, const char *from)
{
    uint8_t commands[sizeof list];
    memcpy(commands, list, sizeof list);
    commands[10] = text_length;
    return govlezna_least_depth(bytes(text), strlen(text), 0, limit, commands, sizeof commands, bytes(from), strlen(from), answer);
}

static void least_depths(void)
{
    expect(__LINE__, least_depth("a b", 10, 4, "esail"), 0, 0, 0);
    expect(__LINE__, least_depth("&lt;", 10, 4, "esail"), 0, 1, 0);
    expect(__LINE__, least_depth("&e;", 10, 4, "esail"), 0, 1, 0);
    expect(__LINE__, least_depth("&e;", 10, 4, "e&lt;"), 0, 2, 0);
    expect(__LINE__, least_depth("&e;", 10, 3, "e&e;"), GOVLEZNA_TOO_MANY_OPENINGS, 0, 0);
    expect(__LINE__, least_depth("&e;", 1000000, 3, "e&e;"), GOVLEZNA_NO_DEPTH, 0, 0);
    expect(__LINE__, least_depth("a&e", 1000000, 4, "esail"), GOVLEZNA_UNTERMINATED_ENTITY, 1, 3);
    expect(__LINE__, least_depth("&e;", 1000001, 4, "esai"), GOVLEZNA_LIMIT_TOO_LARGE, 0, 0);
    expect(__LINE__, least_depth("&e;", 0, 4, "esai"), GOVLEZNA_OUTSIDE_POOL, 0, 0);
}

/* The text `a&e;&b;` with these spans, and a report that held other numbers. */
static uint32_t rehearse_job(const struct govlezna_span *spans, size_t count, uint64_t limit, uint64_t report[29])
{
    for (size_t i = 0; i < 29; i++)
        report[i] = UNTOUCHED;
    return govlezna_rehearse(bytes("a&e;&b;"), 7, spans, count, 0, 2, limit, list, sizeof list, pool, sizeof pool, report, answer);
}

/* All 29 words: these three numbers, and the other one in all other places. */
static void expect_report(int line, const uint64_t report[29], uint64_t accepted, uint64_t unknown, uint64_t total, uint64_t other)
{
    for (size_t i = 0; i < 29; i++)
        if (report[i] != (i == 0 ? accepted : i == GOVLEZNA_UNRECOGNIZED_ENTITY ? unknown : i == 28 ? total : other)) {
            wrong = 1;
            printf("line %d: report[%zu] is %llu\n", line, i, (unsigned long long)report[i]);
        }
}

static void rehearsals(void)
{
    static const struct govlezna_span job[] = { { 0, 4 }, { 4, 3 }, { 7, 0 } }, outside[] = { { 0, 4 }, { 4, 3 }, { 7, 1 } };
    static const struct govlezna_span wrapped[] = { { 1, UINT64_MAX }, { 8, 0 } };
    static struct govlezna_span many[65537];
    uint64_t report[29];
    expect(__LINE__, rehearse_job(job, 3, 10, report), 0, 0, 0);
    expect_report(__LINE__, report, 2, 1, 5, 0);
    expect(__LINE__, rehearse_job(NULL, 0, 10, report), 0, 0, 0);
    expect_report(__LINE__, report, 0, 0, 0, 0);
    expect(__LINE__, rehearse_job(many, 65536, 10, report), 0, 0, 0);
    expect_report(__LINE__, report, 65536, 0, 0, 0);
    expect(__LINE__, rehearse_job(outside, 3, 10, report), GOVLEZNA_SPAN_OUTSIDE, 2, 0);
    expect(__LINE__, rehearse_job(wrapped, 2, 10, report), GOVLEZNA_SPAN_OUTSIDE, 0, 0);
    many[0].start = 8;
    expect(__LINE__, rehearse_job(many, 65537, 10, report), GOVLEZNA_SPAN_OUTSIDE, 65536, 0);
    expect(__LINE__, rehearse_job(outside, 3, 1000001, report), GOVLEZNA_LIMIT_TOO_LARGE, 0, 0);
    expect_report(__LINE__, report, UNTOUCHED, UNTOUCHED, UNTOUCHED, UNTOUCHED);
}

static void marked_lists(void)
{
    expect(__LINE__, govlezna_check_table(marked, sizeof marked, pool, sizeof pool, answer), 0, 1, 0);
    expect(__LINE__, govlezna_check_table(marked, 1, pool, sizeof pool, answer), GOVLEZNA_MALFORMED_LIST, 1, 0);
    expect(__LINE__, govlezna_check_table(twice_marked, 3, NULL, 0, answer), GOVLEZNA_MALFORMED_LIST, 1, 0);
    expect(__LINE__, govlezna_check_table(twice_marked + 1, 2, NULL, 0, answer), 0, 0, 0);
    expect(__LINE__, normalize(2, 10, marked, sizeof marked), 0, 6, 1);
    expect_bytes(__LINE__, out, "sail \t");
    expect(__LINE__, line_ends(line_end + 1, sizeof line_end - 1), 0, 1, 1);
    expect_bytes(__LINE__, out, " ");
    expect(__LINE__, line_ends(line_end, sizeof line_end), 0, 2, 1);
    expect_bytes(__LINE__, out, "  ");
    expect(__LINE__, unescape("&e;", line_end, sizeof line_end, crlf, sizeof crlf), 0, 2, 0);
    expect_bytes(__LINE__, out, "\r\n");
}

static uint32_t declared(const char *text, uint8_t *commands, size_t length, uint8_t *into, size_t size)
{
    return govlezna_read_declarations(bytes(text), strlen(text), 0, commands, length, into, size, answer);
}

/* The table is the marked one, byte for byte; a refusal leaves both buffers, and a success what is past its bytes. */
static void declarations(void)
{
    const char *sail = "<!ENTITY e \"sail\">";
    uint8_t commands[15], into[6];
    memset(commands, UNTOUCHED, sizeof commands);
    memset(into, UNTOUCHED, sizeof into);
    expect(__LINE__, declared("<!ENTITY e \"a%\">", commands, 15, into, 6), GOVLEZNA_MALFORMED_DECLARATION, 13, 0);
    expect(__LINE__, declared("<!ENTITY e \"&#x;\">", commands, 15, into, 6), GOVLEZNA_INVALID_NUMBER, 0, 0);
    expect(__LINE__, declared(sail, NULL, 0, NULL, 0), GOVLEZNA_NO_TABLE_ROOM, 14, 5);
    expect(__LINE__, declared(sail, commands, 13, into, 6), GOVLEZNA_NO_TABLE_ROOM, 14, 5);
    expect(__LINE__, declared(sail, commands, 15, into, 4), GOVLEZNA_NO_TABLE_ROOM, 14, 5);
    answer[0] = commands[0], answer[1] = into[0];
    expect(__LINE__, 0, 0, UNTOUCHED, UNTOUCHED);
    expect(__LINE__, declared(sail, commands, 15, into, 6), 0, 14, 5);
    if (memcmp(commands, marked, sizeof marked) != 0 || memcmp(into, pool, sizeof pool) != 0 ||
        commands[14] != UNTOUCHED || into[5] != UNTOUCHED) {
        wrong = 1;
        puts("declarations: another table");
    }
}

static uint32_t strictly(const char *text, uint8_t version)
{
    return govlezna_normalize_attribute_value_strict(bytes(text), strlen(text), version, 1, 0, empty, 1, NULL, 0, out,
                                                     sizeof out, answer);
}

static uint32_t strict_form(const char *text)
{
    memset(hand, UNTOUCHED, sizeof hand);
    return govlezna_canonical_form_strict(bytes(text), strlen(text), 2, 1, 0, empty, 1, NULL, 0, hand, sizeof hand, out,
                                          sizeof out, answer);
}

static void strict_calls(void)
{
    expect(__LINE__, strictly("a&#1;", 2), 0, 2, 0);
    expect_bytes(__LINE__, out, "a\1");
    expect(__LINE__, strictly("a\1", 2), GOVLEZNA_FORBIDDEN_CHARACTER, 1, 0);
    expect(__LINE__, strictly("a&#1;", 0), GOVLEZNA_FORBIDDEN_REFERENCE, 0, 0);
    expect(__LINE__, strict_form("<&#1;"), 0, 5, 0);
    expect_bytes(__LINE__, out, "&lt;\1");
    expect_hand(__LINE__, "\1\0\0");
    expect(__LINE__, strict_form("&lt;\1"), GOVLEZNA_FORBIDDEN_CHARACTER, 4, 0);
}

/* And each reads back as what was written. */
static void canonical_xml(void)
{
    expect(__LINE__, govlezna_c14n_attribute(bytes("<a>\t"), 4, out, sizeof out, answer), 0, 11, 0);
    expect_bytes(__LINE__, out, "&lt;a>&#x9;");
    expect(__LINE__,
           govlezna_normalize_attribute_value(out, 11, 0, 1, 0, empty, 1, NULL, 0, scratch, sizeof scratch, answer), 0, 4, 0);
    expect_bytes(__LINE__, scratch, "<a>\t");
    expect(__LINE__, govlezna_c14n_text(bytes("<a>\t\r"), 5, out, sizeof out, answer), 0, 15, 0);
    expect_bytes(__LINE__, out, "&lt;a&gt;\t&#xD;");
    expect(__LINE__, govlezna_normalize_eols(out, 15, 1, scratch, sizeof scratch, answer), 0, 15, 0);
    expect(__LINE__, govlezna_unescape(scratch, 15, empty, 1, NULL, 0, out, sizeof out, answer), 0, 5, 0);
    expect_bytes(__LINE__, out, "<a>\t\r");
    expect(__LINE__, govlezna_c14n_text(bytes("<"), 1, NULL, 0, answer), GOVLEZNA_NO_ROOM, 4, 0);
}

static uint32_t form(const char *text, size_t hand_length, size_t out_length)
{
    memset(hand, UNTOUCHED, sizeof hand);
    return govlezna_canonical_form(bytes(text), strlen(text), 2, 1, 0, empty, 1, NULL, 0, hand, hand_length, out, out_length,
                                   answer);
}

/* The last character of the value, not of the form; a refusal and an empty value leave the scratch. */
static void hands(void)
{
    static const char kept[4] = { (char)UNTOUCHED, (char)UNTOUCHED, (char)UNTOUCHED, (char)UNTOUCHED };
    expect(__LINE__, form("\xC2\xBD", 4, sizeof out), 0, 2, 0);
    expect_hand(__LINE__, "\xC2\xBD\0");
    expect(__LINE__, form("&#x85;", sizeof hand, sizeof out), 0, 6, 0);
    expect_hand(__LINE__, "\xC2\x85\0");
    expect(__LINE__, form("&amp;;", 4, sizeof out), 0, 6, 0);
    expect_hand(__LINE__, ";\0\0");
    expect(__LINE__, form("", 4, 0), 0, 0, 0);
    expect_hand(__LINE__, kept);
    expect(__LINE__, form("", 3, 0), GOVLEZNA_NO_SCRATCH, 4, 0);
    expect_hand(__LINE__, kept);
    expect(__LINE__, form("&x;", 3, 0), GOVLEZNA_UNRECOGNIZED_ENTITY, 1, 2);
    expect(__LINE__, form("<", 4, 3), GOVLEZNA_NO_ROOM, 4, 0);
    expect_hand(__LINE__, kept);
}

static uint32_t list_tokens(const char *text)
{
    return govlezna_normalize_nmtokens(bytes(text), strlen(text), 0, 1, 0, empty, 1, NULL, 0, scratch, sizeof scratch, out,
                                       sizeof out, answer);
}

static void tokens(void)
{
    uint64_t offset = 0;
    expect(__LINE__, list_tokens("  p1\t p2&#10;p3 "), 0, 8, 0);
    expect_bytes(__LINE__, out, "p1 p2\np3");
    expect_bytes(__LINE__, scratch, "  p1  p2\np3 ");
    expect(__LINE__, govlezna_next_nmtoken(bytes("p1 p2"), 5, &offset, answer), 0, 0, 2);
    expect(__LINE__, govlezna_next_nmtoken(bytes("p1 p2"), 5, &offset, answer), 0, 3, 2);
    expect(__LINE__, govlezna_next_nmtoken(bytes("p1 p2"), 5, &offset, answer), GOVLEZNA_NO_MORE, 0, 0);
    answer[0] = offset;
    expect(__LINE__, 0, 0, 5, 0);
    offset = 6;
    expect(__LINE__, govlezna_next_nmtoken(bytes("p1 p2"), 5, &offset, answer), GOVLEZNA_CURSOR_OUTSIDE, 6, 0);
}

/* A register of nine bytes, through one call after the other. */
static void registers(void)
{
    uint8_t buffer[9];
    uint64_t used = 0;
    static const uint8_t one[9] = { 1, 0, 0, 0, 1, 0, 0, 0, 'a' }, two[9] = { 1, 0, 0, 0, 2, 0, 0, 0, 'a' }, none[9] = { 0 };
    memset(buffer, 7, sizeof buffer);
    expect(__LINE__, govlezna_register_add(bytes("a"), 1, buffer, 9, &used, answer), 0, 1, 9);
    expect_register(__LINE__, buffer, one, used, 9);
    expect(__LINE__, govlezna_register_add(bytes("a"), 1, buffer, 9, &used, answer), 0, 2, 9);
    expect_register(__LINE__, buffer, two, used, 9);
    expect(__LINE__, govlezna_register_add(NULL, 0, buffer, 9, &used, answer), GOVLEZNA_REGISTER_FULL, 0, 0);
    expect(__LINE__, govlezna_register_count(bytes("a"), 1, buffer, 9, used, answer), 0, 2, 0);
    expect(__LINE__, govlezna_register_count(bytes("b"), 1, buffer, 9, used, answer), 0, 0, 0);
    expect(__LINE__, govlezna_register_withdraw(bytes("a"), 1, buffer, 9, &used, answer), 0, 1, 9);
    expect_register(__LINE__, buffer, one, used, 9);
    used = 8;
    expect(__LINE__, govlezna_register_withdraw(bytes("a"), 1, buffer, 9, &used, answer), GOVLEZNA_DAMAGED_REGISTER, 0, 0);
    expect_register(__LINE__, buffer, one, used, 8);
    used = 9;
    expect(__LINE__, govlezna_register_withdraw(bytes("a"), 1, buffer, 9, &used, answer), 0, 0, 0);
    expect_register(__LINE__, buffer, none, used, 0);
    expect(__LINE__, govlezna_register_withdraw(bytes("a"), 1, buffer, 9, &used, answer), GOVLEZNA_ABSENT_FORM, 0, 0);
    expect(__LINE__, govlezna_register_count(NULL, 0, NULL, 0, 0, answer), 0, 0, 0);
}

static void examples(void)
{
    const char *text = "&e;\t&#9;";
    expect(__LINE__, govlezna_check_table(list, sizeof list, pool, sizeof pool, answer), 0, 1, 0);
    expect(__LINE__, govlezna_check_table(list, 12, pool, sizeof pool, answer), GOVLEZNA_MALFORMED_LIST, 12, 0);
    expect(__LINE__, unescape("&lt;&e; &#65;", list, sizeof list, pool, sizeof pool), 0, 7, 0);
    expect_bytes(__LINE__, out, "<sail A");
    expect(__LINE__, unescape("a&b;", list, sizeof list, pool, sizeof pool), GOVLEZNA_UNRECOGNIZED_ENTITY, 2, 3);
    expect(__LINE__, normalize(2, 10, list, sizeof list), 0, 6, 1);
    expect_bytes(__LINE__, out, "sail \t");
    expect(__LINE__, normalize(2, 0, list, sizeof list), GOVLEZNA_TOO_MANY_OPENINGS, 0, 0);
    expect(__LINE__, normalize(0, 10, list, sizeof list), GOVLEZNA_TOO_DEEP, 0, 0);
    expect(__LINE__, govlezna_check_table(external, sizeof external, pool, sizeof pool, answer), 0, 1, 0);
    expect(__LINE__, normalize(2, 10, external, sizeof external), GOVLEZNA_EXTERNAL_ENTITY, 0, 0);
    least_depths();
    rehearsals();
    marked_lists();
    declarations();
    canonical_xml();
    strict_calls();
    tokens();
    registers();
    memset(hand, UNTOUCHED, sizeof hand);
    expect(__LINE__,
           govlezna_canonical_form(bytes(text), strlen(text), 0, 2, 10, list, sizeof list, pool, sizeof pool, hand,
                                   sizeof hand, out, sizeof out, answer),
           0, 9, 1);
    expect_bytes(__LINE__, out, "sail &#9;");
    expect_hand(__LINE__, "\t\0\0");
    hands();
}

/* Where offsets lie: of `&e;` with e as `&b;` in the table's text, of `a&b;` in `text`; with limit 0 no text is opened. */
static void offsets(void)
{
    static const uint8_t nested[] = { 1, 0, 0, 0, 0, 1, 1, 0, 0, 0, 3, 0, 0 };
    static const struct { const char *text; uint64_t limit; uint32_t number; uint64_t first, second; } rows[] = {
        { "&e;", 10, GOVLEZNA_UNRECOGNIZED_ENTITY, 1, 2 }, { "&e;", 0, GOVLEZNA_TOO_MANY_OPENINGS, 0, 0 },
        { "a&b;", 10, GOVLEZNA_UNRECOGNIZED_ENTITY, 2, 3 }, { "a&b;", 0, GOVLEZNA_UNRECOGNIZED_ENTITY, 2, 3 },
    };
    for (size_t i = 0; i < sizeof rows / sizeof rows[0]; i++)
        expect(__LINE__,
               govlezna_normalize_attribute_value(bytes(rows[i].text), strlen(rows[i].text), 0, 2, rows[i].limit, nested,
                                                  sizeof nested, bytes("e&b;"), 4, out, sizeof out, answer),
               rows[i].number, rows[i].first, rows[i].second);
}

/* The two lengths of a list of tokens, one after the other. */
static void two_lengths(void)
{
    const char *text = "  p1\t p2&#10;p3 ";
    expect(__LINE__,
           govlezna_normalize_nmtokens(bytes(text), strlen(text), 0, 1, 0, empty, 1, NULL, 0, NULL, 0, NULL, 0, answer),
           GOVLEZNA_NO_SCRATCH, 12, 0);
    expect(__LINE__,
           govlezna_normalize_nmtokens(bytes(text), strlen(text), 0, 1, 0, empty, 1, NULL, 0, scratch, 12, NULL, 0, answer),
           GOVLEZNA_NO_ROOM, 8, 0);
    expect(__LINE__,
           govlezna_normalize_nmtokens(bytes(text), strlen(text), 0, 1, 0, empty, 1, NULL, 0, scratch, 12, out, 8, answer), 0, 8,
           0);
}

static void no_table(void)
{
    uint64_t report[29];
    expect(__LINE__, govlezna_check_table(empty, 1, NULL, 0, answer), 0, 0, 0);
    expect(__LINE__, govlezna_check_table(NULL, 0, NULL, 0, answer), GOVLEZNA_MALFORMED_LIST, 0, 0);
    expect(__LINE__, unescape("&lt;", empty, 1, NULL, 0), 0, 1, 0);
    expect(__LINE__, unescape("&lt;", NULL, 0, NULL, 0), GOVLEZNA_MALFORMED_LIST, 0, 0);
    expect(__LINE__,
           govlezna_normalize_attribute_value(bytes("a"), 1, 0, 1, 1, empty, 1, NULL, 0, out, sizeof out, answer), 0, 1, 0);
    expect(__LINE__,
           govlezna_canonical_form(bytes("a"), 1, 0, 1, 1, empty, 1, NULL, 0, scratch, sizeof scratch, out, sizeof out,
                                   answer),
           0, 1, 0);
    expect(__LINE__, govlezna_least_depth(bytes("a\t"), 2, 0, 1, empty, 1, NULL, 0, answer), 0, 1, 0);
    expect(__LINE__, govlezna_rehearse(NULL, 0, NULL, 0, 0, 1, 1, empty, 1, NULL, 0, report, answer), 0, 0, 0);
    expect(__LINE__, govlezna_rehearse(NULL, 0, NULL, 0, 0, 1, 1, NULL, 0, NULL, 0, report, answer), GOVLEZNA_MALFORMED_LIST, 0, 0);
}

/* Start and end of each window, the piece's length, and whether the cursor is finished. */
static void cdata_windows(void)
{
    static const size_t windows[][4] = { { 0, 3, 2, 0 }, { 2, 6, 3, 0 }, { 5, 6, 1, 1 } };
    const char *text = "]]>]]>";
    for (size_t i = 0; i < sizeof windows / sizeof windows[0]; i++) {
        struct govlezna_cursor cursor = { 0, 0 };
        const size_t *w = windows[i];
        expect(__LINE__, govlezna_cdata_next(bytes(text) + w[0], w[1] - w[0], &cursor, answer), 0, 0, w[2]);
        if (cursor.finished != w[3]) {
            wrong = 1;
            printf("window %u: finished is %u\n", (unsigned)i, (unsigned)cursor.finished);
        }
    }
}

static void words(const char *number)
{
    if (words_of((uint32_t)strtoul(number, NULL, 10))[0] != '\0')
        return;
    wrong = 1;
    printf("number %s: no words in cli/words.c\n", number);
}

int main(int argc, char **argv)
{
    examples();
    no_table();
    offsets();
    two_lengths();
    cdata_windows();
    for (int i = 1; i < argc; i++)
        words(argv[i]);
    return wrong;
}
