/*
 * The calls from C: a panel's name is checked, references are read, text is written as an attribute and as CDATA; with an
 * entity table a name is unescaped, normalized and given its canonical form, and the depth that it needs is found; a name is
 * read strictly, a list is taken apart into tokens, and forms are counted in a register.
 */
#include "govlezna.h"

#include <inttypes.h>
#include <stdio.h>
#include <string.h>

static const uint8_t *bytes(const char *s)
{
    return (const uint8_t *)s;
}

static void show_refusal(uint32_t number, const uint64_t answer[2])
{
    printf("refused by %" PRIu32 " (%" PRIu64 ", %" PRIu64 ")\n", number, answer[0], answer[1]);
}

static void show_text(const char *what, uint32_t number, const uint64_t answer[2], const uint8_t *out)
{
    printf("%s: ", what);
    if (number == 0)
        printf("%.*s\n", (int)answer[0], (const char *)out);
    else
        show_refusal(number, answer);
}

static void check(const char *name)
{
    uint64_t answer[2];
    uint32_t number = govlezna_check_utf8(bytes(name), strlen(name), answer);
    if (number == 0)
        printf("name of %" PRIu64 " bytes: UTF-8\n", answer[0]);
    else
        printf("name refused by %" PRIu32 ": UTF-8 up to byte %" PRIu64 "\n", number, answer[0]);
}

static void read_number(const char *text)
{
    uint64_t answer[2];
    uint32_t number = govlezna_parse_number(bytes(text), strlen(text), answer);
    printf("&#%s; ", text);
    if (number == 0)
        printf("is U+%04" PRIX64 "\n", answer[0]);
    else
        show_refusal(number, answer);
}

static void write_attribute(const char *text)
{
    uint64_t answer[2];
    uint8_t out[64];
    uint32_t number = govlezna_escape(bytes(text), strlen(text), 3, out, sizeof out, answer);
    show_text("attribute", number, answer, out);
}

/*
 * Each call checks all that it is handed; so it gets windows, each from where the last one left off to behind the next '>'.
 * Such an end is within no character and no `]]>`. A window without a cut is a part of the section.
 */
static void write_cdata(const char *text, size_t length)
{
    uint64_t answer[2];
    size_t at = 0;
    uint32_t number = govlezna_check_utf8(bytes(text), length, answer);
    if (number == 0)
        printf("<![CDATA[");
    while (number == 0) {
        struct govlezna_cursor cursor = { 0, 0 };
        const char *mark = at < length ? (const char *)memchr(text + at + 1, '>', length - at - 1) : NULL;
        size_t window = mark == NULL ? length - at : (size_t)(mark + 1 - (text + at));
        number = govlezna_cdata_next(bytes(text + at), window, &cursor, answer);
        if (number != 0)
            break;
        fwrite(text + at, 1, answer[1], stdout);
        at += answer[1];
        if (cursor.finished && at == length) {
            printf("]]>\n");
            return;
        }
        if (!cursor.finished)
            printf("]]><![CDATA[");
    }
    show_refusal(number, answer);
}

/* An entity table. The list ends with command 0: start with { { 0 }, 1, { 0 }, 0 }, the empty table. */
struct table {
    uint8_t list[12 * 8 + 1];
    size_t list_length;
    uint8_t pool[256];
    size_t pool_length;
};

static void put_number(uint8_t *to, size_t width, size_t value)
{
    for (size_t i = 0; i < width; i++)
        to[i] = (uint8_t)(value >> 8 * i & 0xFF);
}

/* Appends bytes to the pool; their start. */
static size_t put_pool(struct table *table, const char *s)
{
    size_t start = table->pool_length;
    memcpy(table->pool + start, s, strlen(s));
    table->pool_length += strlen(s);
    return start;
}

/* Appends a definition, in the place of the list's end, and the end after it. 0 where there is no room for it. */
static int define(struct table *table, const char *name, const char *text)
{
    size_t name_length = strlen(name), text_length = strlen(text);
    uint8_t *command = table->list + table->list_length - 1;
    if (name_length > 0xFF || text_length > 0xFFFF || table->list_length + 12 > sizeof table->list ||
        name_length + text_length > sizeof table->pool - table->pool_length)
        return 0;
    command[0] = 1;
    put_number(command + 1, 4, put_pool(table, name));
    put_number(command + 5, 1, name_length);
    put_number(command + 6, 4, put_pool(table, text));
    put_number(command + 10, 2, text_length);
    command[12] = 0;
    table->list_length += 12;
    return 1;
}

static void check_table(const struct table *t)
{
    uint64_t answer[2];
    uint32_t number = govlezna_check_table(t->list, t->list_length, t->pool, t->pool_length, answer);
    printf("table: ");
    if (number == 0)
        printf("%" PRIu64 " definitions\n", answer[0]);
    else
        show_refusal(number, answer);
}

static void unescape(const char *text, const struct table *t)
{
    uint64_t answer[2];
    uint8_t out[64];
    uint32_t number = govlezna_unescape(bytes(text), strlen(text), t->list, t->list_length, t->pool, t->pool_length, out,
                                        sizeof out, answer);
    show_text("unescape", number, answer, out);
}

/* The value and its form, read as XML 1.0. */
static void read_value(const char *text, uint64_t depth, uint64_t limit, const struct table *t)
{
    uint64_t answer[2];
    uint8_t scratch[4], out[64];
    uint32_t number = govlezna_normalize_attribute_value(bytes(text), strlen(text), 0, depth, limit, t->list,
                                                         t->list_length, t->pool, t->pool_length, out, sizeof out, answer);
    show_text("normalize", number, answer, out);
    if (number != 0)
        return;
    printf("openings: %" PRIu64 "\n", answer[1]);
    number = govlezna_canonical_form(bytes(text), strlen(text), 0, depth, limit, t->list, t->list_length, t->pool,
                                     t->pool_length, scratch, sizeof scratch, out, sizeof out, answer);
    show_text("canonical form", number, answer, out);
}

/* For a value that was refused by 16. */
static void find_depth(const char *text, uint64_t limit, const struct table *t)
{
    uint64_t answer[2];
    uint32_t number = govlezna_least_depth(bytes(text), strlen(text), 0, limit, t->list, t->list_length, t->pool,
                                           t->pool_length, answer);
    printf("least depth: ");
    if (number == 0)
        printf("%" PRIu64 "\n", answer[0]);
    else
        show_refusal(number, answer);
}

static void use_table(void)
{
    struct table table = { { 0 }, 1, { 0 }, 0 };
    const char *name = "&panel;\t&lt;top&gt;&#9;";
    if (!define(&table, "sail", "Gro&#xDF;segel") || !define(&table, "panel", "&sail;\r\n3"))
        return;
    check_table(&table);
    unescape("&#xBD; &sail;", &table);
    unescape("a &boom;", &table);
    read_value(name, 8, 100, &table);
    read_value(name, 1, 100, &table);
    find_depth(name, 100, &table);
    read_value(name, 8, 1, &table);
    read_value("a &boom;", 8, 100, &table);
    table.list_length -= 1;
    check_table(&table);
}

/* Only characters that the XML version allows: 1 for 1.0, 2 for 1.1. */
static void read_strictly(const char *text, uint8_t version)
{
    static const uint8_t no_table[] = { 0 };
    uint64_t answer[2];
    uint8_t out[64];
    uint32_t number = govlezna_normalize_attribute_value_strict(bytes(text), strlen(text), version, 8, 100, no_table,
                                                                sizeof no_table, NULL, 0, out, sizeof out, answer);
    show_text("strict", number, answer, out);
}

/* Here too the call gets windows: from where the last one left off up to the next space. */
static void show_tokens(const uint8_t *list, size_t length)
{
    uint64_t answer[2], offset;
    for (size_t at = 0; at < length; at += offset) {
        const uint8_t *space = (const uint8_t *)memchr(list + at + 1, ' ', length - at - 1);
        size_t window = space == NULL ? length - at : (size_t)(space - (list + at));
        uint32_t number;
        offset = 0;
        number = govlezna_next_nmtoken(list + at, window, &offset, answer);
        if (number != 0) {
            show_refusal(number, answer);
            return;
        }
        printf("token: %.*s\n", (int)answer[1], (const char *)list + at + answer[0]);
    }
}

static void read_tokens(const char *text)
{
    static const uint8_t no_table[] = { 0 };
    uint64_t answer[2];
    uint8_t scratch[64], out[64];
    uint32_t number = govlezna_normalize_nmtokens(bytes(text), strlen(text), 1, 8, 100, no_table, sizeof no_table, NULL, 0,
                                                  scratch, sizeof scratch, out, sizeof out, answer);
    if (number == 0)
        show_tokens(out, answer[0]);
    else
        show_refusal(number, answer);
}

static void show_count(const char *what, const char *form, uint32_t number, const uint64_t answer[2])
{
    printf("%s %s: ", what, form);
    if (number == 0)
        printf("%" PRIu64 "\n", answer[0]);
    else
        show_refusal(number, answer);
}

/* The buffer and its used length are the register: what is in it lasts as long as they do. */
static void use_register(void)
{
    uint64_t answer[2], used = 0;
    uint8_t buffer[24];
    show_count("add", "Fock", govlezna_register_add(bytes("Fock"), 4, buffer, sizeof buffer, &used, answer), answer);
    show_count("add", "Fock", govlezna_register_add(bytes("Fock"), 4, buffer, sizeof buffer, &used, answer), answer);
    show_count("add", "Baum", govlezna_register_add(bytes("Baum"), 4, buffer, sizeof buffer, &used, answer), answer);
    show_count("add", "Gaffel", govlezna_register_add(bytes("Gaffel"), 6, buffer, sizeof buffer, &used, answer), answer);
    show_count("withdraw", "Baum", govlezna_register_withdraw(bytes("Baum"), 4, buffer, sizeof buffer, &used, answer), answer);
    show_count("withdraw", "Baum", govlezna_register_withdraw(bytes("Baum"), 4, buffer, sizeof buffer, &used, answer), answer);
    show_count("count", "Fock", govlezna_register_count(bytes("Fock"), 4, buffer, sizeof buffer, used, answer), answer);
}

int main(void)
{
    check("Gro\xC3\x9Fsegel 3");
    check("Fock\xED\xA0\x80");
    read_number("65");
    read_number("x2028");
    read_number("+1");
    read_number("X41");
    read_number("xD800");
    read_number("0");
    write_attribute("a<b\t");
    write_cdata("]]>]]>", 6);
    write_cdata("a > b\xFF", 6);
    use_table();
    read_strictly("Gro&#xDF;segel", 1);
    read_strictly("Fock&#1;", 1);
    read_strictly("Fock\1", 2);
    read_tokens(" p1\t p2  p3 ");
    use_register();
    return 0;
}
