/* The numbers of include/govlezna.h in words: a row for each, and tests/header.sh asks for all of them. */
#include "cli.h"

static const struct {
    uint32_t number;
    const char *words;
} rows[] = {
    { GOVLEZNA_TOO_LONG, "the text is over 16,777,216 bytes" },
    { GOVLEZNA_DEPTH_TOO_LARGE, "the depth is over 128" },
    { GOVLEZNA_LIMIT_TOO_LARGE, "the opening limit is over 1,000,000" },
    { GOVLEZNA_UNKNOWN_BYTE, "unknown level or version" },
    { GOVLEZNA_NOT_UTF8, "the text is not UTF-8" },
    { GOVLEZNA_TABLE_TOO_LONG, "the entity table is too long (list over 49,154 or pool over 1,048,576 bytes)" },
    { GOVLEZNA_MALFORMED_LIST,
      "the table's list is malformed: unknown command, cut operands, a mark that is not first, no end, or bytes after the end" },
    { GOVLEZNA_OUTSIDE_POOL, "a name or text of the table runs past its pool" },
    { GOVLEZNA_INVALID_DEFINITION, "a definition with an empty name, or with a name or text that is not UTF-8" },
    { GOVLEZNA_UNTERMINATED_ENTITY, "no ; after &" },
    { GOVLEZNA_UNRECOGNIZED_ENTITY, "unknown entity" },
    { GOVLEZNA_UNEXPECTED_SIGN, "a character number with a sign" },
    { GOVLEZNA_INVALID_NUMBER, "no character number" },
    { GOVLEZNA_INVALID_CODEPOINT, "no character has this number" },
    { GOVLEZNA_ILLEGAL_CHARACTER, "the character number 0" },
    { GOVLEZNA_TOO_DEEP, "the depth is used up" },
    { GOVLEZNA_TOO_MANY_OPENINGS, "the opening limit is used up" },
    { GOVLEZNA_NO_SCRATCH, "the scratch is too short" },
    { GOVLEZNA_NO_ROOM, "the output is shorter than the result" },
    { GOVLEZNA_CURSOR_OUTSIDE, "the cursor is past the text's end or inside a character" },
    { GOVLEZNA_MALFORMED_DECLARATION, "not of the form <!ENTITY name 'text'>" },
    { GOVLEZNA_DECLARATION_TOO_LARGE,
      "too large for a table: a name over 255 bytes, a value over 65,535, or more than 4,096 declarations" },
    { GOVLEZNA_NO_TABLE_ROOM, "the declarations do not fit into a table: its pool would pass 1,048,576 bytes" },
    { GOVLEZNA_FORBIDDEN_REFERENCE, "a reference to a character that this version of XML does not allow" },
    { GOVLEZNA_FORBIDDEN_CHARACTER, "a character that may not stand here in this version of XML" },
    { GOVLEZNA_EXTERNAL_ENTITY, "the entity is external: it has no text here, and may not stand in an attribute value" },
    { GOVLEZNA_DAMAGED_REGISTER, "the register is damaged" },
    { GOVLEZNA_ABSENT_FORM, "the form is not in the register" },
    { GOVLEZNA_REGISTER_FULL, "the register is full: no room for the form, or its count is 4,294,967,295 already" },
    { GOVLEZNA_SPAN_OUTSIDE, "more than 65,536 spans, or one that leaves the text" },
    { GOVLEZNA_NO_DEPTH, "no depth up to 128 is enough" },
    { GOVLEZNA_NO_MORE, "there is no further piece" },
};

const char *words_of(uint32_t number)
{
    for (size_t i = 0; i < sizeof rows / sizeof rows[0]; i++)
        if (rows[i].number == number)
            return rows[i].words;
    return "";
}
