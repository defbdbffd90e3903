/*
 * govlezna.h: text of XML job files, for the controller of the cutting table.
 *
 * Every call takes its arguments as they come and checks them itself. The result is 0 for success, or the number of
 * the refusal. Both words of `answer` are written by every call: on success what the call says below, on a refusal its
 * first and second; a word that nothing is said of is 0. On success the first bytes of an output are the result and the
 * rest keep their bytes. A refusal writes nothing but the answer words; the one exception is GOVLEZNA_NO_ROOM of
 * govlezna_normalize_nmtokens, whose scratch then holds the value.
 *
 * To learn how long a result is, call with an output of length 0: GOVLEZNA_NO_ROOM gives the length needed, and success
 * means that the result is empty. govlezna_normalize_nmtokens is asked for two lengths, one after the other; of
 * govlezna_read_declarations GOVLEZNA_NO_TABLE_ROOM gives both lengths.
 *
 * What a caller owes:
 * - `text`, `list` and `pool` point to as many readable bytes as their length says, of any value; `out` and `scratch`, and
 *   `list` and `pool` of govlezna_read_declarations, to as many writable bytes. NULL is allowed where the length is 0; but a
 *   list of no bytes is refused: "no table" is the list { 0 } of length 1.
 * - `answer` points to two writable words, `report` to 29, `cursor` to a cursor, `offset` to a word, `spans` to as many
 *   readable spans as their count says; `form` and `buffer` of a register are as `text` and `out` (for
 *   govlezna_register_count both are read alone), `used` points to a writable word.
 * - `answer`, `report`, `cursor`, `spans`, `offset` and `used` are aligned as C aligns their types, to 8 bytes. Bytes may
 *   lie anywhere.
 * - What a call may write overlaps nothing else that it is lent.
 * Nothing is kept after a call, and no call allocates: calls on different buffers may run at the same time.
 * A call takes at most 96 KiB of stack: about 430 bytes for each level of depth, and 17 KB for an index of the table's names
 * where a text of 1,024 bytes or more is read (measured at depth 128: 74,360 bytes; 57,936 with shorter texts).
 *
 * Time: a call checks all of its text and all of its table each time, whatever part it then needs; beyond that it takes
 * what is said below.
 *
 * For x86-64 Linux: link libgovlezna.a, or libgovlezna.so; `pkg-config --cflags --libs govlezna` has the flags.
 */
#ifndef GOVLEZNA_H
#define GOVLEZNA_H

#include <stddef.h>
#include <stdint.h>

/* Of this header and of the library that comes with it; the first number changes where a caller has to change. */
#define GOVLEZNA_VERSION "1.0.0"

#ifdef __cplusplus
extern "C" {
#endif

/* The number that a call returns has to be read: what it writes is the result only where that is 0. */
#if (defined(__cplusplus) && __cplusplus >= 201703L) || (!defined(__cplusplus) && __STDC_VERSION__ > 201710L)
#define GOVLEZNA_MUST_USE [[nodiscard]]
#elif defined(__GNUC__)
#define GOVLEZNA_MUST_USE __attribute__((warn_unused_result))
#else
#define GOVLEZNA_MUST_USE
#endif

/*
 * Refusals. The checks of a call run in the order in which its comment lists them, there without GOVLEZNA_; the first
 * that applies answers. "First" and "second" are answer[0] and answer[1].
 */
#define GOVLEZNA_TOO_LONG 1             /* text over 16,777,216 bytes: first is its length */
#define GOVLEZNA_DEPTH_TOO_LARGE 2      /* depth over 128 */
#define GOVLEZNA_LIMIT_TOO_LARGE 3      /* opening limit over 1,000,000 */
#define GOVLEZNA_UNKNOWN_BYTE 4         /* unknown level or version byte */
#define GOVLEZNA_NOT_UTF8 5             /* text not UTF-8: first is the end of its longest well-formed prefix */
#define GOVLEZNA_TABLE_TOO_LONG 6       /* list over 49,154 or pool over 1,048,576 bytes */
#define GOVLEZNA_MALFORMED_LIST 7       /* unknown command, cut operands or a mark that is not the list's first byte: first
                                           is the command's offset; no end: the list's length; bytes after the end: the
                                           offset of the first of them */
#define GOVLEZNA_OUTSIDE_POOL 8         /* a name or text runs past the pool: first is the command's offset */
#define GOVLEZNA_INVALID_DEFINITION 9   /* name empty, name or text not UTF-8: first is the command's offset */
#define GOVLEZNA_UNTERMINATED_ENTITY 10 /* no ; after & : first is the offset of &, second the text's length */
#define GOVLEZNA_UNRECOGNIZED_ENTITY 11 /* unknown name: first and second are its start and end */
#define GOVLEZNA_UNEXPECTED_SIGN 12     /* the number starts with + or - */
#define GOVLEZNA_INVALID_NUMBER 13      /* no digits, a byte that is no digit, or a value over 4,294,967,295 */
#define GOVLEZNA_INVALID_CODEPOINT 14   /* a surrogate, or a value over 1,114,111: first is the value */
#define GOVLEZNA_ILLEGAL_CHARACTER 15   /* the value 0 */
#define GOVLEZNA_TOO_DEEP 16            /* depth used up */
#define GOVLEZNA_TOO_MANY_OPENINGS 17   /* opening limit used up: first is the offset of & */
#define GOVLEZNA_NO_SCRATCH 18          /* scratch too short: first is the length needed */
#define GOVLEZNA_NO_ROOM 19             /* output shorter than the result: first is the length needed */
#define GOVLEZNA_CURSOR_OUTSIDE 20      /* cursor or offset past the end or inside a character: first is it */
#define GOVLEZNA_MALFORMED_DECLARATION 21 /* declarations: first is the offset of the first character that cannot stand
                                             there, or of the end */
#define GOVLEZNA_DECLARATION_TOO_LARGE 22 /* declarations: a name over 255 bytes, a value over 65,535, or more than 4,096 of
                                             them: first is the offset */
#define GOVLEZNA_NO_TABLE_ROOM 23       /* list or pool too short, or the pool over 1,048,576 bytes: first and second are the
                                           lengths needed of list and pool */
#define GOVLEZNA_FORBIDDEN_REFERENCE 25 /* strict calls: a reference names a character that the version does not allow */
#define GOVLEZNA_FORBIDDEN_CHARACTER 26 /* strict calls: a character that may not stand there: first is its offset */
#define GOVLEZNA_EXTERNAL_ENTITY 27     /* the name of an external entity: first is the offset of & */
#define GOVLEZNA_DAMAGED_REGISTER 28    /* the used bytes are no register */
#define GOVLEZNA_ABSENT_FORM 29         /* the form to withdraw is not in the register */
#define GOVLEZNA_REGISTER_FULL 30       /* no room for a new form, or its count is 4,294,967,295 already */
#define GOVLEZNA_SPAN_OUTSIDE 31        /* more than 65,536 spans: first is 65,536; else one leaves the text: first is its
                                           index, from 0 */
#define GOVLEZNA_NO_DEPTH 32            /* no depth up to 128 is enough */

/* No refusal: there is no further piece or token. */
#define GOVLEZNA_NO_MORE 255

/*
 * Is the text UTF-8 (RFC 3629: shortest forms, no surrogates, at most U+10FFFF)?
 *
 * Success: answer[0] is the text's length.
 * Refusals, in this order: TOO_LONG (text over 16,777,216 bytes; answer[0]: its length); NOT_UTF8 (answer[0]: the end
 * of its longest well-formed prefix).
 */
GOVLEZNA_MUST_USE
uint32_t govlezna_check_utf8(const uint8_t *text, size_t text_length, uint64_t answer[2]);

/*
 * The text with characters written as references. Level 0: < > & ' " as &lt; &gt; &amp; &apos; &quot; and CR as &#13;.
 * Level 1: < > & CR. Level 2: < & CR. Level 3: as level 0, and LF as &#10;, TAB as &#9;. All else is copied, so the
 * result has at least as many bytes as the text and at most six times as many.
 *
 * Success: answer[0] is the length written; the rest of `out` keeps its bytes.
 * Refusals, in this order: TOO_LONG; UNKNOWN_BYTE (level over 3); NOT_UTF8; NO_ROOM (answer[0]: the length needed). None
 * writes to `out`.
 * Time: the text is read once more to count, but not where `out` has six times its length; then once to write.
 */
GOVLEZNA_MUST_USE
uint32_t govlezna_escape(const uint8_t *text, size_t text_length, uint8_t level, uint8_t *out, size_t out_length,
                         uint64_t answer[2]);

/*
 * An attribute value as W3C Canonical XML 1.0, section 2.3, writes it: & < " as &amp; &lt; &quot;, and TAB, LF, CR as &#x9;
 * &#xA; &#xD;. All else is copied, > and ' too, so the result has at least as many bytes as the text and at most six times
 * as many. A result of at most 16,777,216 bytes, read by govlezna_normalize_attribute_value in version 0 or 1 at depth 1
 * with an empty table, is the value written, openings 0.
 *
 * Success: answer[0] is the length written; the rest of `out` keeps its bytes.
 * Refusals, in this order: TOO_LONG; NOT_UTF8; NO_ROOM (answer[0]: the length needed). None writes to `out`.
 * Time: as govlezna_escape.
 * Example: `<a>` TAB gives `&lt;a>&#x9;`.
 */
GOVLEZNA_MUST_USE
uint32_t govlezna_c14n_attribute(const uint8_t *text, size_t text_length, uint8_t *out, size_t out_length,
                                 uint64_t answer[2]);

/*
 * Text as W3C Canonical XML 1.0, section 2.3, writes it: & < > as &amp; &lt; &gt;, and CR as &#xD;. All else is copied,
 * quotes, TAB and LF too, so the result has at least as many bytes as the text and at most six times as many. A result
 * of at most 16,777,216 bytes is left as it is by govlezna_normalize_eols in version 0 or 1, and govlezna_unescape with an
 * empty table gives the text written.
 *
 * Success: answer[0] is the length written; the rest of `out` keeps its bytes.
 * Refusals, in this order: TOO_LONG; NOT_UTF8; NO_ROOM (answer[0]: the length needed). None writes to `out`.
 * Time: as govlezna_escape.
 * Example: `<a>` TAB CR gives `&lt;a&gt;`, a TAB and `&#xD;`.
 */
GOVLEZNA_MUST_USE
uint32_t govlezna_c14n_text(const uint8_t *text, size_t text_length, uint8_t *out, size_t out_length,
                            uint64_t answer[2]);

/*
 * The character that a reference such as &#65; or &#x41; names. `text` is what stands between `#` and `;`: decimal
 * digits, or a lower-case x and hexadecimal digits of either letter case.
 *
 * Success: answer[0] is the character's number.
 * Refusals, in this order: TOO_LONG; NOT_UTF8; UNEXPECTED_SIGN (+ or - before the digits); INVALID_NUMBER (no digits, a
 * byte that is no digit, or a value over 4,294,967,295); ILLEGAL_CHARACTER (the value 0); INVALID_CODEPOINT (a surrogate
 * or over 1,114,111; answer[0]: the value).
 */
GOVLEZNA_MUST_USE
uint32_t govlezna_parse_number(const uint8_t *text, size_t text_length, uint64_t answer[2]);

/*
 * The text with every line end as LF. Versions 0 and 1 (XML 1.0): CR LF and CR. Version 2 (XML 1.1): CR LF, CR U+0085,
 * CR, U+0085 and U+2028. The result is no longer than the text.
 *
 * Success: answer[0] is the length written; the rest of `out` keeps its bytes.
 * Refusals, in this order: TOO_LONG; UNKNOWN_BYTE (version over 2); NOT_UTF8; NO_ROOM (answer[0]: the length needed).
 * None writes to `out`.
 * Time: the text is read once more to count, but not where `out` is as long as it; then once to write.
 */
GOVLEZNA_MUST_USE
uint32_t govlezna_normalize_eols(const uint8_t *text, size_t text_length, uint8_t version, uint8_t *out,
                                 size_t out_length, uint64_t answer[2]);

/*
 * Entity tables. A table is a list of commands and a pool of bytes, both lent. A command is one byte and operands of
 * fixed width, little-endian:
 *   1  name start (4 bytes), name length (1), text start (4), text length (2): a definition, 12 bytes in all; the starts
 *      are offsets in the pool.
 *   2  name start (4 bytes), name length (1): an external entity, 6 bytes in all. Its text is elsewhere, and XML forbids
 *      it in attribute values: a reference to it is refused.
 *   3  mark, one byte: as the first byte of a list, and nowhere else, it says that the texts of the table are past line
 *      ends, as the replacement texts of a document's declarations are: a CR or LF of them came by a character reference
 *      and stands for itself. It is no definition. What it changes is said at govlezna_normalize_attribute_value; in
 *      govlezna_unescape it has no say.
 *   0  end: the last byte of the list. Alone it is the empty table: for "no table" hand over the list { 0 } of length 1,
 *      and NULL with length 0 for the pool.
 * Where a name is defined twice, by either command, the first definition binds. A name that no definition has may be one
 * of lt, gt, amp, apos and quot, which stand for < > & ' " . A table may define these five.
 *
 * Example: the list { 1, 0,0,0,0, 1, 1,0,0,0, 4,0, 0 } and the pool "esail" define e as `sail`. The list { 3, 1, 0,0,0,0,
 * 1, 1,0,0,0, 4,0, 0 } is the same, marked; { 3, 0 } is the empty marked table.
 */

/*
 * Is the table valid? The calls below check their table in the same way.
 *
 * `list`, `pool`: the table; for none the list { 0 } of length 1, and NULL with length 0.
 * Success: answer[0] is the number of definitions, external entities among them; a mark is not counted.
 * Refusals, in this order: TABLE_TOO_LONG (list over 49,154 or pool over 1,048,576 bytes); then, command by command,
 * MALFORMED_LIST (unknown command, cut operands, a mark that is not first, no end, bytes after the end; answer[0]:
 * where), OUTSIDE_POOL (a name or text runs past the pool; answer[0]: the command's offset), INVALID_DEFINITION (an empty
 * name, or a name or text that is not UTF-8; answer[0]: the command's offset). Offsets count a mark too.
 * Time: at most the list and the pool once, and each name and text once, also where they share bytes of the pool.
 * Example: the table above gives 1, marked too. Without its last byte it is refused by MALFORMED_LIST, first 12; so is a
 * list of no bytes, first 0, and { 3, 3, 0 }, first 1.
 */
GOVLEZNA_MUST_USE
uint32_t govlezna_check_table(const uint8_t *list, size_t list_length, const uint8_t *pool, size_t pool_length,
                              uint64_t answer[2]);

/*
 * The table of a text of entity declarations, as `<!ENTITY sail "Fock">`: declarations and white space, nothing else. The
 * line ends of the version (see govlezna_normalize_eols) become LF first, and offsets count the bytes after that. Names are
 * Name of XML 1.0, fifth edition. A value stands between " " or ' ' and is EntityValue, with any character but % and the
 * quote: &#65; or &#x41; is replaced by the character, and may so bring what else could not stand there; &name; stays as
 * written, until the value is used.
 *
 * `list`, `pool`: outputs, of any length. The list is a mark, a definition for each declaration in their order, and the end:
 * 2 bytes and 12 for each. The pool is each name and then its value, without gaps. Of a name that is declared twice the
 * first declaration binds. The table passes govlezna_check_table with as many definitions as there are declarations.
 * Success: answer[0] is the length of the list, answer[1] that of the pool; the rest of both keep their bytes.
 * Refusals, in this order: TOO_LONG; UNKNOWN_BYTE (version over 2); NOT_UTF8; the leftmost fault, of two at one place
 * MALFORMED_DECLARATION; NO_TABLE_ROOM (list or pool shorter than what is written, or the pool would pass 1,048,576 bytes;
 * answer[0] and answer[1]: the lengths of list and pool). None writes to `list` or `pool`. The faults are
 * MALFORMED_DECLARATION (another declaration, an external identifier, % in a value, a quote or the end before the ; of a
 * reference, or any departure from the form; answer[0]: the offset of the first character that cannot stand there, or of
 * the end), DECLARATION_TOO_LARGE (a declared name over 255 bytes, a value over 65,535 bytes in the pool, a < after 4,096
 * declarations; answer[0]: the offset of the name's end, of the value's closing quote, of that <) and UNEXPECTED_SIGN,
 * INVALID_NUMBER, ILLEGAL_CHARACTER, INVALID_CODEPOINT (of what stands between &# and the next ; as in
 * govlezna_parse_number).
 * Time: the text is read once to judge and to count, and once more to write; a refusal counts its line ends.
 * Example: version 0: `<!ENTITY e "sail">` gives the marked table above, list of 14 and pool of 5 bytes. `<!ENTITY e "a%">`
 * is refused by MALFORMED_DECLARATION, first 13, and `<!ENTITY e "&#x;">` by INVALID_NUMBER; with no list and no pool the
 * first one by NO_TABLE_ROOM, first 14, second 5.
 */
GOVLEZNA_MUST_USE
uint32_t govlezna_read_declarations(const uint8_t *text, size_t text_length, uint8_t version, uint8_t *list,
                                    size_t list_length, uint8_t *pool, size_t pool_length, uint64_t answer[2]);

/*
 * The text with each reference as what it stands for: &#65; or &#x41; as the character, &name; as the name's text, which
 * is copied as it stands. From & the next & or ; must be a ; .
 *
 * `list`, `pool`: the table; for none the list { 0 } of length 1, and NULL with length 0.
 * Success: answer[0] is the length written; the rest of `out` keeps its bytes.
 * Refusals, in this order: TOO_LONG; NOT_UTF8; those of govlezna_check_table; the leftmost of UNTERMINATED_ENTITY (no ;
 * after &; answer[0]: the offset of &, answer[1]: the text's length), UNRECOGNIZED_ENTITY (no such name; answer[0] and
 * answer[1]: its start and end), EXTERNAL_ENTITY (answer[0]: the offset of &) and UNEXPECTED_SIGN, INVALID_NUMBER,
 * ILLEGAL_CHARACTER, INVALID_CODEPOINT (as in govlezna_parse_number); NO_ROOM (answer[0]: the length needed). None
 * writes to `out`.
 * Time: the text is walked at most twice, to count and to write; a name is looked for from the table's first command on,
 * until such searches have passed four times the list: in texts of 1,024 bytes and more, or of 128 where the list has over 3,074, an
 * index of the names is then made, for both walks, and finds each at once.
 * Example: with the table above `&lt;&e; &#65;` gives `<sail A`; `a&b;` is refused by UNRECOGNIZED_ENTITY, first 2,
 * second 3.
 */
GOVLEZNA_MUST_USE
uint32_t govlezna_unescape(const uint8_t *text, size_t text_length, const uint8_t *list, size_t list_length,
                           const uint8_t *pool, size_t pool_length, uint8_t *out, size_t out_length,
                           uint64_t answer[2]);

/*
 * The attribute value normalized: TAB, LF and each line end of the version (see govlezna_normalize_eols) become one
 * space; a character reference becomes its character, which is never turned into a space; &amp; becomes &, whatever the
 * table says; a reference to another name is replaced by the name's text, read by the same rules with the depth one
 * less. A name runs from & to the next ; . In the texts of a marked table, of either version, it is TAB, LF and CR that
 * each become one space: CR LF there is two, and U+0085 and U+2028 are copied. `text` itself is read as without the mark.
 *
 * `depth`, at most 128: a text read at depth 0 is refused where it has a TAB, LF, CR, & or, in version 2 and not in a
 * marked table, a byte C2 or E2.
 * `limit`, at most 1,000,000: how many texts of the table may be opened; one of the five that the table does not define
 * is not counted. The limit bounds the work and the length: each opening brings at most 65,535 bytes.
 * `list`, `pool`: the table; for none the list { 0 } of length 1, and NULL with length 0.
 *
 * Success: answer[0] is the length written, answer[1] the number of openings; the rest of `out` keeps its bytes.
 * Refusals, in this order: TOO_LONG; DEPTH_TOO_LARGE; LIMIT_TOO_LARGE; UNKNOWN_BYTE (version over 2); NOT_UTF8; those of
 * govlezna_check_table; the first that the walk meets, from left to right and into the texts that it opens; NO_ROOM
 * (answer[0]: the length needed). None writes to `out`. The walk's, with offsets in the text that is being read, which
 * may be a text of the table, are: TOO_DEEP (at depth 0, as above), UNTERMINATED_ENTITY (no ; after &; answer[0]: the
 * offset of &, answer[1]: that text's length), UNEXPECTED_SIGN, INVALID_NUMBER, ILLEGAL_CHARACTER, INVALID_CODEPOINT (as
 * in govlezna_parse_number), UNRECOGNIZED_ENTITY (no such name; answer[0] and answer[1]: its start and end),
 * EXTERNAL_ENTITY (answer[0]: the offset of &), TOO_MANY_OPENINGS (the limit is used up; answer[0]: the offset of &).
 * Which text the offsets are in the answer does not say. They are in `text` itself where the same call with limit 0, which
 * opens nothing, is refused by another number than TOO_MANY_OPENINGS; else a caller cannot tell by it, and has to look
 * through the texts, as the command line program does.
 * Time: the text is walked at most twice, to count and to write. A text of the table is walked at its first opening, and
 * mostly not again: what up to sixteen of them gave is kept during the call. Openings times the longest text of the
 * table bound what the walk takes beyond its own text, so `limit` is the caller's hold on time. A name that is not kept
 * is looked for from the table's first command on; in texts of 1,024 bytes and more with a list of 192 or more an index is made
 * of the names, as in govlezna_unescape.
 * Example: version 0, depth 2, limit 10, the table above: `&e;` TAB `&#9;` gives `sail`, a space and a TAB, openings 1.
 * With limit 0 it is refused by TOO_MANY_OPENINGS, first 0; at depth 0 by TOO_DEEP. With the list { 2, 0,0,0,0, 1, 0 }
 * in the place of the table's, which names e as external, it is refused by EXTERNAL_ENTITY, first 0. With the pool `e`
 * CR LF and the list { 1, 0,0,0,0, 1, 1,0,0,0, 2,0, 0 } `&e;` gives one space, with a 3 before that list two. With the
 * pool `e&b;` and the list { 1, 0,0,0,0, 1, 1,0,0,0, 3,0, 0 } `&e;` is refused by UNRECOGNIZED_ENTITY, first 1, second 2,
 * which are in the table's text: with limit 0 it is refused by TOO_MANY_OPENINGS.
 */
GOVLEZNA_MUST_USE
uint32_t govlezna_normalize_attribute_value(const uint8_t *text, size_t text_length, uint8_t version, uint64_t depth,
                                            uint64_t limit, const uint8_t *list, size_t list_length,
                                            const uint8_t *pool, size_t pool_length, uint8_t *out, size_t out_length,
                                            uint64_t answer[2]);

/*
 * The least depth at which an attribute value is accepted: the smallest one from 0 to 128 that
 * govlezna_normalize_attribute_value does not refuse by TOO_DEEP. At each depth from there to 128 that call gives the
 * same text and openings, and at each smaller one TOO_DEEP.
 *
 * `limit`: as there. `list`, `pool`: the table; for none the list { 0 } of length 1, and NULL with length 0.
 * Success: answer[0] is the least depth.
 * Refusals, in this order: TOO_LONG; LIMIT_TOO_LARGE; UNKNOWN_BYTE (version over 2); NOT_UTF8; those of
 * govlezna_check_table; NO_DEPTH (at depth 128 too the value is refused by TOO_DEEP), or what else
 * govlezna_normalize_attribute_value refuses it by at depth 128, with the same answer words. No room is asked for.
 * Time: about that of govlezna_normalize_attribute_value at depth 128 with an output of length 0; up to two and a half
 * times that for a long text that has TABs and no & , which is looked at twice.
 * Example: version 0, limit 10, the table above: `a b` needs depth 0, `&lt;` and `&e;` need 1. With the pool `e&lt;` the
 * table defines e as `&lt;`, and `&e;` needs 2; with the pool `e&e;` and a text length of 3 it is refused by
 * TOO_MANY_OPENINGS, first 0, and with limit 1,000,000 by NO_DEPTH.
 */
GOVLEZNA_MUST_USE
uint32_t govlezna_least_depth(const uint8_t *text, size_t text_length, uint8_t version, uint64_t limit,
                              const uint8_t *list, size_t list_length, const uint8_t *pool, size_t pool_length,
                              uint64_t answer[2]);

/* A value of a job: the bytes of the text from `start` on, as many as `length` says. No padding. */
struct govlezna_span {
    uint64_t start;
    uint64_t length;
};

/*
 * How the values of a job fare under these settings: each span of the text is read by itself, as by
 * govlezna_normalize_attribute_value with room for its result, and nothing is written but the report. Spans may overlap, be
 * empty and come in any order; one that cuts a character is not UTF-8 by itself, and counts under NOT_UTF8.
 *
 * `spans`: at most 65,536. `depth`, `limit`: as there, for each value by itself. `list`, `pool`: the table;
 * for none the list { 0 } of length 1, and NULL with length 0.
 * Success: report[0] is how many values are accepted, report[n] for each n from 1 to 27 how many are refused by the number
 * n; together they are as many as there are spans. report[28] is the length of all accepted ones' results together. A value
 * is refused by NOT_UTF8 or by the walk, so that all other counts are 0.
 * Refusals, in this order: TOO_LONG; DEPTH_TOO_LARGE; LIMIT_TOO_LARGE; UNKNOWN_BYTE (version over 2); NOT_UTF8; those of
 * govlezna_check_table: all of them of the whole text, the settings and the table; SPAN_OUTSIDE (more than 65,536 spans;
 * answer[0]: 65,536; else a span that leaves the text, also where start + length would pass 64 bits; answer[0]: the index
 * of the first, from 0). None writes to `report`.
 * Time: text and table are checked once for all spans. Each value then takes what govlezna_normalize_attribute_value with
 * an output of length 0 takes beyond these checks.
 * Example: version 0, depth 2, limit 10, the table above, the text `a&e;&b;`: the spans { 0, 4 }, { 4, 3 } and { 7, 0 },
 * which are `a&e;`, `&b;` and the empty value, give report[0] 2, report[11] 1, report[28] 5, and 0 in all other places.
 * With { 7, 1 } in the place of the last they are refused by SPAN_OUTSIDE, first 2.
 */
GOVLEZNA_MUST_USE
uint32_t govlezna_rehearse(const uint8_t *text, size_t text_length, const struct govlezna_span *spans, size_t span_count,
                           uint8_t version, uint64_t depth, uint64_t limit, const uint8_t *list, size_t list_length,
                           const uint8_t *pool, size_t pool_length, uint64_t report[29], uint64_t answer[2]);

/*
 * The canonical form of an attribute value: the normalized value, written as level 3 of govlezna_escape; in version 2
 * also U+0085 as &#133; and U+2028 as &#8232; . Two values of one XML version have equal forms exactly when their
 * normalized values are equal. A form of at most 16,777,216 bytes, normalized in the same version at depth 1 or more
 * with a table that defines none of lt, gt, apos and quot, by either command, gives the normalized value back, and its
 * form is itself.
 *
 * `list`, `pool`: the table; for none the list { 0 } of length 1, and NULL with length 0.
 * `scratch`: 4 bytes, however long the value.
 * Success: answer[0] is the length of the form, answer[1] the number of openings. The first 4 bytes of the scratch are
 * the last character of the normalized value (not of the form), filled up with zero bytes; where the value is empty they
 * are as before. The rest of `scratch` and of `out` keep their bytes.
 * Refusals, in this order: those of govlezna_normalize_attribute_value without its last; NO_SCRATCH (scratch shorter
 * than 4 bytes, for an empty value too; answer[0]: 4); NO_ROOM (answer[0]: the length needed). None writes to `out` or to
 * `scratch`.
 * Time: as govlezna_normalize_attribute_value; what is written is escaped on the way. Two walks also where `out` is just as
 * long as the form, and a third only where entities make the value longer than `text` and `out` has six times the length
 * of `text`, but not of the value.
 * Example: with the settings above `&e;` TAB `&#9;` gives `sail &#9;`, openings 1, and the scratch begins with 9, 0, 0, 0.
 */
GOVLEZNA_MUST_USE
uint32_t govlezna_canonical_form(const uint8_t *text, size_t text_length, uint8_t version, uint64_t depth,
                                 uint64_t limit, const uint8_t *list, size_t list_length, const uint8_t *pool,
                                 size_t pool_length, uint8_t *scratch, size_t scratch_length, uint8_t *out,
                                 size_t out_length, uint64_t answer[2]);

/*
 * The attribute value normalized as by govlezna_normalize_attribute_value, where every character is one that the XML
 * version allows (section 2.2 of XML 1.0 and of XML 1.1). Versions 0 and 1: TAB, LF, CR and all from U+0020 on but U+FFFE
 * and U+FFFF. Version 2: all from U+0001 on but these two; of them U+0001 to U+001F without TAB, LF and CR, and U+007F to
 * U+009F without U+0085, may be named by a reference and stand in a text of the table, but not in `text` itself. What
 * stands between & and ; is held to no rule, nor is a text of the table that is not opened.
 *
 * `depth`, `limit`: as there. `list`, `pool`: the table; for none the list { 0 } of length 1, and NULL with length 0.
 * Success: as there, with the same result.
 * Refusals, in this order: those of govlezna_normalize_attribute_value, where the walk has two more:
 * FORBIDDEN_REFERENCE (a reference that none of UNEXPECTED_SIGN, INVALID_NUMBER, ILLEGAL_CHARACTER and INVALID_CODEPOINT
 * refuses names a character that is not allowed) and FORBIDDEN_CHARACTER (a character may not stand where it does;
 * answer[0]: its offset in the text that is being read), which comes before TOO_DEEP at that character. None writes to
 * `out`.
 * Time: as there; each text that is walked is also looked through for such characters.
 * Example: version 2, depth 1, limit 0, no table: `a&#1;` gives `a` and U+0001. These two characters are refused by
 * FORBIDDEN_CHARACTER, first 1; and `a&#1;` in version 0 by FORBIDDEN_REFERENCE.
 */
GOVLEZNA_MUST_USE
uint32_t govlezna_normalize_attribute_value_strict(const uint8_t *text, size_t text_length, uint8_t version,
                                                   uint64_t depth, uint64_t limit, const uint8_t *list,
                                                   size_t list_length, const uint8_t *pool, size_t pool_length,
                                                   uint8_t *out, size_t out_length, uint64_t answer[2]);

/*
 * The canonical form of an attribute value that govlezna_normalize_attribute_value_strict accepts, as
 * govlezna_canonical_form writes it. Two such values of one XML version have equal forms exactly when their normalized
 * values are equal. A form is read again by the strict calls as by the lenient ones; but in version 2 a form that holds
 * one of the characters that only a reference or a table may bring is refused by FORBIDDEN_CHARACTER.
 *
 * `list`, `pool`: the table; for none the list { 0 } of length 1, and NULL with length 0.
 * Success: as govlezna_canonical_form.
 * Refusals, in this order: those of govlezna_normalize_attribute_value_strict without its last; NO_SCRATCH; NO_ROOM, as
 * in govlezna_canonical_form.
 * Time: as govlezna_normalize_attribute_value_strict; what is written is escaped on the way.
 * Example: version 2, depth 1, limit 0, no table: `<&#1;` gives `&lt;` and U+0001, which itself is refused by
 * FORBIDDEN_CHARACTER, first 4.
 */
GOVLEZNA_MUST_USE
uint32_t govlezna_canonical_form_strict(const uint8_t *text, size_t text_length, uint8_t version, uint64_t depth,
                                        uint64_t limit, const uint8_t *list, size_t list_length, const uint8_t *pool,
                                        size_t pool_length, uint8_t *scratch, size_t scratch_length, uint8_t *out,
                                        size_t out_length, uint64_t answer[2]);

/*
 * The value of an attribute of type NMTOKENS (XML 1.0, 3.3.3): the value normalized as by
 * govlezna_normalize_attribute_value, then without spaces at its ends and with one in the place of each run of spaces.
 * U+0020 alone counts: an LF, TAB or CR that came by a reference stays. What is in a token is held to no rule.
 *
 * `depth`, `limit`: as there. `list`, `pool`: the table; for none the list { 0 } of length 1, and NULL with length 0.
 * Success: answer[0] is the length of the result, answer[1] the number of openings. The first bytes of the scratch are
 * the normalized value, which is at least as long; the rest of `scratch` and of `out` keep their bytes.
 * Refusals, in this order: those of govlezna_normalize_attribute_value without its last; NO_SCRATCH (scratch shorter
 * than the normalized value; answer[0]: its length); NO_ROOM (answer[0]: the length of the result). None writes to `out`,
 * and of them NO_ROOM alone to the scratch: it holds the normalized value, as after success. So the two lengths are asked
 * for one after the other: without scratch and output NO_SCRATCH gives the scratch's; with that scratch NO_ROOM gives the
 * output's.
 * Time: as govlezna_normalize_attribute_value; then the value is read once, and once more where `out` is shorter than it.
 * Example: version 0, depth 1, limit 0, no table: two spaces, `p1`, TAB, a space, `p2&#10;p3` and a space give the 8 bytes
 * `p1`, space, `p2`, LF, `p3`; the value in the scratch has 12. Without both it is refused by NO_SCRATCH, first 12, and with
 * a scratch of 12 bytes and no output by NO_ROOM, first 8.
 */
GOVLEZNA_MUST_USE
uint32_t govlezna_normalize_nmtokens(const uint8_t *text, size_t text_length, uint8_t version, uint64_t depth,
                                     uint64_t limit, const uint8_t *list, size_t list_length, const uint8_t *pool,
                                     size_t pool_length, uint8_t *scratch, size_t scratch_length, uint8_t *out,
                                     size_t out_length, uint64_t answer[2]);

/*
 * The next token of such a result, or of any text: spaces at the offset are skipped, and the token goes on to the next
 * space or to the end. Start with 0: each token is handed out once, in order; from inside a token its rest is.
 *
 * Success: answer[0] is the token's start, answer[1] its length, at least 1; the offset is moved to their sum.
 * Refusals, in this order: TOO_LONG; NOT_UTF8; CURSOR_OUTSIDE (the offset is past the end or inside a character;
 * answer[0]: the offset). After these, where only spaces or nothing is left, NO_MORE. The offset stays as it is.
 * Time: each call checks all that it is handed, so the tokens of a text that is handed over whole take the square of its
 * length. Hand over windows of a long text instead, from the token's start on, which end within no character; a token
 * that a window's end cuts goes on in the next.
 * Example: of `p1 p2` from 0 start 0 and length 2, then 3 and 2, then NO_MORE with the offset 5.
 */
GOVLEZNA_MUST_USE
uint32_t govlezna_next_nmtoken(const uint8_t *text, size_t text_length, uint64_t *offset, uint64_t answer[2]);

/*
 * The part of the text without white space (space, TAB, CR, LF) at its start, at its end, at both.
 *
 * Success: answer[0] is the part's start, answer[1] its length. Of blanks alone the length is 0, and the start is 0 for
 * govlezna_trim_xml_end, else the text's length.
 * Refusals, in this order: TOO_LONG; NOT_UTF8.
 */
GOVLEZNA_MUST_USE
uint32_t govlezna_trim_xml_start(const uint8_t *text, size_t text_length, uint64_t answer[2]);
GOVLEZNA_MUST_USE
uint32_t govlezna_trim_xml_end(const uint8_t *text, size_t text_length, uint64_t answer[2]);
GOVLEZNA_MUST_USE
uint32_t govlezna_trim_xml_spaces(const uint8_t *text, size_t text_length, uint64_t answer[2]);

/* Where the next piece starts, and whether the last one was handed over: 0, or any other number for yes. No padding. */
struct govlezna_cursor {
    uint64_t offset;
    uint64_t finished;
};

/*
 * The next piece of a text that is written as CDATA sections: the text is cut between `]]` and `>` at each `]]>` from
 * the cursor's offset on. Start with { 0, 0 }; the pieces joined are the text, and none holds `]]>`.
 *
 * Success: answer[0] is the piece's start, answer[1] its length; the cursor moves to the cut, or, at the last piece,
 * `finished` becomes 1 and the offset stays.
 * Refusals, in this order: TOO_LONG; NOT_UTF8; CURSOR_OUTSIDE (the offset is past the end or inside a character;
 * answer[0]: the offset). After these, where the last piece was handed over before, NO_MORE. The cursor stays as it is.
 * Time: each call checks all that it is handed, so the pieces of a text that is handed over whole, or from the last cut on,
 * take the square of its length. Check a long text once, by govlezna_check_utf8, and hand over windows of it, each with a
 * cursor { 0, 0 }, at first from 0 on:
 *   1. the window goes to behind the next > after its first byte, or else to the text's end: so it cuts no character and
 *      no `]]>`
 *   2. the call's piece is the next part of the piece of the whole text
 *   3. where the cursor is not finished, a piece ends here, and the next window begins at this cut
 *   4. where it is, the next window begins at this one's end; at the text's end the last piece ends
 * Example: `]]>]]>` by the windows 0 to 3 (2 bytes, a cut), 2 to 6 (3 bytes, a cut) and 5 to 6 (1 byte, finished).
 */
GOVLEZNA_MUST_USE
uint32_t govlezna_cdata_next(const uint8_t *text, size_t text_length, struct govlezna_cursor *cursor,
                             uint64_t answer[2]);

/*
 * Registers. A register counts forms, such as the canonical forms of panel names; any UTF-8 text of at most 16,777,216
 * bytes is taken as a form, the empty one too. It is a buffer of the caller's and a used length, to start with 0 and any
 * bytes. The used bytes are an entry for each form whose count is not 0, in the order in which they became present: the
 * form's length (4 bytes) and its count (4), little-endian, then the form. So each present form costs its bytes plus 8.
 * While nothing else writes to the two, each count is the accepted adds minus the accepted withdrawals of that form, and
 * no call answers DAMAGED_REGISTER. The used bytes may be kept in a file, and lent again in a buffer of any length that
 * takes them.
 *
 * Time: each call checks the used bytes whole, and looks through them for the form. The check that no form repeats grows
 * with the number of forms up to about 11,000, and from there on with its square; forms that are made to collide in it
 * take longer. It takes 31 KiB of the stack.
 */

/*
 * One more of a form. A new form goes to the end; the count of a present one grows where it stands.
 *
 * Success: answer[0] is the form's count, answer[1] the used length, which *used is set to. Bytes past it keep their
 * values.
 * Refusals, in this order: TOO_LONG; NOT_UTF8 (both of the form; answer[0] as in govlezna_check_utf8);
 * DAMAGED_REGISTER (*used passes the buffer, or its entries do not fill it exactly, repeat a form, are not UTF-8 or have
 * a count of 0); REGISTER_FULL (the buffer has no room for a new form's entry, or the count is 4,294,967,295 already).
 * None writes to `buffer` or *used.
 * Example: *used is 0 and `buffer` has 9 bytes: `a` gives count 1, used length 9, the bytes { 1,0,0,0, 1,0,0,0, 'a' }.
 * `a` again gives count 2, used length 9; then the empty form is refused by REGISTER_FULL.
 */
GOVLEZNA_MUST_USE
uint32_t govlezna_register_add(const uint8_t *form, size_t form_length, uint8_t *buffer, size_t buffer_length,
                               uint64_t *used, uint64_t answer[2]);

/*
 * One less of a form. With its last one its entry goes: those after it move up, and the bytes freed at the end of the
 * used ones are set to 0.
 *
 * Success: answer[0] is the form's count, answer[1] the used length, which *used is set to.
 * Refusals, in this order: TOO_LONG; NOT_UTF8; DAMAGED_REGISTER, all as in govlezna_register_add; ABSENT_FORM (the form
 * is not in the register). None writes to `buffer` or *used.
 * Example: after the two adds above `a` gives count 1, used length 9, and again `a` count 0, used length 0 and nine bytes
 * of 0; then it is refused by ABSENT_FORM. With *used 8 the bytes { 1,0,0,0, 1,0,0,0, 'a' } are refused by
 * DAMAGED_REGISTER.
 */
GOVLEZNA_MUST_USE
uint32_t govlezna_register_withdraw(const uint8_t *form, size_t form_length, uint8_t *buffer, size_t buffer_length,
                                    uint64_t *used, uint64_t answer[2]);

/*
 * The count of a form, 0 where it is not in the register.
 *
 * Success: answer[0] is the form's count.
 * Refusals, in this order: TOO_LONG; NOT_UTF8; DAMAGED_REGISTER, all as in govlezna_register_add.
 * Example: used 9 and the bytes { 1,0,0,0, 2,0,0,0, 'a' }: `a` gives 2, `b` gives 0.
 */
GOVLEZNA_MUST_USE
uint32_t govlezna_register_count(const uint8_t *form, size_t form_length, const uint8_t *buffer, size_t buffer_length,
                                 uint64_t used, uint64_t answer[2]);

#ifdef __cplusplus
}
#endif

#endif
