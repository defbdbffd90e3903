//! What document 02 says of single cases (K3), and the declarations of XML 1.0, 3.3.3.

use crate::documented::Outcome::{Answered, Declared};
use crate::documented::{in_table, row, Documented};

const fn departs(text: &'static str, version: u8, at: u64) -> Documented {
    row(text, version, Answered(21, at, 0))
}

const fn number(text: &'static str, refusal: u32, first: u64) -> Documented {
    row(text, 0, Answered(refusal, first, 0))
}

const fn gives(
    text: &'static str,
    version: u8,
    table: &'static [(&'static str, &'static str)],
) -> Documented {
    row(text, version, Declared(table))
}

/// A declaration that begins with a name of 256 bytes.
macro_rules! long_name {
    ($after: literal) => {
        concat!(
            "<!ENTITY nnnnnnnnnnnnnnnnnnnnnnnnnnnnnnnnnnnnnnnnnnnnnnnnnnnnnnnnnnnnnnnn",
            "nnnnnnnnnnnnnnnnnnnnnnnnnnnnnnnnnnnnnnnnnnnnnnnnnnnnnnnnnnnnnnnn",
            "nnnnnnnnnnnnnnnnnnnnnnnnnnnnnnnnnnnnnnnnnnnnnnnnnnnnnnnnnnnnnnnn",
            "nnnnnnnnnnnnnnnnnnnnnnnnnnnnnnnnnnnnnnnnnnnnnnnnnnnnnnnnnnnnnnnn",
            $after
        )
    };
}

pub const ROWS: &[Documented] = &[
    // 21 before 22 at one place; a name at the very end of the text is 21 there.
    row(long_name!(" 'x'>"), 0, Answered(22, 265, 0)),
    departs(long_name!("'x'>"), 0, 265),
    departs(long_name!(""), 0, 265),
    // The example of 3.3.3, whose value K4's rows read through such a table.
    gives(
        "<!ENTITY d \"&#xD;\">\n<!ENTITY a \"&#xA;\">\n<!ENTITY da \"&#xD;&#xA;\">\n",
        0,
        &[("d", "\r"), ("a", "\n"), ("da", "\r\n")],
    ),
    // White space alone gives the mark, the end and an empty pool.
    gives("", 0, &[]),
    gives(" \t\r\n", 2, &[]),
    // In order, also of one name; both quotes, and no white space before `>`.
    gives(
        "<!ENTITY e \"1\"><!ENTITY f '\"'>\t<!ENTITY e \"2\" >",
        1,
        &[("e", "1"), ("f", "\""), ("e", "2")],
    ),
    // General references stay as written, character references are replaced: `&#38;` puts a raw `&` into the pool.
    gives(
        "<!ENTITY e '&f;&lt;&#38;&#x25;&#39;'>",
        0,
        &[("e", "&f;&lt;&%'")],
    ),
    // Raw characters are not held to Char, nor are those that a reference names.
    gives(
        "<!ENTITY e '\0\u{FFFE}&#1;&#xFFFE;<>'>",
        0,
        &[("e", "\0\u{FFFE}\u{1}\u{FFFE}<>")],
    ),
    departs("\0", 0, 0),
    departs("<!ENTITY \u{FFFE} ''>", 0, 9),
    // Line ends first: one LF of each in the pool.
    gives("<!ENTITY\r\ne\r'a\r\nb\rc'>", 0, &[("e", "a\nb\nc")]),
    gives(
        "<!ENTITY\u{85}e\u{2028}'\r\u{85}\u{85}\u{2028}\r\n'>",
        2,
        &[("e", "\n\n\n\n")],
    ),
    gives(
        "<!ENTITY e '\r\u{85}\u{2028}'>",
        1,
        &[("e", "\n\u{85}\u{2028}")],
    ),
    departs("<!ENTITY\u{85}e ''>", 0, 8),
    departs("<!ENTITY e\u{2028}''>", 1, 10),
    // Offsets count after them, between `&#` and `;` too.
    departs("<!ENTITY a \"&#\r\n\">", 0, 15),
    departs("\r\n\r\n%", 0, 2),
    departs("\r\u{85}\u{2028}%", 2, 2),
    // Parameter references and entities, external identifiers, and what else the form has not.
    departs("<!ENTITY e \"a%\">", 0, 13),
    departs("<!ENTITY % e ''>", 0, 9),
    departs("<!ENTITY e SYSTEM ''>", 0, 11),
    departs("<!ENTITY e PUBLIC '' ''>", 0, 11),
    departs("<!-- -->", 0, 2),
    departs("<!ENTITY e '' NDATA n>", 0, 14),
    departs("\u{FEFF}<!ENTITY e ''>", 0, 0),
    departs("%e;", 0, 0),
    departs("<!ENTITYe ''>", 0, 8),
    departs("<!entity e ''>", 0, 2),
    departs("<!ENTITY e''>", 0, 10),
    departs("<!ENTITY e '' >>", 0, 15),
    departs("<!ENTITY 1 ''>", 0, 9),
    departs("<!ENTITY e ''", 0, 13),
    departs("<!ENTITY e 'a", 0, 13),
    departs("<", 0, 1),
    // A reference without its `;`, before the quote or the end.
    departs("<!ENTITY e \"&;\">", 0, 13),
    departs("<!ENTITY e \"&\">", 0, 13),
    departs("<!ENTITY e '&#'>", 0, 14),
    departs("<!ENTITY e '&#1'>", 0, 15),
    departs("<!ENTITY e '&f'>", 0, 14),
    departs("<!ENTITY e '&f&g;'>", 0, 14),
    departs("<!ENTITY e '&#", 0, 14),
    departs("<!ENTITY e '& f;'>", 0, 13),
    // All but the quote may stand between `&#` and `;`.
    number("<!ENTITY e \"&#'1;\">", 13, 0),
    number("<!ENTITY e \"&#%;\">", 13, 0),
    number("<!ENTITY e \"&#1&#2;\">", 13, 0),
    number("<!ENTITY e \"&#;\">", 13, 0),
    number("<!ENTITY e \"&#X41;\">", 13, 0),
    number("<!ENTITY e \"&#+1;\">", 12, 0),
    number("<!ENTITY e \"&#xD800;\">", 14, 0xD800),
    number("<!ENTITY e \"&#1114112;\">", 14, 1_114_112),
    number("<!ENTITY e \"&#0;\">", 15, 0),
    number("<!ENTITY e '&#0;%'", 15, 0),
    // The first fault from left to right.
    departs("<!ENTITY e '%&#0;'>", 0, 12),
    // 23 after the whole text is read, with both lengths.
    in_table(13, 2, row("<!ENTITY e 'a'>", 0, Answered(23, 14, 2))),
    in_table(14, 1, row("<!ENTITY e 'a'>", 0, Answered(23, 14, 2))),
    in_table(14, 2, gives("<!ENTITY e 'a'>", 0, &[("e", "a")])),
    in_table(0, 0, row("", 0, Answered(23, 2, 0))),
    in_table(2, 0, gives("", 0, &[])),
    in_table(0, 0, departs("<!ENTITY e ''>%", 0, 14)),
];
