//! What the documents say of single canonical forms.

use crate::documented::{
    in_room, in_scratch, marked, row, with, within, Documented, Outcome::Answered, Outcome::Formed,
    Outcome::Made,
};

pub const ROWS: &[Documented] = &[
    row("a&#x85;b", 2, Made("a&#133;b", 0)),
    row("a&#x85;b", 0, Made("a\u{85}b", 0)),
    with(&[("e", None)], row("<&e;", 0, Answered(27, 1, 0))),
    with(&[("amp", None)], row("&amp;", 2, Made("&amp;", 0))),
    with(
        &[("gt", None), ("e", Some("&gt;"))],
        within(2, 1, row("&e;", 0, Answered(27, 0, 0))),
    ),
    with(
        &[("e", Some("\u{85}\r\n"))],
        within(2, 1, row("&e;", 2, Made("  ", 1))),
    ),
    marked(
        &[("e", Some("\u{85}\r\n"))],
        within(2, 1, row("&e;", 2, Made("&#133;  ", 1))),
    ),
    marked(
        &[("e", Some("\u{85}\r\n"))],
        within(2, 1, row("&e;", 0, Made("\u{85}  ", 1))),
    ),
    marked(
        &[("e", Some("½\u{2028}<"))],
        within(1, 1, row("\t&e;", 2, Made(" ½&#8232;&lt;", 1))),
    ),
    marked(
        &[("e", Some("½\u{2028}\t"))],
        within(1, 1, row("&e;", 2, Answered(16, 0, 0))),
    ),
    marked(
        &[("e", Some("\r\u{85}"))],
        within(2, 1, row("&e;", 2, Made(" &#133;", 1))),
    ),
    marked(
        &[("e", Some("&f;")), ("f", Some("\r\n"))],
        within(3, 2, row("&e;", 0, Made("  ", 2))),
    ),
    marked(&[], row("\r\n\r\u{85}", 2, Made("  ", 0))),
];

/// The scratch (K7): the last character of the value, not of the form; 18 after the refusals of the walk and before 19, for an empty value
/// too; a refusal leaves it, and so does an empty value. The rows are the strict call's too.
pub const HANDS: &[Documented] = &[
    row("½", 0, Formed("½", 0, &[0xC2, 0xBD, 0, 0])),
    row("a&#9;", 0, Formed("a&#9;", 0, &[9, 0, 0, 0])),
    in_scratch(3, row("", 0, Answered(18, 4, 0))),
    in_scratch(3, row("&x;", 0, Answered(11, 1, 2))),
    in_scratch(3, in_room(0, row("a<", 0, Answered(18, 4, 0)))),
    in_room(3, row("<", 0, Answered(19, 4, 0))),
    row("", 0, Formed("", 0, &[])),
    row("&amp;;", 0, Formed("&amp;;", 0, b";\0\0\0")),
    row("&amp;", 0, Formed("&amp;", 0, b"&\0\0\0")),
    row("&#x85;", 2, Formed("&#133;", 0, &[0xC2, 0x85, 0, 0])),
    row("a😀", 2, Formed("a😀", 0, "😀".as_bytes())),
    in_scratch(5, row("ab", 0, Formed("ab", 0, b"b\0\0\0"))),
];
