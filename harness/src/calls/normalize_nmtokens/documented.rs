//! What document 02 says of the second stage (K5), and the examples of XML 1.0, 3.3.3, for NMTOKENS.

use crate::documented::{marked, row, with, within, Documented, Outcome::Answered, Outcome::Made};

const D: (&str, Option<&str>) = ("d", Some("\r"));
const A: (&str, Option<&str>) = ("a", Some("\n"));
const DA: (&str, Option<&str>) = ("da", Some("\r\n"));

pub const ROWS: &[Documented] = &[
    row("", 0, Made("", 0)),
    row("  ", 2, Made("", 0)),
    row("  a  b ", 0, Made("a b", 0)),
    row("a&#10;b", 0, Made("a\nb", 0)),
    row("&#10; &#9;  &#13; ", 2, Made("\n \t \r", 0)),
    row("&#32;a&#32;&#32;b", 0, Made("a b", 0)),
    row("\ta\n\nb\r\n", 0, Made("a b", 0)),
    row("a\u{A0} \u{3000}b", 0, Made("a\u{A0} \u{3000}b", 0)),
    row("a\u{85}\u{2028}b", 2, Made("a b", 0)),
    row("a\u{85}\u{2028}b", 0, Made("a\u{85}\u{2028}b", 0)),
    // Section 3.3.3.
    row("\n\nxyz", 0, Made("xyz", 0)),
    with(
        &[D, A, DA],
        within(2, 5, row("&d;&d;A&a;&#x20;&a;B&da;", 0, Made("A B", 5))),
    ),
    row(
        "&#xd;&#xd;A&#xa;&#xa;B&#xd;&#xa;",
        0,
        Made("\r\rA\n\nB\r\n", 0),
    ),
    marked(&[DA], within(2, 1, row("&da;x", 0, Made("x", 1)))),
    with(&[("e", None)], row(" &e;", 0, Answered(27, 1, 0))),
    row(" \t", 3, Answered(4, 0, 0)),
    within(0, 0, row(" \t", 0, Answered(16, 0, 0))),
    within(0, 0, row("  a ", 0, Made("a", 0))),
];
