//! Document 01's rows, the examples of XML 1.0, 3.3.3, and K9's and K4's cases. The W3C has two spaces at the end of its second example,
//! as a marked list has: DIFFERENCES.md says why there is one without the mark.

use crate::documented::{marked, row, with, within, Documented, Outcome::Answered, Outcome::Made};
use crate::draft::Entity;

const EXAMPLE: &str = "&d;&d;A&a;&#x20;&a;B&da;";
const HALF: &[Entity] = &[("e", Some("½"))];
const ITSELF: &[Entity] = &[("e", Some("&e;"))];
const AMP: &[Entity] = &[("amp", Some("X"))];
const LINE_ENDS: &[Entity] = &[("d", Some("\r")), ("a", Some("\n")), ("da", Some("\r\n"))];
/// K9.
const EXTERNAL: &[Entity] = &[("e", None), ("lt", None), ("amp", None)];
const EXTERNAL_FIRST: &[Entity] = &[("e", None), ("e", Some("x"))];
const EXTERNAL_LATER: &[Entity] = &[("e", Some("x")), ("e", None)];
const NEVER_OPENED: &[Entity] = &[("a", Some("x&e;")), ("e", None), ("b", Some(""))];
/// K4.
const TAB: &[Entity] = &[("t", Some("\t"))];
const SEPARATORS: &[Entity] = &[("e", Some("\u{85}\u{2028}")), ("f", Some("\r\u{85}\r\n"))];
const NESTED: &[Entity] = &[
    ("e", Some("x&f;\n")),
    ("f", Some("\r&g;\r")),
    ("g", Some("\r\n½")),
];
const NUMBERS: &[Entity] = &[("e", Some("&#13;&#10;&#9;"))];

pub const ROWS: &[Documented] = &[
    row("&a&b;", 0, Answered(11, 1, 4)),
    row("&;", 0, Answered(11, 1, 1)),
    row("&#x41;&#65;", 0, Made("AA", 0)),
    row("&#+1;", 0, Answered(12, 0, 0)),
    row("&#X41;", 0, Answered(13, 0, 0)),
    row("&#xD800;", 0, Answered(14, 55_296, 0)),
    row("&#0;", 0, Answered(15, 0, 0)),
    row("&#;", 0, Answered(13, 0, 0)),
    within(0, 0, row("a\t", 0, Answered(16, 0, 0))),
    within(0, 0, row("a b", 0, Made("a b", 0))),
    within(128, 0, row("a\t", 0, Made("a ", 0))),
    within(129, 0, row("a\t", 0, Answered(2, 0, 0))),
    with(HALF, within(1, 1, row("&e;", 0, Made("½", 1)))),
    with(HALF, within(1, 1, row("&e;", 2, Answered(16, 0, 0)))),
    with(HALF, within(1, 0, row("&e;", 0, Answered(17, 0, 0)))),
    with(HALF, within(1, 0, row("&e;", 2, Answered(17, 0, 0)))),
    with(ITSELF, within(3, 3, row("&e;", 0, Answered(16, 0, 0)))),
    with(ITSELF, within(3, 2, row("&e;", 0, Answered(17, 0, 0)))),
    with(AMP, row("&amp;", 0, Made("&", 0))),
    with(LINE_ENDS, row("\n\nxyz", 0, Made("  xyz", 0))),
    with(
        LINE_ENDS,
        within(2, 5, row(EXAMPLE, 0, Made("  A   B ", 5))),
    ),
    with(
        LINE_ENDS,
        row(
            "&#xd;&#xd;A&#xa;&#xa;B&#xd;&#xa;",
            0,
            Made("\r\rA\n\nB\r\n", 0),
        ),
    ),
    with(EXTERNAL_FIRST, row("&e;", 0, Answered(27, 0, 0))),
    with(EXTERNAL_LATER, within(2, 1, row("&e;", 0, Made("x", 1)))),
    with(EXTERNAL, within(0, 0, row("&e;", 0, Answered(16, 0, 0)))),
    with(EXTERNAL, within(1, 0, row("a &e;", 2, Answered(27, 2, 0)))),
    with(EXTERNAL, row("&lt;", 0, Answered(27, 0, 0))),
    with(EXTERNAL, row("&amp;", 0, Made("&", 0))),
    with(EXTERNAL, row("&gt;&f;&e;", 0, Answered(11, 5, 6))),
    with(EXTERNAL, row("&e;&e", 0, Answered(27, 0, 0))),
    with(EXTERNAL, row("&e", 0, Answered(10, 0, 2))),
    with(NEVER_OPENED, within(2, 1, row("a&b;", 0, Made("a", 1)))),
    with(
        NEVER_OPENED,
        within(2, 1, row("aa&a;", 0, Answered(27, 1, 0))),
    ),
    with(
        NEVER_OPENED,
        within(1, 1, row("aa&a;", 0, Answered(16, 0, 0))),
    ),
    with(
        NEVER_OPENED,
        within(2, 0, row("aa&a;", 0, Answered(17, 2, 0))),
    ),
    // The standard's example, marked.
    marked(
        LINE_ENDS,
        within(2, 5, row(EXAMPLE, 0, Made("  A   B  ", 5))),
    ),
    marked(
        LINE_ENDS,
        within(2, 5, row(EXAMPLE, 2, Made("  A   B  ", 5))),
    ),
    marked(
        LINE_ENDS,
        within(2, 4, row(EXAMPLE, 0, Answered(17, 20, 0))),
    ),
    marked(LINE_ENDS, within(1, 5, row(EXAMPLE, 0, Answered(16, 0, 0)))),
    // Nothing stops in `½`, and U+0085 and U+2028 are characters.
    marked(HALF, within(1, 1, row("&e;", 0, Made("½", 1)))),
    marked(HALF, within(1, 1, row("&e;", 2, Made("½", 1)))),
    marked(HALF, within(1, 0, row("&e;", 2, Answered(17, 0, 0)))),
    with(SEPARATORS, within(1, 1, row("&e;", 2, Answered(16, 0, 0)))),
    with(SEPARATORS, within(2, 1, row("&e;", 2, Made("  ", 1)))),
    marked(
        SEPARATORS,
        within(1, 1, row("&e;", 2, Made("\u{85}\u{2028}", 1))),
    ),
    marked(
        SEPARATORS,
        within(1, 1, row("&e;", 0, Made("\u{85}\u{2028}", 1))),
    ),
    with(SEPARATORS, within(2, 1, row("&f;", 2, Made("  ", 1)))),
    marked(
        SEPARATORS,
        within(2, 1, row("&f;", 2, Made(" \u{85}  ", 1))),
    ),
    marked(SEPARATORS, within(1, 1, row("&f;", 2, Answered(16, 0, 0)))),
    marked(TAB, within(1, 1, row("&t;", 2, Answered(16, 0, 0)))),
    marked(TAB, within(2, 1, row("&t;", 2, Made(" ", 1)))),
    // Texts in texts are past line ends too.
    marked(NESTED, within(4, 3, row("&e;", 0, Made("x   ½  ", 3)))),
    marked(NESTED, within(4, 3, row("&e;", 2, Made("x   ½  ", 3)))),
    marked(NESTED, within(3, 3, row("&e;", 2, Answered(16, 0, 0)))),
    with(NESTED, within(4, 3, row("&e;", 2, Made("x  ½  ", 3)))),
    marked(NUMBERS, within(2, 1, row("&e;", 0, Made("\r\n\t", 1)))),
    // The value's own text is read as without the mark.
    marked(&[], row("a\r\nb", 0, Made("a b", 0))),
    marked(&[], row("\u{85}\u{2028}\r\u{85}\r\n", 2, Made("    ", 0))),
    marked(&[], row("\u{85}\u{2028}", 0, Made("\u{85}\u{2028}", 0))),
    marked(&[], within(0, 0, row("½", 2, Answered(16, 0, 0)))),
    marked(&[], within(0, 0, row("½", 0, Made("½", 0)))),
    marked(&[], row("&lt;&amp;", 2, Made("<&", 0))),
    marked(EXTERNAL_FIRST, row("\r\n&e;", 0, Answered(27, 2, 0))),
    marked(EXTERNAL_LATER, within(1, 1, row("&e;", 0, Made("x", 1)))),
];
