//! What document 02 says of single cases of the strict calls (K8). No value here has a character that a canonical form writes as a
//! reference, so that the rows are both calls'.

use crate::documented::{marked, row, with, within, Documented, Outcome::Answered, Outcome::Made};
use crate::draft::Entity;

const U80: &[Entity] = &[("e", Some("\u{80}"))];
const U7F: &[Entity] = &[("e", Some("\u{7F}"))];
const U1: &[Entity] = &[("e", Some("\u{1}")), ("f", Some("x")), ("\u{1}", Some("y"))];
const NESTED: &[Entity] = &[("e", Some("x&f;")), ("f", Some("ab\u{1}")), ("g", None)];
const NEVER: &[Entity] = &[
    ("e", Some("é\u{FFFE}")),
    ("z", Some("\0")),
    ("n", Some("&#1;")),
];

pub const ROWS: &[Documented] = &[
    // 26 comes before 16 at its character, and after what stands before it.
    within(0, 0, row("\t\u{1}", 0, Answered(16, 0, 0))),
    within(0, 0, row("\u{1}\t", 0, Answered(26, 0, 0))),
    within(0, 0, row("\u{1}\t", 2, Answered(26, 0, 0))),
    within(0, 0, row("\u{80}", 2, Answered(26, 0, 0))),
    within(0, 0, row("½\u{80}", 2, Answered(16, 0, 0))),
    within(0, 0, row("\u{80}", 0, Made("\u{80}", 0))),
    within(0, 0, row("\u{85}", 2, Answered(16, 0, 0))),
    row("\r\u{80}", 2, Answered(26, 1, 0)),
    row("\u{1}&", 0, Answered(26, 0, 0)),
    row("\u{1}&x;", 1, Answered(26, 0, 0)),
    row("&x;\u{1}", 0, Answered(11, 1, 2)),
    row("&#1;\u{1}", 0, Answered(25, 0, 0)),
    row("\u{1}&#1;", 0, Answered(26, 0, 0)),
    row("é\u{1}\u{1}", 0, Answered(26, 2, 0)),
    // What stands between `&` and `;` is a name.
    row("&\u{1};", 0, Answered(11, 1, 2)),
    row("&\u{1};", 2, Answered(11, 1, 2)),
    row("&\u{1}", 0, Answered(10, 0, 2)),
    row("&#\u{1};", 0, Answered(13, 0, 0)),
    with(U1, within(1, 1, row("&\u{1};", 0, Made("y", 1)))),
    with(U1, within(1, 1, row("&\u{1};", 2, Made("y", 1)))),
    // By their numbers, after 12 to 15.
    row("&#xFFFE;", 0, Answered(25, 0, 0)),
    row("&#xFFFE;", 2, Answered(25, 0, 0)),
    row("&#xFFFF;", 2, Answered(25, 0, 0)),
    row("&#0;", 0, Answered(15, 0, 0)),
    row("&#0;", 2, Answered(15, 0, 0)),
    row("&#xD800;", 0, Answered(14, 0xD800, 0)),
    row("&#x110000;", 2, Answered(14, 0x11_0000, 0)),
    row("&#+1;", 0, Answered(12, 0, 0)),
    row("a&#1;", 0, Answered(25, 0, 0)),
    row("a&#1;", 1, Answered(25, 0, 0)),
    row("a&#1;", 2, Made("a\u{1}", 0)),
    row("a\u{1}", 2, Answered(26, 1, 0)),
    row("&#31;", 0, Answered(25, 0, 0)),
    row("&#x1F;&#127;&#x9f;", 2, Made("\u{1F}\u{7F}\u{9F}", 0)),
    row("&#127;&#x80;", 0, Made("\u{7F}\u{80}", 0)),
    row("&#x10FFFF;&#xFFFD;", 0, Made("\u{10FFFF}\u{FFFD}", 0)),
    // Raw.
    row("\u{FFFE}", 0, Answered(26, 0, 0)),
    row("a\u{FFFE}", 2, Answered(26, 1, 0)),
    row("\u{FFFF}", 0, Answered(26, 0, 0)),
    row("\u{FFFF}", 2, Answered(26, 0, 0)),
    row("\0", 0, Answered(26, 0, 0)),
    row("\0", 2, Answered(26, 0, 0)),
    row("\u{B}", 0, Answered(26, 0, 0)),
    row("\u{1F}", 1, Answered(26, 0, 0)),
    row("\u{1F}", 2, Answered(26, 0, 0)),
    row("\u{7F}", 0, Made("\u{7F}", 0)),
    row("\u{7F}", 2, Answered(26, 0, 0)),
    row("\u{84}", 2, Answered(26, 0, 0)),
    row("a\u{86}", 2, Answered(26, 1, 0)),
    row("\u{9F}", 2, Answered(26, 0, 0)),
    row("\u{9F}", 0, Made("\u{9F}", 0)),
    row("\u{85}\u{2028}", 2, Made("  ", 0)),
    row("\u{85}\u{2028}", 0, Made("\u{85}\u{2028}", 0)),
    row("~\u{A0}\u{FFFD}😀", 2, Made("~\u{A0}\u{FFFD}😀", 0)),
    // In texts of the table: Char of the version is asked, and of those that are opened alone.
    with(U1, within(1, 1, row("&e;", 0, Answered(26, 0, 0)))),
    with(U1, within(1, 1, row("&e;", 2, Made("\u{1}", 1)))),
    marked(U1, within(1, 1, row("&e;", 0, Answered(26, 0, 0)))),
    marked(U1, within(1, 1, row("&e;", 2, Made("\u{1}", 1)))),
    with(U1, within(1, 0, row("&e;", 0, Answered(17, 0, 0)))),
    with(U1, within(1, 1, row("&f;", 0, Made("x", 1)))),
    with(U7F, within(1, 1, row("&e;", 2, Made("\u{7F}", 1)))),
    with(U7F, within(1, 1, row("&e;", 0, Made("\u{7F}", 1)))),
    with(U80, within(1, 1, row("&e;", 2, Answered(16, 0, 0)))),
    with(U80, within(2, 1, row("&e;", 2, Made("\u{80}", 1)))),
    marked(U80, within(1, 1, row("&e;", 2, Made("\u{80}", 1)))),
    with(NEVER, within(2, 1, row("a&e;", 0, Answered(26, 2, 0)))),
    with(NEVER, within(2, 1, row("a&e;", 2, Answered(26, 2, 0)))),
    with(NEVER, within(1, 1, row("&z;", 2, Answered(26, 0, 0)))),
    marked(NEVER, within(1, 1, row("&z;", 0, Answered(26, 0, 0)))),
    marked(NEVER, within(1, 1, row("&e;", 2, Answered(26, 2, 0)))),
    with(NEVER, within(2, 1, row("&n;", 0, Answered(25, 0, 0)))),
    with(NEVER, within(2, 1, row("&n;", 2, Made("\u{1}", 1)))),
    with(NEVER, within(1, 1, row("&n;", 0, Answered(16, 0, 0)))),
    with(NESTED, within(2, 2, row("a&e;", 0, Answered(26, 2, 0)))),
    with(NESTED, within(2, 2, row("a&e;", 2, Made("axab\u{1}", 2)))),
    with(NESTED, row("\u{1}&g;", 0, Answered(26, 0, 0))),
    with(NESTED, row("&g;\u{1}", 0, Answered(27, 0, 0))),
];
