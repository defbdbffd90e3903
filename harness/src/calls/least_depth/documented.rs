//! K14's cases: document 02's numbers, and what follows from its words for values that are easily misread.

use crate::arguments::MOST_OPENINGS;
use crate::documented::{chained, marked, row, with, within};
use crate::documented::{Documented, Outcome, Outcome::Answered};
use crate::draft::Entity;

const PLAIN: &[Entity] = &[("e", Some("x"))];
const NESTED: &[Entity] = &[("e", Some("&f;")), ("f", Some("x"))];
const ITSELF: &[Entity] = &[("e", Some("&e;"))];
const HALF: &[Entity] = &[("e", Some("½"))];
const BLANKS: &[Entity] = &[("e", Some("a\tb")), ("f", Some("&#9;"))];
const FIVE: &[Entity] = &[("amp", Some("&e;")), ("lt", Some("&gt;")), ("e", Some(""))];
const EXTERNAL: &[Entity] = &[("e", None), ("f", Some("&e;")), ("g", Some(""))];
/// A short text that is opened in the value, then in a text, after one that needed as much.
const SHORT: &[Entity] = &[
    ("a", Some("&d;")),
    ("d", Some("y")),
    ("x", Some("z")),
    ("b", Some("&x;")),
];

/// The depth is no argument of this call: none is handed over.
const fn limited(limit: u64, text: &'static str, choice: u8, outcome: Outcome) -> Documented {
    within(0, limit, row(text, choice, outcome))
}

const fn value(text: &'static str, choice: u8, outcome: Outcome) -> Documented {
    limited(MOST_OPENINGS, text, choice, outcome)
}

pub const ROWS: &[Documented] = &[
    value("", 0, Answered(0, 0, 0)),
    value("a b", 0, Answered(0, 0, 0)),
    value("a b", 2, Answered(0, 0, 0)),
    value("a\t", 0, Answered(0, 1, 0)),
    value("\r\n", 1, Answered(0, 1, 0)),
    value("½", 0, Answered(0, 0, 0)),
    value("½", 2, Answered(0, 1, 0)),
    value("é", 2, Answered(0, 0, 0)),
    value("&lt;", 0, Answered(0, 1, 0)),
    value("&amp;&#38;", 0, Answered(0, 1, 0)),
    with(PLAIN, value("&e;", 0, Answered(0, 1, 0))),
    with(PLAIN, value("a b", 0, Answered(0, 0, 0))),
    with(NESTED, value("&e;", 0, Answered(0, 2, 0))),
    with(NESTED, value("&e;&f;", 0, Answered(0, 2, 0))),
    with(NESTED, value("&e;\t&lt;", 2, Answered(0, 2, 0))),
    with(BLANKS, value("&e;", 0, Answered(0, 2, 0))),
    with(BLANKS, value("&f;", 0, Answered(0, 2, 0))),
    with(FIVE, value("&amp;", 0, Answered(0, 1, 0))),
    with(FIVE, value("&lt;", 0, Answered(0, 2, 0))),
    with(SHORT, value("&a;&x;&b;", 0, Answered(0, 2, 0))),
    with(SHORT, value("&b;&x;&a;", 2, Answered(0, 2, 0))),
    // The limit as in any reading.
    with(NESTED, limited(2, "&e;", 0, Answered(0, 2, 0))),
    with(NESTED, limited(1, "&e;", 0, Answered(17, 0, 0))),
    with(NESTED, limited(0, "a&e;", 0, Answered(17, 1, 0))),
    with(NESTED, limited(0, "&lt;", 0, Answered(0, 1, 0))),
    with(ITSELF, limited(2, "&e;", 0, Answered(17, 0, 0))),
    with(ITSELF, limited(127, "&e;", 0, Answered(17, 0, 0))),
    with(ITSELF, limited(128, "&e;", 0, Answered(32, 0, 0))),
    with(ITSELF, value("&e;", 0, Answered(32, 0, 0))),
    with(ITSELF, value("&e;&u;", 0, Answered(32, 0, 0))),
    with(ITSELF, value("ab&u;&e;", 0, Answered(11, 3, 4))),
    limited(MOST_OPENINGS + 1, "", 3, Answered(3, 0, 0)),
    limited(0, "", 3, Answered(4, 0, 0)),
    // A chain needs as much as it has texts, and one more where the last has a stop.
    chained(127, "x", value("&n0;", 0, Answered(0, 127, 0))),
    chained(128, "x", value("&n0;", 0, Answered(0, 128, 0))),
    chained(128, "x", value("&n0;", 2, Answered(0, 128, 0))),
    chained(129, "x", value("&n0;", 0, Answered(32, 0, 0))),
    chained(127, "&u;", value("&n0;", 0, Answered(11, 1, 2))),
    chained(128, "&u;", value("&n0;", 0, Answered(32, 0, 0))),
    chained(127, "½", value("&n0;", 2, Answered(0, 128, 0))),
    chained(128, "½", value("&n0;", 2, Answered(32, 0, 0))),
    chained(128, "½", value("&n0;", 0, Answered(0, 128, 0))),
    chained(128, "x", limited(127, "&n0;", 0, Answered(17, 1, 0))),
    // Marked lists (K4).
    with(HALF, value("&e;", 0, Answered(0, 1, 0))),
    with(HALF, value("&e;", 2, Answered(0, 2, 0))),
    marked(HALF, value("&e;", 0, Answered(0, 1, 0))),
    marked(HALF, value("&e;", 2, Answered(0, 1, 0))),
    marked(HALF, value("½", 2, Answered(0, 1, 0))),
    marked(BLANKS, value("&e;", 2, Answered(0, 2, 0))),
    // External entities (K9).
    with(EXTERNAL, value("a&e;", 0, Answered(27, 1, 0))),
    with(EXTERNAL, value("a&f;", 0, Answered(27, 0, 0))),
    with(EXTERNAL, limited(0, "&f;", 0, Answered(17, 0, 0))),
    marked(EXTERNAL, value("&g;", 0, Answered(0, 1, 0))),
];
