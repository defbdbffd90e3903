//! K11's cases: document 02's words, and what follows from them for jobs that are easily misread.

use crate::arguments::{DEEPEST, MOST_OPENINGS};
use crate::documented::{chained, marked, row, spanned, with, within};
use crate::documented::{Documented, Outcome, Outcome::Answered, Outcome::Reported};
use crate::draft::Entity;

const PLAIN: &[Entity] = &[("e", Some("sail"))];
const NESTED: &[Entity] = &[("e", Some("&f;")), ("f", Some("x"))];
const EMPTY: &[Entity] = &[("e", Some("&f;")), ("f", Some(""))];
const FIRST: &[Entity] = &[("e", Some("one")), ("e", Some("never")), ("amp", Some("X"))];
const EXTERNAL: &[Entity] = &[("e", None), ("g", Some("\r\n"))];

type Spans = &'static [(u64, u64)];

const fn job(text: &'static str, spans: Spans, outcome: Outcome) -> Documented {
    under(DEEPEST, MOST_OPENINGS, text, spans, outcome)
}

const fn under(
    depth: u64,
    limit: u64,
    text: &'static str,
    spans: Spans,
    outcome: Outcome,
) -> Documented {
    newer(0, depth, limit, text, spans, outcome)
}

const fn newer(
    choice: u8,
    depth: u64,
    limit: u64,
    text: &'static str,
    spans: Spans,
    outcome: Outcome,
) -> Documented {
    spanned(spans, within(depth, limit, row(text, choice, outcome)))
}

/// Place 0 of the report counts the accepted, place 28 their bytes.
pub const ROWS: &[Documented] = &[
    job("", &[], Reported(&[])),
    job("a&b;", &[], Reported(&[])),
    job("", &[(0, 0)], Reported(&[(0, 1)])),
    job(
        "abc",
        &[(3, 0), (0, 0), (0, 3), (1, 1)],
        Reported(&[(0, 4), (28, 4)]),
    ),
    with(
        PLAIN,
        job(
            "a&e;&b;",
            &[(0, 4), (4, 3), (7, 0)],
            Reported(&[(0, 2), (11, 1), (28, 5)]),
        ),
    ),
    with(
        PLAIN,
        job(
            "&e;",
            &[(0, 3), (0, 3), (0, 2), (1, 2)],
            Reported(&[(0, 3), (10, 1), (28, 10)]),
        ),
    ),
    // A value by itself: what stands around it has no say.
    job(
        "\r\n",
        &[(0, 2), (0, 1), (1, 1)],
        Reported(&[(0, 3), (28, 3)]),
    ),
    job(
        "&lt;",
        &[(0, 4), (0, 3), (1, 3)],
        Reported(&[(0, 2), (10, 1), (28, 4)]),
    ),
    job("a½b", &[(0, 4), (1, 2)], Reported(&[(0, 2), (28, 6)])),
    // Parts of a character, whose text is UTF-8.
    job(
        "½",
        &[(0, 1), (1, 1), (0, 2), (2, 0), (1, 0)],
        Reported(&[(0, 3), (5, 2), (28, 2)]),
    ),
    job("€", &[(0, 2), (2, 1)], Reported(&[(5, 2)])),
    newer(
        2,
        0,
        0,
        "½",
        &[(0, 2), (0, 1)],
        Reported(&[(5, 1), (16, 1)]),
    ),
    // The limit and the depth are those of each value.
    with(
        PLAIN,
        under(
            1,
            1,
            "&e;&e;",
            &[(0, 3), (3, 3), (0, 6)],
            Reported(&[(0, 2), (17, 1), (28, 8)]),
        ),
    ),
    with(
        EMPTY,
        under(
            3,
            2,
            "&f;&e;",
            &[(0, 6), (3, 3)],
            Reported(&[(0, 1), (17, 1)]),
        ),
    ),
    with(
        EMPTY,
        under(
            3,
            2,
            "&f;&e;",
            &[(3, 3), (0, 6)],
            Reported(&[(0, 1), (17, 1)]),
        ),
    ),
    with(
        NESTED,
        under(
            1,
            9,
            "&e;&f;\t",
            &[(0, 3), (3, 3), (6, 1)],
            Reported(&[(0, 2), (16, 1), (28, 2)]),
        ),
    ),
    under(
        0,
        0,
        "a\t&",
        &[(0, 1), (1, 1), (2, 1), (1, 0)],
        Reported(&[(0, 2), (16, 2), (28, 1)]),
    ),
    chained(
        128,
        "x",
        job(
            "&n0;&n1;",
            &[(0, 4), (4, 4)],
            Reported(&[(0, 2), (28, 128 * 2 - 1 + 126 * 2 + 1)]),
        ),
    ),
    chained(
        129,
        "x",
        job(
            "&n0;&n1;",
            &[(0, 4), (4, 4)],
            Reported(&[(0, 1), (16, 1), (28, 255)]),
        ),
    ),
    // Every number of the walk.
    job(
        "&&u;&#+1;&#q;&#xD800;&#0;",
        &[(0, 1), (1, 3), (4, 5), (9, 4), (13, 8), (21, 4)],
        Reported(&[(10, 1), (11, 1), (12, 1), (13, 1), (14, 1), (15, 1)]),
    ),
    with(
        EXTERNAL,
        job(
            "&e;&g;",
            &[(0, 3), (3, 3), (0, 6)],
            Reported(&[(0, 1), (27, 2), (28, 1)]),
        ),
    ),
    marked(
        EXTERNAL,
        job(
            "&e;&g;",
            &[(0, 3), (3, 3), (0, 6)],
            Reported(&[(0, 1), (27, 2), (28, 2)]),
        ),
    ),
    with(
        FIRST,
        job("&e;&amp;", &[(0, 8), (0, 3)], Reported(&[(0, 2), (28, 7)])),
    ),
    // The reading is lenient.
    job(
        "\u{1}&#xFFFE;",
        &[(0, 1), (1, 8)],
        Reported(&[(0, 2), (28, 4)]),
    ),
    // 31, after all of 1 to 9.
    job("abc", &[(0, 4)], Answered(31, 0, 0)),
    job("abc", &[(0, 3), (4, 0), (9, 9)], Answered(31, 1, 0)),
    job("", &[(0, 0), (0, 1)], Answered(31, 1, 0)),
    job("abc", &[(0, 0), (1, u64::MAX)], Answered(31, 1, 0)),
    job("abc", &[(u64::MAX, 1)], Answered(31, 0, 0)),
    job("abc", &[(u64::MAX, u64::MAX), (0, 0)], Answered(31, 0, 0)),
    job("abc", &[(1 << 32, 1)], Answered(31, 0, 0)),
    job("&", &[(0, 1), (0, 2)], Answered(31, 1, 0)),
    under(129, 0, "abc", &[(0, 4)], Answered(2, 0, 0)),
    under(0, 1_000_001, "abc", &[(0, 4)], Answered(3, 0, 0)),
    newer(3, 0, 0, "abc", &[(0, 4)], Answered(4, 0, 0)),
    with(&[("", Some("x"))], job("abc", &[(0, 4)], Answered(9, 0, 0))),
    with(&[("", Some("x"))], job("abc", &[], Answered(9, 0, 0))),
];
