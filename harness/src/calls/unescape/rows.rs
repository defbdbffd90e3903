//! The Rust's walk beside ours, and what a lookup takes.

use crate::counting;
use crate::draft::Draft;
use crate::inputs::entities::{long_entities, long_names, long_reference};
use crate::inputs::sizes::MEBIBYTE;
use crate::rows::many_names::{self, resolved, Map};
use crate::rows::table::{table_row, Ours, References, Tables, NAMES};
use crate::rust::escape::{self, EscapeError};
use crate::table::{look_up, Definition, Meaning};
use crate::timing::{letters_with, Difference, Made, Row};

/// A text that names nothing of a table has none.
pub fn timed(run: impl Ours) -> Vec<Row> {
    let none = Tables::new(Draft::of(&[]));
    let some = Tables::new(Draft::of(&[("a", "first"), ("office", "Split")]));
    let inputs: [(References, Tables); 5] = [
        (("no references", &[], 0), none),
        (("few references", &["&lt;", "&#65;", "&a;"], 100), some),
        (("dense, predefined", &["&lt;", "&amp;"], 8), none),
        (("dense, numbers", &["&#65;", "&#x20AC;"], 12), none),
        (("dense, of the table", &["&a;", "&office;"], 12), some),
    ];
    let mut rows = vec![];
    for size in [64, MEBIBYTE] {
        for ((input, pieces, distance), tables) in inputs {
            let text = letters_with(pieces, distance, size);
            rows.push(table_row(
                "unescape",
                input,
                &text,
                0,
                tables,
                (run, rust_unescape),
            ));
        }
    }
    rows.extend(many_names::timed("unescape", run, rust_unescape_by_map));
    rows
}

pub fn counted(rows: &mut Vec<counting::Row>, run: impl Ours) {
    many_names::counted(rows, "unescape", run, rust_unescape_by_map);
}

fn rust_unescape_by_map(text: &'static str, map: &'static Map) -> Result<Made, EscapeError> {
    Ok((escape::unescape_with(text, |name| resolved(map, name))?, 0))
}

fn rust_unescape(
    text: &'static str,
    _: u8,
    definitions: &[Definition<'static>],
) -> Result<Made, EscapeError> {
    let resolve = |name: &str| match look_up(definitions, name) {
        Meaning::Defined(text) => Some(text),
        Meaning::Predefined(text) => Some(text),
        Meaning::External | Meaning::Nothing => None,
    };
    Ok((escape::unescape_with(text, resolve)?, 0))
}

const REFERENCES: usize = 100;

/// A hundred references to the first and to the last of many names of 255 bytes that differ in their last four. Both texts are as
/// long, so their difference is what it takes to pass the names between, a hundred times; the check of the table, of a megabyte, is
/// not in it.
pub fn lookup(run: impl Ours) -> Difference {
    let what = "One lookup that passes 3,999 names of 255 bytes";
    passing(run, what, long_names(NAMES), [0, NAMES - 1])
}

/// The same where every other name is external. The Rust's loop passes those as it passes the others.
pub fn mixed_lookup(run: impl Ours) -> Difference {
    let what = "One lookup that passes 3,998 names of 255 bytes, every other one external";
    let draft = long_entities(NAMES, |index| index % 2 == 0);
    passing(run, what, draft, [1, NAMES - 1])
}

/// References to these two names.
fn passing(
    run: impl Ours,
    what: &'static str,
    draft: Draft,
    [first, last]: [usize; 2],
) -> Difference {
    let tables = Tables::new(draft);
    let references = |input, index| {
        let text = long_reference(index).repeat(REFERENCES);
        table_row("unescape", input, &text, 0, tables, (run, rust_unescape))
    };
    Difference {
        what,
        times: REFERENCES,
        without: references("the first name", first),
        with: references("the last name", last),
    }
}
