//! The reading of table.rs beside ours.

use crate::draft::Draft;
use crate::inputs::entities::{long_entities, long_names};
use crate::rows::table::{ours, Ours, Tables, NAMES};
use crate::timing::{row, Row};
use std::hint::black_box;

/// The Rust has no such check; it reads the same UTF-8, and each command.
pub fn timed(run: impl Ours) -> Vec<Row> {
    let small = Draft::of(&[
        ("a", "first"),
        ("e", "½"),
        ("office", "Split"),
        ("n", "&a;"),
    ]);
    let inputs = [
        ("4 names", small),
        ("4,000 names of 255 bytes", long_names(NAMES)),
        (
            "4,000 names of 255 bytes, every other one external",
            long_entities(NAMES, |index| index % 2 == 0),
        ),
    ];
    let rows = inputs.into_iter().map(|(input, draft)| {
        let table = Tables::new(draft).lent;
        let rust = move |words: &mut [u64; 2]| {
            let definitions = black_box(table).definitions().unwrap();
            *words = [black_box(definitions).len() as u64, 0];
            0
        };
        let bytes = table.list.len() + table.pool.len();
        let ours = ours(run, &[], 0, table, 0);
        row(
            "check_table",
            input,
            bytes,
            ours,
            rust,
            None::<fn(&mut [u64; 2]) -> u32>,
        )
    });
    rows.collect()
}
