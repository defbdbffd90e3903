//! The Rust's writer of each level beside ours.

use crate::oracle::result::Rule;
use crate::rows::output::{output_rows, OutputCall};
use crate::rust::escape;
use crate::timing::Row;

pub fn timed(ours: OutputCall) -> Vec<Row> {
    let inputs: [(&str, &[&str], usize); 4] = [
        ("ASCII", &[], 0),
        ("sparse", &["<", "&"], 100),
        ("dense", &["<", "&"], 4),
        ("multi-byte", &["é", "€", "語", "😀"], 1),
    ];
    let sides = |level: u8| -> (&str, Rule) {
        match level {
            0 => ("escape, 0", |text| escape::escape(text)),
            1 => ("escape, 1", |text| escape::partial_escape(text)),
            2 => ("escape, 2", |text| escape::minimal_escape(text)),
            _ => ("escape, 3", |text| escape::escape_attribute(text)),
        }
    };
    output_rows(&[0, 1, 2, 3], &inputs, ours, sides)
}
