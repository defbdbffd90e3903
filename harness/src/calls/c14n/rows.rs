//! The Rust's own `_escape` with the same set of bytes beside each writer. Its numbers are decimal: no row has TAB, whose decimal
//! reference is shorter.

use crate::inputs::sizes::MEBIBYTE;
use crate::lent::Lent;
use crate::oracle::result::Rule;
use crate::rows::table::Ours;
use crate::timing::{aligned, letters_with, writing_row, Row};
use std::hint::black_box;

type Input = (&'static str, &'static [&'static str], usize);

const INPUTS: [Input; 5] = [
    ("ASCII", &[], 0),
    ("sparse", &["<", "&"], 100),
    ("dense", &["<", "&"], 4),
    ("dense, by number", &["\r"], 4),
    ("multi-byte", &["é", "€", "語", "😀"], 1),
];

pub fn timed(call: &str, ours: impl Ours, rule: Rule) -> Vec<Row> {
    let mut rows = vec![];
    for size in [64, MEBIBYTE] {
        for (input, pieces, distance) in INPUTS {
            let text = aligned(&letters_with(pieces, distance, size));
            rows.push(c14n_row(call, input, text, ours, rule));
        }
    }
    rows
}

fn c14n_row(
    call: &str,
    input: &'static str,
    text: &'static [u8],
    ours: impl Ours,
    rule: Rule,
) -> Row {
    let rule = black_box(rule);
    let out = vec![0; 6 * text.len()].leak();
    let ours = move |words: &mut [u64; 2]| {
        ours(&Lent {
            text: text.as_ptr(),
            text_length: text.len(),
            out: out.as_mut_ptr(),
            out_length: out.len(),
            answer: words.as_mut_ptr(),
            ..Lent::NOTHING
        })
    };
    writing_row(call, input, text, ours, move |text| (rule(text), 0))
}
