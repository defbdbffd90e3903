//! The Rust's iterator beside ours.

use crate::inputs::sizes::MEBIBYTE;
use crate::lent::Cursor;
use crate::rust::utils::CDataIterator;
use crate::timing::{aligned, letters_with, row, Row};
use std::hint::black_box;
use std::str::from_utf8;

/// The next piece's type is its own, so that it is compiled into the loop that repeats it.
pub fn timed(next: impl Fn(&[u8], &mut Cursor, &mut [u64; 2]) -> u32 + Copy + 'static) -> Vec<Row> {
    let inputs: [(&str, &[&str], usize); 3] = [
        ("first piece, no `>`", &[], 0),
        ("first piece, many `>`", &[">"], 4),
        ("first piece, many `]]>`", &["]]>"], 8),
    ];
    let mut rows = vec![];
    for size in [64, MEBIBYTE] {
        for (input, pieces, distance) in inputs {
            let text = aligned(&letters_with(pieces, distance, size));
            let valid = from_utf8(text).unwrap();
            rows.push(row(
                "cdata_next",
                input,
                size,
                move |words| next(text, &mut Cursor::default(), words),
                move |words| first_piece(from_utf8(black_box(text)).unwrap(), words),
                Some(move |words: &mut _| first_piece(black_box(valid), words)),
            ));
        }
    }
    let text = aligned(&letters_with(&["]]>"], 100, 4096));
    let valid = from_utf8(text).unwrap();
    rows.push(row(
        "cdata_next",
        "every piece, the text checked for each",
        text.len(),
        move |words| {
            let mut cursor = Cursor::default();
            let mut count = 0;
            while next(text, &mut cursor, words) == 0 {
                count += 1;
            }
            *words = [count, 0];
            0
        },
        move |words| pieces_of(words, || from_utf8(black_box(text)).unwrap()),
        Some(move |words: &mut _| pieces_of(words, || valid)),
    ));
    rows
}

#[inline(never)]
fn first_piece(text: &str, words: &mut [u64; 2]) -> u32 {
    let piece = CDataIterator::new(text).next().unwrap();
    *words = [0, piece.len() as u64];
    0
}

/// How many pieces there are; `check` runs before each is asked for.
fn pieces_of(words: &mut [u64; 2], check: impl Fn() -> &'static str) -> u32 {
    let mut pieces = CDataIterator::new(check());
    let mut count = 0;
    while black_box(pieces.next()).is_some() {
        black_box(check());
        count += 1;
    }
    *words = [count, 0];
    0
}
