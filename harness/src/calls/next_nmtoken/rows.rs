//! The Rust's `split` beside ours.

use crate::inputs::sizes::MEBIBYTE;
use crate::timing::{aligned, letters_with, row, Row};
use std::hint::black_box;
use std::str::from_utf8;

/// The next token's type is its own, so that it is compiled into the loop that repeats it.
pub fn timed(next: impl Fn(&[u8], &mut u64, &mut [u64; 2]) -> u32 + Copy + 'static) -> Vec<Row> {
    let inputs: [(&str, &[&str], usize); 3] = [
        ("first token, the only one", &[], 0),
        ("first token of 8 bytes", &[" "], 9),
        ("first token of 100 bytes", &[" "], 200),
    ];
    let mut rows = vec![];
    for size in [64, MEBIBYTE] {
        for (input, pieces, distance) in inputs {
            let text = aligned(&letters_with(pieces, distance, size));
            let valid = from_utf8(text).unwrap();
            rows.push(row(
                "next_nmtoken",
                input,
                size,
                move |words| next(text, &mut 0, words),
                move |words| first_token(from_utf8(black_box(text)).unwrap(), words),
                Some(move |words: &mut _| first_token(black_box(valid), words)),
            ));
        }
    }
    let text = aligned(&letters_with(&[" "], 9, 1024));
    let valid = from_utf8(text).unwrap();
    rows.push(row(
        "next_nmtoken",
        "every token, the text checked for each",
        text.len(),
        move |words| {
            let (mut offset, mut count) = (0, 0);
            while next(text, &mut offset, words) == 0 {
                count += 1;
            }
            *words = [count, 0];
            0
        },
        move |words| tokens_of(words, || from_utf8(black_box(text)).unwrap()),
        Some(move |words: &mut _| tokens_of(words, || valid)),
    ));
    rows
}

#[inline(never)]
fn first_token(text: &str, words: &mut [u64; 2]) -> u32 {
    let token = text.split(' ').find(|token| !token.is_empty()).unwrap();
    let start = token.as_ptr() as usize - text.as_ptr() as usize;
    *words = [start as u64, token.len() as u64];
    0
}

/// How many tokens there are; `check` runs before each is asked for.
fn tokens_of(words: &mut [u64; 2], check: impl Fn() -> &'static str) -> u32 {
    let mut tokens = check().split(' ').filter(|token| !token.is_empty());
    let mut count = 0;
    while black_box(tokens.next()).is_some() {
        black_box(check());
        count += 1;
    }
    *words = [count, 0];
    0
}
