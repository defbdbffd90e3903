//! Measures each call against the Rust that does the same work, on the same bytes.

use crate::call::Call;
use crate::inputs::sizes::MEBIBYTE;
use crate::timing::{aligned, letters_with, repeated, Difference, Row, Side};
use std::hint::black_box;

const ROUNDS: usize = 100;

/// Of the rows whose lines have this part.
pub fn run(calls: &[&Call], part: &str) {
    let mut rows: Vec<Row> = calls.iter().flat_map(|call| (call.timed)()).collect();
    rows.retain(|row| row.has(part));
    let differences = calls.iter().flat_map(|call| (call.differences)());
    let mut differences: Vec<Difference> = differences.collect();
    let mut copy = copy_alone();
    // Rows take turns too: a slow while of the machine takes some rounds of each, not all of one.
    for round in 0..ROUNDS {
        rows.iter_mut().for_each(|row| row.measure(round));
        differences.iter_mut().for_each(|one| one.measure(round));
        copy.measure();
    }
    println!(
        "| call | input | bytes | ours, ns | Rust, ns | ours / Rust | ours / Rust, its result left \
         where it is | the same on `&str` |"
    );
    println!("|---|---|--:|--:|--:|--:|--:|--:|");
    rows.iter().for_each(Row::print);
    differences.iter().for_each(Difference::print);
    println!();
    println!("A copy of {MEBIBYTE} bytes alone: {:.1} ns.", copy.best);
}

/// What every call that hands over a result of this length has to do, and a borrowed one saves.
fn copy_alone() -> Side {
    let text = aligned(&letters_with(&[], 0, MEBIBYTE));
    let out = vec![0; MEBIBYTE].leak();
    Side::new(repeated(move |words: &mut [u64; 2]| {
        out.copy_from_slice(black_box(text));
        *words = [black_box(&out).len() as u64, 0];
        0
    }))
}
