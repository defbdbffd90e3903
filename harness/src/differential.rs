//! Compares every call of the library with the Rust.

use crate::call::Call;
use crate::comparison::{Comparison, Reading};
use crate::corpus;
use crate::lent::Lent;
use crate::random::Random;
use crate::unused;
use std::time::{Duration, Instant};

/// A run that compares fewer inputs of a call has failed: its inputs were lost somewhere.
const FEWEST: usize = 1_000_000;
/// So often the random inputs are made, and oftener if there is time.
const FEWEST_ROUNDS: usize = 100;

/// Runs each family once, and random inputs until `time` is over. True: no answer differs.
pub fn run(calls: &[&Call], seed: u64, time: Duration) -> bool {
    println!("differential: seed {seed}");
    let start = Instant::now();
    let share = time / calls.len() as u32;
    let mut passed = true;
    for (call, turn) in calls.iter().zip(1..) {
        passed &= compare_call(call, seed, start + share * turn);
        passed &= unused::have_no_say(call, seed);
    }
    println!("differential: {:.1} s", start.elapsed().as_secs_f64());
    passed
}

fn compare_call(call: &Call, seed: u64, end: Instant) -> bool {
    // SAFETY: the comparison lends memory of the lengths stated, which nothing else uses meanwhile.
    let library = |lent: &Lent| unsafe { (call.run)(lent) };
    let reading = call.reading.as_ref().map(|reading| reading as &Reading);
    let mut comparison = Comparison::new(call, &library, reading);
    let mut random = Random::new(seed);
    comparison.try_all(call.seams, &mut random);
    for row in call.rows() {
        row.give(&mut |arguments| comparison.compare(&arguments));
    }
    corpus::each(call, &mut |arguments| comparison.compare(&arguments));
    for &family in call.families.iter().copied().flatten() {
        comparison.try_all(family, &mut random);
    }
    let mut rounds = 0;
    while rounds < FEWEST_ROUNDS || Instant::now() < end {
        comparison.try_all(call.random, &mut random);
        rounds += 1;
    }
    report(call, &comparison)
}

fn report(call: &Call, comparison: &Comparison) -> bool {
    for description in &comparison.descriptions {
        println!("{description}");
    }
    println!(
        "{}: {} inputs compared, {} differences; answers by number: {}",
        call.name,
        comparison.compared,
        comparison.differences,
        by_number(comparison)
    );
    if comparison.compared < FEWEST {
        println!("{}: fewer than {FEWEST} inputs", call.name);
    }
    comparison.differences == 0 && comparison.compared >= FEWEST
}

fn by_number(comparison: &Comparison) -> String {
    let numbers = comparison.numbers.iter();
    let counts: Vec<String> = numbers
        .map(|(number, count)| format!("{number} ({count})"))
        .collect();
    counts.join(", ")
}
