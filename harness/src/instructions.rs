//! Counts the instructions of our calls and of the Rust that does the same work, by valgrind's callgrind: no clock, so that the
//! figures are the same on every machine.

use crate::call::Call;
use crate::counting::{Row, Side};
use crate::draft::Draft;
use crate::lent::Lent;
use crate::profile;
use crate::rows::table::{ours, Tables};
use std::arch::asm;
use std::collections::HashMap;
use std::hint::black_box;
use std::process::Command;
use std::{env, fs, io};

/// How this program is told that callgrind runs it.
pub const UNDER_CALLGRIND: &str = "--under-callgrind";

/// Prints the table of the rows whose lines have this part, beside an earlier one if a file of it is named.
pub fn run(calls: &[&Call], part: &str, before: Option<&str>) -> io::Result<()> {
    let before = match before {
        Some(file) => Some(earlier(&fs::read_to_string(file)?)),
        None => None,
    };
    let mut rows = rows_of(calls);
    rows.retain(|row| row.has(part));
    rows.iter_mut().for_each(Row::check);
    let counts = count(calls, part, rows.len())?;
    print_head(before.is_some());
    for (row, [ours, rust]) in rows.iter().zip(&counts) {
        let name = row.name();
        print!("| {name} | {ours} | {rust} | {} |", ratio(ours, rust));
        match before.as_ref().map(|before| before.get(&name)) {
            Some(Some(before)) => println!(" {before} | {} |", ratio(ours, before)),
            Some(None) => println!(" | |"),
            None => println!(),
        }
    }
    Ok(())
}

/// The dearest come last: a run without them has the same counts.
fn rows_of(calls: &[&Call]) -> Vec<Row> {
    let mut rows = vec![];
    calls.iter().for_each(|call| (call.counted)(&mut rows));
    rows.sort_by_key(|row| row.runs_before == 0);
    rows
}

fn ratio(one: &u64, other: &u64) -> String {
    format!("{:.2}", *one as f64 / *other as f64)
}

fn print_head(before: bool) {
    let (head, line) = match before {
        true => (" before | ours / before |", "--:|--:|"),
        false => ("", ""),
    };
    println!("| call | input | bytes | ours | Rust | ours / Rust |{head}");
    println!("|---|---|--:|--:|--:|--:|{line}");
}

/// Our counts in a table that was printed before, by the cells that name the row. Lines that are no such rows are passed over.
fn earlier(table: &str) -> HashMap<String, u64> {
    let row = |line: &str| {
        let cells: Vec<&str> = line.split(" | ").collect();
        let [call, input, bytes, ours, ..] = cells[..] else {
            return None;
        };
        let name = [call.strip_prefix("| ")?, input, bytes].join(" | ");
        Some((name, ours.parse().ok()?))
    };
    table.lines().filter_map(row).collect()
}

/// The instructions of both sides of each row.
fn count(calls: &[&Call], part: &str, rows: usize) -> io::Result<Vec<[u64; 2]>> {
    let file = env::temp_dir().join(format!("harness-instructions-{}", std::process::id()));
    let names: Vec<&str> = calls.iter().map(|call| call.name).collect();
    let status = Command::new("valgrind")
        .args(["--tool=callgrind", "--quiet", "--combine-dumps=yes"])
        .args(["--collect-atstart=no", "--toggle-collect=harness_counted"])
        .arg("--dump-after=harness_counted")
        .arg(format!("--callgrind-out-file={}", file.display()))
        .arg(env::current_exe()?)
        .args(["instructions", "--calls", &names.join(",")])
        .args(["--rows", part, UNDER_CALLGRIND])
        .status()
        .map_err(|error| io::Error::other(format!("valgrind (Debian's package): {error}")))?;
    let profile = fs::read_to_string(&file);
    let _ = fs::remove_file(&file);
    if !status.success() {
        return Err(io::Error::other(format!("valgrind: {status}")));
    }
    let counts = profile::counts(&profile?);
    told_apart(&counts, rows).ok_or(io::Error::other("callgrind did not count what it was to"))
}

/// The counts of the rows, without what it takes to be counted; nothing where the known ones are wrong.
fn told_apart(counts: &[u64], rows: usize) -> Option<Vec<[u64; 2]>> {
    let [nothing, known, ours_nothing, counts @ ..] = counts else {
        return None;
    };
    if *known != nothing + KNOWN || counts.len() != 2 * rows {
        return None;
    }
    let row = |sides: &[u64]| [sides[0] - ours_nothing, sides[1] - nothing];
    Some(counts.chunks(2).map(row).collect())
}

/// So many instructions are counted first, to see that the counts are right.
const KNOWN: u64 = 1000;

/// Runs each row, and before them what its count is told by: nothing, a known number of instructions, and a call of ours that does
/// nothing. All rows are made, so that the memory is the same whichever are run.
pub fn run_under_callgrind(calls: &[&Call], part: &str) {
    let mut nothing: Side = Box::new(|_| 0);
    let mut known: Side = Box::new(|_| {
        // SAFETY: instructions without an effect.
        unsafe {
            asm!(".rept {count}", "nop", ".endr", count = const KNOWN, options(nomem, nostack, preserves_flags))
        };
        0
    });
    counted(&mut nothing);
    counted(&mut known);
    counted(&mut call_of_nothing());
    let mut rows = rows_of(calls);
    for row in rows.iter_mut().filter(|row| row.has(part)) {
        for side in [&mut row.ours, &mut row.rust] {
            for _ in 0..row.runs_before {
                black_box(side(&mut [0; 2]));
            }
            counted(side);
        }
    }
}

fn counted(side: &mut Side) {
    black_box(harness_counted(side, &mut [0; 2]));
}

/// Callgrind counts from here to the end of this function, and writes a part of its profile there.
#[no_mangle]
#[inline(never)]
fn harness_counted(side: &mut Side, words: &mut [u64; 2]) -> u32 {
    black_box(side(words))
}

/// A call that does nothing: what it takes to hand everything over. (`canonical_form` has two arguments more: a few instructions.)
fn call_of_nothing() -> Side {
    // Behind a pointer, so that the compiler leaves nothing out.
    let nothing = black_box(nothing as extern "C" fn(_, _, _, _, _, _, _, _, _, _, _, _) -> _);
    let run = move |lent: &Lent| {
        nothing(
            lent.text,
            lent.text_length,
            lent.choice,
            lent.depth,
            lent.limit,
            lent.list,
            lent.list_length,
            lent.pool,
            lent.pool_length,
            lent.out,
            lent.out_length,
            lent.answer,
        )
    };
    let table = Tables::new(Draft::of(&[])).lent;
    Box::new(ours(run, &[], 0, table, 0))
}

#[allow(clippy::too_many_arguments)]
extern "C" fn nothing(
    _: *const u8,
    _: usize,
    _: u8,
    _: u64,
    _: u64,
    _: *const u8,
    _: usize,
    _: *const u8,
    _: usize,
    _: *mut u8,
    _: usize,
    _: *mut u64,
) -> u32 {
    0
}
