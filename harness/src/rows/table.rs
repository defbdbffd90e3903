//! Rows of calls with a table. The Rust's side has its definitions read already, and looks names up in them one after the other;
//! ours checks its table each time.

use crate::arguments::{DEEPEST, HAND, MOST_OPENINGS};
use crate::draft::Draft;
use crate::lent::Lent;
use crate::rust::escape::EscapeError;
use crate::table::{Definition, Table};
use crate::timing::{aligned, writing_row, Made, Once, Row};
use std::hint::black_box;

/// The longest result is so many times its text.
pub const GROWTH: usize = 16;

/// A table for both sides.
#[derive(Clone, Copy)]
pub struct Tables {
    pub lent: Table<'static>,
    pub read: &'static [Definition<'static>],
}

impl Tables {
    pub fn new(draft: Draft) -> Self {
        let lent = Box::leak(Box::new(draft)).table();
        let read = lent.definitions().expect("a sound table").leak();
        Tables { lent, read }
    }
}

/// A call of ours, a type of its own for each: compiled into the loop that repeats it, as a C caller's is, so that nothing but the
/// arguments is handed over.
pub trait Ours: Fn(&Lent) -> u32 + Copy + 'static {}

impl<F: Fn(&Lent) -> u32 + Copy + 'static> Ours for F {}

/// The output has so many bytes, the scratch those that a canonical form needs.
pub fn ours(
    run: impl Ours,
    text: &'static [u8],
    version: u8,
    table: Table<'static>,
    room: usize,
) -> impl Once {
    let (scratch, out) = (vec![0; HAND].leak(), vec![0; room].leak());
    move |words: &mut [u64; 2]| {
        let lent = Lent {
            text: text.as_ptr(),
            text_length: text.len(),
            choice: version,
            depth: DEEPEST,
            limit: MOST_OPENINGS,
            list: table.list.as_ptr(),
            list_length: table.list.len(),
            pool: table.pool.as_ptr(),
            pool_length: table.pool.len(),
            scratch: scratch.as_mut_ptr(),
            scratch_length: scratch.len(),
            out: out.as_mut_ptr(),
            out_length: out.len(),
            answer: words.as_mut_ptr(),
            ..Lent::NOTHING
        };
        run(&lent)
    }
}

/// What the Rust makes of a text under a version with a table.
pub type TableRule = fn(&'static str, u8, &[Definition<'static>]) -> Result<Made, EscapeError>;

pub fn table_row(
    call: &str,
    input: &'static str,
    text: &[u8],
    version: u8,
    tables: Tables,
    (run, rule): (impl Ours, TableRule),
) -> Row {
    let (text, rule) = (aligned(text), black_box(rule));
    let ours = ours(run, text, version, tables.lent, GROWTH * text.len());
    let make = move |text| rule(text, version, tables.read).unwrap();
    writing_row(call, input, text, ours, make)
}

/// The same in an output just as long as the result, which a caller lends who has asked for the length.
pub fn exact_row(
    call: &str,
    input: &'static str,
    text: &[u8],
    version: u8,
    tables: Tables,
    (run, rule): (impl Ours, TableRule),
) -> Row {
    let (text, rule) = (aligned(text), black_box(rule));
    let make = move |text| rule(text, version, tables.read).unwrap();
    let room = make(std::str::from_utf8(text).unwrap()).0.len();
    let ours = ours(run, text, version, tables.lent, room);
    writing_row(call, input, text, ours, make)
}

/// Names and distances of references, of which a text of this size has a few or many.
pub type References = (&'static str, &'static [&'static str], usize);

/// So many names of 255 bytes make a long table.
pub const NAMES: usize = 4000;
