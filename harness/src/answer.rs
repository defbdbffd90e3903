//! What a call has to answer.

use crate::lent::Cursor;
use crate::register::Left;

/// No refusal: there is nothing more.
pub const NO_MORE: u32 = 255;

/// Document 01's number, where 0 is success, and the two answer words; then what a call writes.
#[derive(Debug, PartialEq, Eq)]
pub struct Answer {
    pub number: u32,
    pub first: u64,
    pub second: u64,
    /// How long the output is for which this is the answer.
    pub room: usize,
    /// The first bytes of the output; the rest is kept.
    pub written: Vec<u8>,
    /// How long the scratch is for which this is the answer, and its first bytes.
    pub scratch_room: usize,
    pub scratch: Vec<u8>,
    /// How long list and pool are of a table that is written, and their first bytes.
    pub list_room: usize,
    pub list: Vec<u8>,
    pub pool_room: usize,
    pub pool: Vec<u8>,
    /// The cursor after the call.
    pub cursor: Cursor,
    /// The lent offset after it.
    pub offset: u64,
    /// The register's buffer whole, and its used length.
    pub register: Left,
    /// The words of a report; none where it is left.
    pub report: Vec<u64>,
}

pub fn success(first: u64) -> Answer {
    refusal(0, first)
}

pub fn refusal(number: u32, first: u64) -> Answer {
    Answer {
        number,
        first,
        second: 0,
        room: 0,
        written: vec![],
        scratch_room: 0,
        scratch: vec![],
        list_room: 0,
        list: vec![],
        pool_room: 0,
        pool: vec![],
        cursor: Cursor::default(),
        offset: 0,
        register: Left::default(),
        report: vec![],
    }
}
