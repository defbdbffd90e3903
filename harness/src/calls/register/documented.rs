//! What document 02 says of single cases (K10). A row has the form, the buffer and its used length, and what the call leaves.

use crate::documented::{register, Documented};

/// `a` once, twice, and as often as there can be; `b` once; the empty form once.
const A: &[u8] = b"\x01\0\0\0\x01\0\0\0a";
const AA: &[u8] = b"\x01\0\0\0\x02\0\0\0a";
const MOST_A: &[u8] = b"\x01\0\0\0\xFF\xFF\xFF\xFFa";

/// The number, both answer words, the buffer and the used length.
type Leaves = (u32, u64, u64, &'static [u8], u64);

const fn row(form: &'static str, buffer: &'static [u8], used: u64, leaves: Leaves) -> Documented {
    register(form, buffer, used, leaves)
}

/// A call that leaves what it is lent.
const fn kept(form: &'static str, buffer: &'static [u8], used: u64, number: u32) -> Documented {
    row(form, buffer, used, (number, 0, 0, buffer, used))
}

pub const ADD: &[Documented] = &[
    // The empty form is a form.
    row("", &[7; 8], 0, (0, 1, 8, b"\0\0\0\0\x01\0\0\0", 8)),
    kept("", &[7; 7], 0, 30),
    row("a", &[7; 10], 0, (0, 1, 9, b"\x01\0\0\0\x01\0\0\0a\x07", 9)),
    row("a", A, 9, (0, 2, 9, AA, 9)),
    // A full count is 30 even with room.
    kept("a", MOST_A, 9, 30),
    kept("a", b"\x01\0\0\0\xFF\xFF\xFF\xFFa\0\0\0\0\0\0\0\0\0", 9, 30),
    row(
        "a",
        b"\x01\0\0\0\xFE\xFF\xFF\xFFa",
        9,
        (0, u32::MAX as u64, 9, MOST_A, 9),
    ),
    // At the end, where it just fits, and one byte short; a count that grows stays in its place.
    row(
        "b",
        b"\x01\0\0\0\x01\0\0\0a\x07\x07\x07\x07\x07\x07\x07\x07\x07",
        9,
        (0, 1, 18, b"\x01\0\0\0\x01\0\0\0a\x01\0\0\0\x01\0\0\0b", 18),
    ),
    kept(
        "b",
        b"\x01\0\0\0\x01\0\0\0a\x07\x07\x07\x07\x07\x07\x07\x07",
        9,
        30,
    ),
    row(
        "a",
        b"\x01\0\0\0\x01\0\0\0a\x01\0\0\0\x01\0\0\0b",
        18,
        (0, 2, 18, b"\x01\0\0\0\x02\0\0\0a\x01\0\0\0\x01\0\0\0b", 18),
    ),
    // 28 comes before the form is looked for, and before 30.
    kept("a", A, 10, 28),
    kept("a", MOST_A, 8, 28),
    kept("b", b"\x01\0\0\0\x01\0\0\0a\x01\0\0\0\x01\0\0\0a", 18, 28),
];

pub const WITHDRAW: &[Documented] = &[
    // The bytes freed at the end are zero, and those past them stay.
    row("a", A, 9, (0, 0, 0, &[0; 9], 0)),
    row(
        "a",
        b"\x01\0\0\0\x01\0\0\0a\x01\0\0\0\x01\0\0\0b\x07",
        18,
        (0, 0, 9, b"\x01\0\0\0\x01\0\0\0b\0\0\0\0\0\0\0\0\0\x07", 9),
    ),
    row("a", AA, 9, (0, 1, 9, A, 9)),
    kept("b", A, 9, 29),
    kept("", A, 9, 29),
    kept("a", A, 0, 29),
    // 28 before 29.
    kept("b", A, 8, 28),
    kept("b", b"\x01\0\0\0\0\0\0\0a", 9, 28),
    kept("b", b"\x01\0\0\0\x01\0\0\0\xFF", 9, 28),
    kept("b", b"\x01\0\0\0\x01\0\0\0a\x01\0\0\0\x02\0\0\0a", 18, 28),
];

pub const COUNT: &[Documented] = &[
    row("a", AA, 9, (0, 2, 0, AA, 9)),
    row("b", AA, 9, (0, 0, 0, AA, 9)),
    row("a", AA, 0, (0, 0, 0, AA, 0)),
    row("", b"", 0, (0, 0, 0, b"", 0)),
    row("a", MOST_A, 9, (0, u32::MAX as u64, 0, MOST_A, 9)),
    kept("", b"", 1, 28),
    kept("a", A, 1 << 32, 28),
    kept("a", b"\x02\0\0\0\x01\0\0\0a", 9, 28),
    kept("a", b"\x01\0\0\0\x01\0\0\0a\0\0\0\0\0\0\0\0", 17, 28),
    kept("b", b"\x01\0\0\0\0\0\0\0a", 9, 28),
    kept("b", b"\0\0\0\0\x01\0\0\0\0\0\0\0\x01\0\0\0", 16, 28),
];
