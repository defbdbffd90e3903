//! Wrong libraries for calls that write a table.

use crate::call::Faults;
use crate::lent::{Lent, Run};

pub const NEW_TABLE: Faults = &[
    ("the list's first byte changed", changed::<LIST, FIRST>),
    ("the list's last byte changed", changed::<LIST, LAST>),
    ("the pool's first byte changed", changed::<POOL, FIRST>),
    ("the pool's last byte changed", changed::<POOL, LAST>),
    ("the byte after the list changed", changed::<LIST, PAST>),
    ("the byte after the pool changed", changed::<POOL, PAST>),
    ("the lent list changed on a refusal", on_refusal::<LIST>),
    ("the lent pool changed on a refusal", on_refusal::<POOL>),
    ("the lent list filled before 23", filled_before_23::<LIST>),
    ("the lent pool filled before 23", filled_before_23::<POOL>),
    ("the byte after the lent list changed", beside::<LIST, 0>),
    ("the byte after the lent pool changed", beside::<POOL, 0>),
    ("the byte before the lent list changed", beside::<LIST, -1>),
    ("the byte before the lent pool changed", beside::<POOL, -1>),
    ("one byte more of the list than there is room", over::<LIST>),
    ("one byte more of the pool than there is room", over::<POOL>),
    ("a list of just the length refused", refused_exact::<LIST>),
    ("a pool of just the length refused", refused_exact::<POOL>),
    ("the answer words of 23 swapped", swapped),
];

const LIST: bool = false;
const POOL: bool = true;
const FIRST: u8 = 0;
const LAST: u8 = 1;
const PAST: u8 = 2;

/// The buffer, as long as it is lent.
unsafe fn lent_buffer<const WHICH: bool>(lent: &Lent) -> (*mut u8, usize) {
    match WHICH {
        LIST => (lent.new_list, lent.new_list_length),
        POOL => (lent.new_pool, lent.new_pool_length),
    }
}

/// How much of it is written by a call that was accepted.
unsafe fn written<const WHICH: bool>(lent: &Lent) -> usize {
    *lent.answer.add(usize::from(WHICH)) as usize
}

unsafe fn changed<const WHICH: bool, const WHERE: u8>(lent: &Lent, real: Run) -> u32 {
    let number = real(lent);
    let (start, length) = lent_buffer::<WHICH>(lent);
    let used = written::<WHICH>(lent);
    let at = match WHERE {
        FIRST => 0,
        LAST => used.wrapping_sub(1),
        _ => used,
    };
    let is_there = match WHERE {
        PAST => at < length,
        _ => at < used,
    };
    if number == 0 && is_there {
        *start.add(at) ^= 1;
    }
    number
}

unsafe fn on_refusal<const WHICH: bool>(lent: &Lent, real: Run) -> u32 {
    let number = real(lent);
    let (start, length) = lent_buffer::<WHICH>(lent);
    if number != 0 && length > 0 {
        *start.add(length - 1) ^= 1;
    }
    number
}

unsafe fn filled_before_23<const WHICH: bool>(lent: &Lent, real: Run) -> u32 {
    let number = real(lent);
    let (start, length) = lent_buffer::<WHICH>(lent);
    if number == 23 && length > 0 {
        start.write_bytes(3, length);
    }
    number
}

unsafe fn beside<const WHICH: bool, const OFFSET: isize>(lent: &Lent, real: Run) -> u32 {
    let number = real(lent);
    let (start, length) = lent_buffer::<WHICH>(lent);
    if !start.is_null() {
        let at = match OFFSET {
            0 => length as isize,
            before => before,
        };
        *start.offset(at) ^= 1;
    }
    number
}

unsafe fn over<const WHICH: bool>(lent: &Lent, real: Run) -> u32 {
    let (start, _) = lent_buffer::<WHICH>(lent);
    let more = usize::from(!start.is_null());
    real(&Lent {
        new_list_length: lent.new_list_length + more * usize::from(WHICH == LIST),
        new_pool_length: lent.new_pool_length + more * usize::from(WHICH == POOL),
        ..*lent
    })
}

unsafe fn refused_exact<const WHICH: bool>(lent: &Lent, real: Run) -> u32 {
    let number = real(lent);
    let (_, length) = lent_buffer::<WHICH>(lent);
    match number {
        0 if written::<WHICH>(lent) == length => 23,
        _ => number,
    }
}

unsafe fn swapped(lent: &Lent, real: Run) -> u32 {
    let number = real(lent);
    if number == 23 {
        std::ptr::swap(lent.answer, lent.answer.add(1));
    }
    number
}
