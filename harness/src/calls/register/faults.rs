//! Wrong libraries for the calls on a register.

use crate::call::{Fault, Faults};
use crate::faults::parts::text;
use crate::faults::register::{after, held};
use crate::lent::{Lent, Run};
use crate::register::{Damage, HEAD};

/// Each reason of 28 not looked at.
pub const DAMAGE: Faults = &[
    ("a used length past the buffer accepted", unseen::<{ PAST }>),
    (
        "entries that do not fill it accepted",
        unseen::<{ UNFILLED }>,
    ),
    ("a zero count accepted", unseen::<{ ZERO_COUNT }>),
    ("a form that is not UTF-8 accepted", unseen::<{ NOT_UTF8 }>),
    ("a repeated form accepted", unseen::<{ REPEATED }>),
    ("28 before 5", damage_first),
    ("the used length's high half not read", halved_used),
];

pub const ADD: Faults = &[
    ("a count that wraps", wrapped),
    (
        "an entry moved to the end when its count grows",
        moved_to_the_end as Fault,
    ),
    ("a new form put first", put_first),
    ("a form that just fits refused", refused_just_fitting),
    ("30 before 28", before_28::<30>),
    ("the used length not moved", unmoved),
];

pub const WITHDRAW: Faults = &[
    ("the freed bytes not zeroed", unzeroed as Fault),
    ("a byte past the freed ones zeroed", zeroed_past),
    ("an entry of count 0 left", left_at_zero),
    ("29 before 28", before_28::<29>),
    ("the used length not moved", unmoved),
];

pub const COUNT: Faults = &[
    ("the count's high half not read", halved_count as Fault),
    ("an absent form counted once", counted_absent),
];

const PAST: u8 = 0;
const UNFILLED: u8 = 1;
const ZERO_COUNT: u8 = 2;
const NOT_UTF8: u8 = 3;
const REPEATED: u8 = 4;

const fn kind(damage: Damage) -> u8 {
    match damage {
        Damage::Past => PAST,
        Damage::Unfilled => UNFILLED,
        Damage::ZeroCount => ZERO_COUNT,
        Damage::NotUtf8 => NOT_UTF8,
        Damage::Repeated => REPEATED,
    }
}

unsafe fn unseen<const KIND: u8>(lent: &Lent, real: Run) -> u32 {
    let damage = held(lent).read().err();
    let number = real(lent);
    match damage {
        Some(damage) if number == 28 && kind(damage) == KIND => 0,
        _ => number,
    }
}

unsafe fn damage_first(lent: &Lent, real: Run) -> u32 {
    let damaged = held(lent).read().is_err();
    let number = real(lent);
    match number {
        5 if damaged => {
            *lent.answer = 0;
            28
        }
        _ => number,
    }
}

unsafe fn halved_used(lent: &Lent, real: Run) -> u32 {
    let before = *lent.used;
    *lent.used = u64::from(before as u32);
    let number = real(lent);
    if number != 0 {
        *lent.used = before;
    }
    number
}

/// The refusal that comes after 28 in its place.
unsafe fn before_28<const NUMBER: u32>(lent: &Lent, real: Run) -> u32 {
    match real(lent) {
        28 => NUMBER,
        number => number,
    }
}

unsafe fn unmoved(lent: &Lent, real: Run) -> u32 {
    let before = *lent.used;
    let number = real(lent);
    *lent.used = before;
    number
}

/// Where the form's entry starts, in a register.
unsafe fn place(lent: &Lent) -> Option<usize> {
    let (bytes, form) = (after(lent), text(lent));
    let mut at = 0;
    while at < *lent.used as usize {
        let end = at + HEAD + number_at(bytes, at) as usize;
        if bytes[at + HEAD..end] == *form {
            return Some(at);
        }
        at = end;
    }
    None
}

fn number_at(bytes: &[u8], at: usize) -> u32 {
    u32::from_le_bytes(bytes[at..at + 4].try_into().unwrap())
}

unsafe fn wrapped(lent: &Lent, real: Run) -> u32 {
    let number = real(lent);
    if number != 30 {
        return number;
    }
    match place(lent) {
        Some(at) => {
            after(lent)[at + 4..at + HEAD].fill(0);
            *lent.answer.add(1) = *lent.used;
            0
        }
        None => number,
    }
}

unsafe fn moved_to_the_end(lent: &Lent, real: Run) -> u32 {
    let number = real(lent);
    if number == 0 && *lent.answer > 1 {
        let (at, size) = (place(lent).unwrap(), HEAD + lent.text_length);
        after(lent)[at..*lent.used as usize].rotate_left(size);
    }
    number
}

unsafe fn put_first(lent: &Lent, real: Run) -> u32 {
    let number = real(lent);
    if number == 0 && *lent.answer == 1 {
        after(lent)[..*lent.used as usize].rotate_right(HEAD + lent.text_length);
    }
    number
}

unsafe fn refused_just_fitting(lent: &Lent, real: Run) -> u32 {
    let number = real(lent);
    match number {
        0 if *lent.answer == 1 && *lent.used == lent.buffer_length as u64 => 30,
        _ => number,
    }
}

unsafe fn unzeroed(lent: &Lent, real: Run) -> u32 {
    let before = *lent.used as usize;
    let number = real(lent);
    if number == 0 && *lent.answer == 0 {
        after(lent)[*lent.used as usize..before].fill(b'a');
    }
    number
}

unsafe fn zeroed_past(lent: &Lent, real: Run) -> u32 {
    let before = *lent.used as usize;
    let number = real(lent);
    if number == 0 && *lent.answer == 0 {
        if let Some(byte) = after(lent).get_mut(before) {
            *byte = 0;
        }
    }
    number
}

unsafe fn left_at_zero(lent: &Lent, real: Run) -> u32 {
    let before = held(lent).kept();
    let number = real(lent);
    if number == 0 && *lent.answer == 0 {
        after(lent).copy_from_slice(&before.buffer);
        *lent.used = before.used;
        let at = place(lent).unwrap();
        after(lent)[at + 4..at + HEAD].fill(0);
    }
    number
}

unsafe fn halved_count(lent: &Lent, real: Run) -> u32 {
    let number = real(lent);
    *lent.answer &= 0xFFFF;
    number
}

unsafe fn counted_absent(lent: &Lent, real: Run) -> u32 {
    let number = real(lent);
    if number == 0 {
        *lent.answer = (*lent.answer).max(1);
    }
    number
}
