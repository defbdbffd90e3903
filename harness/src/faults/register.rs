//! Wrong libraries for calls with a register.

use super::parts::bytes;
use crate::call::Faults;
use crate::lent::{Lent, Run};
use crate::register::Held;

/// Of those that write it.
pub const WRITTEN: Faults = &[
    (
        "the register's last byte changed on a refusal",
        changed_on_refusal,
    ),
    ("the used length changed on a refusal", used_on_refusal),
    ("the byte past the used length changed", changed_past),
    ("the byte after the register changed", changed_after),
    ("the byte before the register changed", changed_before),
    ("the byte after the used length changed", used_byte::<8>),
    ("the byte before the used length changed", used_byte::<-1>),
];

/// Of those that only read it.
pub const READ: Faults = &[
    ("the register's first byte changed", changed_first),
    (
        "the register's last byte changed on a refusal",
        changed_on_refusal,
    ),
];

/// The register before a call.
pub unsafe fn held(lent: &Lent) -> Held<'_> {
    Held {
        buffer: bytes(lent.buffer, lent.buffer_length),
        used: *lent.used,
    }
}

/// The buffer after it.
pub unsafe fn after(lent: &Lent) -> &mut [u8] {
    match lent.buffer_length {
        0 => &mut [],
        length => std::slice::from_raw_parts_mut(lent.buffer, length),
    }
}

unsafe fn changed_on_refusal(lent: &Lent, real: Run) -> u32 {
    let number = real(lent);
    if number != 0 {
        if let Some(last) = after(lent).last_mut() {
            *last ^= 1;
        }
    }
    number
}

unsafe fn changed_first(lent: &Lent, real: Run) -> u32 {
    let number = real(lent);
    if let Some(first) = after(lent).first_mut() {
        *first ^= 1;
    }
    number
}

unsafe fn used_on_refusal(lent: &Lent, real: Run) -> u32 {
    let number = real(lent);
    if number != 0 {
        *lent.used ^= 1;
    }
    number
}

unsafe fn changed_past(lent: &Lent, real: Run) -> u32 {
    let number = real(lent);
    if number == 0 {
        if let Some(past) = after(lent).get_mut(*lent.used as usize) {
            *past ^= 1;
        }
    }
    number
}

unsafe fn changed_after(lent: &Lent, real: Run) -> u32 {
    let number = real(lent);
    flip(lent, lent.buffer_length as isize);
    number
}

unsafe fn changed_before(lent: &Lent, real: Run) -> u32 {
    let number = real(lent);
    flip(lent, -1);
    number
}

unsafe fn flip(lent: &Lent, offset: isize) {
    if !lent.buffer.is_null() {
        *lent.buffer.offset(offset) ^= 1;
    }
}

unsafe fn used_byte<const OFFSET: isize>(lent: &Lent, real: Run) -> u32 {
    let number = real(lent);
    *lent.used.cast::<u8>().offset(OFFSET) ^= 1;
    number
}
