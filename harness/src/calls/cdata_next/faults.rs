//! Wrong libraries for the cursor.

use crate::call::Faults;
use crate::lent::{Lent, Run};

pub const CURSOR: Faults = &[
    ("the cursor's offset changed", changed_cursor::<0>),
    ("the cursor's offset changed high up", changed_cursor::<7>),
    ("the cursor's flag changed", changed_cursor::<8>),
    (
        "the byte after the flag's lowest changed",
        changed_cursor::<9>,
    ),
    ("the cursor's flag changed high up", changed_cursor::<15>),
    ("the byte after the cursor changed", changed_cursor::<16>),
    ("the byte before the cursor changed", changed_cursor::<-1>),
    ("the cursor not moved", unmoved_cursor),
    ("the cursor moved by the last piece", moved_by_last),
    ("the cursor's flag set to 2 by the last piece", flag_of_two),
    (
        "the cursor's flag set to 1 by \"no more\"",
        changed_flag::<255, 1>,
    ),
    ("the cursor's flag set to 1 by 20", changed_flag::<20, 1>),
    ("the cursor's flag cleared by 5", changed_flag::<5, 0>),
    ("the cursor's flag cleared by 1", changed_flag::<1, 0>),
    ("the flag's lowest byte alone read", narrowed_flag::<0xFF>),
    (
        "the flag's high half not read",
        narrowed_flag::<0xFFFF_FFFF>,
    ),
    ("only flag 1 taken for finished", only_flag_1),
    ("finished looked at before 20", finished_first),
    ("the offset's high half not read", halved_offset),
    ("the cut sought before the offset", looked_back),
];

unsafe fn changed_cursor<const OFFSET: isize>(lent: &Lent, real: Run) -> u32 {
    let number = real(lent);
    *lent.cursor.cast::<u8>().offset(OFFSET) ^= 1;
    number
}

unsafe fn unmoved_cursor(lent: &Lent, real: Run) -> u32 {
    let before = *lent.cursor;
    let number = real(lent);
    (*lent.cursor).offset = before.offset;
    number
}

unsafe fn moved_by_last(lent: &Lent, real: Run) -> u32 {
    let number = real(lent);
    if number == 0 && (*lent.cursor).finished != 0 {
        (*lent.cursor).offset = lent.text_length as u64;
    }
    number
}

unsafe fn flag_of_two(lent: &Lent, real: Run) -> u32 {
    let number = real(lent);
    if number == 0 && (*lent.cursor).finished != 0 {
        (*lent.cursor).finished = 2;
    }
    number
}

unsafe fn changed_flag<const NUMBER: u32, const FLAG: u64>(lent: &Lent, real: Run) -> u32 {
    let number = real(lent);
    if number == NUMBER {
        (*lent.cursor).finished = FLAG;
    }
    number
}

/// Reads the bits of the mask alone; what it leaves is right where it answers no piece.
unsafe fn narrowed_flag<const MASK: u64>(lent: &Lent, real: Run) -> u32 {
    let before = *lent.cursor;
    (*lent.cursor).finished = before.finished & MASK;
    let number = real(lent);
    if number != 0 {
        *lent.cursor = before;
    }
    number
}

unsafe fn only_flag_1(lent: &Lent, real: Run) -> u32 {
    let before = *lent.cursor;
    (*lent.cursor).finished = u64::from(before.finished == 1);
    let number = real(lent);
    if before.finished > 1 && number != 0 {
        *lent.cursor = before;
    }
    number
}

unsafe fn finished_first(lent: &Lent, real: Run) -> u32 {
    let number = real(lent);
    match number {
        20 if (*lent.cursor).finished != 0 => {
            *lent.answer = 0;
            255
        }
        _ => number,
    }
}

unsafe fn halved_offset(lent: &Lent, real: Run) -> u32 {
    let before = *lent.cursor;
    (*lent.cursor).offset = u64::from(before.offset as u32);
    let number = real(lent);
    if number != 0 {
        *lent.cursor = before;
        if number == 20 {
            *lent.answer = before.offset;
        }
    }
    number
}

/// A `>` at the offset, after `]]`, ends an empty piece.
unsafe fn looked_back(lent: &Lent, real: Run) -> u32 {
    let before = *lent.cursor;
    let number = real(lent);
    let at = before.offset as usize;
    if number == 0 && at >= 2 && at < lent.text_length {
        let around = lent.text.add(at - 2).cast::<[u8; 3]>();
        if *around == *b"]]>" {
            *lent.answer.add(1) = 0;
            *lent.cursor = before;
        }
    }
    number
}
