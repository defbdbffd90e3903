//! Wrong libraries for the token and the offset.

use crate::call::Faults;
use crate::faults::parts::text;
use crate::lent::{Lent, Run};

pub const OFFSET: Faults = &[
    ("the offset changed", changed_offset::<0>),
    ("the offset changed high up", changed_offset::<7>),
    ("the byte after the offset changed", changed_offset::<8>),
    ("the byte before the offset changed", changed_offset::<-1>),
    ("the offset not moved: a token handed out twice", unmoved),
    ("the offset past the space", past_the_space),
    ("the offset moved by \"no more\"", moved_at_the_end),
    ("the offset's high half not read", halved_offset),
    ("a token that TAB or LF ends", ended_by_blank),
    ("\"no more\" before the last token", early_no_more),
    ("the whole token from inside it", looked_back),
    ("an empty token at the end", empty_token),
];

unsafe fn changed_offset<const OFFSET: isize>(lent: &Lent, real: Run) -> u32 {
    let number = real(lent);
    *lent.offset.cast::<u8>().offset(OFFSET) ^= 1;
    number
}

unsafe fn unmoved(lent: &Lent, real: Run) -> u32 {
    let before = *lent.offset;
    let number = real(lent);
    *lent.offset = before;
    number
}

unsafe fn past_the_space(lent: &Lent, real: Run) -> u32 {
    let number = real(lent);
    if number == 0 && *lent.offset < lent.text_length as u64 {
        *lent.offset += 1;
    }
    number
}

unsafe fn moved_at_the_end(lent: &Lent, real: Run) -> u32 {
    let number = real(lent);
    if number == 255 {
        *lent.offset = lent.text_length as u64;
    }
    number
}

unsafe fn halved_offset(lent: &Lent, real: Run) -> u32 {
    let before = *lent.offset;
    *lent.offset = u64::from(before as u32);
    let number = real(lent);
    if number != 0 {
        *lent.offset = before;
        if number == 20 {
            *lent.answer = before;
        }
    }
    number
}

unsafe fn ended_by_blank(lent: &Lent, real: Run) -> u32 {
    let number = real(lent);
    if number == 0 {
        let start = *lent.answer as usize;
        let token = &text(lent)[start..*lent.offset as usize];
        let blank = token.iter().position(|byte| b"\t\n".contains(byte));
        if let Some(length) = blank.filter(|&length| length > 0) {
            *lent.answer.add(1) = length as u64;
            *lent.offset = (start + length) as u64;
        }
    }
    number
}

unsafe fn early_no_more(lent: &Lent, real: Run) -> u32 {
    let before = *lent.offset;
    let number = real(lent);
    if number == 0 && before > 0 && *lent.offset == lent.text_length as u64 {
        *lent.offset = before;
        *lent.answer = 0;
        *lent.answer.add(1) = 0;
        return 255;
    }
    number
}

unsafe fn looked_back(lent: &Lent, real: Run) -> u32 {
    let before = *lent.offset as usize;
    let number = real(lent);
    let start = *lent.answer as usize;
    if number == 0 && start == before && start > 0 && text(lent)[start - 1] != b' ' {
        *lent.answer -= 1;
        *lent.answer.add(1) += 1;
    }
    number
}

unsafe fn empty_token(lent: &Lent, real: Run) -> u32 {
    let number = real(lent);
    if number == 255 {
        *lent.answer = lent.text_length as u64;
        return 0;
    }
    number
}
