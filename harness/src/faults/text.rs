//! Wrong libraries for calls with a text.

use crate::arguments::LONGEST_TEXT;
use crate::call::Faults;
use crate::inputs::sizes::{MEBIBYTE, PAGE};
use crate::lent::{Lent, Run};

pub const TEXT: Faults = &[
    ("the text's last byte changed", changed_last_byte),
    ("the byte after the text changed", changed_after_text),
    ("the byte before the text changed", changed_before_text),
    ("the byte after the text read", overread),
    ("surrogates accepted", accepted_surrogates),
    ("byte 31 not read", unread::<31>),
    ("byte 4,095 not read", unread::<{ PAGE - 1 }>),
    ("byte 1,048,575 not read", unread::<{ MEBIBYTE - 1 }>),
    ("the longest text refused", refused_longest),
    ("the length's high half not read", halved_length),
];

unsafe fn changed_last_byte(lent: &Lent, real: Run) -> u32 {
    let number = real(lent);
    if lent.text_length > 0 {
        flip(lent, lent.text_length as isize - 1);
    }
    number
}

unsafe fn changed_after_text(lent: &Lent, real: Run) -> u32 {
    let number = real(lent);
    flip(lent, lent.text_length as isize);
    number
}

unsafe fn changed_before_text(lent: &Lent, real: Run) -> u32 {
    let number = real(lent);
    flip(lent, -1);
    number
}

unsafe fn flip(lent: &Lent, offset: isize) {
    if is_guarded(lent) {
        *lent.text.cast_mut().offset(offset) ^= 1;
    }
}

/// A text elsewhere has nothing around it that may be touched.
fn is_guarded(lent: &Lent) -> bool {
    !lent.text.is_null() && lent.text_length <= LONGEST_TEXT + 1
}

unsafe fn overread(lent: &Lent, real: Run) -> u32 {
    let text_length = lent.text_length + usize::from(is_guarded(lent));
    let number = real(&Lent {
        text_length,
        ..*lent
    });
    *lent.answer = (*lent.answer).min(lent.text_length as u64);
    number
}

unsafe fn accepted_surrogates(lent: &Lent, real: Run) -> u32 {
    let number = real(lent);
    let first = *lent.answer;
    match number {
        5 if begins_with_surrogate(lent, first as usize) => {
            *lent.answer = lent.text_length as u64;
            0
        }
        14 if first < 0xE000 => 0,
        _ => number,
    }
}

unsafe fn begins_with_surrogate(lent: &Lent, offset: usize) -> bool {
    let text = std::slice::from_raw_parts(lent.text, lent.text_length);
    matches!(text[offset..], [0xED, 0xA0..=0xBF, ..])
}

/// Takes an ASCII digit for the byte at this offset.
unsafe fn unread<const OFFSET: usize>(lent: &Lent, real: Run) -> u32 {
    if lent.text_length <= OFFSET || !is_guarded(lent) {
        return real(lent);
    }
    let mut text = std::slice::from_raw_parts(lent.text, lent.text_length).to_vec();
    text[OFFSET] = b'0';
    real(&Lent {
        text: text.as_ptr(),
        ..*lent
    })
}

unsafe fn refused_longest(lent: &Lent, real: Run) -> u32 {
    match lent.text_length {
        LONGEST_TEXT => {
            *lent.answer = LONGEST_TEXT as u64;
            *lent.answer.add(1) = 0;
            1
        }
        _ => real(lent),
    }
}

unsafe fn halved_length(lent: &Lent, real: Run) -> u32 {
    let text_length = lent.text_length as u32 as usize;
    real(&Lent {
        text_length,
        ..*lent
    })
}
