//! Wrong libraries for the character in hand and for the form.

use crate::arguments::HAND;
use crate::call::Faults;
use crate::faults::parts::bytes;
use crate::lent::{Lent, Run};

pub const FORM: Faults = &[("U+0085 escaped under 1.0", escaped_nel)];

/// Beside those of every scratch.
pub const IN_HAND: Faults = &[
    ("the character's first byte changed", changed_first_of_hand),
    ("the scratch written with 19", written_with_19),
    ("the form's last character in the scratch", last_of_form),
    ("the character filled up with spaces", filled_with_spaces),
    (
        "the scratch cleared for an empty value",
        cleared_for_nothing,
    ),
    ("18 before the refusals of the walk", early_18),
    ("no 18 for an empty value", no_18_for_nothing),
    ("a scratch of 3 bytes taken", taken_short_scratch),
];

/// Did the call write a character to the scratch?
unsafe fn has_hand(lent: &Lent, number: u32) -> bool {
    number == 0 && *lent.answer > 0
}

unsafe fn changed_first_of_hand(lent: &Lent, real: Run) -> u32 {
    let number = real(lent);
    if has_hand(lent, number) {
        *lent.scratch ^= 1;
    }
    number
}

/// As after success.
unsafe fn written_with_19(lent: &Lent, real: Run) -> u32 {
    let number = real(lent);
    if number == 19 {
        let mut out = vec![0; *lent.answer as usize];
        let mut answer = [0; 2];
        real(&Lent {
            out: out.as_mut_ptr(),
            out_length: out.len(),
            answer: answer.as_mut_ptr(),
            ..*lent
        });
    }
    number
}

unsafe fn last_of_form(lent: &Lent, real: Run) -> u32 {
    let number = real(lent);
    if has_hand(lent, number) {
        let form = bytes(lent.out, *lent.answer as usize);
        let mut width = 1;
        while form[form.len() - width] & 0xC0 == 0x80 {
            width += 1;
        }
        lent.scratch.write_bytes(0, HAND);
        lent.scratch
            .copy_from(form[form.len() - width..].as_ptr(), width);
    }
    number
}

unsafe fn filled_with_spaces(lent: &Lent, real: Run) -> u32 {
    let number = real(lent);
    if has_hand(lent, number) {
        for place in 1..HAND {
            if *lent.scratch.add(place) == 0 {
                *lent.scratch.add(place) = b' ';
            }
        }
    }
    number
}

unsafe fn cleared_for_nothing(lent: &Lent, real: Run) -> u32 {
    let number = real(lent);
    if number == 0 && *lent.answer == 0 {
        lent.scratch.write_bytes(0, HAND);
    }
    number
}

unsafe fn early_18(lent: &Lent, real: Run) -> u32 {
    let number = real(lent);
    match number {
        10..=17 | 25..=27 if lent.scratch_length < HAND => {
            *lent.answer = HAND as u64;
            *lent.answer.add(1) = 0;
            18
        }
        _ => number,
    }
}

/// The answer where there is scratch enough.
unsafe fn in_own_scratch(lent: &Lent, real: Run) -> u32 {
    let mut scratch = [0; HAND];
    real(&Lent {
        scratch: scratch.as_mut_ptr(),
        scratch_length: scratch.len(),
        ..*lent
    })
}

unsafe fn no_18_for_nothing(lent: &Lent, real: Run) -> u32 {
    let without_output = Lent {
        out_length: 0,
        ..*lent
    };
    match real(lent) {
        18 if in_own_scratch(&without_output, real) == 0 => 0,
        _ => real(lent),
    }
}

unsafe fn taken_short_scratch(lent: &Lent, real: Run) -> u32 {
    match real(lent) {
        18 if lent.scratch_length == HAND - 1 => in_own_scratch(lent, real),
        number => number,
    }
}

/// Six bytes in the place of two: there is no room for them where the output is just long enough.
unsafe fn escaped_nel(lent: &Lent, real: Run) -> u32 {
    let number = real(lent);
    if number != 0 || lent.choice == 2 {
        return number;
    }
    let form = bytes(lent.out, *lent.answer as usize);
    match form.windows(2).any(|two| two == [0xC2, 0x85]) {
        true => 19,
        false => 0,
    }
}
