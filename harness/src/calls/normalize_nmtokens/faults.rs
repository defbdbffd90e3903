//! Wrong libraries for the second stage, and for what it does to the scratch.

use crate::call::Faults;
use crate::faults::parts::bytes;
use crate::faults::scratch::needed_scratch;
use crate::lent::{Lent, Run};

pub const STAGE: Faults = &[
    ("a trailing space kept", kept_trailing_space),
    ("a leading space kept", kept_leading_space),
    ("two spaces kept for two", kept_second_space),
    ("LF by reference taken for a space", lf_as_space),
    ("TAB by reference taken for a space", tab_as_space),
    ("the openings forgotten", no_openings),
    ("a result of just the length refused", refused_exact_output),
];

/// Beside those of every scratch.
pub const BOTH_STAGES: Faults = &[
    ("the value's first byte changed", changed_first_of_value),
    ("the scratch kept with 19", kept_scratch),
    ("the result in the scratch", result_in_scratch),
    ("the result's length with 18", shorter_18),
];

/// The value, which the scratch holds after a success or 19.
unsafe fn value(lent: &Lent) -> &[u8] {
    bytes(lent.scratch, lent.scratch_length)
}

/// A longer result: there is no room for it where the output is just long enough.
unsafe fn longer_where(lent: &Lent, real: Run, is_longer: impl Fn(&[u8]) -> bool) -> u32 {
    let number = real(lent);
    let length = needed_scratch(lent, real);
    if number != 0 || length > lent.scratch_length || !is_longer(&value(lent)[..length]) {
        return number;
    }
    let written = *lent.answer as usize;
    *lent.answer += 1;
    if written == lent.out_length {
        return 19;
    }
    *lent.out.add(written) = b' ';
    0
}

unsafe fn kept_trailing_space(lent: &Lent, real: Run) -> u32 {
    longer_where(lent, real, |value| value.ends_with(b" "))
}

unsafe fn kept_leading_space(lent: &Lent, real: Run) -> u32 {
    longer_where(lent, real, |value| value.starts_with(b" "))
}

unsafe fn kept_second_space(lent: &Lent, real: Run) -> u32 {
    longer_where(lent, real, |value| {
        value.windows(2).any(|pair| pair == b"  ")
    })
}

/// The byte in the place of a space, or none at an end.
unsafe fn as_space(lent: &Lent, real: Run, taken: u8) -> u32 {
    let number = real(lent);
    if number == 0 {
        let written = *lent.answer as usize;
        for at in 0..written {
            if *lent.out.add(at) == taken {
                *lent.out.add(at) = b' ';
            }
        }
    }
    number
}

unsafe fn lf_as_space(lent: &Lent, real: Run) -> u32 {
    as_space(lent, real, b'\n')
}

unsafe fn tab_as_space(lent: &Lent, real: Run) -> u32 {
    as_space(lent, real, b'\t')
}

unsafe fn no_openings(lent: &Lent, real: Run) -> u32 {
    let number = real(lent);
    *lent.answer.add(1) = 0;
    number
}

/// Room for the value is asked for, where the result is shorter.
unsafe fn refused_exact_output(lent: &Lent, real: Run) -> u32 {
    let number = real(lent);
    let length = needed_scratch(lent, real);
    match number {
        0 if lent.out_length < length => 19,
        _ => number,
    }
}

unsafe fn changed_first_of_value(lent: &Lent, real: Run) -> u32 {
    let number = real(lent);
    if matches!(number, 0 | 19) && needed_scratch(lent, real) > 0 {
        *lent.scratch ^= 1;
    }
    number
}

unsafe fn kept_scratch(lent: &Lent, real: Run) -> u32 {
    let before = bytes(lent.scratch, lent.scratch_length).to_vec();
    let number = real(lent);
    if number == 19 {
        lent.scratch.copy_from(before.as_ptr(), before.len());
    }
    number
}

/// Both stages in the scratch.
unsafe fn result_in_scratch(lent: &Lent, real: Run) -> u32 {
    let number = real(lent);
    if number == 0 {
        let written = *lent.answer as usize;
        lent.scratch.copy_from(lent.out, written);
    }
    number
}

unsafe fn shorter_18(lent: &Lent, real: Run) -> u32 {
    let number = real(lent);
    if number == 18 {
        let mut scratch = vec![0; *lent.answer as usize];
        let mut answer = [0; 2];
        let in_room = real(&Lent {
            scratch: scratch.as_mut_ptr(),
            scratch_length: scratch.len(),
            out_length: 0,
            answer: answer.as_mut_ptr(),
            ..*lent
        });
        if in_room == 19 {
            *lent.answer = answer[0];
        }
    }
    number
}
