//! Wrong libraries for a scratch, whatever a call writes there.

use crate::call::Faults;
use crate::lent::{Lent, Run};

pub const SCRATCH: Faults = &[
    (
        "the byte after what is written to the scratch changed",
        changed_after_written,
    ),
    (
        "the byte after the scratch changed",
        changed_scratch_guard::<0>,
    ),
    (
        "the byte before the scratch changed",
        changed_scratch_guard::<-1>,
    ),
    (
        "the scratch's last byte changed on a refusal",
        scratched_on_refusal,
    ),
    ("19 before 18", late_18),
    (
        "a scratch of just the length refused",
        refused_exact_scratch,
    ),
];

/// How long the scratch has to be: so many bytes of it are written, if any.
pub unsafe fn needed_scratch(lent: &Lent, real: Run) -> usize {
    // With an empty scratch, 18 says it.
    let mut answer = [0; 2];
    let number = real(&Lent {
        scratch_length: 0,
        answer: answer.as_mut_ptr(),
        ..*lent
    });
    match number {
        18 => answer[0] as usize,
        _ => 0,
    }
}

unsafe fn changed_after_written(lent: &Lent, real: Run) -> u32 {
    let number = real(lent);
    let length = needed_scratch(lent, real);
    if matches!(number, 0 | 19) && length < lent.scratch_length {
        *lent.scratch.add(length) ^= 1;
    }
    number
}

unsafe fn changed_scratch_guard<const OFFSET: isize>(lent: &Lent, real: Run) -> u32 {
    let number = real(lent);
    if !lent.scratch.is_null() {
        let end = match OFFSET {
            0 => lent.scratch_length as isize,
            before => before,
        };
        *lent.scratch.offset(end) ^= 1;
    }
    number
}

/// With any but 19, after which the scratch of a list of tokens holds the value.
unsafe fn scratched_on_refusal(lent: &Lent, real: Run) -> u32 {
    let number = real(lent);
    if !matches!(number, 0 | 19) && lent.scratch_length > 0 {
        *lent.scratch.add(lent.scratch_length - 1) ^= 1;
    }
    number
}

unsafe fn late_18(lent: &Lent, real: Run) -> u32 {
    let number = real(lent);
    if number != 18 {
        return number;
    }
    let mut scratch = vec![0; *lent.answer as usize];
    let mut out = vec![0; lent.out_length];
    let in_room = real(&Lent {
        scratch: scratch.as_mut_ptr(),
        scratch_length: scratch.len(),
        out: out.as_mut_ptr(),
        ..*lent
    });
    match in_room {
        19 => 19,
        _ => real(lent),
    }
}

unsafe fn refused_exact_scratch(lent: &Lent, real: Run) -> u32 {
    let number = real(lent);
    match number {
        0 if needed_scratch(lent, real) == lent.scratch_length => 18,
        _ => number,
    }
}
