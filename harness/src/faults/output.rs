//! Wrong libraries for calls with an output, and for those with a level or a version.

use crate::call::Faults;
use crate::lent::{Lent, Run};

pub const OUTPUT: Faults = &[
    ("the result's first byte changed", changed_first_of_result),
    ("the result's last byte changed", changed_last_of_result),
    ("the byte after the result changed", changed_after_result),
    (
        "the output's last byte changed on a refusal",
        changed_on_refusal,
    ),
    ("the output filled before 19", filled_before_19),
    ("the byte after the output changed", changed_after_output),
    ("the byte before the output changed", changed_before_output),
    ("one byte more written than there is room", overwritten),
    ("an output of just the length refused", refused_exact),
];

pub const CHOICE: Faults = &[
    ("level or version 255 taken for 0", accepted_choice),
    ("level or version checked after the bytes", late_choice),
];

unsafe fn changed_first_of_result(lent: &Lent, real: Run) -> u32 {
    let number = real(lent);
    if number == 0 && *lent.answer > 0 {
        *lent.out ^= 1;
    }
    number
}

unsafe fn changed_last_of_result(lent: &Lent, real: Run) -> u32 {
    let number = real(lent);
    if number == 0 && *lent.answer > 0 {
        *lent.out.add(*lent.answer as usize - 1) ^= 1;
    }
    number
}

unsafe fn changed_after_result(lent: &Lent, real: Run) -> u32 {
    let number = real(lent);
    if number == 0 && (*lent.answer as usize) < lent.out_length {
        *lent.out.add(*lent.answer as usize) ^= 1;
    }
    number
}

unsafe fn changed_on_refusal(lent: &Lent, real: Run) -> u32 {
    let number = real(lent);
    if number != 0 && lent.out_length > 0 {
        *lent.out.add(lent.out_length - 1) ^= 1;
    }
    number
}

unsafe fn filled_before_19(lent: &Lent, real: Run) -> u32 {
    let number = real(lent);
    if number == 19 && lent.out_length > 0 {
        lent.out.write_bytes(b'a', lent.out_length);
    }
    number
}

unsafe fn changed_after_output(lent: &Lent, real: Run) -> u32 {
    let number = real(lent);
    flip_output(lent, lent.out_length as isize);
    number
}

unsafe fn changed_before_output(lent: &Lent, real: Run) -> u32 {
    let number = real(lent);
    flip_output(lent, -1);
    number
}

unsafe fn flip_output(lent: &Lent, offset: isize) {
    if !lent.out.is_null() {
        *lent.out.offset(offset) ^= 1;
    }
}

unsafe fn overwritten(lent: &Lent, real: Run) -> u32 {
    let out_length = lent.out_length + usize::from(!lent.out.is_null());
    real(&Lent {
        out_length,
        ..*lent
    })
}

unsafe fn refused_exact(lent: &Lent, real: Run) -> u32 {
    let number = real(lent);
    match number {
        0 if *lent.answer == lent.out_length as u64 => 19,
        _ => number,
    }
}

unsafe fn accepted_choice(lent: &Lent, real: Run) -> u32 {
    let choice = match lent.choice {
        255 => 0,
        choice => choice,
    };
    real(&Lent { choice, ..*lent })
}

unsafe fn late_choice(lent: &Lent, real: Run) -> u32 {
    let number = real(lent);
    if number != 4 {
        return number;
    }
    match real(&Lent { choice: 0, ..*lent }) {
        5 => 5,
        _ => real(lent),
    }
}
