//! Wrong libraries for calls that open texts.

use super::parts::{table, text};
use crate::arguments::{DEEPEST, MOST_OPENINGS};
use crate::call::Faults;
use crate::lent::{Lent, Run};

pub const DEPTH: Faults = &[
    ("depth one less", less_depth),
    ("depth one more", more_depth),
    ("depth 129 accepted", accepted_depth),
    ("depth used up at references alone", depth_at_references),
    ("3 before 2", swapped_2_and_3),
    ("2 after 5", late_depth),
];

/// Of calls that tell the openings.
pub const OPENINGS: Faults = &[
    ("openings not told", untold_openings),
    ("`&lt;` counted as an opening", counted_predefined),
];

/// Of calls that are handed no depth too.
pub const REFERENCES: Faults = &[
    ("limit one less", lower_limit),
    ("limit one more", higher_limit),
    ("limit 1,000,001 accepted", accepted_limit),
    ("version 1 taken for 1.1", version_1_as_1_1),
    ("`amp` looked up in the table", asked_for_amp),
];

/// Of calls that say where the text is refused.
pub const PLACES: Faults = &[("a name ended at an inner `&`", ended_at_inner)];

unsafe fn less_depth(lent: &Lent, real: Run) -> u32 {
    let depth = lent.depth.saturating_sub(1);
    real(&Lent { depth, ..*lent })
}

unsafe fn more_depth(lent: &Lent, real: Run) -> u32 {
    let depth = lent.depth + u64::from(lent.depth < DEEPEST);
    real(&Lent { depth, ..*lent })
}

unsafe fn accepted_depth(lent: &Lent, real: Run) -> u32 {
    let depth = lent.depth.min(DEEPEST);
    real(&Lent { depth, ..*lent })
}

unsafe fn depth_at_references(lent: &Lent, real: Run) -> u32 {
    let depth = match lent.depth {
        0 if !text(lent).contains(&b'&') => 1,
        depth => depth,
    };
    real(&Lent { depth, ..*lent })
}

unsafe fn lower_limit(lent: &Lent, real: Run) -> u32 {
    let limit = lent.limit.saturating_sub(1);
    real(&Lent { limit, ..*lent })
}

unsafe fn higher_limit(lent: &Lent, real: Run) -> u32 {
    let limit = lent.limit + u64::from(lent.limit < MOST_OPENINGS);
    real(&Lent { limit, ..*lent })
}

unsafe fn accepted_limit(lent: &Lent, real: Run) -> u32 {
    let limit = lent.limit.min(MOST_OPENINGS);
    real(&Lent { limit, ..*lent })
}

unsafe fn swapped_2_and_3(lent: &Lent, real: Run) -> u32 {
    match real(lent) {
        2 if lent.limit > MOST_OPENINGS => 3,
        number => number,
    }
}

unsafe fn late_depth(lent: &Lent, real: Run) -> u32 {
    let number = real(lent);
    if number != 2 {
        return number;
    }
    match real(&Lent { depth: 0, ..*lent }) {
        5 => 5,
        _ => real(lent),
    }
}

unsafe fn untold_openings(lent: &Lent, real: Run) -> u32 {
    let number = real(lent);
    if number == 0 {
        *lent.answer.add(1) = 0;
    }
    number
}

unsafe fn counted_predefined(lent: &Lent, real: Run) -> u32 {
    let number = real(lent);
    let count = text(lent).windows(4).filter(|part| part == b"&lt;").count();
    if number == 0 {
        *lent.answer.add(1) += count as u64;
    }
    number
}

unsafe fn version_1_as_1_1(lent: &Lent, real: Run) -> u32 {
    let choice = match lent.choice {
        1 => 2,
        choice => choice,
    };
    real(&Lent { choice, ..*lent })
}

/// Under another name of its length, `amp` is one like all others.
unsafe fn asked_for_amp(lent: &Lent, real: Run) -> u32 {
    let table = table(lent);
    let defines = table.commands().is_some_and(|commands| {
        let mut names = commands.iter().map(|command| table.name(command));
        names.any(|name| name == Some(b"amp"))
    });
    if !defines {
        return real(lent);
    }
    let (text, pool) = (renamed(text(lent)), renamed(table.pool));
    real(&Lent {
        text: text.as_ptr(),
        pool: pool.as_ptr(),
        ..*lent
    })
}

fn renamed(bytes: &[u8]) -> Vec<u8> {
    let mut bytes = bytes.to_vec();
    for at in 0..bytes.len().saturating_sub(2) {
        if bytes[at..at + 3] == *b"amp" {
            bytes[at + 2] = b'q';
        }
    }
    bytes
}

unsafe fn ended_at_inner(lent: &Lent, real: Run) -> u32 {
    let number = real(lent);
    let (start, end) = (*lent.answer as usize, *lent.answer.add(1) as usize);
    let name = text(lent).get(start..end).unwrap_or(&[]);
    match number {
        11 if name.contains(&b'&') => {
            *lent.answer = start as u64 - 1;
            *lent.answer.add(1) = lent.text_length as u64;
            10
        }
        _ => number,
    }
}
