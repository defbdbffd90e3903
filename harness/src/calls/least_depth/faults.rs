//! Wrong libraries for least depths, and wrong readings.

use crate::answer::{refusal, success, Answer};
use crate::arguments::{Arguments, DEEPEST, MOST_OPENINGS};
use crate::call::{Expected, Faults, Misreadings};
use crate::faults::memory::{definitions, split};
use crate::faults::parts::text;
use crate::faults::table::refused;
use crate::lent::{Lent, Run};
use crate::table::{Table, MARK};

pub const DEPTHS: Faults = &[
    ("a predefined text counted as a level", counted_predefined),
    ("the last reference's depth for the greatest", last_depth),
    ("the first reference's depth for the greatest", first_depth),
    (
        "a short text kept with depth 2 where 1 is enough",
        kept_short,
    ),
    ("16 in the place of 32", kept_16),
    ("32 in the place of every refusal", always_32),
    ("the limit not asked", unlimited),
    ("17 where the depth is used up at the limit", early_17),
    ("128 not reached", short_of_128),
    ("the openings told", told_openings),
    ("the place of 11 not told", untold_place),
    ("depth 0 for a text without references", depth_at_references),
];

/// Calls the real one on a part of the text, and answers by what that needs.
unsafe fn of_part(lent: &Lent, real: Run, part: &[u8]) -> u32 {
    real(&Lent {
        text: part.as_ptr(),
        text_length: part.len(),
        ..*lent
    })
}

unsafe fn at_least(lent: &Lent, number: u32, depth: u64) -> u32 {
    if number == 0 {
        *lent.answer = (*lent.answer).max(depth);
    }
    number
}

unsafe fn counted_predefined(lent: &Lent, real: Run) -> u32 {
    let number = real(lent);
    let has_one = text(lent).windows(4).any(|part| part == b"&lt;");
    match has_one && number == 0 && !definitions(lent).contains_key(b"lt" as &[u8]) {
        true => at_least(lent, number, 2),
        false => number,
    }
}

unsafe fn last_depth(lent: &Lent, real: Run) -> u32 {
    let number = real(lent);
    let last = text(lent).iter().rposition(|&byte| byte == b'&');
    match (number, last) {
        (0, Some(last)) => of_part(lent, real, &text(lent)[last..]),
        _ => number,
    }
}

unsafe fn first_depth(lent: &Lent, real: Run) -> u32 {
    let number = real(lent);
    let first = split(text(lent)).filter(|_| number == 0);
    match first {
        Some((_, _, after)) => {
            let length = lent.text_length - after.len();
            of_part(lent, real, &text(lent)[..length])
        }
        None => number,
    }
}

/// After something that needs 2, a text without a stop is opened; a later text that refers to it has it again.
unsafe fn kept_short(lent: &Lent, real: Run) -> u32 {
    let number = real(lent);
    if number != 0 || *lent.answer != 2 {
        return number;
    }
    let definitions = definitions(lent);
    let (mut kept, mut has_two, mut rest) = (vec![], false, text(lent));
    while let Some((_, name, after)) = split(rest) {
        let inner = definitions.get(name).copied().unwrap_or(b"");
        let stops = inner.iter().any(|byte| b"\t\r\n&\xC2\xE2".contains(byte));
        if has_two && !stops && !inner.is_empty() {
            kept.push([b"&", name, b";"].concat());
        }
        let has_kept = |one: &Vec<u8>| inner.windows(one.len()).any(|part| part == one);
        if kept.iter().any(has_kept) {
            return at_least(lent, number, 3);
        }
        has_two |= inner.contains(&b'&');
        rest = after;
    }
    number
}

unsafe fn kept_16(lent: &Lent, real: Run) -> u32 {
    match real(lent) {
        32 => 16,
        number => number,
    }
}

unsafe fn always_32(lent: &Lent, real: Run) -> u32 {
    match real(lent) {
        10..=17 | 27 => refused(lent, 32, 0),
        number => number,
    }
}

unsafe fn unlimited(lent: &Lent, real: Run) -> u32 {
    match lent.limit {
        0..=MOST_OPENINGS => real(&Lent {
            limit: MOST_OPENINGS,
            ..*lent
        }),
        _ => real(lent),
    }
}

/// The limit is asked before the depth: at 128 openings of a text that opens itself.
unsafe fn early_17(lent: &Lent, real: Run) -> u32 {
    match real(lent) {
        32 if lent.limit == DEEPEST => real(&Lent {
            limit: lent.limit - 1,
            ..*lent
        }),
        number => number,
    }
}

unsafe fn short_of_128(lent: &Lent, real: Run) -> u32 {
    match real(lent) {
        0 if *lent.answer == DEEPEST => refused(lent, 32, 0),
        number => number,
    }
}

unsafe fn told_openings(lent: &Lent, real: Run) -> u32 {
    let number = real(lent);
    let opens = number == 0 && *lent.answer > 1;
    *lent.answer.add(1) += u64::from(opens);
    number
}

unsafe fn untold_place(lent: &Lent, real: Run) -> u32 {
    match real(lent) {
        11 => refused(lent, 11, 0),
        number => number,
    }
}

unsafe fn depth_at_references(lent: &Lent, real: Run) -> u32 {
    let number = real(lent);
    if number == 0 && !text(lent).contains(&b'&') {
        *lent.answer = 0;
    }
    number
}

/// The documents' rows have to catch each.
pub const READINGS: Misreadings = &[
    ("a predefined text a level", |arguments, real| {
        let answer = real(arguments);
        let is_one = answer.number == 0 && arguments.text == b"&lt;";
        match is_one {
            true => success(answer.first + 1),
            false => answer,
        }
    }),
    ("16 where 128 is too small", |arguments, real| {
        match real(arguments) {
            answer if answer.number == 32 => refusal(16, 0),
            answer => answer,
        }
    }),
    (
        "32 for what depth 128 refuses",
        |arguments, real| match real(arguments) {
            answer if matches!(answer.number, 10..=17) => refusal(32, 0),
            answer => answer,
        },
    ),
    ("the limit without a say", |arguments, real| {
        let limit = arguments.limit.max(MOST_OPENINGS);
        real(&Arguments {
            limit,
            ..*arguments
        })
    }),
    ("the last reference alone", |arguments, real| {
        let text = arguments.text;
        let last = text.iter().rposition(|&byte| byte == b'&').unwrap_or(0);
        of_depth(arguments, real, &text[last..])
    }),
    ("a blank without need", |arguments, real| {
        let is_blank = |byte: &u8| b"\t\r\n".contains(byte);
        let text: Vec<u8> = arguments
            .text
            .iter()
            .copied()
            .filter(|byte| !is_blank(byte))
            .collect();
        of_depth(arguments, real, &text)
    }),
    ("the mark passed over", |arguments, real| {
        let Table { list, pool } = arguments.table;
        let list = list.strip_prefix(&[MARK]).unwrap_or(list);
        let table = Table { list, pool };
        real(&Arguments {
            table,
            ..*arguments
        })
    }),
    ("every text one level deeper", |arguments, real| {
        let answer = real(arguments);
        match answer.number == 0 && answer.first > 1 {
            true => success(answer.first + 1),
            false => answer,
        }
    }),
];

/// Of a value that is accepted, what another text needs.
fn of_depth(arguments: &Arguments, real: Expected, text: &[u8]) -> Answer {
    match real(arguments) {
        answer if answer.number != 0 => answer,
        _ => real(&Arguments { text, ..*arguments }),
    }
}
