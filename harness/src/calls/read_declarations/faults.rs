//! Wrong libraries for declarations.

use crate::call::Faults;
use crate::faults::parts::text;
use crate::lent::{Lent, Run};
use crate::table::{DEFINITION, LONGEST_NAME, LONGEST_POOL};

pub const FAULTS: Faults = &[
    ("22 before 21", too_large_first),
    ("21 at the end of a long name before 22", malformed_first),
    ("a CR LF counted as two in offsets", line_end_as_two),
    ("offsets before line ends", before_line_ends),
    ("% taken as text", percent_taken),
    ("no white space asked before the value", no_white_space),
    ("the last declaration first", last_first),
    ("no mark written", unmarked),
    ("the pool's limit not asked", pool_limit_not_asked),
    ("4,097 declarations accepted", one_declaration_more),
    ("a name of 256 bytes accepted", long_name_accepted),
    ("U+0085 as white space of XML 1.0", newer_line_ends),
    ("names of the fourth edition", no_new_names),
    ("general references replaced by nothing", references_dropped),
    ("characters outside Char refused", held_to_char),
    ("a byte order mark passed over", byte_order_mark),
];

/// The lent bytes but the text.
unsafe fn with_text(lent: &Lent, real: Run, text: &[u8]) -> u32 {
    real(&Lent {
        text: text.as_ptr(),
        text_length: text.len(),
        ..*lent
    })
}

unsafe fn pool(lent: &Lent) -> &mut [u8] {
    match *lent.answer.add(1) {
        0 => &mut [],
        length => std::slice::from_raw_parts_mut(lent.new_pool, length as usize),
    }
}

unsafe fn list(lent: &Lent) -> &mut [u8] {
    std::slice::from_raw_parts_mut(lent.new_list, *lent.answer as usize)
}

/// How long the name is that ends at this offset, of a text without line ends of two bytes.
fn name_before(text: &[u8], end: usize) -> usize {
    let before = &text[..end.min(text.len())];
    let is_blank = |byte: &u8| byte.is_ascii_whitespace();
    before.len() - before.iter().rposition(is_blank).map_or(0, |at| at + 1)
}

unsafe fn too_large_first(lent: &Lent, real: Run) -> u32 {
    let number = real(lent);
    let at = *lent.answer as usize;
    match number {
        21 if name_before(text(lent), at) > LONGEST_NAME => 22,
        _ => number,
    }
}

unsafe fn malformed_first(lent: &Lent, real: Run) -> u32 {
    let number = real(lent);
    let at = *lent.answer as usize;
    match number {
        22 if name_before(text(lent), at) > LONGEST_NAME => 21,
        _ => number,
    }
}

unsafe fn line_end_as_two(lent: &Lent, real: Run) -> u32 {
    let number = real(lent);
    if matches!(number, 21 | 22) && text(lent).starts_with(b"\r\n") {
        *lent.answer += 1;
    }
    number
}

/// Of a text that ends too soon.
unsafe fn before_line_ends(lent: &Lent, real: Run) -> u32 {
    let number = real(lent);
    let removed = text(lent).windows(2).filter(|two| *two == b"\r\n").count();
    if number == 21 && *lent.answer as usize + removed == lent.text_length {
        *lent.answer = lent.text_length as u64;
    }
    number
}

unsafe fn percent_taken(lent: &Lent, real: Run) -> u32 {
    let number = real(lent);
    let at = *lent.answer as usize;
    if number != 21 || text(lent).get(at) != Some(&b'%') {
        return number;
    }
    let mut other = text(lent).to_vec();
    other[at] = b'p';
    match with_text(lent, real, &other) {
        0 => 0,
        _ => real(lent),
    }
}

unsafe fn no_white_space(lent: &Lent, real: Run) -> u32 {
    let number = real(lent);
    let at = *lent.answer as usize;
    if number != 21 || !matches!(text(lent).get(at), Some(b'"' | b'\'')) {
        return number;
    }
    let mut other = text(lent).to_vec();
    other.insert(at, b' ');
    match with_text(lent, real, &other) {
        0 => 0,
        _ => real(lent),
    }
}

unsafe fn last_first(lent: &Lent, real: Run) -> u32 {
    let number = real(lent);
    if number == 0 {
        let list = list(lent);
        let end = list.len() - 1;
        let commands: Vec<u8> = list[1..end]
            .rchunks(DEFINITION)
            .flatten()
            .copied()
            .collect();
        list[1..end].copy_from_slice(&commands);
    }
    number
}

unsafe fn unmarked(lent: &Lent, real: Run) -> u32 {
    let number = real(lent);
    if number == 0 {
        list(lent).rotate_left(1);
        *lent.answer -= 1;
    }
    number
}

unsafe fn pool_limit_not_asked(lent: &Lent, real: Run) -> u32 {
    let number = real(lent);
    let (list, pool) = (*lent.answer as usize, *lent.answer.add(1) as usize);
    let fits = list <= lent.new_list_length && pool <= lent.new_pool_length;
    match number {
        23 if fits && pool > LONGEST_POOL => 0,
        _ => number,
    }
}

unsafe fn one_declaration_more(lent: &Lent, real: Run) -> u32 {
    let number = real(lent);
    match number {
        22 if text(lent).ends_with(b"<") => {
            *lent.answer += 1;
            21
        }
        _ => number,
    }
}

unsafe fn long_name_accepted(lent: &Lent, real: Run) -> u32 {
    let number = real(lent);
    let at = *lent.answer as usize;
    if number != 22 || name_before(text(lent), at) != LONGEST_NAME + 1 {
        return number;
    }
    let mut other = text(lent).to_vec();
    other.remove(at - 1);
    with_text(lent, real, &other)
}

unsafe fn newer_line_ends(lent: &Lent, real: Run) -> u32 {
    real(&Lent {
        choice: match lent.choice {
            0 => 2,
            choice => choice,
        },
        ..*lent
    })
}

/// Of the characters that only the fifth edition has in names, one.
unsafe fn no_new_names(lent: &Lent, real: Run) -> u32 {
    let number = real(lent);
    let new = "\u{218F}".as_bytes();
    match text(lent).windows(3).position(|three| three == new) {
        Some(at) if number == 0 && text(lent)[at - 1] == b' ' => {
            *lent.answer = at as u64;
            *lent.answer.add(1) = 0;
            21
        }
        _ => number,
    }
}

unsafe fn references_dropped(lent: &Lent, real: Run) -> u32 {
    let number = real(lent);
    if number == 0 {
        if let Some(at) = pool(lent).windows(3).position(|three| three == b"&f;") {
            pool(lent)[at..at + 3].fill(b' ');
        }
    }
    number
}

unsafe fn held_to_char(lent: &Lent, real: Run) -> u32 {
    let number = real(lent);
    match number {
        0 if text(lent).contains(&1) => 26,
        _ => number,
    }
}

unsafe fn byte_order_mark(lent: &Lent, real: Run) -> u32 {
    match text(lent).strip_prefix("\u{FEFF}".as_bytes()) {
        Some(rest) => with_text(lent, real, rest),
        None => real(lent),
    }
}
