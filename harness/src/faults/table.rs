//! Wrong libraries for calls with an entity table.

use super::parts::table;
use crate::call::Faults;
use crate::lent::{Lent, Run};
use crate::table::{size, END, LONGEST_LIST, LONGEST_POOL, MARK};
use std::borrow::Borrow;

pub const TABLE: Faults = &[
    ("8 and 9 swapped", swapped_8_and_9),
    ("the offset of 7 to 9 one more", later_offset),
    ("the whole list looked at before the pool", list_first),
    ("one byte after the end accepted", accepted_after_end),
    ("the end sought as the list's last byte", end_sought_last),
    ("the longest list refused", refused_list),
    ("the longest pool refused", refused_pool),
    ("a longer list accepted", accepted_list),
    ("a longer pool accepted", accepted_pool),
    ("the list's length's high half not read", halved_list),
    ("the pool's length's high half not read", halved_pool),
    ("the list's last byte changed", changed_list::<-1>),
    ("the byte after the list changed", changed_list::<0>),
    ("the pool's last byte changed", changed_pool::<-1>),
    ("the byte after the pool changed", changed_pool::<0>),
    ("the byte after the pool read", overread_pool),
    ("the pool's last byte not read", unread_pool),
];

pub const LOOKUP: Faults = &[
    ("the table checked before the text", table_first),
    ("the last definition binds", last_binds),
    ("the five not redefined", five_kept),
    ("names looked up by all but their last bytes", short_names),
];

pub unsafe fn refused(lent: &Lent, number: u32, first: usize) -> u32 {
    *lent.answer = first as u64;
    *lent.answer.add(1) = 0;
    number
}

/// After a mark where the list has one.
pub unsafe fn with_commands(lent: &Lent, real: Run, commands: &[impl Borrow<[u8]>]) -> u32 {
    let mark = vec![MARK; table(lent).start()];
    let list = [mark, commands.concat(), vec![END]].concat();
    real(&Lent {
        list: list.as_ptr(),
        list_length: list.len(),
        ..*lent
    })
}

unsafe fn swapped_8_and_9(lent: &Lent, real: Run) -> u32 {
    match real(lent) {
        8 => 9,
        9 => 8,
        number => number,
    }
}

unsafe fn later_offset(lent: &Lent, real: Run) -> u32 {
    let number = real(lent);
    if matches!(number, 7..=9) {
        *lent.answer += 1;
    }
    number
}

unsafe fn list_first(lent: &Lent, real: Run) -> u32 {
    let number = real(lent);
    if number != 8 && number != 9 {
        return number;
    }
    let list = table(lent).list;
    let mut at = table(lent).start();
    loop {
        match list.get(at) {
            Some(&END) if at + 1 == list.len() => return number,
            Some(&END) => return refused(lent, 7, at + 1),
            Some(&command) => match size(command) {
                Some(size) if at + size <= list.len() => at += size,
                _ => return refused(lent, 7, at),
            },
            None => return refused(lent, 7, at),
        }
    }
}

unsafe fn accepted_after_end(lent: &Lent, real: Run) -> u32 {
    let number = real(lent);
    match number {
        7 if *lent.answer + 1 == lent.list_length as u64 => {
            let list_length = lent.list_length - 1;
            real(&Lent {
                list_length,
                ..*lent
            })
        }
        _ => number,
    }
}

/// Says 7 at the list's end for any list whose last byte is no end.
unsafe fn end_sought_last(lent: &Lent, real: Run) -> u32 {
    let number = real(lent);
    match number {
        7..=9 if table(lent).list.last() != Some(&END) => refused(lent, 7, lent.list_length),
        _ => number,
    }
}

unsafe fn refused_list(lent: &Lent, real: Run) -> u32 {
    match lent.list_length {
        LONGEST_LIST => refused(lent, 6, 0),
        _ => real(lent),
    }
}

unsafe fn refused_pool(lent: &Lent, real: Run) -> u32 {
    match lent.pool_length {
        LONGEST_POOL => refused(lent, 6, 0),
        _ => real(lent),
    }
}

unsafe fn accepted_list(lent: &Lent, real: Run) -> u32 {
    let list_length = lent.list_length.min(LONGEST_LIST);
    real(&Lent {
        list_length,
        ..*lent
    })
}

unsafe fn accepted_pool(lent: &Lent, real: Run) -> u32 {
    let pool_length = lent.pool_length.min(LONGEST_POOL);
    real(&Lent {
        pool_length,
        ..*lent
    })
}

unsafe fn halved_list(lent: &Lent, real: Run) -> u32 {
    let list_length = lent.list_length as u32 as usize;
    real(&Lent {
        list_length,
        ..*lent
    })
}

unsafe fn halved_pool(lent: &Lent, real: Run) -> u32 {
    let pool_length = lent.pool_length as u32 as usize;
    real(&Lent {
        pool_length,
        ..*lent
    })
}

/// Lists and pools elsewhere have nothing around them that may be touched.
unsafe fn flip_past(start: *const u8, length: usize, longest: usize, offset: isize) {
    if !start.is_null() && length <= longest + 1 {
        *start.cast_mut().offset(length as isize + offset) ^= 1;
    }
}

unsafe fn changed_list<const OFFSET: isize>(lent: &Lent, real: Run) -> u32 {
    let number = real(lent);
    flip_past(lent.list, lent.list_length, LONGEST_LIST, OFFSET);
    number
}

unsafe fn changed_pool<const OFFSET: isize>(lent: &Lent, real: Run) -> u32 {
    let number = real(lent);
    flip_past(lent.pool, lent.pool_length, LONGEST_POOL, OFFSET);
    number
}

unsafe fn overread_pool(lent: &Lent, real: Run) -> u32 {
    let is_guarded = !lent.pool.is_null() && lent.pool_length < LONGEST_POOL;
    let pool_length = lent.pool_length + usize::from(is_guarded);
    real(&Lent {
        pool_length,
        ..*lent
    })
}

/// Takes an ASCII letter for it.
unsafe fn unread_pool(lent: &Lent, real: Run) -> u32 {
    if lent.pool_length == 0 || lent.pool_length > LONGEST_POOL {
        return real(lent);
    }
    let mut pool = table(lent).pool.to_vec();
    *pool.last_mut().unwrap() = b'q';
    real(&Lent {
        pool: pool.as_ptr(),
        ..*lent
    })
}

unsafe fn table_first(lent: &Lent, real: Run) -> u32 {
    let number = real(lent);
    if number != 5 {
        return number;
    }
    let without_text = real(&Lent {
        text_length: 0,
        ..*lent
    });
    match without_text {
        6..=9 => without_text,
        _ => real(lent),
    }
}

unsafe fn last_binds(lent: &Lent, real: Run) -> u32 {
    let Some(commands) = table(lent).commands() else {
        return real(lent);
    };
    let turned: Vec<&[u8]> = commands.into_iter().rev().collect();
    with_commands(lent, real, &turned)
}

unsafe fn five_kept(lent: &Lent, real: Run) -> u32 {
    let Some(commands) = table(lent).commands() else {
        return real(lent);
    };
    let is_other = |command: &&[u8]| {
        let five: [&[u8]; 5] = [b"lt", b"gt", b"amp", b"apos", b"quot"];
        !table(lent)
            .name(command)
            .is_some_and(|name| five.contains(&name))
    };
    let others: Vec<&[u8]> = commands.into_iter().filter(is_other).collect();
    with_commands(lent, real, &others)
}

/// Of names that have more than one byte, so that an empty one does not come of it.
unsafe fn short_names(lent: &Lent, real: Run) -> u32 {
    let Some(commands) = table(lent).commands() else {
        return real(lent);
    };
    let shortened = |command: &&[u8]| {
        let mut command = command.to_vec();
        command[5] -= u8::from(command[5] > 1);
        command
    };
    let shortened: Vec<Vec<u8>> = commands.iter().map(shortened).collect();
    with_commands(lent, real, &shortened)
}
