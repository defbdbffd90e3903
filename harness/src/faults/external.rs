//! Wrong libraries for external entities (K9).

use super::parts::{table, text};
use super::table::{refused, with_commands};
use crate::arguments::DEEPEST;
use crate::call::Faults;
use crate::lent::{Lent, Run};
use crate::table::{size, DECLARE_EXTERNAL, DEFINE, DEFINITION, LONGEST_LIST};
use std::ptr::null_mut;

/// Of the table's check.
pub const TABLE: Faults = &[
    ("12 bytes asked of a command 2", asked_for_12),
    ("command 2 unknown", unknown_command),
    ("more than 4,096 commands refused", refused_many),
];

/// Of the lookup.
pub const LOOKUP: Faults = &[
    ("command 2 skipped by the lookup", skipped),
    ("12 bytes passed at a command 2", passed_12),
    ("a command 2 binds before every text", external_first),
    ("texts that are not opened looked through for 27", foreseen),
];

/// Of calls that say where the text is refused.
pub const PLACES: Faults = &[("27 at the name", at_the_name)];

/// Of the walk.
pub const WALK: Faults = &[("27 after 17", late_27), ("27 before 16", early_27)];

fn is_external(command: &[u8]) -> bool {
    command[0] == DECLARE_EXTERNAL
}

/// The commands of a table that is accepted.
unsafe fn accepted(lent: &Lent, number: u32) -> Option<Vec<&[u8]>> {
    match number {
        1..=9 => None,
        _ => table(lent).commands(),
    }
}

/// Whether the answer is one of a walk over a table with such a command.
unsafe fn has_external(lent: &Lent, number: u32) -> bool {
    accepted(lent, number)
        .is_some_and(|commands| commands.iter().any(|command| is_external(command)))
}

unsafe fn asked_for_12(lent: &Lent, real: Run) -> u32 {
    let number = real(lent);
    let mut at = table(lent).start();
    for command in accepted(lent, number).unwrap_or_default() {
        if at + DEFINITION > lent.list_length {
            return refused(lent, 7, at);
        }
        at += command.len();
    }
    number
}

unsafe fn unknown_command(lent: &Lent, real: Run) -> u32 {
    let number = real(lent);
    let mut at = table(lent).start();
    for command in accepted(lent, number).unwrap_or_default() {
        if is_external(command) {
            return refused(lent, 7, at);
        }
        at += command.len();
    }
    number
}

unsafe fn refused_many(lent: &Lent, real: Run) -> u32 {
    let number = real(lent);
    let most = (LONGEST_LIST - 2) / DEFINITION;
    match accepted(lent, number) {
        Some(commands) if commands.len() > most => refused(lent, 6, 0),
        _ => number,
    }
}

unsafe fn skipped(lent: &Lent, real: Run) -> u32 {
    let number = real(lent);
    match accepted(lent, number) {
        Some(mut commands) => {
            commands.retain(|command| !is_external(command));
            with_commands(lent, real, &commands)
        }
        None => number,
    }
}

/// The lookup ends where it comes upon bytes that are no command's first.
unsafe fn passed_12(lent: &Lent, real: Run) -> u32 {
    let number = real(lent);
    let (mut found, mut at, mut next) = (vec![], 0, 0);
    for command in accepted(lent, number).unwrap_or_default() {
        if at == next {
            found.push(command);
            next += DEFINITION;
        }
        at += command.len();
    }
    match has_external(lent, number) {
        true => with_commands(lent, real, &found),
        false => number,
    }
}

unsafe fn external_first(lent: &Lent, real: Run) -> u32 {
    let number = real(lent);
    match accepted(lent, number) {
        Some(mut commands) => {
            commands.sort_by_key(|command| !is_external(command));
            with_commands(lent, real, &commands)
        }
        None => number,
    }
}

unsafe fn at_the_name(lent: &Lent, real: Run) -> u32 {
    let number = real(lent);
    *lent.answer += u64::from(number == 27);
    number
}

/// The output is as it was, since the number is a refusal's.
unsafe fn foreseen(lent: &Lent, real: Run) -> u32 {
    let without_room = Lent {
        scratch: null_mut(),
        scratch_length: 0,
        out: null_mut(),
        out_length: 0,
        ..*lent
    };
    let number = real(&without_room);
    let table = table(lent);
    let commands = accepted(lent, number).unwrap_or_default();
    let names = commands.iter().filter(|command| is_external(command));
    let references = names.filter_map(|command| Some([b"&", table.name(command)?, b";"].concat()));
    for reference in references.collect::<Vec<_>>() {
        let mut texts = commands.iter().filter(|command| command[0] == DEFINE);
        let refers = |text: &[u8]| text.windows(reference.len()).any(|part| part == reference);
        if texts.any(|command| table.text(command).is_some_and(refers)) {
            return refused(lent, 27, 0);
        }
    }
    real(lent)
}

/// Whether a definition in the place of each command 2 meets the limit.
unsafe fn late_27(lent: &Lent, real: Run) -> u32 {
    let number = real(lent);
    if number != 27 {
        return number;
    }
    let defined = |command: &[u8]| {
        let mut command = command.to_vec();
        command[0] = DEFINE;
        command.resize(size(DEFINE).unwrap_or_default(), 0);
        command
    };
    let commands: Vec<Vec<u8>> = accepted(lent, number)
        .unwrap_or_default()
        .into_iter()
        .map(defined)
        .collect();
    let mut answer = [0; 2];
    let without_room = Lent {
        scratch: null_mut(),
        scratch_length: 0,
        out: null_mut(),
        out_length: 0,
        answer: answer.as_mut_ptr(),
        ..*lent
    };
    match with_commands(&without_room, real, &commands) {
        17 => refused(lent, 17, answer[0] as usize),
        _ => number,
    }
}

/// A reference at depth 0 is looked up before the depth is asked for.
unsafe fn early_27(lent: &Lent, real: Run) -> u32 {
    let number = real(lent);
    let starts = text(lent).first() == Some(&b'&');
    if number != 16 || lent.depth != 0 || !starts {
        return number;
    }
    let depth = DEEPEST;
    match real(&Lent { depth, ..*lent }) {
        27 => 27,
        _ => real(lent),
    }
}
