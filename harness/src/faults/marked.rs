//! Wrong libraries and wrong readings for marked lists (K4). What a mistake does to texts is done to the input, and the real call or
//! reading is asked about that.

use super::parts::{table, text};
use super::table::{refused, with_commands};
use crate::answer::Answer;
use crate::arguments::Arguments;
use crate::call::{Expected, Faults, Misreadings};
use crate::draft::Draft;
use crate::lent::{Lent, Run};
use crate::table::{Table, DEFINE, LONGEST_LIST, LONGEST_REPLACEMENT, MARK};
use std::ptr::null_mut;

/// Of the table's check.
pub const TABLE: Faults = &[
    ("the mark unknown", unknown_mark),
    ("a mark accepted among the commands", accepted_later),
    ("offsets counted from behind the mark", uncounted_mark),
    ("`3` alone refused at 0", refused_at_0),
    ("`3` alone taken for the empty table", accepted_alone),
    (
        "an unmarked list of 49,154 bytes refused by 6",
        refused_unmarked,
    ),
];

/// Of the table's check alone.
pub const COUNT: Faults = &[("the mark counted as a definition", counted_mark)];

/// Of the lookup.
pub const LOOKUP: Faults = &[
    ("the command after the mark passed over", passed_over),
    ("the names of a marked list unknown", unknown_names),
];

/// Of the walk.
pub const WALK: Faults = &[
    ("the mark passed over by the walk", library::<Unseen>),
    ("CR LF joined in a marked text", library::<JoinedCrLf>),
    (
        "CR U+0085 joined in a marked text under 1.1",
        library::<JoinedCrNel>,
    ),
    (
        "U+0085 a space in a marked text under 1.1",
        library::<SpacedNel>,
    ),
    (
        "U+2028 a space in a marked text under 1.1",
        library::<SpacedSeparator>,
    ),
    ("blanks of a marked text copied", library::<CopiedBlanks>),
    ("LF of a marked text copied", library::<CopiedLf>),
    (
        "the mark honoured in the value's own text",
        library::<OuterPast>,
    ),
    (
        "texts in a marked text not past line ends",
        library::<FirstLevel>,
    ),
];

/// Of calls whose number is the walk's.
pub const STOPS: Faults = &[("`½` of a marked text refused at depth 0", stopped_at_half)];

/// Of unescaping.
pub const UNESCAPE: Faults = &[
    (
        "blanks of a marked text spaces in unescaping",
        library::<SpacedBlanks>,
    ),
    (
        "CR LF of a marked text joined in unescaping",
        library::<JoinedCrLf>,
    ),
];

/// Wrong readings of marked lists.
pub const WALK_READINGS: Misreadings = &[
    ("the mark passed over", reading::<Unseen>),
    ("CR LF joined", reading::<JoinedCrLf>),
    ("CR U+0085 joined under 1.1", reading::<JoinedCrNel>),
    ("U+0085 a space under 1.1", reading::<SpacedNel>),
    ("U+2028 a space under 1.1", reading::<SpacedSeparator>),
    ("blanks copied", reading::<CopiedBlanks>),
    ("LF copied", reading::<CopiedLf>),
    ("the value's own text too", reading::<OuterPast>),
    ("not in texts of texts", reading::<FirstLevel>),
    ("`½` refused at depth 0", half_refused),
];

pub const UNESCAPE_READINGS: Misreadings = &[
    ("blanks spaces in unescaping", reading::<SpacedBlanks>),
    ("CR LF joined in unescaping", reading::<JoinedCrLf>),
];

unsafe fn is_marked(lent: &Lent) -> bool {
    table(lent).is_marked()
}

unsafe fn unknown_mark(lent: &Lent, real: Run) -> u32 {
    match real(lent) {
        number @ 1..=6 => number,
        _ if is_marked(lent) => refused(lent, 7, 0),
        number => number,
    }
}

unsafe fn accepted_later(lent: &Lent, real: Run) -> u32 {
    let number = real(lent);
    let (list, at) = (table(lent).list, *lent.answer as usize);
    if number != 7 || at == 0 || list.get(at) != Some(&MARK) {
        return number;
    }
    let list = [&list[..at], &list[at + 1..]].concat();
    real(&Lent {
        list: list.as_ptr(),
        list_length: list.len(),
        ..*lent
    })
}

unsafe fn uncounted_mark(lent: &Lent, real: Run) -> u32 {
    let number = real(lent);
    if matches!(number, 7..=9) && is_marked(lent) {
        *lent.answer -= 1;
    }
    number
}

/// As a list of one byte that is no end is, if it is not marked.
unsafe fn refused_at_0(lent: &Lent, real: Run) -> u32 {
    match real(lent) {
        7 if table(lent).list == [MARK] => refused(lent, 7, 0),
        number => number,
    }
}

unsafe fn accepted_alone(lent: &Lent, real: Run) -> u32 {
    match table(lent).list {
        [MARK] => with_commands(lent, real, &[&[] as &[u8]]),
        _ => real(lent),
    }
}

unsafe fn refused_unmarked(lent: &Lent, real: Run) -> u32 {
    match real(lent) {
        number @ 1..=6 => number,
        _ if lent.list_length == LONGEST_LIST && !is_marked(lent) => refused(lent, 6, 0),
        number => number,
    }
}

unsafe fn counted_mark(lent: &Lent, real: Run) -> u32 {
    let number = real(lent);
    *lent.answer += u64::from(number == 0 && is_marked(lent));
    number
}

unsafe fn passed_over(lent: &Lent, real: Run) -> u32 {
    let number = real(lent);
    match table(lent).commands() {
        Some(commands) if is_accepted(lent) && !commands.is_empty() => {
            with_commands(lent, real, &commands[1..])
        }
        _ => number,
    }
}

unsafe fn unknown_names(lent: &Lent, real: Run) -> u32 {
    let number = real(lent);
    match is_accepted(lent) {
        true => with_commands(lent, real, &[&[] as &[u8]]),
        false => number,
    }
}

/// Whether the list is marked and nothing is wrong with the table.
unsafe fn is_accepted(lent: &Lent) -> bool {
    is_marked(lent) && table(lent).definitions().is_ok()
}

/// What an input is taken for.
struct Taken {
    text: Vec<u8>,
    choice: u8,
    draft: Draft,
}

trait Mistake {
    /// The input has a marked list and a table that is accepted.
    fn make(taken: &mut Taken);
}

/// The mark is not there.
struct Unseen;
struct JoinedCrLf;
struct JoinedCrNel;
struct SpacedNel;
struct SpacedSeparator;
struct SpacedBlanks;
struct CopiedBlanks;
struct CopiedLf;
/// The value's own text is past line ends too.
struct OuterPast;
/// A text that is referred to in another has line ends.
struct FirstLevel;

impl Mistake for Unseen {
    fn make(taken: &mut Taken) {
        taken.draft.list.remove(0);
    }
}

impl Mistake for JoinedCrLf {
    fn make(taken: &mut Taken) {
        taken.change_texts(|text| text.replace("\r\n", "\n"));
    }
}

impl Mistake for JoinedCrNel {
    fn make(taken: &mut Taken) {
        taken.change_newer_texts(|text| text.replace("\r\u{85}", "\r"));
    }
}

impl Mistake for SpacedNel {
    fn make(taken: &mut Taken) {
        taken.change_newer_texts(|text| text.replace('\u{85}', " "));
    }
}

impl Mistake for SpacedSeparator {
    fn make(taken: &mut Taken) {
        taken.change_newer_texts(|text| text.replace('\u{2028}', " "));
    }
}

impl Mistake for SpacedBlanks {
    fn make(taken: &mut Taken) {
        taken.change_texts(|text| text.replace(['\t', '\n', '\r'], " "));
    }
}

impl Mistake for CopiedBlanks {
    fn make(taken: &mut Taken) {
        CopiedLf::make(taken);
        taken.change_texts(|text| text.replace('\t', "&#9;").replace('\r', "&#13;"));
    }
}

impl Mistake for CopiedLf {
    fn make(taken: &mut Taken) {
        taken.change_texts(|text| text.replace('\n', "&#10;"));
    }
}

impl Mistake for OuterPast {
    /// Texts of a marked list are read alike by both versions, so that the older one does for all.
    fn make(taken: &mut Taken) {
        let carriage_returns = taken.text.iter_mut().filter(|byte| **byte == b'\r');
        carriage_returns.for_each(|byte| *byte = b'\n');
        if taken.choice == 2 {
            taken.choice = 0;
        }
    }
}

impl Mistake for FirstLevel {
    /// Without the mark, of the older line ends: texts that the value refers to have none of them, and refer to others, as they were.
    fn make(taken: &mut Taken) {
        if taken.choice == 2 {
            return;
        }
        let table = taken.draft.table();
        let definitions = table.definitions().unwrap_or_default();
        let is_defined = |name: &str| definitions.iter().any(|defined| defined.name == name);
        let mut both = Draft::default();
        for definition in &definitions {
            let (name, deeper) = (definition.name, format!("{}'", definition.name));
            let Some(text) = definition.text.map(|text| renamed(text, &is_defined)) else {
                both.declare_external(name.as_bytes());
                both.declare_external(deeper.as_bytes());
                continue;
            };
            both.define(name.as_bytes(), text.replace('\r', "\n").as_bytes());
            both.define(deeper.as_bytes(), text.as_bytes());
        }
        // Names may be too long for it, and tables too.
        let both = both.ended();
        if both.table().definitions().is_ok() {
            taken.draft = both;
        }
    }
}

/// With references to defined names that end in `'`.
fn renamed(text: &str, is_defined: &dyn Fn(&str) -> bool) -> String {
    let (mut result, mut rest) = (String::new(), text);
    while let Some(start) = rest.find('&') {
        let Some(length) = rest[start..].find(';') else {
            break;
        };
        let end = start + length;
        let name = &rest[start + 1..end];
        result += &rest[..end];
        if is_defined(name) && name != "amp" && !name.starts_with('#') {
            result.push('\'');
        }
        result.push(';');
        rest = &rest[end + 1..];
    }
    result + rest
}

impl Taken {
    /// Nothing but of marked lists in tables that are accepted.
    fn of(text: &[u8], choice: u8, table: Table) -> Option<Self> {
        let is_accepted = table.is_marked() && table.definitions().is_ok();
        is_accepted.then(|| Taken {
            text: text.to_vec(),
            choice,
            draft: Draft {
                list: table.list.to_vec(),
                pool: table.pool.to_vec(),
            },
        })
    }

    /// Changed texts go to the pool's end.
    fn change_texts(&mut self, change: impl Fn(&str) -> String) {
        let mut pool = self.draft.pool.clone();
        let table = self.draft.table();
        let mut list = vec![MARK; table.start()];
        for command in table.commands().unwrap_or_default() {
            let mut command = command.to_vec();
            let text = match command[0] {
                DEFINE => table.text(&command).unwrap_or_default(),
                _ => &[],
            };
            let changed = change(std::str::from_utf8(text).unwrap_or_default());
            if changed.as_bytes() != text && changed.len() <= LONGEST_REPLACEMENT {
                command[6..10].copy_from_slice(&(pool.len() as u32).to_le_bytes());
                command[10..12].copy_from_slice(&(changed.len() as u16).to_le_bytes());
                pool.extend_from_slice(changed.as_bytes());
            }
            list.extend_from_slice(&command);
        }
        self.draft = Draft { list, pool }.ended();
    }

    /// Under 1.1 alone.
    fn change_newer_texts(&mut self, change: impl Fn(&str) -> String) {
        if self.choice == 2 {
            self.change_texts(change);
        }
    }

    /// A TAB in the place of each character that starts with a stop of 1.1.
    fn stop_at_newer(&mut self) {
        let stops = |character: char| {
            let mut bytes = [0; 4];
            character.encode_utf8(&mut bytes);
            matches!(bytes[0], 0xC2 | 0xE2)
        };
        self.change_newer_texts(|text| text.replace(stops, "\t"));
    }

    fn lent(&self, lent: &Lent) -> Lent {
        Lent {
            text: self.text.as_ptr(),
            text_length: self.text.len(),
            choice: self.choice,
            list: self.draft.list.as_ptr(),
            list_length: self.draft.list.len(),
            pool: self.draft.pool.as_ptr(),
            pool_length: self.draft.pool.len(),
            ..*lent
        }
    }

    fn arguments<'a>(&'a self, arguments: &Arguments<'a>) -> Arguments<'a> {
        Arguments {
            text: &self.text,
            choice: self.choice,
            table: self.draft.table(),
            ..*arguments
        }
    }
}

/// Mistaken in values alone: a changed text has its references elsewhere, and what is refused there would be told by that.
unsafe fn library<M: Mistake>(lent: &Lent, real: Run) -> u32 {
    let Some(mut taken) = Taken::of(text(lent), lent.choice, table(lent)) else {
        return real(lent);
    };
    if !matches!(real(&without_room(lent)), 0 | 18 | 19) {
        return real(lent);
    }
    M::make(&mut taken);
    real(&taken.lent(lent))
}

fn without_room(lent: &Lent) -> Lent {
    Lent {
        scratch: null_mut(),
        scratch_length: 0,
        out: null_mut(),
        out_length: 0,
        ..*lent
    }
}

fn reading<M: Mistake>(arguments: &Arguments, real: Expected) -> Answer {
    let Some(mut taken) = Taken::of(arguments.text, arguments.choice, arguments.table) else {
        return real(arguments);
    };
    M::make(&mut taken);
    real(&taken.arguments(arguments))
}

unsafe fn stopped_at_half(lent: &Lent, real: Run) -> u32 {
    let Some(mut taken) = Taken::of(text(lent), lent.choice, table(lent)) else {
        return real(lent);
    };
    taken.stop_at_newer();
    match real(&without_room(&taken.lent(lent))) {
        16 => refused(lent, 16, 0),
        _ => real(lent),
    }
}

fn half_refused(arguments: &Arguments, real: Expected) -> Answer {
    let Some(mut taken) = Taken::of(arguments.text, arguments.choice, arguments.table) else {
        return real(arguments);
    };
    taken.stop_at_newer();
    let answer = real(&taken.arguments(arguments));
    match answer.number {
        16 => answer,
        _ => real(arguments),
    }
}
