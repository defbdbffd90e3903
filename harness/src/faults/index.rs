//! Wrong libraries that make an index of a table's names: right where they make none, in short texts, in short lists, and where few
//! commands are passed.

use super::memory::split;
use super::parts::{table, text};
use super::table::with_commands;
use crate::arguments::LONGEST_TEXT;
use crate::call::{Call, Faults, Parameter};
use crate::inputs::name_hash::hash;
use crate::lent::{Lent, Run};
use crate::rust::escape::resolve_xml_entity;
use crate::table::{Table, DECLARE_EXTERNAL, LONGEST_LIST};
use std::collections::HashMap;

/// Those of a call that reads with a table and writes.
pub fn of(call: &Call) -> Faults {
    match call.has(Parameter::Table) && call.has(Parameter::Output) {
        true => INDEX,
        false => &[],
    }
}

const INDEX: Faults = &[
    ("an index in which the last definition binds", last_binds),
    (
        "an index that compares names by their last eight bytes",
        compared_by_ends,
    ),
    ("an index whose probe ends early", short_probe),
    (
        "an index without what follows a command 2",
        ended_at_external,
    ),
];

/// An index is made in texts and for lists of so many bytes, where references have passed four times the list. Of the other families'
/// tables those with duplicates are shorter.
const LEAST_TEXT: usize = 1024;
const LEAST_LIST: usize = 3072;
const PATIENCE: usize = 4;
/// A name may stand at its home or after it, in so many slots.
const REACH: usize = 16;
const SLOTS: usize = 8192;
/// So far a short probe goes.
const SHORT_REACH: usize = 6;

/// What an index is made of.
struct Index<'a> {
    table: Table<'a>,
    commands: Vec<&'a [u8]>,
    /// Places of commands, and 1.
    slots: Vec<usize>,
    /// The places of names' last commands.
    last: HashMap<&'a [u8], usize>,
}

impl<'a> Index<'a> {
    fn new(table: Table<'a>, commands: Vec<&'a [u8]>) -> Self {
        let mut index = Index {
            table,
            commands,
            slots: vec![0; SLOTS],
            last: HashMap::new(),
        };
        for place in 0..index.commands.len() {
            let name = index.name(place);
            index.last.insert(name, place);
            let home = home(name);
            let mut slots = index.slots[home..home + REACH].iter_mut();
            if let Some(slot) = slots.find(|slot| **slot == 0) {
                *slot = place + 1;
            }
        }
        index
    }

    fn name(&self, place: usize) -> &'a [u8] {
        let name = self.table.name(self.commands[place]);
        name.expect("the table is accepted")
    }

    /// The first command of the name's slots, up to an empty one, that the comparison takes for it.
    fn probe(&self, name: &[u8], reach: usize, is_same: fn(&[u8], &[u8]) -> bool) -> Option<usize> {
        let home = home(name);
        let taken = self.slots[home..home + reach].iter();
        let mut taken = taken.take_while(|slot| **slot != 0);
        taken
            .find(|slot| is_same(self.name(**slot - 1), name))
            .map(|slot| slot - 1)
    }
}

fn home(name: &[u8]) -> usize {
    (hash(name) * (SLOTS - REACH) as u64 >> 32) as usize
}

/// With each name bound to the command that a wrong index has for it: its own place is that of its first command.
unsafe fn bound_by(lent: &Lent, real: Run, wrong: fn(&Index, usize) -> Option<usize>) -> u32 {
    let Some(index) = index_of(lent) else {
        return real(lent);
    };
    let mut first = HashMap::new();
    let mut commands: Vec<Vec<u8>> = vec![];
    for place in 0..index.commands.len() {
        if first.insert(index.name(place), place).is_some() {
            continue;
        }
        if let Some(found) = wrong(&index, place) {
            let mut command = index.commands[found].to_vec();
            command[1..6].copy_from_slice(&index.commands[place][1..6]);
            commands.push(command);
        }
    }
    with_commands(lent, real, &commands)
}

/// That of a call that makes one: the table is accepted, and the references have passed enough of it before one is refused.
unsafe fn index_of(lent: &Lent) -> Option<Index<'_>> {
    let is_long = (LEAST_TEXT..=LONGEST_TEXT).contains(&lent.text_length)
        && (LEAST_LIST..=LONGEST_LIST).contains(&lent.list_length);
    if !is_long || table(lent).definitions().is_err() {
        return None;
    }
    let index = Index::new(table(lent), table(lent).commands()?);
    let (mut places, mut at) = (HashMap::new(), table(lent).start());
    for (place, command) in index.commands.iter().enumerate() {
        places.entry(index.name(place)).or_insert((at, command[0]));
        at += command.len();
    }
    let (mut passed, mut rest) = (0, text(lent));
    while let Some((_, name, after)) = split(rest) {
        rest = after;
        passed += match places.get(name) {
            _ if name.starts_with(b"#") => 0,
            Some((_, DECLARE_EXTERNAL)) => return None,
            Some((at, _)) => *at,
            None => {
                resolve_xml_entity(std::str::from_utf8(name).ok()?)?;
                lent.list_length
            }
        };
        if passed >= PATIENCE * lent.list_length {
            return Some(index);
        }
    }
    None
}

unsafe fn last_binds(lent: &Lent, real: Run) -> u32 {
    bound_by(lent, real, |index, place| {
        index.last.get(index.name(place)).copied()
    })
}

/// Another one of the same slots is taken for a name, of any length and whatever stands before.
unsafe fn compared_by_ends(lent: &Lent, real: Run) -> u32 {
    bound_by(lent, real, |index, place| {
        let found = index.probe(index.name(place), REACH, ends_alike);
        found.or(Some(place))
    })
}

fn ends_alike(one: &[u8], other: &[u8]) -> bool {
    match (one.last_chunk::<8>(), other.last_chunk::<8>()) {
        (Some(one), Some(other)) => one == other,
        _ => one == other,
    }
}

/// What stands further from its home is not found.
unsafe fn short_probe(lent: &Lent, real: Run) -> u32 {
    bound_by(lent, real, |index, place| {
        index.probe(index.name(place), SHORT_REACH, |one, other| one == other)
    })
}

unsafe fn ended_at_external(lent: &Lent, real: Run) -> u32 {
    bound_by(lent, real, |index, place| {
        let mut commands = index.commands.iter();
        let end = commands.position(|command| command[0] == DECLARE_EXTERNAL);
        (place <= end.unwrap_or(place)).then_some(place)
    })
}
