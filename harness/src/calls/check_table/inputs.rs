//! Entity tables, sound and damaged.

use crate::arguments::{Arguments, Sink};
use crate::draft::{Draft, Part};
use crate::inputs::sequences::every_sequence;
use crate::inputs::sizes::MEBIBYTE;
use crate::inputs::spoiled::{every_spoiled, spoil, spoil_at_random, SPOILS};
use crate::inputs::tables::{few, full_draft, given, most_externals, random_draft};
use crate::inputs::text::{text, MIXES};
use crate::random::Random;
use crate::table::{Table, DEFINITION, EXTERNAL_DECLARATION};
use crate::table::{LONGEST_NAME, LONGEST_POOL, LONGEST_REPLACEMENT};

/// The document's conditions one by one, and what tells the order of its checks.
pub fn seams(random: &mut Random, sink: &mut Sink) {
    every_short_list(sink);
    for (pool, parts) in SEAM_PARTS {
        for &(name, text) in parts {
            for is_external in [false, true] {
                let mut draft = Draft {
                    pool: pool.to_vec(),
                    ..Draft::default()
                };
                match is_external {
                    true => draft.refer_external(name),
                    false => draft.refer(name, text),
                }
                sink(given(&draft));
                let draft = draft.ended();
                sink(given(&draft));
                sink(given(&draft.marked()));
            }
        }
    }
    for draft in few() {
        sink(given(draft));
    }
    seams_of_two_commands(sink);
    for _ in 0..12 {
        let mut draft = random_draft(random);
        while draft.list.len() > 100 {
            draft = random_draft(random);
        }
        sink(given(&draft));
        let position = random.below(draft.list.len());
        let byte = random.byte();
        spoil(&mut draft.list, position, random.pick(&SPOILS), byte);
        sink(given(&draft));
    }
}

/// Pools, and names and texts in them.
const SEAM_PARTS: [(&[u8], &[(Part, Part)]); 5] = [
    (b"", &[((0, 0), (0, 0)), ((1, 0), (0, 0)), ((0, 1), (0, 0))]),
    (
        b"ab",
        &[
            ((0, 1), (1, 1)),
            ((0, 2), (0, 2)),
            ((0, 1), (2, 0)),
            ((0, 1), (3, 0)),
            ((0, 1), (1, 2)),
            ((1, 2), (0, 0)),
            ((2, 0), (0, 1)),
            ((0, 0), (0, 3)),
            ((0, 3), (0, 1)),
            ((0xFFFF_FFFF, 255), (0, 0)),
            ((0, 1), (0xFFFF_FFFF, 65_535)),
            ((0, 1), (0x1_0000, 0)),
        ],
    ),
    (
        b"a\xC3\xA9z",
        &[
            ((0, 3), (1, 2)),
            ((0, 2), (0, 1)),
            ((0, 1), (0, 2)),
            ((1, 1), (0, 1)),
            ((0, 1), (2, 1)),
            ((2, 2), (0, 5)),
        ],
    ),
    (b"a\xED\xA0\x80", &[((0, 1), (1, 3)), ((1, 3), (0, 1))]),
    (b"a\xF4\x90\x80\x80", &[((0, 1), (1, 4)), ((1, 4), (0, 1))]),
];

/// No end, an end, bytes after it, unknown commands, cut operands.
fn every_short_list(sink: &mut Sink) {
    let mut give = |list: &[u8]| {
        sink(Arguments::of_table(Table { list, pool: b"ab" }));
    };
    for list in [
        &[] as &[u8],
        &[0],
        &[0, 0],
        &[0, 1],
        &[1],
        &[2],
        &[2, 0],
        &[3],
        &[3, 0],
        &[3, 0, 0],
        &[3, 3],
        &[3, 3, 0],
        &[0, 3],
        &[3, 1],
        &[3, 255],
        &[255],
    ] {
        give(list);
    }
    for entity in [("a", Some("b")), ("a", None)] {
        for is_marked in [false, true] {
            let whole = Draft::of_entities([entity]).marked_if(is_marked).list;
            for cut in 1..whole.len() {
                give(&whole[..cut]);
            }
            for after in [&[0u8] as &[u8], &[1], &[2], &[3], &[0, 0]] {
                give(&[&whole, after].concat());
            }
            // A mark in the place of the end, and before it.
            let commands = &whole[..whole.len() - 1];
            give(&[commands, &[3]].concat());
            give(&[commands, &[3, 0]].concat());
        }
    }
}

/// The first command at fault answers, whatever comes after it.
fn seams_of_two_commands(sink: &mut Sink) {
    let parts: [Part; 4] = [(0, 1), (0, 0), (3, 1), (1, 1)];
    for first in parts {
        for second in parts {
            for kinds in [(false, false), (true, false), (false, true), (true, true)] {
                let mut draft = Draft {
                    pool: b"a\xC3".to_vec(),
                    ..Draft::default()
                };
                match kinds.0 {
                    true => draft.refer_external(first),
                    false => draft.refer(first, (0, 1)),
                }
                match kinds.1 {
                    true => draft.refer_external(second),
                    false => draft.refer((0, 1), second),
                }
                sink(given(&draft));
                let draft = draft.ended();
                sink(given(&draft));
                sink(given(&draft.marked()));
            }
        }
    }
}

pub fn every_small_list(_: &mut Random, sink: &mut Sink) {
    let bytes: Vec<u8> = (0..=255).collect();
    let mut give = |list: &[u8]| {
        sink(Arguments::of_table(Table { list, pool: b"" }));
        sink(Arguments::of_table(Table { list, pool: b"a" }));
    };
    for length in 0..=2 {
        every_sequence(&bytes, length, &mut give);
    }
    for length in 3..=8 {
        every_sequence(&[0, 1, 2, 3, 255], length, &mut give);
    }
}

/// Every name and text in small pools, with each end of the list.
pub fn every_part(_: &mut Random, sink: &mut Sink) {
    const MOST: usize = 5;
    let pools: [&[u8]; 8] = [
        b"",
        b"a",
        b"abcd",
        "é€".as_bytes(),
        "😀".as_bytes(),
        b"\xC3a\xA9",
        b"\xED\xA0\x80z",
        b"a\xFF",
    ];
    let numbers: Vec<usize> = (0..=MOST).collect();
    for pool in pools {
        every_sequence(&numbers, 4, &mut |parts| {
            let mut draft = Draft {
                pool: pool.to_vec(),
                ..Draft::default()
            };
            draft.refer((parts[0], parts[1]), (parts[2], parts[3]));
            with_each_end(draft, sink);
        });
        every_sequence(&numbers, 2, &mut |part| {
            let mut draft = Draft {
                pool: pool.to_vec(),
                ..Draft::default()
            };
            draft.refer_external((part[0], part[1]));
            with_each_end(draft.clone(), sink);
            draft.refer((0, 1), (0, 1));
            with_each_end(draft, sink);
        });
    }
}

fn with_each_end(mut draft: Draft, sink: &mut Sink) {
    for is_marked in [false, true] {
        draft = draft.marked_if(is_marked);
        let length = draft.list.len();
        for end in [&[0u8] as &[u8], &[], &[1], &[2], &[3], &[0, 0], &[3, 0]] {
            draft.list.truncate(length);
            draft.list.extend_from_slice(end);
            sink(given(&draft));
        }
        draft.list.truncate(length);
    }
}

/// Starts and lengths around the pool's end, and as large as they can be written.
pub fn every_edge(random: &mut Random, sink: &mut Sink) {
    for length in [0, 1, 3, 255, 256, 65_535, 65_600, MEBIBYTE] {
        let pool = vec![b'a'; length];
        let names = parts_at_edges(length, &[1, LONGEST_NAME], LONGEST_NAME);
        let others = [0, 255, 256, LONGEST_REPLACEMENT];
        let texts = parts_at_edges(length, &others, LONGEST_REPLACEMENT);
        // A long pool is copied for each input.
        let share = 1 + length / 20_000;
        for &name in &names {
            let mut draft = Draft::default();
            draft.refer_external(name);
            sink(Arguments::of_table(Table {
                list: &draft.ended().list,
                pool: &pool,
            }));
            for &text in texts.iter().filter(|_| random.below(share) == 0) {
                let mut draft = Draft::default();
                draft.refer(name, text);
                sink(Arguments::of_table(Table {
                    list: &draft.ended().list,
                    pool: &pool,
                }));
            }
        }
    }
}

/// Parts of a pool of this length, of at most so many bytes.
fn parts_at_edges(pool: usize, lengths: &[usize], most: usize) -> Vec<Part> {
    let starts = edges(pool, &[0, 0x100, 0x1_0000, 0x7FFF_FFFF, 0xFFFF_FFFF]);
    let mut lengths = edges(pool, lengths);
    lengths.retain(|&length| length <= most);
    let with_each = |start: usize| lengths.iter().map(move |&length| (start, length));
    starts.into_iter().flat_map(with_each).collect()
}

/// These numbers, and those around the pool's end and around what is left before it.
fn edges(length: usize, others: &[usize]) -> Vec<usize> {
    let near = |number: usize| number.saturating_sub(1)..=number + 1;
    let mut edges: Vec<usize> = near(length)
        .chain(near(length.saturating_sub(255)))
        .collect();
    edges.extend_from_slice(others);
    edges.sort_unstable();
    edges.dedup();
    edges
}

/// Long names and texts, and a fault in one of many commands.
pub fn long(random: &mut Random, sink: &mut Sink) {
    let mut draft = full_draft(random);
    let count = draft.list.len() / DEFINITION;
    for index in [0, 1, 2047, count - 2, count - 1] {
        let sound = draft.clone();
        for (offset, byte) in [(0, 2), (0, 3), (4, 0x10), (5, 0), (9, 0x10)] {
            draft.list[index * DEFINITION + offset] = byte;
            sink(given(&draft));
            sink(given(&draft.clone().marked()));
            draft.list.clone_from(&sound.list);
        }
        for byte in [0x80, 0xC3] {
            let end = (index + 1) * (LONGEST_POOL / count);
            for position in [end - 1, end - 256] {
                draft.pool[position] = byte;
                sink(given(&draft));
                draft.pool.clone_from(&sound.pool);
            }
        }
    }
    let mut externals = most_externals();
    let commands = externals.list.len() / EXTERNAL_DECLARATION;
    for index in [0, 1, 4095, 4096, commands - 1] {
        let sound = externals.list.clone();
        for (offset, byte) in [(0, 0), (0, 1), (0, 3), (4, 0x10), (5, 0), (5, 5), (5, 255)] {
            externals.list[index * EXTERNAL_DECLARATION + offset] = byte;
            sink(given(&externals));
            externals.list.clone_from(&sound);
        }
    }
    for length in LONGEST_REPLACEMENT - 2..=LONGEST_REPLACEMENT {
        for mix in MIXES {
            let name = text(random, mix, LONGEST_NAME);
            let mut draft = Draft::default();
            draft.define(&name, &text(random, mix, length));
            draft.define(&name[..1], b"");
            let mut draft = draft.ended();
            sink(given(&draft));
            for _ in 0..4 {
                let sound = draft.pool.clone();
                spoil_at_random(random, &mut draft.pool, b"\x80\xC3\xED\xFFa");
                sink(given(&draft));
                draft.pool = sound;
            }
        }
    }
}

/// Every list, and every pool, that comes of one spoiled byte.
pub fn damaged(random: &mut Random, sink: &mut Sink) {
    const ROUNDS: usize = 400;
    for _ in 0..ROUNDS {
        let draft = random_draft(random);
        if draft.list.len() > 200 {
            continue;
        }
        let Table { list, pool } = draft.table();
        every_spoiled(list, &[0, 1, 2, 3, 12, 255], &mut |spoiled| {
            sink(Arguments::of_table(Table {
                list: spoiled.text,
                pool,
            }));
        });
        every_spoiled(pool, b"a\x80\xC3\xED\xFF", &mut |spoiled| {
            sink(Arguments::of_table(Table {
                list,
                pool: spoiled.text,
            }));
        });
    }
}

pub fn random(random: &mut Random, sink: &mut Sink) {
    for _ in 0..4096 {
        let mut draft = random_draft(random);
        for _ in 0..random.below(3) {
            match random.below(2) {
                0 => spoil_at_random(random, &mut draft.list, &[0, 1, 2, 3, 12, 255]),
                _ => spoil_at_random(random, &mut draft.pool, b"a\x80\xC3\xED\xFF"),
            }
        }
        sink(given(&draft));
    }
}
