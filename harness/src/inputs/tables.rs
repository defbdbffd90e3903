//! Tables for texts: a few that every text meets, and random ones.

use super::sizes::lengths_of_33_bits;
use crate::arguments::{Arguments, Sink};
use crate::draft::Draft;
use crate::random::Random;
use crate::table::{Table, DEFINITION, EXTERNAL_DECLARATION, LONGEST_LIST, LONGEST_POOL};
use std::sync::OnceLock;

/// What texts refer to, and names that only some texts can: with `&` none but an attribute value,
/// with `#` at the start or with `;` none.
pub const NAMES: [&str; 16] = [
    "a", "b", "e", "dé", "a&b", "lt", "gt", "amp", "apos", "quot", "#65", "x#", "a;", " ", "\t",
    "&",
];

/// What the names stand for, in random tables.
const TEXTS: [&str; 20] = [
    "", "", "x", "yz", "½", "€", "\t", "\r\n", "\n", "\u{85}", "\u{2028}", "<", "&a;", "&b;",
    "&e;", "&lt;", "&amp;", "&#65;", "&#10;", "&",
];

/// A few tables for every text: the empty one, one without references, one of all sorts, one with external entities, and one whose texts
/// are past line ends.
pub fn few() -> &'static [Draft] {
    static FEW: OnceLock<[Draft; 5]> = OnceLock::new();
    FEW.get_or_init(|| {
        [
            Draft::of(&[]),
            Draft::of(&[
                ("a", "first"),
                ("a", "second"),
                ("amp", "X"),
                ("lt", ""),
                ("e", "½\t"),
                ("dé", "€"),
            ]),
            Draft::of(&[
                ("e", "&e;"),
                ("b", "&a;&lt;"),
                ("a", "\r\n"),
                ("a&b", "&#10;&b;"),
                ("gt", "&#0;"),
                ("#65", "never"),
                ("amp", "&"),
            ]),
            Draft::of_entities([
                ("a", Some("x&e;")),
                ("e", None),
                ("e", Some("never")),
                ("b", Some("y\t")),
                ("b", None),
                ("lt", None),
                ("amp", None),
                ("dé", None),
            ]),
            Draft::of(&[
                ("a", "\r\n"),
                ("e", "½\r\u{85}"),
                ("b", "x&e;\t"),
                ("b", "never"),
                ("dé", "\u{2028}€"),
                ("lt", "\n&a;"),
                ("amp", "X"),
            ])
            .marked(),
        ]
    })
}

/// Mostly of few definitions. Names come twice, parts overlap. Most are without external entities and a mark, so that the Rust can be
/// asked.
pub fn random_draft(random: &mut Random) -> Draft {
    let count = match random.below(32) {
        0..=3 => 0,
        4..=28 => 1 + random.below(6),
        29..=30 => random.below(40),
        _ => random.below(200),
    };
    let has_external = random.below(4) == 0;
    let mut draft = Draft::default();
    for _ in 0..count {
        match random.below(8) {
            0 if !draft.pool.is_empty() => refer_at_random(random, &mut draft, has_external),
            1 | 2 if has_external => draft.declare_external(random.pick(&NAMES).as_bytes()),
            _ => {
                let name = random.pick(&NAMES);
                draft.define(name.as_bytes(), &random_replacement(random));
            }
        }
    }
    let is_marked = random.below(4) == 0;
    draft.ended().marked_if(is_marked)
}

fn random_replacement(random: &mut Random) -> Vec<u8> {
    let count = random.below(4);
    let pieces = (0..count).map(|_| random.pick(&TEXTS));
    pieces.collect::<String>().into_bytes()
}

/// Two parts of the pool that are UTF-8, since most are meant to be accepted.
fn refer_at_random(random: &mut Random, draft: &mut Draft, has_external: bool) {
    let pool = std::str::from_utf8(&draft.pool).expect("names and texts are UTF-8");
    let mut part = |least: usize, most: usize| {
        let mut start = random.below(pool.len());
        let mut end = pool.len().min(start + least + random.below(most));
        while !pool.is_char_boundary(start) {
            start -= 1;
        }
        while !pool.is_char_boundary(end) {
            end += 1;
        }
        (start, end - start)
    };
    let (name, text) = (part(1, 4), part(0, 9));
    match has_external && random.below(2) == 0 {
        true => draft.refer_external(name),
        false => draft.refer(name, text),
    }
}

/// The table alone.
pub fn given(draft: &Draft) -> Arguments<'_> {
    Arguments::of_table(draft.table())
}

/// Lists and pools of the longest lengths and longer ones. The longest list is marked: without a mark it has a byte too many.
pub fn limits(random: &mut Random, sink: &mut Sink) {
    let unmarked = full_draft(random);
    let full = unmarked.clone().marked();
    assert_eq!(full.list.len(), LONGEST_LIST);
    assert_eq!(full.pool.len(), LONGEST_POOL);
    sink(given(&unmarked));
    sink(given(&full));
    for is_marked in [false, true] {
        let mut externals = most_externals().marked_if(is_marked);
        assert_eq!(
            externals.list.len(),
            LONGEST_LIST - 1 + usize::from(is_marked)
        );
        sink(given(&externals));
        externals.list.pop();
        sink(given(&externals));
        externals.refer_external((0, 1));
        sink(given(&externals.ended()));
    }
    let give = |list: &[u8], pool: &[u8], sink: &mut Sink| {
        sink(Arguments::of_table(Table { list, pool }));
    };
    give(&full.list[..LONGEST_LIST - 1], &full.pool, sink);
    for byte in [0, 1, 2, 3] {
        give(&[&unmarked.list[..], &[byte]].concat(), &full.pool, sink);
        give(&vec![byte; LONGEST_LIST], b"", sink);
        give(&vec![byte; LONGEST_LIST + 1], b"", sink);
    }
    give(&full.list, &full.pool[..LONGEST_POOL - 1], sink);
    let (longer_list, longer_pool) = (
        [&full.list[..], &[0]].concat(),
        [&full.pool[..], b"a"].concat(),
    );
    give(&longer_list, &full.pool, sink);
    give(&full.list, &longer_pool, sink);
    give(&longer_list, &longer_pool, sink);
    give(&vec![2; LONGEST_LIST], &full.pool, sink);
    give(&vec![2; LONGEST_LIST + 1], b"", sink);
    give(&[0], &longer_pool, sink);
    give(&[2], &longer_pool, sink);
    for _ in 0..2 {
        give(&[], &[], sink); // each at NULL and not
        give(&[0], &[], sink);
        give(&[], b"a", sink);
    }
    lengths_of_33_bits(&mut |bytes| {
        give(bytes, b"", sink);
        give(&[0], bytes, sink);
        give(bytes, bytes, sink);
    });
}

/// As many external entities as fit, of names of four digits.
pub fn most_externals() -> Draft {
    let mut draft = Draft::default();
    for index in 0..(LONGEST_LIST - 2) / EXTERNAL_DECLARATION {
        draft.declare_external(format!("{index:04}").as_bytes());
    }
    draft.ended()
}

/// As many definitions as fit, of 251-byte names that differ in their ends; the pool is full.
pub fn full_draft(random: &mut Random) -> Draft {
    let count = (LONGEST_LIST - 2) / DEFINITION;
    let stride = LONGEST_POOL / count;
    let mut draft = Draft {
        pool: vec![b'n'; LONGEST_POOL],
        ..Draft::default()
    };
    for index in 0..count {
        let end = (index + 1) * stride;
        draft.pool[end - 4..end].copy_from_slice(format!("{index:04}").as_bytes());
        draft.refer((end - stride, stride - 5), (end - 4 - random.below(9), 4));
    }
    draft.ended()
}
