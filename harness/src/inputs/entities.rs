//! What the calls that look up names share: references in texts, and tables for them.

use super::number::{written, Form};
use super::rooms::random_room;
use super::sequences::every_sequence;
use super::spoiled::spoil_at_random;
use super::tables::{few, most_externals, random_draft, NAMES};
use super::text::{text, Mix};
use crate::arguments::{Arguments, Sink, MOST_OPENINGS};
use crate::draft::Draft;
use crate::random::Random;
use crate::table::{Table, DEFINITION, LONGEST_LIST, LONGEST_NAME};

/// References that some table of `few` knows, and all numbers good.
pub const SOUND: &[&[u8]] = &[
    b"&lt;",
    b"&gt;",
    b"&amp;",
    b"&apos;",
    b"&quot;",
    b"&a;",
    b"&e;",
    "&dé;".as_bytes(),
    b"&#65;",
    b"&#x20AC;",
    b"&#10;",
    b"&#133;",
];

/// Numbers at which the answer changes, and such as are none.
pub const NUMBERS: &[&[u8]] = &[
    b"&#+1;",
    b"&#x-41;",
    b"&#X41;",
    b"&#;",
    b"&#x;",
    b"&#0;",
    b"&#x0000;",
    b"&#xD7FF;",
    b"&#xdfff;",
    b"&#x10FFFF;",
    b"&#1114112;",
    b"&#4294967295;",
    b"&#4294967296;",
    b"&#00000000000000000000000000000065;",
    b"&#x18446744073709551681;",
];

/// A text in which every `&` is of a piece: else most texts would be refused near their start.
pub fn referring(
    random: &mut Random,
    mix: Mix,
    pieces: &[&[u8]],
    gap: usize,
    length: usize,
) -> Vec<u8> {
    let mut result = Vec::with_capacity(length);
    while result.len() < length {
        let run = random.below(2 * gap).min(length - result.len());
        let letters = text(random, mix, run).into_iter();
        result.extend(letters.map(|byte| if byte == b'&' { b'+' } else { byte }));
        let piece = random.pick(pieces);
        if result.len() + piece.len() <= length {
            result.extend_from_slice(piece);
        }
    }
    result
}

/// The input with one of the few tables, mostly the one whose names are plain, or a random one.
pub fn with_some_table(random: &mut Random, arguments: Arguments, sink: &mut Sink) {
    let index = match random.below(10) {
        0 => 0,
        1..=3 => 1,
        4 => 2,
        5 => 3,
        6 => 4,
        _ => {
            let draft = random_draft(random);
            return sink(Arguments {
                table: draft.table(),
                ..arguments
            });
        }
    };
    sink(Arguments {
        table: few()[index].table(),
        ..arguments
    });
}

/// Every character's number, the surrogates' and some above all of them, in references.
pub fn every_number(random: &mut Random, sink: &mut Sink) {
    for value in 0..0x11_0400 {
        let form = random.pick(&[
            Form::Decimal,
            Form::LowerHexadecimal,
            Form::UpperHexadecimal,
        ]);
        let zeros = random.below(16).saturating_sub(12);
        let text = [b"a&#", &written(value, form, zeros)[..], b";b"].concat();
        sink(Arguments {
            choice: random.pick(&[0, 2]),
            ..Arguments::text(&text)
        });
    }
}

/// Spoiled tables with texts that are accepted, refused by the walk, and ill-formed.
pub fn damaged_tables(random: &mut Random, sink: &mut Sink) {
    let texts: [&[u8]; 6] = [b"", b"a", b"&a;&lt;", b"&", b"&#;", b"&a;\xC3"];
    for _ in 0..40_000 {
        let mut draft = random_draft(random);
        for _ in 0..1 + random.below(2) {
            match random.below(2) {
                0 => spoil_at_random(random, &mut draft.list, &[0, 1, 2, 3, 255]),
                _ => spoil_at_random(random, &mut draft.pool, b"a\x80\xC3\xFF"),
            }
        }
        sink(Arguments {
            table: draft.table(),
            room: random_room(random),
            limit: 100,
            ..Arguments::text(random.pick(&texts))
        });
    }
}

/// Refused by 7, 7, 8, 9, of an external entity by 7, 8 and 9, and with a mark by 7, 7, 8 and 9.
pub const REFUSED_TABLES: [Table; 11] = [
    Table {
        list: &[],
        pool: &[],
    },
    Table {
        list: &[0, 0],
        pool: &[],
    },
    Table {
        list: &[1, 0, 0, 0, 0, 1, 0, 0, 0, 0, 0, 0, 0],
        pool: &[],
    },
    Table {
        list: &[1, 0, 0, 0, 0, 0, 0, 0, 0, 0, 0, 0, 0],
        pool: b"a",
    },
    Table {
        list: &[2, 0, 0],
        pool: b"a",
    },
    Table {
        list: &[2, 2, 0, 0, 0, 0, 0],
        pool: b"a",
    },
    Table {
        list: &[2, 0, 0, 0, 0, 0, 0],
        pool: b"a",
    },
    Table {
        list: &[3],
        pool: &[],
    },
    Table {
        list: &[3, 3, 0],
        pool: &[],
    },
    Table {
        list: &[3, 1, 0, 0, 0, 0, 1, 0, 0, 0, 0, 0, 0, 0],
        pool: &[],
    },
    Table {
        list: &[3, 1, 0, 0, 0, 0, 0, 0, 0, 0, 0, 0, 0, 0],
        pool: b"a",
    },
];

/// Tables that are refused by 6, and the text's refusals before them.
pub fn text_before_table(_: &mut Random, sink: &mut Sink) {
    let list = vec![2; LONGEST_LIST + 1];
    for text in [b"a" as &[u8], b"&", b"\xC3"] {
        for list in [&list[..], &list[1..]] {
            sink(Arguments {
                table: Table { list, pool: b"" },
                ..Arguments::text(text)
            });
        }
    }
}

/// So many names of 255 bytes, which differ in their last four bytes and stand for them. As many as
/// a list holds fit into a pool, since each text is a part of its name.
pub fn long_names(count: usize) -> Draft {
    long_entities(count, |_| false)
}

/// The same with some of them external.
pub fn long_entities(count: usize, is_external: fn(usize) -> bool) -> Draft {
    let mut draft = Draft::default();
    for index in 0..count {
        let ending = format!("{index:04}");
        let start = draft.pool.len();
        draft.pool.resize(start + LONGEST_NAME - 4, b'n');
        draft.pool.extend_from_slice(ending.as_bytes());
        match is_external(index) {
            true => draft.refer_external((start, LONGEST_NAME)),
            false => draft.refer((start, LONGEST_NAME), (start + LONGEST_NAME - 4, 4)),
        }
    }
    draft.ended()
}

/// The reference to one of these names.
pub fn long_reference(index: usize) -> Vec<u8> {
    let name = "n".repeat(LONGEST_NAME - 4);
    format!("&{name}{index:04};").into_bytes()
}

/// Names in full tables: the first, the last, every other, and such as are nearly one of them.
pub fn lookups(random: &mut Random, sink: &mut Sink) {
    let count = (LONGEST_LIST - 2) / DEFINITION;
    for is_marked in [false, true] {
        let all = long_names(count).marked_if(is_marked);
        lookups_in(random, &all, count, sink);
        let mixed = long_entities(count, |index| index % 2 == 0).marked_if(is_marked);
        lookups_in(random, &mixed, count, sink);
        let externals = most_externals().marked_if(is_marked);
        for text in ["&0000;", "&8190;", "&8191;", "&8192;", "&819;", "&lt;"] {
            sink(Arguments {
                table: externals.table(),
                ..Arguments::text(text.as_bytes())
            });
        }
    }
}

fn lookups_in(random: &mut Random, draft: &Draft, count: usize, sink: &mut Sink) {
    let mut give = |random: &mut Random, text: &[u8]| {
        sink(Arguments {
            table: draft.table(),
            room: random_room(random),
            choice: random.pick(&[0, 1, 2]),
            ..Arguments::text(text)
        });
    };
    for index in [0, 1, 7, 8, count / 2, count - 2, count - 1, count] {
        let reference = long_reference(index);
        give(random, &reference);
        for position in [1, 2, 128, 250, 251, 252, 253, 254, 255] {
            let mut other = reference.clone();
            other[position] ^= 1;
            give(random, &other);
            other.remove(position);
            give(random, &other);
            other.splice(position..position, [b'n', b'0']);
            give(random, &other);
        }
    }
    let some = (0..40).flat_map(|_| long_reference(random.below(count)));
    let some: Vec<u8> = some.collect();
    give(random, &some);
}

/// Every name that random tables use, twice in one, so that the first has to bind, by either command, after a mark or not.
pub fn first_binds(random: &mut Random, sink: &mut Sink) {
    for first in NAMES {
        for second in NAMES {
            every_sequence(&[false, true], 4, &mut |flags| {
                let text = |index: usize, text| (!flags[index]).then_some(text);
                let draft = Draft::of_entities([
                    (first, text(0, "1")),
                    (second, text(1, "2")),
                    (first, text(2, "3")),
                    ("a", Some("4")),
                ])
                .marked_if(flags[3]);
                for name in [first, second] {
                    sink(Arguments {
                        table: draft.table(),
                        room: random_room(random),
                        ..Arguments::text(format!("&{name};").as_bytes())
                    });
                }
            });
        }
    }
}

/// Names that begin alike, with tokens of up to 8 bytes and of 9, their texts, and how many openings each makes.
const ALIKE: [(&str, &str, u64); 6] = [
    ("a", "x", 1),
    ("ab", "&a;&a;", 3),
    ("abc", "&ab;\t&a;", 5),
    ("abcdef", "", 1),
    ("abcdefg", "&abc;", 6),
    ("abcdeg", "&#65;&lt;", 1),
];

/// Few references, each many times, more kinds or fewer than a walk keeps, beside others that begin like them, with limits that the
/// text just meets or just does not.
pub fn repeated(random: &mut Random, sink: &mut Sink) {
    const ROUNDS: usize = 60_000;
    const OTHERS: [&[u8]; 8] = [
        b"&lt;",
        b"&amp;",
        b"&#65;",
        b"&#66;",
        b"&#x41;",
        b"&#x20AC;",
        b"\t",
        b"\r\n",
    ];
    let draft = Draft::of(&ALIKE.map(|(name, text, _)| (name, text)));
    let drafts = [draft.clone(), draft.marked()];
    for _ in 0..ROUNDS {
        let mut kinds: Vec<(Vec<u8>, u64)> = vec![];
        for _ in 0..random.within(1, 7) {
            let (name, _, openings) = random.pick(&ALIKE);
            kinds.push(match random.below(2) {
                0 => (random.pick(&OTHERS).to_vec(), 0),
                _ => (format!("&{name};").into_bytes(), openings),
            });
        }
        let (mut text, mut openings) = (vec![], 0);
        for _ in 0..random.below(60) {
            let (token, more) = &kinds[random.below(kinds.len())];
            text.extend_from_slice(token);
            openings += more;
            text.extend_from_slice(&b"abcdefghijklmnopqrst"[..random.below(12)]);
        }
        if random.below(8) == 0 {
            text.extend_from_slice(random.pick(&[&b"&a"[..], b"&ab;&", b"&;", b"&abcdeh;"]));
        }
        sink(Arguments {
            choice: random.pick(&[0, 2]),
            depth: random.pick(&[1, 2, 3, 4, 128]),
            limit: match random.below(4) {
                0 => openings,
                1 => openings.saturating_sub(1),
                2 => random.below(openings as usize + 2) as u64,
                _ => MOST_OPENINGS,
            },
            table: drafts[usize::from(random.below(4) == 0)].table(),
            room: random_room(random),
            ..Arguments::text(&text)
        });
    }
}

/// Names that are alike, all of them in one table and in any order, each looked up.
pub fn similar_names(random: &mut Random, sink: &mut Sink) {
    const ROUNDS: usize = 20;
    let lengths = (1..=12).chain([15, 16, 17, 31, 32, 33, 63, 64, 65, 254, LONGEST_NAME]);
    for length in lengths.flat_map(|length| [length; ROUNDS]) {
        let mut names = similar(random, length);
        let unknown = names.pop().unwrap();
        let mut draft = Draft::default();
        let has_external = random.below(2) == 0;
        for (index, name) in names.iter().enumerate() {
            match has_external && random.below(2) == 0 {
                true => draft.declare_external(name),
                false => draft.define(name, format!("{index}").as_bytes()),
            }
        }
        let draft = draft.ended().marked_if(random.below(4) == 0);
        for name in names.iter().chain([&unknown]) {
            sink(Arguments {
                table: draft.table(),
                ..Arguments::text(&[b"&", &name[..], b";"].concat())
            });
        }
    }
}

/// A name and others that differ from it in one byte or are longer or shorter, in any order.
fn similar(random: &mut Random, length: usize) -> Vec<Vec<u8>> {
    let letter = |random: &mut Random| random.pick(b"abcdefgh");
    let name: Vec<u8> = (0..length).map(|_| letter(random)).collect();
    let mut names = vec![name.clone()];
    for _ in 0..12 {
        let mut other = name.clone();
        other[random.below(length)] = letter(random);
        names.push(other);
    }
    names.push([&name[1..], b"z"].concat());
    names.push([b"z", &name[..length - 1]].concat());
    if length > 1 {
        names.push(name[1..].to_vec());
        names.push(name[..length - 1].to_vec());
    }
    if length < LONGEST_NAME {
        names.push([&name[..], b"z"].concat());
        names.push([b"z", &name[..]].concat());
    }
    for index in (1..names.len()).rev() {
        names.swap(index, random.below(index + 1));
    }
    names
}
