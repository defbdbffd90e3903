//! Registers, sound and damaged, and forms that are in them or are not.

use super::answer::{add, withdraw};
use crate::answer::Answer;
use crate::arguments::{Arguments, Sink, LONGEST_REGISTER, LONGEST_TEXT};
use crate::inputs::sequences::every_sequence;
use crate::inputs::spoiled::{every_spoiled, spoil_at_random};
use crate::inputs::text::{text, MIXES};
use crate::random::Random;
use crate::register::{bytes_of, Held, Left, HEAD};

pub type Entry = (Vec<u8>, u32);

/// A form, and a register of these bytes with so many bytes after them.
pub fn give(form: &[u8], bytes: &[u8], spare: usize, sink: &mut Sink) {
    let mut buffer = bytes.to_vec();
    // No zero, so that what is zeroed past the used length is seen.
    buffer.extend((0..spare).map(|at| 0x91 + (at % 7) as u8));
    at(form, &buffer, bytes.len() as u64, sink);
}

fn at(form: &[u8], buffer: &[u8], used: u64, sink: &mut Sink) {
    sink(Arguments {
        register: Held { buffer, used },
        ..Arguments::text(form)
    });
}

pub fn written(entries: &[Entry]) -> Vec<u8> {
    bytes_of(entries.iter().map(|(form, count)| (&form[..], *count)))
}

const FORMS: [&[u8]; 4] = [b"", b"a", "½".as_bytes(), b"ab"];
const COUNTS: [u32; 4] = [1, 2, u32::MAX - 1, u32::MAX];
/// Two that are in no small register, and three that are no text.
const OTHERS: [&[u8]; 5] = [b"b", "€".as_bytes(), b"\xC2", b"a\xFFb", b"\xED\xA0\x80"];
/// Just no room for an entry of any form, or room for one of some.
const SPARES: [usize; 6] = [0, 7, 8, 9, 10, 30];

/// What a reader would ask first: each kind of damage, each refusal, each place of an entry.
pub fn seams(random: &mut Random, sink: &mut Sink) {
    let registers: [&[(&[u8], u32)]; 9] = [
        &[],
        &[(b"", 1)],
        &[(b"a", 1)],
        &[(b"a", u32::MAX)],
        &[(b"a", 1), (b"b", 2)],
        &[
            (b"a", 0x0403_0201),
            (b"", 1),
            ("½".as_bytes(), u32::MAX - 1),
        ],
        &[(b"a", 1), (b"a", 1)],
        &[(b"b", 1), (b"a", 1), (b"", 3), (b"b", 2)],
        &[(b"a", 1), (b"b", 0)],
    ];
    for entries in registers {
        let bytes = bytes_of(entries.iter().copied());
        for form in [b"" as &[u8], b"a", b"b", "½".as_bytes(), b"\xC2"] {
            for spare in [0, 8, 9, 20] {
                give(form, &bytes, spare, sink);
            }
        }
        let used = bytes.len() as u64;
        for wrong in [
            used + 1,
            used.wrapping_sub(1),
            used + (1 << 32),
            used + (1 << 63),
        ] {
            at(b"a", &bytes, wrong, sink);
        }
    }
    let broken: [&[u8]; 8] = [
        &[0],
        &[0; 7],
        &[0; 8],
        b"\x01\0\0\0\x01\0\0\0",
        b"\x01\0\0\0\x01\0\0\0\xC2",
        b"\x01\0\0\0\x01\0\0\0a\0",
        b"\xFF\xFF\xFF\xFF\x01\0\0\0a",
        b"\x02\0\0\0\x01\0\0\0\xC2\xBD\x02\0\0\0\x01\0\0\0\xC2\xBD",
    ];
    for bytes in broken {
        for form in [b"" as &[u8], b"a"] {
            give(form, bytes, 0, sink);
            give(form, bytes, 9, sink);
        }
    }
    let mut state = Left {
        buffer: vec![0x77; 60],
        used: 0,
    };
    for _ in 0..40 {
        step(random, &FORMS, &mut state, sink);
    }
}

/// A form for a register that comes and goes, and then a random call that changes it.
fn step(random: &mut Random, forms: &[&[u8]], state: &mut Left, sink: &mut Sink) {
    let changes: [fn(&Arguments) -> Answer; 3] = [add, add, withdraw];
    let arguments = Arguments {
        register: Held {
            buffer: &state.buffer,
            used: state.used,
        },
        ..Arguments::text(random.pick(forms))
    };
    sink(arguments);
    let left = random.pick(&changes)(&arguments).register;
    *state = left;
}

/// All registers of up to three of these entries, so with repeats too, for each form.
pub fn every_small(_: &mut Random, sink: &mut Sink) {
    let with_each_count = |form: &'static [u8]| COUNTS.into_iter().map(move |count| (form, count));
    let entries: Vec<(&[u8], u32)> = FORMS.into_iter().flat_map(with_each_count).collect();
    for number in 0..=3 {
        every_sequence(&entries, number, &mut |sequence| {
            let bytes = bytes_of(sequence.iter().copied());
            for form in FORMS.into_iter().chain(OTHERS) {
                for spare in SPARES {
                    give(form, &bytes, spare, sink);
                }
            }
        });
    }
}

/// From 0 to past the buffer, and one bit off.
pub fn every_used_length(random: &mut Random, sink: &mut Sink) {
    for _ in 0..400 {
        let bytes = written(&random_entries(random, 6, 12));
        let form = random.pick(&FORMS);
        let used = bytes.len() as u64;
        for wrong in (0..used + 3).chain([u64::MAX]) {
            at(form, &bytes, wrong, sink);
        }
        for bit in 0..u64::BITS {
            at(form, &bytes, used ^ (1 << bit), sink);
        }
    }
}

fn random_form(random: &mut Random, longest: usize) -> Vec<u8> {
    let mix = random.pick(&MIXES);
    let length = random.below(longest + 1);
    text(random, mix, length)
}

fn random_count(random: &mut Random) -> u32 {
    match random.below(6) {
        0 => u32::MAX,
        1 => u32::MAX - 1,
        2 => (random.next() as u32).max(1),
        _ => 1 + random.below(3) as u32,
    }
}

/// Up to so many forms of up to so many bytes, each once.
fn random_entries(random: &mut Random, most: usize, longest: usize) -> Vec<Entry> {
    let mut entries: Vec<Entry> = vec![];
    for _ in 0..random.below(most + 1) {
        let form = random_form(random, longest);
        if entries.iter().all(|(other, _)| *other != form) {
            let count = random_count(random);
            entries.push((form, count));
        }
    }
    entries
}

/// A form that stands there, or nearly, or any.
fn random_asked(random: &mut Random, entries: &[Entry]) -> Vec<u8> {
    let mut form = match entries.len() {
        0 => random_form(random, 12),
        number => entries[random.below(number)].0.clone(),
    };
    match random.below(8) {
        0 => return random_form(random, 12),
        1 => spoil_at_random(random, &mut form, b"ab\x80\xC2"),
        _ => {}
    }
    form
}

fn random_spare(random: &mut Random) -> usize {
    match random.below(3) {
        0 => 0,
        1 => HEAD + random.below(14),
        _ => random.below(60),
    }
}

/// Every register that comes of one spoiled byte, its used length as long as it is now and as it was; and a form again at each place.
pub fn damaged(random: &mut Random, sink: &mut Sink) {
    for _ in 0..300 {
        let entries = random_entries(random, 5, 10);
        let bytes = written(&entries);
        let form = random_asked(random, &entries);
        let used = bytes.len() as u64;
        every_spoiled(&bytes, &[0, 1, 2, 8, 0x80, 255], &mut |spoiled| {
            let buffer = spoiled.text;
            at(&form, buffer, buffer.len() as u64, sink);
            at(&form, buffer, used, sink);
        });
        for (again, _) in &entries {
            for place in 0..=entries.len() {
                let mut repeated = entries.clone();
                repeated.insert(place, (again.clone(), random_count(random)));
                give(&form, &written(&repeated), 20, sink);
            }
        }
    }
}

/// Numbers of forms at which the check for repeats goes another way, with one again at the ends and between; forms around a word's length.
pub fn every_number_of_forms(random: &mut Random, sink: &mut Sink) {
    for number in (9..=16).chain(250..=260).chain([1000]) {
        for length in [7, 8, 9, 15, 16, 17, 24] {
            many_forms(random, number, length, sink);
        }
    }
    for number in [11_263, 11_264, 11_265, 22_527, 22_528, 33_800] {
        many_forms(random, number, 9, sink);
    }
}

fn many_forms(random: &mut Random, number: usize, length: usize, sink: &mut Sink) {
    let mut numbered = |index: usize| {
        let form = format!("{index:0length$}").into_bytes();
        (form, random_count(random))
    };
    let entries: Vec<Entry> = (0..number).map(&mut numbered).collect();
    let form = entries[random.below(number)].0.clone();
    give(&form, &written(&entries), 40, sink);
    give(b"absent", &written(&entries), 40, sink);
    let last = number - 1;
    let repeats = [
        (0, number),
        (0, 1),
        (last, 0),
        (last, last),
        (number / 2, number),
        (number / 3, 2),
    ];
    for (again, place) in repeats {
        let mut repeated = entries.clone();
        repeated.insert(place, (entries[again].0.clone(), 1));
        give(&form, &written(&repeated), 40, sink);
    }
    let fault = random.below(number);
    for faulty in [(entries[fault].0.clone(), 0), (b"\xED\xA0\x80".to_vec(), 1)] {
        let mut entries = entries.clone();
        entries[fault] = faulty;
        give(&form, &written(&entries), 40, sink);
    }
}

/// Registers as they come and go, from an empty one in any buffer.
pub fn sequences(random: &mut Random, sink: &mut Sink) {
    for _ in 0..2000 {
        let forms: Vec<Vec<u8>> = (0..1 + random.below(8))
            .map(|_| random_form(random, 20))
            .collect();
        let forms: Vec<&[u8]> = forms.iter().map(|form| &form[..]).collect();
        let room = random.below(160);
        let mut state = Left {
            buffer: (0..room).map(|_| random.byte()).collect(),
            used: 0,
        };
        for _ in 0..200 {
            step(random, &forms, &mut state, sink);
        }
    }
}

/// A form as long as a text may be, just with room and just without, and entries with forms that are longer.
pub fn longest(_: &mut Random, sink: &mut Sink) {
    let form = vec![b'a'; LONGEST_TEXT];
    give(&form, &[], LONGEST_TEXT + HEAD, sink);
    give(&form, &[], LONGEST_TEXT + HEAD - 1, sink);
    for length in [LONGEST_TEXT, LONGEST_TEXT + 1, LONGEST_REGISTER - HEAD] {
        let mut own = vec![b'a'; length];
        let bytes = bytes_of([(&own[..], 1)]);
        give(&form, &bytes, 0, sink);
        give(b"a", &bytes, LONGEST_REGISTER - bytes.len(), sink);
        own[length - 1] = 0xC2;
        give(b"a", &bytes_of([(&own[..], 1)]), 0, sink);
    }
}

pub fn random(random: &mut Random, sink: &mut Sink) {
    for _ in 0..4096 {
        let (most, longest) = match random.below(400) {
            0 => (400, 20),
            1..=20 => (40, 40),
            _ => (14, 20),
        };
        let entries = random_entries(random, most, longest);
        let form = random_asked(random, &entries);
        let mut bytes = written(&entries);
        if random.below(3) == 0 {
            spoil_at_random(random, &mut bytes, &[0, 1, 2, 0x80, 255]);
        }
        let spare = random_spare(random);
        give(&form, &bytes, spare, sink);
    }
}
