//! Rooms for results, with each level or version.

use crate::arguments::{Arguments, Room, Sink, LONGEST_TEXT, MOST_SPARE, ROOMS};
use crate::random::Random;

/// The text with each of the levels or versions in each room.
pub fn each_room(choices: &[u8], arguments: Arguments, sink: &mut Sink) {
    for &choice in choices {
        for room in ROOMS {
            sink(Arguments {
                choice,
                room,
                ..arguments
            });
        }
    }
}

/// The text with one of the levels or versions, in some room.
pub fn some_room(random: &mut Random, choices: &[u8], arguments: Arguments, sink: &mut Sink) {
    let room = random_room(random);
    sink(Arguments {
        choice: random.pick(choices),
        room,
        ..arguments
    });
}

/// Mostly room enough.
pub fn random_room(random: &mut Random) -> Room {
    match random.below(8) {
        0 => Room::Short,
        1 => Room::Null,
        2 => Room::Exact,
        _ => Room::Spare(random.below(MOST_SPARE)),
    }
}

/// Every level or version: those that are none come after the text's length, before its bytes.
pub fn unknown_choices(_: &mut Random, sink: &mut Sink) {
    for choice in 0..=255 {
        for text in [b"" as &[u8], b"a", b"\r<", b"\xC3"] {
            for room in ROOMS {
                sink(Arguments {
                    choice,
                    room,
                    ..Arguments::text(text)
                });
            }
        }
    }
    sink(Arguments {
        choice: 255,
        ..Arguments::text(&vec![b'a'; LONGEST_TEXT + 1])
    });
}
