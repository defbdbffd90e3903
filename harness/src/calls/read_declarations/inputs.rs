//! Texts of declarations.

use crate::arguments::{Arguments, Room, Sink, LONGEST_NEW_LIST, LONGEST_NEW_POOL, ROOMS};
use crate::inputs::rooms::random_room;
use crate::inputs::sequences::every_sequence;
use crate::inputs::spoiled::{every_spoiled, spoil_at_random};
use crate::random::Random;
use crate::table::{LONGEST_NAME, LONGEST_POOL, LONGEST_REPLACEMENT};

/// XML 1.0 by either number, and XML 1.1.
const VERSIONS: [u8; 3] = [0, 1, 2];
const OLDER_AND_NEWER: [u8; 2] = [0, 2];

/// What one spoiled byte is taken from.
const BYTES: &[u8] = b"<!>ENTITY aA:-.\"'&#;%x10\r\n\t\xC2\x85\xE2\x80\xA8\x00";

fn give(text: &str, versions: &[u8], sink: &mut Sink) {
    for &choice in versions {
        sink(Arguments {
            choice,
            ..Arguments::text(text.as_bytes())
        });
    }
}

/// With list and pool of each kind of length.
fn give_rooms(text: &str, versions: &[u8], sink: &mut Sink) {
    for &choice in versions {
        for new_list in ROOMS {
            for new_pool in ROOMS {
                sink(Arguments {
                    choice,
                    new_list,
                    new_pool,
                    ..Arguments::text(text.as_bytes())
                });
            }
        }
    }
}

/// Values, and what each kind of refusal comes of.
const VALUES: [&str; 24] = [
    "",
    "sail",
    "Gro&#xDF;segel",
    "&#65;&#x41;&f;",
    "&f;&g;x",
    "&#xD;&#xA;",
    "a\r\nb\rc\nd",
    "\u{85}\r\u{85}\u{2028}",
    "&#38;&#x25;&#60;",
    "<!ENTITY>",
    "\u{1}\u{FFFE}\u{10FFFF}",
    "&#x1;&#xFFFF;&#x10FFFF;",
    "%",
    "a%p;",
    "&",
    "&f",
    "&;",
    "&#;",
    "&#+1;",
    "&#xD800;",
    "&#0;",
    "&#\r\n1;",
    "&1;",
    "&\u{B7};",
];

/// Whole texts beside those.
const TEXTS: [&str; 22] = [
    "<!ENTITY a '1'><!ENTITY b '2'>\r\n<!ENTITY a '3'>",
    "\u{85}<!ENTITY\u{2028}a\r\u{85}'x'\u{85}>\u{2028}",
    "<!ENTITY\ta\n'x'\r>\r\n",
    "<!ENTITY a.-9:_\u{B7}\u{203F}\u{300} 'x'>",
    "<!ENTITY \u{C0}\u{EFFFF} 'x'>",
    "<!ENTITY -a 'x'>",
    "<!ENTITY \u{D7} 'x'>",
    "<!ENTITY a\u{F0000} 'x'>",
    "<!ENTITY % a 'x'>",
    "<!ENTITY a SYSTEM 'x'>",
    "<!ENTITY a 'x' NDATA n>",
    "<!ENTITY a'x'>",
    "<!ENTITYa 'x'>",
    "<!ENTITY a 'x'",
    "<!ENTITY a 'x\">",
    "<!ENTITY a",
    "<!ENTIT a 'x'>",
    "<! ENTITY a 'x'>",
    "<!ELEMENT a ANY>",
    "<!-- a --><!ENTITY a 'x'>",
    "<!ENTITY a 'x'>\r\n\r\n<!ENTITY b \"\u{E9}%\">",
    "\u{FEFF}<!ENTITY a 'x'>",
];

pub fn seams(_: &mut Random, sink: &mut Sink) {
    give_rooms("", &[0], sink);
    give(" \t\r\n", &OLDER_AND_NEWER, sink);
    for value in VALUES {
        give(&format!("<!ENTITY a \"{value}\">"), &OLDER_AND_NEWER, sink);
        give(&format!("<!ENTITY a '{value}' >"), &[1], sink);
    }
    for text in TEXTS {
        give(text, &OLDER_AND_NEWER, sink);
    }
    give_rooms(TEXTS[0], &[0], sink);
    give_rooms(TEXTS[1], &[2], sink);
    give_rooms(TEXTS[8], &[0], sink);
    give(TEXTS[0], &[3, 255], sink);
    sink(Arguments::text(b"<!ENTITY a '\xED\xA0\x80%'>"));
    sink(Arguments::text(b"%<!ENTITY a '\xC2"));
    names_about_the_limit(sink);
}

/// Names of about 255 bytes: at their end a character that can stand there, one that cannot, and the end.
fn names_about_the_limit(sink: &mut Sink) {
    for length in LONGEST_NAME - 1..=LONGEST_NAME + 2 {
        let letters = "n".repeat(length);
        let wide = "n".repeat(length % 2) + &"\u{E9}".repeat(length / 2);
        for name in [letters, wide] {
            for after in [" 'x'>", "\r\n'x'>", "\u{85}'x'>", "'x'>", "%", " %", ""] {
                give(&format!("<!ENTITY {name}{after}"), &OLDER_AND_NEWER, sink);
            }
            // The name of a reference may have any length.
            give(&format!("<!ENTITY a '&{name};'>"), &OLDER_AND_NEWER, sink);
            give(&format!("<!ENTITY a '&{name}'>"), &OLDER_AND_NEWER, sink);
        }
    }
}

/// Every text of up to so many pieces, after a beginning and before an end.
fn every_text_of(
    pieces: &[&str],
    most: usize,
    around: &[(&str, &str)],
    versions: &[u8],
    sink: &mut Sink,
) {
    let mut text = String::new();
    for length in 0..=most {
        every_sequence(pieces, length, &mut |sequence| {
            for (before, after) in around {
                text.clear();
                text.push_str(before);
                sequence.iter().for_each(|piece| text.push_str(piece));
                text.push_str(after);
                give(&text, versions, sink);
            }
        });
    }
}

pub fn every_short_text(_: &mut Random, sink: &mut Sink) {
    let pieces = [
        "<!ENTITY", " ", "a", "\"", "'", ">", "&", "#", ";", "%", "\r",
    ];
    every_text_of(&pieces, 5, &[("", "")], &[0], sink);
    let pieces = ["<!ENTITY ", "a ", "'b'", ">", "\r\n", "\u{85}", "&a;"];
    every_text_of(&pieces, 6, &[("", "")], &[2], sink);
    let pieces = ["<", "!", "E", "N", "T", "I", "Y", " "];
    every_text_of(&pieces, 4, &[("", ""), ("<!ENT", " a ''>")], &[0], sink);
    // What stands around a name and a value.
    let pieces = [
        " ", "\t", "\n", "\u{85}", "\u{2028}", "a", "1", "-", "%", "\"b\"", ">",
    ];
    let around = [("<!ENTITY", ""), ("<!ENTITY a", ">"), ("<!ENTITY a ''", "")];
    every_text_of(&pieces, 4, &around, &OLDER_AND_NEWER, sink);
}

pub fn every_short_value(_: &mut Random, sink: &mut Sink) {
    let pieces = [
        "&", "#", ";", "\"", "'", "%", "a", "1", "x", "\r", "\n", " ", ">",
    ];
    let around = [("<!ENTITY a \"", "\">"), ("<!ENTITY a \"", "")];
    every_text_of(&pieces, 4, &around, &OLDER_AND_NEWER, sink);
    let pieces = ["&", "#", ";", "'", "a", "1", "0", "x", "F"];
    every_text_of(&pieces, 5, &[("<!ENTITY a '&", "'>")], &[0], sink);
    let pieces = [
        "&#", "&", ";", "x", "D800", "1114112", "-", "+", "0", "\u{E9}", "\r\n",
    ];
    every_text_of(&pieces, 4, &[("<!ENTITY a '", ";'>")], &[1], sink);
}

/// Line ends at each place of a declaration, before a fault and without one.
pub fn every_line_end(_: &mut Random, sink: &mut Sink) {
    let pieces = ["\r", "\n", "\u{85}", "\u{2028}", "a", "\u{C2}"];
    let around = [
        ("", "<!ENTITY a 'x'>"),
        ("<!ENTITY ", "a 'x'>"),
        ("<!ENTITY a ", "'x'>"),
        ("<!ENTITY a", "'x'>"),
        ("<!ENTITY a '", "'>"),
        ("<!ENTITY a '", "%'>"),
        ("<!ENTITY a '&#", ";'>"),
        ("<!ENTITY a '&#", "'>"),
        ("<!ENTITY a '&a", ";'>"),
        ("<!ENTITY a 'x'", ">"),
        ("<!ENTITY a 'x'>", "%"),
        ("<!ENTITY a 'x'>", ""),
    ];
    every_text_of(&pieces, 4, &around, &OLDER_AND_NEWER, sink);
}

/// Every length of list and pool about those needed.
pub fn every_room(_: &mut Random, sink: &mut Sink) {
    for text in [
        "",
        TEXTS[0],
        TEXTS[1],
        "<!ENTITY a ''>",
        "<!ENTITY a '&#xDF;&#x1D11E;'> %",
    ] {
        for list in 0..=42 {
            for pool in 0..=10 {
                for choice in OLDER_AND_NEWER {
                    sink(Arguments {
                        choice,
                        new_list: Room::Of(list),
                        new_pool: Room::Of(pool),
                        ..Arguments::text(text.as_bytes())
                    });
                }
            }
        }
        // Longer than a table may be.
        for (list, pool) in [(LONGEST_NEW_LIST, 10), (40, LONGEST_NEW_POOL)] {
            sink(Arguments {
                new_list: Room::Of(list),
                new_pool: Room::Of(pool),
                ..Arguments::text(text.as_bytes())
            });
        }
    }
}

/// Runs of each kind, by their length: where blocks end.
pub fn every_length(random: &mut Random, sink: &mut Sink) {
    for length in 0..=200 {
        let run = |piece: &str| piece.repeat(length);
        let texts = [
            format!("<!ENTITY a '{}'>", run("v")),
            format!("<!ENTITY a \"{}%\">", run("v")),
            format!("<!ENTITY a '{}&b;{}'>", run("v"), run("\u{E9}")),
            format!("<!ENTITY a '{}\r\n{}&#", run("v"), run("7")),
            format!("<!ENTITY a '{}\r{}\u{85}&a '>", run("v"), run("\u{2028}")),
            format!("<!ENTITY {} 'v'>", run("n")),
            format!("<!ENTITY a{}>", run("\u{EFFFF}")),
            format!("<!ENTITY a '&{};'>", run("n.")),
            format!("<!ENTITY a '&#{}65;'>", run("0")),
            format!(
                "{}<!ENTITY{}a{}'v'{}>",
                run(" "),
                run("\t"),
                run("\r\n"),
                run("\n")
            ),
            "<!ENTITY a 'v'>".repeat(length),
        ];
        for text in &texts {
            for choice in OLDER_AND_NEWER {
                sink(Arguments {
                    choice,
                    new_list: random_room(random),
                    new_pool: random_room(random),
                    ..Arguments::text(text.as_bytes())
                });
            }
        }
    }
}

/// Values, declarations and pools at their limits and one past them, and faults before and after.
pub fn longest(_: &mut Random, sink: &mut Sink) {
    for length in LONGEST_REPLACEMENT - 1..=LONGEST_REPLACEMENT + 2 {
        let filled =
            |piece: &str, bytes: usize| "v".repeat(length % bytes) + &piece.repeat(length / bytes);
        let references = filled("&#xE9;", 2);
        let values = [
            filled("v", 1),
            filled("\u{20AC}", 3),
            filled("\r\n", 1),
            filled("\u{85}", 2),
            references,
            filled("&ab;", 4),
        ];
        for value in values {
            give(&format!("<!ENTITY a '{value}'>"), &OLDER_AND_NEWER, sink);
            give(&format!("\r\n<!ENTITY a '{value}%"), &OLDER_AND_NEWER, sink);
            give(&format!("<!ENTITY a '{value}&#0;'>"), &[0], sink);
            give(&format!("<!ENTITY a '{value}'<"), &[2], sink);
            give(&format!("<!ENTITY a '{value}"), &[0], sink);
        }
    }
    for number in 4095..=4097 {
        let many = "<!ENTITY a ''>\r\n".repeat(number);
        for after in ["", " ", "<", "%", "<!ENTITY a '%", "<!ENTITY a 'x'>"] {
            give(&format!("{many}{after}"), &OLDER_AND_NEWER, sink);
        }
    }
    pools_about_the_limit(sink);
}

/// Seventeen declarations whose pool is as long as a table's may be, and about that.
fn pools_about_the_limit(sink: &mut Sink) {
    const NUMBER: usize = 17;
    for pool in LONGEST_POOL - 1..=LONGEST_POOL + 2 {
        let mut text = String::new();
        let mut left = pool;
        for index in (1..=NUMBER).rev() {
            let size = left / index;
            text += &format!("<!ENTITY n \"{}\">\n", "v".repeat(size - 1));
            left -= size;
        }
        for faulty in ["", "%"] {
            let text = format!("{text}{faulty}");
            let rooms = [Room::Exact, Room::Short, Room::Null, Room::Spare(20)];
            for new_pool in rooms {
                for new_list in [Room::Exact, Room::Short, Room::Spare(5)] {
                    sink(Arguments {
                        new_list,
                        new_pool,
                        ..Arguments::text(text.as_bytes())
                    });
                }
            }
        }
    }
    // The longest text: a pool that is far too long, and one character of a fault at its end.
    let mut text = "<!ENTITY n '".to_string() + &"v".repeat(60_000) + "'>";
    text = text.repeat(279);
    give(&text, &OLDER_AND_NEWER, sink);
    text.push('%');
    give(&text, &OLDER_AND_NEWER, sink);
}

/// Every character of Unicode first in a name and later; and those of the first plane, with some others, in references and raw in a value.
pub fn every_character(_: &mut Random, sink: &mut Sink) {
    let mut text = String::new();
    for (character, turn) in ('\0'..=char::MAX).zip(0usize..) {
        let versions = &OLDER_AND_NEWER[turn % 2..][..1];
        let mut with = |before: &str, after: &str| {
            text.clear();
            text.push_str(before);
            text.push(character);
            text.push_str(after);
            give(&text, versions, sink);
        };
        with("<!ENTITY ", " ''>");
        with("<!ENTITY a", " ''>");
        if turn < 0x10000 || turn % 61 == 0 {
            with("<!ENTITY a '&", ";'>");
            with("<!ENTITY a '&a", ";'>");
            with("<!ENTITY a '", "'>");
        }
        if turn < 0x3000 {
            with("", "");
            with("<!ENTITY a ''", ">");
            with("<!ENTITY a '&#", "1;'>");
        }
    }
}

/// A text of up to so many declarations, as they may be written.
fn random_text(random: &mut Random, most: usize) -> String {
    let mut text = random_blanks(random, 0);
    for _ in 0..random.below(most + 1) {
        text += "<!ENTITY";
        text += &random_blanks(random, 1);
        text += &random_name(random);
        text += &random_blanks(random, 1);
        let quote = random.pick(&["\"", "'"]);
        text += quote;
        for _ in 0..random.below(12) {
            text += &random_piece(random, quote);
        }
        text += quote;
        text += &random_blanks(random, 0);
        text += ">";
        text += &random_blanks(random, 0);
    }
    text
}

/// At least so many.
fn random_blanks(random: &mut Random, least: usize) -> String {
    let number = least + random.below(3) * random.below(2);
    let blanks = (0..number).map(|_| random.pick(&[" ", "\t", "\n", "\r\n", "\r", " "]));
    blanks.collect()
}

fn random_name(random: &mut Random) -> String {
    let start = random.pick(&["a", "b", "_", ":", "Z", "\u{E9}", "\u{4E2D}", "\u{10000}"]);
    let mut name = start.to_string();
    for _ in 0..random.below(6) {
        name += random.pick(&["a", "b", "-", ".", "9", "\u{B7}", "\u{E9}", "\u{203F}"]);
    }
    name
}

/// A part of a value between such quotes.
fn random_piece(random: &mut Random, quote: &str) -> String {
    match random.below(8) {
        0 => format!("&#{};", random.within(1, 0xD7FF)),
        1 => format!("&#x{:X};", random.within(0xE000, 0x10FFFF)),
        2 => format!("&{};", random_name(random)),
        3 => random
            .pick(&["\r\n", "\r", "\n", "\u{85}", "\u{2028}"])
            .to_string(),
        4 => random
            .pick(&["\u{E9}", "\u{20AC}", "\u{1D11E}", "\u{1}", "\u{FFFE}"])
            .to_string(),
        5 if quote == "'" => "\"".to_string(),
        _ => random.pick(&["sail", "<", ">", "#", ";", " "]).to_string(),
    }
}

/// Texts as they may be written, with one byte spoiled in every way.
pub fn damaged(random: &mut Random, sink: &mut Sink) {
    for turn in 0..24 {
        let text = random_text(random, 3);
        every_spoiled(text.as_bytes(), BYTES, &mut |arguments| {
            sink(Arguments {
                choice: OLDER_AND_NEWER[turn % 2],
                ..arguments
            });
        });
    }
}

pub fn random(random: &mut Random, sink: &mut Sink) {
    for _ in 0..4096 {
        let most = match random.below(200) {
            0 => 120,
            1..=20 => 20,
            _ => 4,
        };
        let mut text = random_text(random, most).into_bytes();
        for _ in 0..random.below(3) {
            spoil_at_random(random, &mut text, BYTES);
        }
        sink(Arguments {
            choice: random.pick(&VERSIONS),
            new_list: random_room(random),
            new_pool: random_room(random),
            ..Arguments::text(&text)
        });
    }
}
