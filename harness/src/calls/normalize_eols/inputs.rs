//! Texts for line ends: section 2.11 of XML 1.0 and of XML 1.1.

use crate::arguments::{Arguments, Sink};
use crate::inputs::rooms::{each_room, some_room};
use crate::inputs::sizes::BLOCK_ENDS;
use crate::inputs::text::{woven, Mix};
use crate::inputs::woven::Subject;
use crate::random::Random;

pub struct Eols;

const VERSIONS: [u8; 3] = [0, 1, 2];

impl Subject for Eols {
    /// The line ends of both versions, and characters that share bytes with them.
    const PIECES: &'static [&'static [u8]] = &[
        b"\r",
        b"\n",
        "\u{85}".as_bytes(),
        "\u{2028}".as_bytes(),
        b"a",
        "\u{BD}".as_bytes(),
        "\u{2029}".as_bytes(),
        "€".as_bytes(),
    ];
    const BROKEN: &'static [&'static [u8]] = &[b"\xC2", b"\xE2\x80", b"\x85", b"\xED\xA0\x80"];
    const MOST_PIECES: usize = 4;
    const BYTES: &'static [u8] = b"\r\n\xC2\x85\xE2\x80\xA8\xA9a";

    fn seams(random: &mut Random, sink: &mut Sink) {
        let texts: [&str; 22] = [
            "",
            "a",
            "\r",
            "\n",
            "\r\n",
            "\n\r",
            "\r\r\n",
            "\r\n\n",
            "\r\u{85}",
            "\u{85}",
            "\u{2028}",
            "\r\u{2028}",
            "\u{85}\r",
            "\r\u{85}\n",
            "\r\r\u{85}",
            "\r\u{BD}",
            "\u{BD}",
            "\u{2029}\u{2027}",
            "€\r€",
            "\u{1F4A8}\u{85}",
            "one\r\ntwo\rthree\nfour",
            "one\u{85}two\u{2028}three\r",
        ];
        for text in texts {
            each_room(&[0, 2], Arguments::text(text.as_bytes()), sink);
            sink(Arguments {
                choice: 1,
                ..Arguments::text(text.as_bytes())
            });
        }
        for broken in Self::BROKEN {
            some_room(random, &VERSIONS, Arguments::text(broken), sink);
            let text = [b"a\r", *broken].concat();
            some_room(random, &VERSIONS, Arguments::text(&text), sink);
        }
        for choice in [3, 255] {
            sink(Arguments {
                choice,
                ..Arguments::text(b"\r\xC2")
            });
        }
        for at in BLOCK_ENDS {
            for piece in ["\r\n", "\r\u{85}", "\u{2028}", "\u{BD}"] {
                let mut text = vec![b'a'; 80];
                text.splice(at..at, piece.bytes());
                some_room(random, &VERSIONS, Arguments::text(&text), sink);
            }
        }
        for mix in [Mix::Ascii, Mix::Mixed] {
            for gap in [1, 3, 10] {
                let text = woven(random, mix, Self::PIECES, gap, 100);
                some_room(random, &VERSIONS, Arguments::text(&text), sink);
            }
        }
    }

    fn each(arguments: Arguments, sink: &mut Sink) {
        each_room(&VERSIONS, arguments, sink);
    }

    fn one(random: &mut Random, arguments: Arguments, sink: &mut Sink) {
        some_room(random, &VERSIONS, arguments, sink);
    }
}
