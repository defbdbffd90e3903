//! Jobs: texts and tables of attribute values, and spans of every kind.

use crate::arguments::{Arguments, Family, Sink, DEEPEST, MOST_OPENINGS, MOST_SPANS};
use crate::draft::Draft;
use crate::inputs::attribute::{self, Attribute};
use crate::inputs::entities::{self, REFUSED_TABLES};
use crate::inputs::rooms::unknown_choices;
use crate::inputs::sequences::every_sequence;
use crate::inputs::spoiled::spoil_at_random;
use crate::inputs::tables::{self, few};
use crate::inputs::text::MIXES;
use crate::inputs::woven::{self, Subject};
use crate::inputs::{external, marked, memory, sizes};
use crate::lent::Span;
use crate::random::Random;

/// What short jobs are made of: a character of two bytes, a stop, and parts of references.
const PIECES: [&str; 6] = ["a", "½", "\t", "&", "e", ";"];
const EXTREMES: [u64; 12] = [
    0,
    1,
    2,
    5,
    6,
    7,
    1 << 32,
    (1 << 32) + 1,
    1 << 63,
    u64::MAX - 5,
    u64::MAX - 1,
    u64::MAX,
];

pub fn span(start: usize, length: usize) -> Span {
    Span {
        start: start as u64,
        length: length as u64,
    }
}

/// The text as one value.
fn whole(arguments: &Arguments) -> [Span; 1] {
    [span(0, arguments.text.len())]
}

/// The inputs of a family, each text as one value and in two parts.
fn spanned(family: Family, random: &mut Random, sink: &mut Sink) {
    let mut cuts = Random::new(random.next());
    family(random, &mut |arguments| {
        let length = arguments.text.len();
        let cut = cuts.below(length + 1);
        let spans = match cuts.below(4) {
            0 => vec![span(0, cut), span(cut, length - cut)],
            _ => whole(&arguments).to_vec(),
        };
        let spans = &spans;
        sink(Arguments { spans, ..arguments });
    });
}

/// Those of attribute values; then what tells the order of the checks.
pub fn seams(random: &mut Random, sink: &mut Sink) {
    spanned(woven::seams::<Attribute>, random, sink);
    refused_seams(sink);
}

/// Each refusal before the next, with a span that leaves, with too many, and with none.
fn refused_seams(sink: &mut Sink) {
    let outside = [span(0, 1), span(9, 0), span(0, 99)];
    let many = vec![span(0, 99); MOST_SPANS + 1];
    for spans in [&outside[..], &many, &[]] {
        let mut arguments = Arguments {
            depth: DEEPEST + 1,
            limit: MOST_OPENINGS + 1,
            choice: 3,
            table: REFUSED_TABLES[0],
            spans,
            ..Arguments::text(b"&;\xED\xA0\x80")
        };
        sink(arguments);
        arguments.depth = DEEPEST;
        sink(arguments);
        arguments.limit = MOST_OPENINGS;
        sink(arguments);
        arguments.choice = 2;
        sink(arguments);
        arguments.text = b"&;";
        for table in REFUSED_TABLES {
            sink(Arguments { table, ..arguments });
        }
        arguments.table = few()[0].table();
        sink(arguments);
    }
}

/// Every text of up to three pieces, with every two spans that start and end up to a byte past it.
pub fn every_short_job(_: &mut Random, sink: &mut Sink) {
    let draft = Draft::of(&[("e", "x&lt;\t"), ("", "never")]);
    let sound = Draft::of(&[("e", "x&lt;\t")]);
    let mut turn = 0;
    for length in 0..=3 {
        every_sequence(&PIECES, length, &mut |pieces| {
            let text = pieces.concat();
            let ends = 0..=text.len() + 1;
            let spans: Vec<Span> = ends
                .clone()
                .flat_map(|start| ends.clone().map(move |length| span(start, length)))
                .collect();
            for &first in &spans {
                for &second in &spans {
                    turn += 1;
                    let draft = if turn % 97 == 0 { &draft } else { &sound };
                    sink(Arguments {
                        spans: &[first, second],
                        choice: [0, 2][turn % 2],
                        depth: [1, 2, 2, 0][turn / 2 % 4],
                        limit: [1, 0, 1, 1, 1][turn % 5],
                        table: draft.table(),
                        ..Arguments::text(text.as_bytes())
                    });
                }
            }
        });
    }
}

/// Every span of texts with characters of each length, alone.
pub fn every_part(_: &mut Random, sink: &mut Sink) {
    for text in ["a½€😀b", "é\u{85}\u{2028}ü", "&#x20AC;😀&dé;"] {
        for start in 0..=text.len() {
            for length in 0..=text.len() - start {
                for draft in few() {
                    for choice in [0, 2] {
                        sink(Arguments {
                            spans: &[span(start, length)],
                            choice,
                            table: draft.table(),
                            ..Arguments::text(text.as_bytes())
                        });
                    }
                }
            }
        }
    }
}

/// Starts and lengths whose sums pass 32 and 64 bits, between two spans that are in the text.
pub fn far_spans(_: &mut Random, sink: &mut Sink) {
    for start in EXTREMES {
        for length in EXTREMES {
            let far = Span { start, length };
            let inside = span(1, 2);
            for spans in [
                &[far][..],
                &[inside, far],
                &[far, inside],
                &[inside, far, inside, far],
            ] {
                sink(Arguments {
                    spans,
                    ..Arguments::text(b"ab&lt;")
                });
            }
        }
    }
}

/// As many as there may be, one less and more; with one that leaves, at either end.
pub fn many_spans(random: &mut Random, sink: &mut Sink) {
    let text = "a&e;½\t&lt;&u;&e".repeat(40);
    for count in [MOST_SPANS - 1, MOST_SPANS, MOST_SPANS + 1, MOST_SPANS + 64] {
        let mut spans = vec![Span::default(); count];
        let give = |spans: &[Span], sink: &mut Sink| {
            sink(Arguments {
                spans,
                limit: 3,
                table: few()[1].table(),
                ..Arguments::text(text.as_bytes())
            });
        };
        give(&spans, sink);
        for one in &mut spans {
            let start = random.below(text.len() + 1);
            *one = span(start, random.below(12.min(text.len() - start + 1)));
        }
        give(&spans, sink);
        for at in [0, count - 1] {
            let kept = spans[at];
            spans[at] = span(text.len() + 1, 0);
            give(&spans, sink);
            spans[at] = kept;
        }
    }
}

/// Limits that the openings of all values together pass, and each by itself does not.
pub fn limits_of_each(_: &mut Random, sink: &mut Sink) {
    let draft = Draft::of(&[("e", "&f;"), ("f", ""), ("g", "y&f;&f;")]);
    let text = "&f;&e;&g;";
    let parts = [span(0, 3), span(3, 3), span(6, 3), span(0, 6), span(3, 6)];
    for count in 1..=4 {
        every_sequence(&parts, count, &mut |spans| {
            for limit in 0..=5 {
                for depth in [1, 2, 3] {
                    sink(Arguments {
                        spans,
                        depth,
                        limit,
                        table: draft.table(),
                        ..Arguments::text(text.as_bytes())
                    });
                }
            }
        });
    }
}

/// Families of attribute values as families of jobs.
macro_rules! of_values {
    ($($family:ident: $values:expr,)*) => {
        $(pub fn $family(random: &mut Random, sink: &mut Sink) {
            spanned($values, random, sink);
        })*
    };
}

of_values! {
    choices: unknown_choices,
    settings: attribute::every_setting,
    text_limits: sizes::limits,
    table_limits: tables::limits,
    long_texts: woven::long::<Attribute>,
    external_orders: external::every_order,
    external_tables: external::every_small_table,
    marked_tables: marked::every_small_table,
    marked_texts: marked::every_text,
    replacements: attribute::every_replacement,
    damaged_tables: entities::damaged_tables,
    text_before_table: entities::text_before_table,
    lookups: entities::lookups,
    similar_names: entities::similar_names,
    first_binds: entities::first_binds,
    repeated: entities::repeated,
    kept: memory::kept,
    nested: attribute::nested,
    wide: attribute::wide,
    most_openings: attribute::most_openings,
}

/// Jobs of some hundreds of values, with everything else at random.
pub fn long_jobs(random: &mut Random, sink: &mut Sink) {
    for _ in 0..100 {
        let (size, count) = (1 + random.below(4000), random.below(1000));
        job(random, size, count, sink);
    }
}

pub fn random(random: &mut Random, sink: &mut Sink) {
    for _ in 0..4000 {
        let (size, count) = (random.below(60), random.below(6));
        job(random, size, count, sink);
    }
    let (size, count) = (random.below(3000), random.below(300));
    job(random, size, count, sink);
}

/// A text of so many bytes and so many of its parts; now and then a part that leaves it, or a text that is spoiled.
fn job(random: &mut Random, size: usize, count: usize, sink: &mut Sink) {
    let (mix, gap) = (random.pick(&MIXES), random.pick(&[1, 3, 10]));
    let mut text = Attribute::text(random, mix, gap, size);
    if size > 0 && random.below(20) == 0 {
        spoil_at_random(random, &mut text, Attribute::BYTES);
    }
    let mut spans: Vec<Span> = (0..count).map(|_| part(random, &text)).collect();
    if count > 0 && random.below(20) == 0 {
        spans[random.below(count)] = Span {
            start: random.pick(&EXTREMES),
            length: random.pick(&EXTREMES),
        };
    }
    let spans = &spans;
    Attribute::one(random, Arguments::text(&text), &mut |arguments| {
        sink(Arguments { spans, ..arguments });
    });
}

/// Mostly a short one of whole characters.
fn part(random: &mut Random, text: &[u8]) -> Span {
    let mut start = random.below(text.len() + 1);
    let most = match random.below(10) {
        0 => text.len() - start,
        _ => 20.min(text.len() - start),
    };
    let mut end = start + random.below(most + 1);
    if random.below(6) > 0 {
        let is_inside = |at: usize| text.get(at).is_some_and(|byte| byte & 0xC0 == 0x80);
        while is_inside(start) {
            start -= 1;
        }
        while is_inside(end) {
            end += 1;
        }
    }
    span(start, end - start)
}
