//! The Rust's walk beside ours; its instructions also for names in a long table, and for texts that cost most for their length.

use crate::arguments::DEEPEST;
use crate::counting;
use crate::draft::Draft;
use crate::rows::attribute::{self, long_values, rust, rust_normalize, short_values};
use crate::rows::attribute::{difference, rust_normalize_strictly};
use crate::rows::many_names::{self, Map};
use crate::rows::table::{ours, Ours, TableRule, Tables, NAMES};
use crate::rust::escape::{resolve_xml_entity, EscapeError};
use crate::rust::XmlVersion;
use crate::table::LONGEST_REPLACEMENT;
use crate::timing::{self, aligned, Made};
use std::hint::black_box;

const CALLS: [&str; 2] = [
    "normalize_attribute_value, 1.0",
    "normalize_attribute_value, 1.1",
];

const STRICT_CALLS: [&str; 2] = [
    "normalize_attribute_value_strict, 1.0",
    "normalize_attribute_value_strict, 1.1",
];

pub fn timed(run: impl Ours) -> Vec<timing::Row> {
    let mut rows = attribute::timed(CALLS, (run, rust_normalize));
    rows.extend(many_names::timed(CALLS[0], run, rust_normalize_by_map));
    rows
}

pub fn counted(rows: &mut Vec<counting::Row>, run: impl Ours) {
    let sides: (_, TableRule) = (run, rust_normalize);
    for (call, version) in CALLS.into_iter().zip([0, 2]) {
        for size in [8, 16, 32, 64, 128] {
            short_values(rows, call, version, size, sides);
        }
        long_values(rows, call, version, sides);
        if version == 0 {
            names(rows, call, sides);
            worst(rows, call, sides);
        }
    }
    many_names::counted(rows, CALLS[0], run, rust_normalize_by_map);
}

/// Counts the openings too.
fn rust_normalize_by_map(text: &'static str, map: &'static Map) -> Result<Made, EscapeError> {
    let mut openings = 0;
    let resolve = |name: &str| {
        let defined = map.get(name).copied();
        openings += u64::from(defined.is_some());
        defined.or_else(|| resolve_xml_entity(name))
    };
    let (version, depth) = (XmlVersion::Explicit1_0, DEEPEST as usize);
    let value = version.normalize_attribute_value(text, depth, resolve)?;
    Ok((value, openings))
}

pub fn strictly_timed(run: impl Ours) -> Vec<timing::Row> {
    attribute::timed(STRICT_CALLS, (run, rust_normalize_strictly))
}

pub fn strictly_counted(rows: &mut Vec<counting::Row>, run: impl Ours) {
    let sides: (_, TableRule) = (run, rust_normalize_strictly);
    for (call, version) in STRICT_CALLS.into_iter().zip([0, 2]) {
        short_values(rows, call, version, 64, sides);
        long_values(rows, call, version, sides);
    }
}

/// The lenient call and the strict one on letters.
pub fn differences(lenient: impl Ours, strict: impl Ours) -> Vec<timing::Difference> {
    let sides = (
        (lenient, rust_normalize as TableRule),
        (strict, rust_normalize_strictly as TableRule),
    );
    vec![
        difference(
            "The strict rule beside the lenient one, for each KiB of letters under 1.0",
            0,
            sides,
        ),
        difference("The same under 1.1", 2, sides),
    ]
}

/// One reference to a name of a long table. Here the Rust's side reads the table in the call, as ours checks it: what a lookup takes is
/// the difference of two rows.
fn names(rows: &mut Vec<counting::Row>, call: &str, (run, rule): (impl Ours, TableRule)) {
    for length in [8, 255] {
        let name = |index: usize| format!("n{index:0>width$}", width = length - 1);
        let mut draft = Draft::default();
        (0..NAMES).for_each(|index| draft.define(name(index).as_bytes(), b"x"));
        let table = Tables::new(draft.ended()).lent;
        for (which, index) in [
            ("the first", 0),
            ("the middle", NAMES / 2),
            ("the last", NAMES - 1),
            ("an unknown", NAMES),
        ] {
            let text = aligned(format!("&{};", name(index)).as_bytes());
            let read = move || black_box(table).definitions().unwrap();
            rows.push(counting::Row {
                call: call.to_string(),
                input: format!("{which} of 4,000 names of {length} bytes"),
                bytes: text.len(),
                runs_before: 1,
                ours: Box::new(ours(run, text, 0, table, text.len())),
                rust: rust(rule, text, 0, text.len(), read),
            });
        }
    }
}

const TURNS: usize = 1000;

/// The longest texts, of nothing but blanks, each met again after nine others; with room for the value, and with none, where its length
/// is told.
fn worst(rows: &mut Vec<counting::Row>, call: &str, (run, rule): (impl Ours, TableRule)) {
    let blanks = "\t".repeat(LONGEST_REPLACEMENT);
    let ten = ["a", "b", "c", "d", "e", "f", "g", "h", "i", "j"];
    let in_turn = ten.iter().cycle().take(TURNS);
    let in_turn: String = in_turn.map(|name| format!("&{name};")).collect();
    let mut definitions = ten.map(|name| (name, &blanks[..])).to_vec();
    definitions.push(("z", &in_turn));
    let Tables { lent, read } = Tables::new(Draft::of(&definitions));
    for (place, text) in [("", &in_turn[..]), (" inside another text", "&z;")] {
        let text = aligned(text.as_bytes());
        for (end, room) in [("", TURNS * LONGEST_REPLACEMENT), (", no room", 0)] {
            rows.push(counting::Row {
                call: call.to_string(),
                input: format!("1,000 references to ten texts of 65,535 TABs{place}{end}"),
                bytes: text.len(),
                runs_before: 0,
                ours: Box::new(ours(run, text, 0, lent, room)),
                rust: rust(rule, text, 0, room, move || read),
            });
        }
    }
}
