//! K13: definitions that a reading does not look up have no say. Each input is read with a table that is edited everywhere but in the
//! names looked up, and has to leave what is expected with its own table, to the byte. The names are the documents' own reading's.

use crate::arguments::{Arguments, DEEPEST, MOST_OPENINGS};
use crate::call::Call;
use crate::comparison::Comparison;
use crate::draft::{Draft, Entity};
use crate::inputs::tables::NAMES;
use crate::lent::Lent;
use crate::oracle::reading::{self, Rule};
use crate::random::{Random, DEFAULT_SEED};
use crate::table::{Definition, Table};

/// So often random inputs are made, a few thousand each time.
const ROUNDS: usize = 10;

/// The names that a reading looks up.
type Names = fn(&Arguments) -> Vec<String>;

/// A wrong reading of them, made of the right ones.
type Misreading = fn(&Arguments, Vec<String>) -> Vec<String>;

/// Of a call that reads with a table.
fn names_of(call: &Call) -> Option<Names> {
    match call.name {
        "unescape" => Some(reading::looked_up_in_text),
        "normalize_attribute_value" | "canonical_form" | "normalize_nmtokens" => {
            Some(|arguments| reading::looked_up(arguments, Rule::Lenient))
        }
        "normalize_attribute_value_strict" | "canonical_form_strict" => {
            Some(|arguments| reading::looked_up(arguments, Rule::Strict))
        }
        // Those of each value.
        "rehearse" => Some(|arguments| {
            let mut names: Vec<String> = vec![];
            for text in arguments.values().unwrap_or_default() {
                names.extend(reading::looked_up(
                    &Arguments { text, ..*arguments },
                    Rule::Lenient,
                ));
            }
            names
        }),
        // As at depth 128.
        "least_depth" => Some(|arguments| {
            let depth = DEEPEST;
            reading::looked_up(
                &Arguments {
                    depth,
                    ..*arguments
                },
                Rule::Lenient,
            )
        }),
        _ => None,
    }
}

/// True: no answer and no byte differs, or the call has no table.
pub fn have_no_say(call: &Call, seed: u64) -> bool {
    let Some(names) = names_of(call) else {
        return true;
    };
    // SAFETY: the comparison lends memory of the lengths stated, which nothing else uses meanwhile.
    let library = |lent: &Lent| unsafe { (call.run)(lent) };
    let mut comparison = Comparison::new(call, &library, None);
    let mut random = Random::new(seed);
    for _ in 0..ROUNDS {
        try_edited(call, &mut comparison, &names, &mut random);
    }
    for description in &comparison.descriptions {
        println!("{description}");
    }
    println!(
        "{}: {} tables edited beside the names looked up, {} differences",
        call.name, comparison.compared, comparison.differences
    );
    comparison.differences == 0 && comparison.compared > 0
}

/// The call's random inputs, each with its table edited beside these names.
fn try_edited(
    call: &Call,
    comparison: &mut Comparison,
    names: &dyn Fn(&Arguments) -> Vec<String>,
    random: &mut Random,
) {
    let mut edits = Random::new(random.next());
    (call.random)(random, &mut |arguments| {
        let Ok(definitions) = arguments.table.definitions() else {
            return;
        };
        let names = names(&arguments);
        let draft = edited(&mut edits, arguments.table, &definitions, &names);
        let table = draft.table();
        let expected = (call.expected)(&arguments);
        comparison.expect(&Arguments { table, ..arguments }, &expected);
    });
}

/// The table with the first definition of each of these names, in any order, and anything else: other definitions of other names, and
/// later ones of these.
fn edited(
    random: &mut Random,
    table: Table,
    definitions: &[Definition],
    names: &[String],
) -> Draft {
    let is_looked_up = |name: &str| names.iter().any(|other| other == name);
    let mut entities: Vec<Entity> = vec![];
    for definition in definitions {
        let is_first = !entities.iter().any(|entity| entity.0 == definition.name);
        if is_looked_up(definition.name) && is_first {
            let at = random.below(entities.len() + 1);
            entities.insert(at, (definition.name, definition.text));
        }
    }
    for _ in 0..random.below(8) {
        let name = match random.below(2) {
            0 if !definitions.is_empty() => definitions[random.below(definitions.len())].name,
            _ => random.pick(&NAMES),
        };
        let text = random.pick(&[None, Some(""), Some("other"), Some("&"), Some("&e;&lt;")]);
        let first = entities.iter().position(|entity| entity.0 == name);
        match (is_looked_up(name), first) {
            (false, _) => entities.insert(random.below(entities.len() + 1), (name, text)),
            (true, Some(first)) => {
                let at = first + 1 + random.below(entities.len() - first);
                entities.insert(at, (name, text));
            }
            (true, None) => {} // it is looked up and not defined: a definition would have a say
        }
    }
    Draft::of_entities(entities).marked_if(table.is_marked())
}

/// A value or a text with a table, at a depth and with a limit, and the names that it looks up.
struct Row {
    entities: &'static [Entity<'static>],
    text: &'static str,
    depth: u64,
    limit: u64,
    names: &'static [&'static str],
}

const fn row(
    entities: &'static [Entity<'static>],
    text: &'static str,
    names: &'static [&'static str],
) -> Row {
    Row {
        entities,
        text,
        depth: DEEPEST,
        limit: MOST_OPENINGS,
        names,
    }
}

const NESTED: &[Entity] = &[("e", Some("&f;x")), ("f", Some("&lt;")), ("g", None)];

/// Of attribute values, lenient or strict: readings of document 02's K13.
const VALUES: &[Row] = &[
    row(NESTED, "&e;&f;", &["e", "f", "lt"]),
    row(NESTED, "&e;&u;&gt;", &["e", "f", "lt", "u"]),
    row(NESTED, "&g;&e;", &["g"]),
    row(NESTED, "&amp;&#0;&e;", &[]),
    row(NESTED, "&lt;&e", &["lt"]),
    row(NESTED, "&a&b;", &["a&b"]),
    row(NESTED, "&;", &[""]),
    Row {
        limit: 0,
        ..row(NESTED, "&e;&gt;", &["e"])
    },
    Row {
        limit: 1,
        ..row(NESTED, "&e;&gt;", &["e", "f"])
    },
    Row {
        depth: 1,
        ..row(NESTED, "&lt;&e;&gt;", &["lt", "e"])
    },
    Row {
        depth: 0,
        ..row(NESTED, "&e;", &[])
    },
];

const STRICT: &[Row] = &[
    row(NESTED, "&e;\u{1}&gt;", &["e", "f", "lt"]),
    row(NESTED, "&lt;&#xFFFF;&gt;", &["lt"]),
    Row {
        depth: 1,
        ..row(&[("e", Some("\u{FFFF}\t"))], "&lt;&e;&gt;", &["lt", "e"])
    },
];

/// Of least depths: whatever depth there is, the names are those of depth 128.
const LEAST_DEPTHS: &[Row] = &[
    Row {
        depth: 0,
        ..row(NESTED, "&e;&f;", &["e", "f", "lt"])
    },
    Row {
        depth: 1,
        ..row(NESTED, "&e;&u;&gt;", &["e", "f", "lt", "u"])
    },
    Row {
        limit: 0,
        ..row(NESTED, "&e;&gt;", &["e"])
    },
    Row {
        limit: 1,
        ..row(NESTED, "&e;&gt;", &["e", "f"])
    },
    row(&[("e", Some("&lt;&e;"))], "&e;&gt;", &["e", "lt"]),
    row(NESTED, "&g;&e;", &["g"]),
];

const TEXTS: &[Row] = &[
    row(NESTED, "&amp;&e;", &["amp", "e"]),
    row(NESTED, "&e;&u;&lt;", &["e", "u"]),
    row(NESTED, "&g;&e;", &["g"]),
    row(NESTED, "&e;&a&b;", &["e"]),
];

fn rows_of(call: &Call) -> Vec<&'static [Row]> {
    match call.name {
        "unescape" => vec![TEXTS],
        "normalize_attribute_value" => vec![VALUES],
        "normalize_attribute_value_strict" => vec![VALUES, STRICT],
        "least_depth" => vec![LEAST_DEPTHS],
        _ => vec![], // a form reads as its value does
    }
}

/// How many of the rows are read otherwise.
pub fn differing_rows(call: &Call) -> usize {
    let Some(names) = names_of(call) else {
        return 0;
    };
    let mut differing = 0;
    for row in rows_of(call).into_iter().flatten() {
        let found = read(row, &names);
        if found != row.names {
            println!("{}: {:?}: looks up {found:?}", call.name, row.text);
            differing += 1;
        }
    }
    differing
}

fn read(row: &Row, names: &dyn Fn(&Arguments) -> Vec<String>) -> Vec<String> {
    let draft = Draft::of_entities(row.entities.iter().copied());
    names(&Arguments {
        depth: row.depth,
        limit: row.limit,
        table: draft.table(),
        ..Arguments::text(row.text.as_bytes())
    })
}

const WALK_MISREADINGS: &[(&str, Misreading)] = &[
    ("those of replacement texts left out", |arguments, names| {
        let text = String::from_utf8_lossy(arguments.text);
        let is_referred_to = |name: &String| text.contains(&format!("&{name};"));
        names.into_iter().filter(is_referred_to).collect()
    }),
    ("one that is refused left out", |arguments, mut names| {
        let refused = reading::normalized(arguments, Rule::Lenient).is_err();
        names.truncate(names.len() - usize::from(refused && !names.is_empty()));
        names
    }),
];

const MISREADINGS: &[(&str, Misreading)] = &[
    ("those that are not defined left out", |arguments, names| {
        let definitions = arguments.table.definitions().unwrap_or_default();
        let is_defined = |name: &String| definitions.iter().any(|other| other.name == name);
        names.into_iter().filter(is_defined).collect()
    }),
    ("the first left out", |_, names| {
        names.into_iter().skip(1).collect()
    }),
    ("`lt` left out", |_, names| {
        names.into_iter().filter(|name| name != "lt").collect()
    }),
];

const TEXT_MISREADINGS: &[(&str, Misreading)] = &[("`amp` left out", |_, names| {
    names.into_iter().filter(|name| name != "amp").collect()
})];

/// A name too many changes nothing that is read: the rows have to tell.
const TOO_MANY: &[(&str, Misreading)] = &[
    ("one after the refusal", |arguments, mut names| {
        let text = String::from_utf8_lossy(arguments.text);
        let last = text.rsplit_once('&').map_or("", |(_, last)| last);
        let last = last.trim_end_matches(';').to_string();
        if !names.contains(&last) {
            names.push(last);
        }
        names
    }),
    (
        "those of a text that stays closed",
        |arguments, mut names| {
            let definitions = arguments.table.definitions().unwrap_or_default();
            for definition in definitions {
                let inner = definition.text.unwrap_or("").strip_prefix('&');
                if let Some((name, _)) = inner.and_then(|inner| inner.split_once(';')) {
                    let is_new = !names.iter().any(|other| other == name);
                    if is_new && names.iter().any(|other| other == definition.name) {
                        names.push(name.to_string());
                    }
                }
            }
            names
        },
    ),
];

fn is_caught(call: &Call, wrong: &dyn Fn(&Arguments) -> Vec<String>) -> bool {
    // SAFETY: the comparison lends memory of the lengths stated, which nothing else uses meanwhile.
    let library = |lent: &Lent| unsafe { (call.run)(lent) };
    let mut comparison = Comparison::new(call, &library, None);
    try_edited(call, &mut comparison, wrong, &mut Random::new(DEFAULT_SEED));
    comparison.differences > 0
}

/// Each wrong reading of the names, and whether it is caught: by what the library leaves, or by the rows.
pub fn misreadings(call: &Call) -> Vec<(&'static str, bool)> {
    let Some(real) = names_of(call) else {
        return vec![];
    };
    let own = match call.name {
        "unescape" => TEXT_MISREADINGS,
        // A list is read as its value is, and its random texts name no `lt`.
        "normalize_nmtokens" => return vec![],
        _ => WALK_MISREADINGS,
    };
    let by_library = own.iter().chain(MISREADINGS).map(|&(name, misreading)| {
        (
            name,
            is_caught(call, &|arguments| misreading(arguments, real(arguments))),
        )
    });
    let rows = rows_of(call);
    let by_rows = TOO_MANY.iter().map(|&(name, misreading)| {
        let wrong = |arguments: &Arguments| misreading(arguments, real(arguments));
        let mut rows = rows.iter().copied().flatten();
        (name, rows.any(|row| read(row, &wrong) != row.names))
    });
    match rows.is_empty() {
        true => by_library.collect(),
        false => by_library.chain(by_rows).collect(),
    }
}
