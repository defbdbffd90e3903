//! Puts wrong libraries in the place of the real one, and wrong readings of the documents: the comparison has to catch each.

use crate::arguments::{Arguments, Family};
use crate::call::{Call, Faults};
use crate::comparison::{Comparison, Reading};
use crate::faults;
use crate::inputs::big_tables::looked_up_often;
use crate::lent::{Lent, Run};
use crate::random::{Random, DEFAULT_SEED};
use crate::unused;

/// True: the documents' rows are what is expected, every wrong library and every wrong reading is caught, and the real ones are not.
pub fn run(calls: &[&Call]) -> bool {
    let (mut tried, mut missed, mut rows) = (0, 0, 0);
    for call in calls {
        rows += call.rows().count();
        missed += differing_rows(call) + unused::differing_rows(call);
        let reading = call.reading.as_ref().map(|reading| reading as &Reading);
        if is_caught(call, &itself(call.run), reading, &[]) {
            println!("{}: the library or the reading itself differs", call.name);
            missed += 1;
        }
        let mut judge = |name: &str, caught: bool| {
            let verdict = if caught { "caught" } else { "NOT CAUGHT" };
            println!("{}: {name}: {verdict}", call.name);
            tried += 1;
            missed += usize::from(!caught);
        };
        for &(name, fault) in faults_of(call).into_iter().flatten() {
            // SAFETY: the comparison lends memory of the lengths stated; the faults stay inside its guards.
            let library = |lent: &Lent| unsafe { fault(lent, call.run) };
            judge(name, is_caught(call, &library, None, call.families));
        }
        for &(name, fault) in faults::index::of(call) {
            // SAFETY: as above.
            let library = |lent: &Lent| unsafe { fault(lent, call.run) };
            // The other families do not tell these, and would take their time.
            let families: &[&[Family]] = &[&[looked_up_often]];
            judge(name, is_caught(call, &library, None, families));
        }
        for (name, caught) in unused::misreadings(call) {
            judge(&format!("names looked up: {name}"), caught);
        }
        let Some(real) = call.reading else {
            continue;
        };
        for &(name, misreading) in faults::reading::of(call) {
            let wrong = |arguments: &Arguments| match is_the_rusts(arguments) {
                true => misreading(arguments, real),
                false => real(arguments),
            };
            let caught = is_caught(call, &itself(call.run), Some(&wrong), call.families);
            judge(&format!("reading: {name}"), caught);
        }
        for (what, misreadings) in call.misreadings {
            for &(name, misreading) in *misreadings {
                let wrong = |arguments: &Arguments| misreading(arguments, real);
                let caught = call.rows().any(|row| row.differs(wrong).is_some());
                judge(&format!("reading {what}: {name}"), caught);
            }
        }
    }
    println!("self-test: {rows} rows of the documents, {tried} wrong libraries and readings, {missed} failures");
    missed == 0
}

/// Whether the Rust answers: else what is expected is the reading, which differs from every wrong one.
fn is_the_rusts(arguments: &Arguments) -> bool {
    let table = arguments.table;
    let definitions = table.definitions();
    definitions.is_ok_and(|definitions| table.is_the_rusts(&definitions))
}

fn itself(run: Run) -> impl Fn(&Lent) -> u32 {
    // SAFETY: the comparison lends memory of the lengths stated.
    move |lent| unsafe { run(lent) }
}

/// How many of the documents' rows are answered otherwise.
fn differing_rows(call: &Call) -> usize {
    let mut differing = 0;
    for row in call.rows() {
        if let Some(answer) = row.differs(call.expected) {
            println!("{}: {:?}: expected is {answer:?}", call.name, row.text);
            differing += 1;
        }
    }
    differing
}

/// Of every call, of its parameters, and its own.
fn faults_of(call: &Call) -> Vec<Faults> {
    let of_parameters = call
        .parameters
        .iter()
        .map(|&parameter| faults::of(parameter));
    let faults = [faults::answer::ANSWER].into_iter().chain(of_parameters);
    faults.chain(call.faults.iter().copied()).collect()
}

/// Whether some answer of the seams or of the families differs.
fn is_caught(
    call: &Call,
    library: &dyn Fn(&Lent) -> u32,
    reading: Option<&Reading>,
    families: &[&[Family]],
) -> bool {
    let mut comparison = Comparison::new(call, library, reading);
    let mut random = Random::new(DEFAULT_SEED);
    let families = families.iter().copied().flatten();
    let mut families = std::iter::once(&call.seams).chain(families);
    families.any(|family| comparison.try_until_told(*family, &mut random))
}
