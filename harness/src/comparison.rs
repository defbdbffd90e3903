//! Runs one call on inputs and compares each answer, and every byte lent, with what has to be.

use crate::answer::Answer;
use crate::arguments::{Arguments, Family, ALIGNMENTS};
use crate::buffers::{Buffers, Damage};
use crate::call::{Call, Parameter};
use crate::hex::shortened;
use crate::lent::Lent;
use crate::random::Random;
use std::collections::BTreeMap;

/// So many differences are described, the others counted.
const DESCRIBED: usize = 5;

pub struct Comparison<'a> {
    call: &'a Call,
    library: &'a dyn Fn(&Lent) -> u32,
    reading: Option<&'a Reading<'a>>,
    buffers: Buffers,
    pub compared: usize,
    /// How many of them have which number for an answer.
    pub numbers: BTreeMap<u32, usize>,
    pub differences: usize,
    pub descriptions: Vec<String>,
}

/// The documents' own reading of a call, or a wrong one.
pub type Reading<'a> = dyn Fn(&Arguments) -> Answer + 'a;

impl<'a> Comparison<'a> {
    /// `library` stands for the call, so that a wrong one can take its place; and so the reading, where it is compared too.
    pub fn new(
        call: &'a Call,
        library: &'a dyn Fn(&Lent) -> u32,
        reading: Option<&'a Reading<'a>>,
    ) -> Self {
        Comparison {
            call,
            library,
            reading,
            buffers: Buffers::new(),
            compared: 0,
            numbers: BTreeMap::new(),
            differences: 0,
            descriptions: vec![],
        }
    }

    pub fn try_all(&mut self, family: Family, random: &mut Random) {
        family(random, &mut |arguments| self.compare(&arguments));
    }

    /// The same up to the first difference: what the family makes after it is passed over.
    pub fn try_until_told(&mut self, family: Family, random: &mut Random) -> bool {
        family(random, &mut |arguments| {
            if self.differences == 0 {
                self.compare(&arguments);
            }
        });
        self.differences > 0
    }

    pub fn compare(&mut self, arguments: &Arguments) {
        self.compare_at(arguments, self.compared);
    }

    /// The turn picks addresses and fills. Gives what was expected.
    pub fn compare_at(&mut self, arguments: &Arguments, turn: usize) -> Answer {
        let expected = (self.call.expected)(arguments);
        if let Some(read) = self.reading.map(|reading| reading(arguments)) {
            if read != expected {
                self.misread(arguments, &expected, &read);
            }
        }
        self.expect_at(arguments, &expected, turn);
        expected
    }

    /// Compares with this answer, which may be that of other arguments.
    pub fn expect(&mut self, arguments: &Arguments, expected: &Answer) {
        self.expect_at(arguments, expected, self.compared);
    }

    fn expect_at(&mut self, arguments: &Arguments, expected: &Answer, turn: usize) {
        let lent = self.buffers.lend(arguments, expected, turn);
        let number = (self.library)(&lent);
        let damage = self.buffers.damage(arguments, expected);
        self.compared += 1;
        *self.numbers.entry(expected.number).or_default() += 1;
        if number != expected.number || damage.is_some() {
            self.differ(arguments, &lent, expected, number, damage);
        }
    }

    #[cold]
    fn misread(&mut self, arguments: &Arguments, expected: &Answer, read: &Answer) {
        self.differences += 1;
        if self.descriptions.len() == DESCRIBED {
            return;
        }
        let words = |answer: &Answer| (answer.number, answer.first, answer.second);
        self.descriptions.push(format!(
            "{}: the documents' own reading differs: {}\n  level or version {}, depth {}, limit {}\n  list {}\n  pool {}\n  \
             expected {:?} {} {:?}\n  read     {:?} {} {:?}",
            self.call.name,
            shortened(arguments.text),
            arguments.choice,
            arguments.depth,
            arguments.limit,
            shortened(arguments.table.list),
            shortened(arguments.table.pool),
            words(expected),
            shortened(&expected.written),
            expected.report,
            words(read),
            shortened(&read.written),
            read.report,
        ));
    }

    #[cold]
    fn differ(
        &mut self,
        arguments: &Arguments,
        lent: &Lent,
        expected: &Answer,
        number: u32,
        damage: Option<Damage>,
    ) {
        self.differences += 1;
        if self.descriptions.len() == DESCRIBED {
            return;
        }
        let [first, second] = self.buffers.answer_words();
        let mut description = format!(
            "{}: {} bytes at address {} modulo {ALIGNMENTS}: {}\n  \
             level or version {}, output of {} bytes, cursor {} {}, offset {}\n  \
             expected {} {} {}\n  found    {number} {first} {second}",
            self.call.name,
            lent.text_length,
            lent.text as usize % ALIGNMENTS,
            shortened(arguments.text),
            lent.choice,
            lent.out_length,
            arguments.cursor.offset,
            arguments.cursor.finished,
            arguments.offset,
            expected.number,
            expected.first,
            expected.second,
        );
        if self.call.has(Parameter::Table) {
            description += &table_description(arguments, lent);
        }
        if self.call.has(Parameter::Spans) {
            description += &job_description(arguments, expected, &self.buffers.report());
        }
        if self.call.has(Parameter::NewTable) {
            description += &format!(
                "\n  list of {} bytes, pool of {}",
                lent.new_list_length, lent.new_pool_length
            );
        }
        if self.call.has(Parameter::Register) || self.call.has(Parameter::RegisterRead) {
            description += &format!(
                "\n  register {}, used {}",
                shortened(arguments.register.buffer),
                arguments.register.used
            );
        }
        if let Some(damage) = damage {
            description += &format!(
                "\n  byte {} of {} is {:02x} and has to be {:02x}",
                damage.offset, damage.buffer, damage.found, damage.expected
            );
        }
        self.descriptions.push(description);
    }
}

/// A few of the spans, and of both reports the words that are not 0.
fn job_description(arguments: &Arguments, expected: &Answer, found: &[u64]) -> String {
    let few: Vec<(u64, u64)> = arguments.spans[..arguments.spans.len().min(8)]
        .iter()
        .map(|span| (span.start, span.length))
        .collect();
    let counts = |report: &[u64]| -> Vec<(usize, u64)> {
        let words = report.iter().copied().enumerate();
        words.filter(|&(_, count)| count != 0).collect()
    };
    format!(
        "\n  {} spans: {few:?}\n  report {:?}, found {:?}",
        arguments.spans.len(),
        counts(&expected.report),
        counts(found),
    )
}

fn table_description(arguments: &Arguments, lent: &Lent) -> String {
    format!(
        "\n  depth {}, limit {}, scratch of {} bytes\n  list {}\n  pool {}",
        lent.depth,
        lent.limit,
        lent.scratch_length,
        shortened(arguments.table.list),
        shortened(arguments.table.pool),
    )
}
