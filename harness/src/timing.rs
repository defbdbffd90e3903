//! A row of the benchmark: a call and the Rust that does the same work, on the same bytes.

use std::borrow::Cow;
use std::hint::black_box;
use std::str::from_utf8;
use std::time::{Duration, Instant};

/// One sample takes at least this long, far above the clock's grain.
const SAMPLE: Duration = Duration::from_millis(2);
const ALIGNMENT: usize = 64;

/// A call on one input, ours and the Rust's.
pub struct Row {
    call: String,
    input: &'static str,
    bytes: usize,
    ours: Side,
    /// What our call does: the text is checked for UTF-8, and the result lies in the caller's buffer.
    rust: Side,
    /// The text is checked, and the result is left where the Rust makes it: borrowed, or in new memory.
    left: Option<Side>,
    /// The same on a text that is known to be UTF-8.
    unchecked: Option<Side>,
    /// It is measured in every so many rounds alone.
    every: usize,
}

impl Row {
    /// One sample of each, in turn, so that a slow moment of the machine meets all.
    pub fn measure(&mut self, round: usize) {
        if round % self.every != 0 {
            return;
        }
        self.ours.measure();
        self.rust.measure();
        let others = [&mut self.left, &mut self.unchecked];
        others.into_iter().flatten().for_each(Side::measure);
    }

    /// Is this a part of the cells that name it?
    pub fn has(&self, part: &str) -> bool {
        format!("| {} | {} | {} |", self.call, self.input, self.bytes).contains(part)
    }

    pub fn print(&self) {
        let (ours, rust) = (self.ours.best, self.rust.best);
        let ratio = |side: &Option<Side>| match side {
            Some(side) => format!("{:.2}", ours / side.best),
            None => String::new(),
        };
        println!(
            "| {} | {} | {} | {ours:.1} | {rust:.1} | {:.2} | {} | {} |",
            self.call,
            self.input,
            self.bytes,
            ours / rust,
            ratio(&self.left),
            ratio(&self.unchecked)
        );
    }
}

/// Two rows that differ in one thing alone, done so many times: what it takes once is told below the table.
pub struct Difference {
    pub what: &'static str,
    pub times: usize,
    pub without: Row,
    pub with: Row,
}

impl Difference {
    pub fn measure(&mut self, round: usize) {
        self.without.measure(round);
        self.with.measure(round);
    }

    pub fn print(&self) {
        let each = |with: &Side, without: &Side| (with.best - without.best) / self.times as f64;
        let ours = each(&self.with.ours, &self.without.ours);
        let rust = each(&self.with.rust, &self.without.rust);
        println!();
        println!(
            "{}: {ours:.0} ns, the Rust's loop {rust:.0} ns, ours / Rust {:.2}.",
            self.what,
            ours / rust
        );
    }
}

/// What is measured: runs it so many times and says how long that took.
pub type Repeated = Box<dyn FnMut(u32) -> Duration>;

pub struct Side {
    repeated: Repeated,
    count: u32,
    /// Nanoseconds for one run, in the best sample.
    pub best: f64,
}

impl Side {
    pub fn new(mut repeated: Repeated) -> Self {
        let mut count = 1;
        while repeated(count) < SAMPLE {
            count *= 2;
        }
        Side {
            repeated,
            count,
            best: f64::MAX,
        }
    }

    pub fn measure(&mut self) {
        let time = (self.repeated)(self.count).as_nanos() as f64;
        self.best = self.best.min(time / f64::from(self.count));
    }
}

/// One run: the number is returned, the answer words are written.
pub trait Once: FnMut(&mut [u64; 2]) -> u32 + 'static {}
impl<F: FnMut(&mut [u64; 2]) -> u32 + 'static> Once for F {}

pub fn row(
    call: &str,
    input: &'static str,
    bytes: usize,
    mut ours: impl Once,
    mut rust: impl Once,
    unchecked: Option<impl Once>,
) -> Row {
    assert_eq!(answer(&mut ours), answer(&mut rust), "{call}, {input}");
    Row {
        call: call.to_string(),
        input,
        bytes,
        ours: Side::new(repeated(ours)),
        rust: Side::new(repeated(rust)),
        unchecked: unchecked.map(|once| Side::new(repeated(once))),
        left: None,
        every: 1,
    }
}

/// A row whose samples take seconds: a tenth of the rounds has to do.
pub fn seldom(row: Row) -> Row {
    Row { every: 10, ..row }
}

/// The row with another side in the column of what is left where it is made.
pub fn with_left(row: Row, left: impl Once) -> Row {
    Row {
        left: Some(Side::new(repeated(left))),
        ..row
    }
}

/// A result, and the second answer word.
pub type Made = (Cow<'static, str>, u64);

/// Our output is allocated once; the Rust's side makes a `Cow` each time, as it has to, and copies it to such an output: a caller in C
/// has its result there from both.
pub fn writing_row(
    call: &str,
    input: &'static str,
    text: &'static [u8],
    ours: impl Once,
    make: impl Fn(&'static str) -> Made + Copy + 'static,
) -> Row {
    let valid = from_utf8(text).unwrap();
    let checked = move || from_utf8(black_box(text)).unwrap();
    let out = vec![0; make(valid).0.len()].leak();
    let left = move |words: &mut [u64; 2]| told(&make(checked()), words);
    let unchecked = move |words: &mut [u64; 2]| told(&make(valid), words);
    let rust = move |words: &mut [u64; 2]| {
        let made = make(checked());
        out.copy_from_slice(made.0.as_bytes());
        black_box(&out);
        told(&made, words)
    };
    with_left(
        row(call, input, text.len(), ours, rust, Some(unchecked)),
        left,
    )
}

fn told(made: &Made, words: &mut [u64; 2]) -> u32 {
    let (result, second) = black_box(made);
    *words = [result.len() as u64, *second];
    0
}

/// The text at a multiple of ALIGNMENT. It stays to the end of the program, as the rows do.
pub fn aligned(text: &[u8]) -> &'static [u8] {
    let memory = vec![0; text.len() + ALIGNMENT].leak();
    let start = memory.as_ptr().align_offset(ALIGNMENT);
    memory[start..start + text.len()].copy_from_slice(text);
    &memory[start..start + text.len()]
}

fn answer(once: &mut impl Once) -> (u32, [u64; 2]) {
    let mut words = [0; 2];
    (once(&mut words), words)
}

pub fn repeated(mut once: impl Once) -> Repeated {
    Box::new(move |count| {
        let mut words = [0; 2];
        let start = Instant::now();
        for _ in 0..count {
            black_box(once(&mut words));
        }
        start.elapsed()
    })
}

/// Letters, with the pieces in turn at each multiple of the distance; of exactly the size.
pub fn letters_with(pieces: &[&str], distance: usize, size: usize) -> Vec<u8> {
    let mut text = Vec::with_capacity(size);
    let mut turn = pieces.iter().cycle();
    let mut next = distance / 2;
    while text.len() < size {
        let room = size - text.len();
        match turn.clone().next() {
            Some(piece) if text.len() >= next && piece.len() <= room => {
                text.extend_from_slice(piece.as_bytes());
                turn.next();
                next += distance;
            }
            _ => text.push(b'a' + (text.len() % 26) as u8),
        }
    }
    text
}
