//! The fuzz target: libFuzzer's inputs, cut into calls, through the same comparison. What guides it
//! is the coverage of the Rust, which is built for this, and the answers; the library's own code is
//! not instrumented.

use crate::answer::Answer;
use crate::call::Call;
use crate::calls::CALLS;
use crate::comparison::{Comparison, Reading};
use crate::cut::cut;
use crate::lent::Lent;
use std::cell::RefCell;
use std::ffi::{c_char, c_int, CString};

extern "C" {
    /// Of libFuzzer's runtime without a `main`.
    fn LLVMFuzzerRunDriver(
        count: *mut c_int,
        words: *mut *mut *mut c_char,
        one: extern "C" fn(*const u8, usize) -> c_int,
    ) -> c_int;
}

/// Runs libFuzzer with its own options. A difference ends the process.
pub fn run(options: &[&str]) -> bool {
    // By its first word libFuzzer starts itself again, in a shell, when it minimises a corpus.
    let program = std::env::current_exe().expect("the program's path");
    let itself = format!("{} fuzz", program.display());
    let words = [itself.as_str()].into_iter().chain(options.iter().copied());
    let words = words.map(|word| CString::new(word).unwrap().into_raw());
    let mut words: Vec<*mut c_char> = words.chain([std::ptr::null_mut()]).collect();
    let mut count = words.len() as c_int - 1;
    let mut start = words.as_mut_ptr();
    // SAFETY: `count` words and a null pointer after them, all there until the process ends.
    unsafe { LLVMFuzzerRunDriver(&mut count, &mut start, one) == 0 }
}

extern "C" fn one(start: *const u8, length: usize) -> c_int {
    let bytes = match length {
        0 => &[],
        // SAFETY: libFuzzer lends so many bytes until this returns.
        _ => unsafe { std::slice::from_raw_parts(start, length) },
    };
    cut(bytes, &mut |call, arguments, turn| {
        let index = CALLS
            .iter()
            .position(|other| std::ptr::eq(other, call))
            .unwrap();
        COMPARISONS.with_borrow_mut(|comparisons| {
            let comparison = &mut comparisons[index];
            let expected = comparison.compare_at(&arguments, turn);
            count_answer(index, &expected);
            if comparison.differences > 0 {
                eprintln!("{}", comparison.descriptions.join("\n"));
                std::process::abort(); // libFuzzer keeps the input
            }
        });
    });
    0
}

thread_local! {
    /// One for each call.
    static COMPARISONS: RefCell<Vec<Comparison<'static>>> = RefCell::new(comparisons());
}

fn comparisons() -> Vec<Comparison<'static>> {
    let of = |call: &'static Call| {
        // SAFETY: the comparison lends memory of the lengths stated, which nothing else uses meanwhile.
        let library: &'static _ = Box::leak(Box::new(|lent: &Lent| unsafe { (call.run)(lent) }));
        let reading = call.reading.as_ref().map(|reading| reading as &Reading);
        Comparison::new(call, library, reading)
    };
    CALLS.iter().map(of).collect()
}

/// Numbers of answers: more than there are, and one for "no more".
const NUMBERS: usize = 40;
/// A word by how many bits it has, up to this.
const SIZES: usize = 16;
const WORDS: usize = 2;
const COUNTERS: usize = CALLS.len() * NUMBERS * WORDS * SIZES;

/// libFuzzer reads and clears this section with its other counters, so answers guide it too.
#[used]
#[link_section = "__libfuzzer_extra_counters"]
static mut ANSWERS: [u8; COUNTERS] = [0; COUNTERS];

fn count_answer(call: usize, answer: &Answer) {
    let number = (answer.number as usize).min(NUMBERS - 1);
    for (word, value) in [answer.first, answer.second].into_iter().enumerate() {
        let size = ((u64::BITS - value.leading_zeros()) as usize).min(SIZES - 1);
        let at = ((call * NUMBERS + number) * WORDS + word) * SIZES + size;
        // SAFETY: one thread runs the inputs, and libFuzzer looks here only between them.
        unsafe { ANSWERS[at] = 1 };
    }
}
