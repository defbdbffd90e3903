//! Forms that the check for repeats finds hard: it puts fingerprints of a hash into a table. Such forms make it slow, and may not make it
//! wrong. The hash is that of crates/repeats; with another one these forms are as good as any.

use super::inputs::{give, written, Entry};
use crate::arguments::Sink;
use crate::random::Random;

const LOW: u64 = 0xFD70_46C5;
const HIGH: u64 = 0xB55A_4F09;
const ENDS: u64 = 0x9E37_79B9_7F4A_7C15;
const ASCII: u64 = 0x7F7F_7F7F_7F7F_7F7F;

fn mix(hash: u64, word: u64) -> u64 {
    let sum = hash.wrapping_add(word);
    (sum % (1 << 32) * LOW).wrapping_add((sum >> 32) * HIGH)
}

/// Of 8 bytes or more.
fn hash(form: &[u8]) -> u64 {
    let word = |at: usize| u64::from_le_bytes(form[at..at + 8].try_into().unwrap());
    let last = form.len() - 8;
    let front = (0..last).step_by(8).map(word);
    let words = front.chain([word(last), ENDS]);
    words.fold(form.len() as u64, mix)
}

/// So many forms of one hash: for each bit of their number a word, and then one of two that lead on to the same.
fn of_one_hash(random: &mut Random, number: usize) -> Vec<Vec<u8>> {
    const BITS: usize = 14;
    let mut state = 16 * BITS as u64;
    let mut words = vec![];
    while words.len() < BITS {
        let filler = random.next() & ASCII;
        let from = mix(state, filler);
        for _ in 0..100_000 {
            let one = random.next() & ASCII;
            let other = one.wrapping_add(HIGH).wrapping_sub(LOW << 32);
            if other & !ASCII == 0 && mix(from, one) == mix(from, other) {
                state = mix(from, one);
                words.push((filler, one, other));
                break;
            }
        }
    }
    let form = |index: usize| {
        let bits = words.iter().enumerate();
        let words = bits.flat_map(|(bit, &(filler, one, other))| match index >> bit & 1 {
            0 => [filler, one],
            _ => [filler, other],
        });
        words.flat_map(u64::to_le_bytes).collect()
    };
    (0..number).map(form).collect()
}

/// So many forms whose hashes pass the test.
fn chosen(number: usize, test: impl Fn(u64) -> bool) -> Vec<Vec<u8>> {
    let forms = (0u64..).map(|index| format!("{index:011}").into_bytes());
    forms.filter(|form| test(hash(form))).take(number).collect()
}

fn share(x: u64, parts: u64) -> u64 {
    (x * parts) >> 32
}

/// One hash; one place of the small table and of the large one, the first and the last; one class of three.
pub fn colliding(random: &mut Random, sink: &mut Sink) {
    let low = |hash: u64| hash & 0xFFFF_FFFF;
    let sets = [
        of_one_hash(random, 40),
        of_one_hash(random, 300),
        of_one_hash(random, 3000),
        chosen(250, |hash| share(low(hash), 896) == 0),
        chosen(250, |hash| share(low(hash), 896) == 895),
        chosen(400, |hash| share(low(hash), 15_232) == 77),
        chosen(400, |hash| share(low(hash), 15_232) == 15_231),
        chosen(25_000, |hash| share(hash >> 32, 3) == 1),
        chosen(25_000, |hash| share(hash >> 32, 3) == 2),
    ];
    for set in sets {
        let counted = set.into_iter().map(|form| (form, 1));
        let entries: Vec<Entry> = counted.collect();
        let number = entries.len();
        let form = entries[random.below(number)].0.clone();
        give(&form, &written(&entries), 40, sink);
        for place in [number, random.below(number), 0] {
            let mut repeated = entries.clone();
            let again = entries[random.below(number)].clone();
            repeated.insert(place, again);
            give(&form, &written(&repeated), 40, sink);
        }
    }
}
