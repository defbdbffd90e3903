//! All sequences of few symbols.

/// Every sequence of `length` symbols of the alphabet.
pub fn every_sequence<T: Copy>(alphabet: &[T], length: usize, each: &mut dyn FnMut(&[T])) {
    let mut digits = vec![0; length];
    let mut sequence = vec![alphabet[0]; length];
    loop {
        each(&sequence);
        let mut at = 0;
        while at < length && digits[at] + 1 == alphabet.len() {
            digits[at] = 0;
            sequence[at] = alphabet[0];
            at += 1;
        }
        if at == length {
            return;
        }
        digits[at] += 1;
        sequence[at] = alphabet[digits[at]];
    }
}
