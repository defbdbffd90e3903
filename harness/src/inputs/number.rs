//! Character numbers as they are written.

#[derive(Clone, Copy)]
pub enum Form {
    Decimal,
    LowerHexadecimal,
    UpperHexadecimal,
}

pub const FORMS: [Form; 3] = [
    Form::Decimal,
    Form::LowerHexadecimal,
    Form::UpperHexadecimal,
];

/// The value with so many zeros before its first digit.
pub fn written(value: u128, form: Form, zeros: usize) -> Vec<u8> {
    let (mark, digits) = match form {
        Form::Decimal => ("", format!("{value}")),
        Form::LowerHexadecimal => ("x", format!("{value:x}")),
        Form::UpperHexadecimal => ("x", format!("{value:X}")),
    };
    let mut text = Vec::with_capacity(mark.len() + zeros + digits.len());
    text.extend_from_slice(mark.as_bytes());
    text.resize(mark.len() + zeros, b'0');
    text.extend_from_slice(digits.as_bytes());
    text
}

/// The value with as many zeros as make the text so long, or none.
pub fn written_to_length(value: u128, form: Form, length: usize) -> Vec<u8> {
    let short = written(value, form, 0).len();
    written(value, form, length.saturating_sub(short))
}
