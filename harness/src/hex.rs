//! Bytes as lower-case hexadecimal digits.

/// `-` stands for no bytes.
pub fn hex(bytes: &[u8]) -> String {
    if bytes.is_empty() {
        return "-".to_string();
    }
    bytes.iter().map(|byte| format!("{byte:02x}")).collect()
}

/// The bytes that these digits write; nothing if they are not digits in pairs.
pub fn bytes(digits: &str) -> Option<Vec<u8>> {
    if digits == "-" {
        return Some(vec![]);
    }
    let pairs = digits.as_bytes().chunks(2);
    let byte = |pair: &[u8]| u8::from_str_radix(std::str::from_utf8(pair).ok()?, 16).ok();
    pairs.map(byte).collect()
}

/// Long texts by their ends; they can be made again from the seed.
pub fn shortened(bytes: &[u8]) -> String {
    const END: usize = 256;
    if bytes.len() <= 2 * END {
        return hex(bytes);
    }
    let (head, tail) = (&bytes[..END], &bytes[bytes.len() - END..]);
    format!("{} ... {}", hex(head), hex(tail))
}
