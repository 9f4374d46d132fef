//! Classes of bytes, the plain way.

pub fn is_blank(bytes: &[u8]) -> bool {
    bytes.iter().all(|byte| *byte == b' ')
}

pub fn is_digits(bytes: &[u8]) -> bool {
    bytes.iter().all(u8::is_ascii_digit)
}

/// Type A, given: printable, the first byte being no space.
pub fn is_text(bytes: &[u8]) -> bool {
    bytes.first() != Some(&b' ') && bytes.iter().all(|byte| matches!(byte, b' '..=b'~'))
}

/// The number that these digits write.
pub fn number(digits: &[u8]) -> u64 {
    digits
        .iter()
        .fold(0, |number, digit| number * 10 + u64::from(digit - b'0'))
}
