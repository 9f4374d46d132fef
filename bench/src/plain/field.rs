//! Judging a field: missing, its shape, its register.

use crate::bytes::{is_blank, is_digits, is_text};
use crate::code::Code;
use crate::layout::{Field, Kind};
use crate::register::Registers;

pub fn check_field(field: &Field, record: &[u8], registers: &Registers) -> Result<(), Code> {
    let bytes = field.span.of(record);
    if field.kind != Kind::Filler && is_blank(bytes) {
        return if field.required {
            Err(Code::Missing)
        } else {
            Ok(())
        };
    }
    if !has_shape(field.kind, bytes) {
        return Err(Code::Misshapen);
    }
    match field.register {
        Some(register) if !registers.has(register, bytes) => Err(Code::NotRegistered),
        _ => Ok(()),
    }
}

fn has_shape(kind: Kind, bytes: &[u8]) -> bool {
    match kind {
        Kind::Text => is_text(bytes),
        Kind::Digits => is_digits(bytes),
        Kind::AboveZero => is_digits(bytes) && bytes.iter().any(|byte| *byte != b'0'),
        Kind::Letter(letters) => letters.contains(&bytes[0]),
        Kind::SetId(values) => values.contains(&bytes),
        Kind::Symbol => is_symbol(bytes),
        Kind::Filler => is_blank(bytes),
    }
}

/// The parts of an account symbol: SP, ATA, AID, BPOA, EPOA, A, MAIN and SUB, blank, format.
fn is_symbol(bytes: &[u8]) -> bool {
    let digits_or_blank = |part: &[u8]| is_digits(part) || is_blank(part);
    digits_or_blank(&bytes[0..2])
        && digits_or_blank(&bytes[2..5])
        && is_digits(&bytes[5..8])
        && digits_or_blank(&bytes[8..12])
        && digits_or_blank(&bytes[12..16])
        && b"XFAM ".contains(&bytes[16])
        && is_digits(&bytes[17..24])
        && &bytes[24..27] == b"  C"
}

#[cfg(test)]
mod tests {
    use super::*;

    #[test]
    fn symbols_of_the_documents() {
        assert!(is_symbol(b"     097        X1234000  C"));
        assert!(is_symbol(b"  01209720242025 1234000  C"));
        assert!(!is_symbol(b"  0120972024202501234000  C"));
        assert!(!is_symbol(b"     97         X1234000  C"));
        assert!(!is_symbol(b"1    097        X1234000  C"));
        assert!(!is_symbol(b" 1   097        X1234000  C"));
        assert!(!is_symbol(b"     097        Z1234000  C"));
        assert!(!is_symbol(b"     097        X1234000   "));
    }
}
