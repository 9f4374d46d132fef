//! Judging a field: missing, its shape, its register.

use super::class::{Digits, Spaces, Zeros, each, every, is_blank};
use super::line::Line;
use super::register::Registers;
use crate::code::Code;
use crate::layout::{Field, Kind};

pub fn check_field(field: &Field, line: Line, registers: &Registers) -> Result<(), Code> {
    let part = line.part(field.span);
    if !matches!(field.kind, Kind::Filler) && is_blank(part.bytes) {
        return if field.required {
            Err(Code::Missing)
        } else {
            Ok(())
        };
    }
    if !has_shape(field.kind, part) {
        return Err(Code::Misshapen);
    }
    match field.register {
        Some(register) if !registers.has(register, part.bytes) => Err(Code::NotRegistered),
        _ => Ok(()),
    }
}

/// Of a text field whose line is known to be printable only the first byte is looked at.
fn has_shape(kind: Kind, part: Line) -> bool {
    let bytes = part.bytes;
    match kind {
        Kind::Text => part.is_text(),
        Kind::Digits => every::<Digits>(bytes),
        Kind::AboveZero => every::<Digits>(bytes) && !every::<Zeros>(bytes),
        Kind::Letter(letters) => letters.iter().any(|letter| *letter == bytes[0]),
        Kind::SetId(values) => values.contains(&bytes),
        Kind::Symbol => is_symbol(bytes),
        Kind::Filler => every::<Spaces>(bytes),
    }
}

fn is_symbol(bytes: &[u8]) -> bool {
    let digits_or_blank = |part: &[u8]| each::<Digits>(part) | each::<Spaces>(part);
    bytes.len() == 27
        && digits_or_blank(&bytes[0..2])
        && digits_or_blank(&bytes[2..5])
        && each::<Digits>(&bytes[5..8])
        && digits_or_blank(&bytes[8..12])
        && digits_or_blank(&bytes[12..16])
        && matches!(bytes[16], b'X' | b'F' | b'A' | b'M' | b' ')
        && each::<Digits>(&bytes[17..24])
        && each::<Spaces>(&bytes[24..26])
        && bytes[26] == b'C'
}
