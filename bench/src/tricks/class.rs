//! Classes of bytes, asked of many bytes at once.

/// A class of bytes as a type: each class gets a loop of its own, which the compiler vectorises.
pub trait Class {
    fn has(byte: u8) -> bool;
}

pub struct Spaces;

impl Class for Spaces {
    fn has(byte: u8) -> bool {
        byte == b' '
    }
}

pub struct Zeros;

impl Class for Zeros {
    fn has(byte: u8) -> bool {
        byte == b'0'
    }
}

pub struct Digits;

impl Class for Digits {
    fn has(byte: u8) -> bool {
        byte.is_ascii_digit()
    }
}

pub struct Printables;

impl Class for Printables {
    fn has(byte: u8) -> bool {
        matches!(byte, b' '..=b'~')
    }
}

/// Any byte but the line feed.
pub struct InLines;

impl Class for InLines {
    fn has(byte: u8) -> bool {
        byte != b'\n'
    }
}

/// Whether each byte is of the class. There is no early exit, so that the loop is vectorised.
pub fn each<C: Class>(bytes: &[u8]) -> bool {
    bytes.iter().fold(true, |all, byte| all & C::has(*byte))
}

/// The same of fewer than 16 bytes, by two parts of one length that may overlap.
fn few<C: Class>(bytes: &[u8]) -> bool {
    let n = bytes.len();
    match n {
        0..4 => each::<C>(bytes),
        4..8 => each::<C>(&bytes[..4]) & each::<C>(&bytes[n - 4..]),
        _ => each::<C>(&bytes[..8]) & each::<C>(&bytes[n - 8..]),
    }
}

/// Past the blocks of N bytes, from `from` on, that are of the class; one byte at least is left.
fn past<C: Class, const N: usize>(bytes: &[u8], from: usize) -> usize {
    let mut at = from;
    while bytes.len() - at > N {
        if !each::<C>(&bytes[at..at + N]) {
            return at;
        }
        at += N;
    }
    at
}

/// Whether each byte is of the class: blocks of 64 and of 16, and then the last 16, of which some
/// are seen again.
pub fn every<C: Class>(bytes: &[u8]) -> bool {
    let n = bytes.len();
    if n < 16 {
        return few::<C>(bytes);
    }
    let near = past::<C, 16>(bytes, past::<C, 64>(bytes, 0));
    if n - near > 16 {
        return false;
    }
    each::<C>(&bytes[n - 16..])
}

/// Spaces only. Most fields show by their first byte that they are not blank.
pub fn is_blank(bytes: &[u8]) -> bool {
    bytes.first().is_none_or(|byte| *byte == b' ') && every::<Spaces>(bytes)
}

#[cfg(test)]
mod tests {
    use super::*;

    #[test]
    fn every_sees_every_byte() {
        for n in 0..200 {
            let mut bytes = vec![b'7'; n];
            assert!(every::<Digits>(&bytes));
            for at in 0..n {
                bytes[at] = b'x';
                assert!(!every::<Digits>(&bytes));
                bytes[at] = b'7';
            }
        }
    }
}
