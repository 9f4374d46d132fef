//! A record's bytes, or a part of them, and whether they are known to be printable.

use super::class::{Printables, each, every};
use crate::layout::Span;

/// What one pass over a record has shown is kept, so that its text fields need only their first
/// byte.
#[derive(Clone, Copy)]
pub struct Line<'a> {
    pub bytes: &'a [u8],
    pub known_printable: bool,
}

impl<'a> Line<'a> {
    /// Bytes of which nothing is known yet.
    pub fn of(bytes: &'a [u8]) -> Self {
        Self {
            bytes,
            known_printable: false,
        }
    }

    /// The same, after one pass that looks whether they are printable.
    pub fn seen(bytes: &'a [u8]) -> Self {
        Self {
            bytes,
            known_printable: each::<Printables>(bytes),
        }
    }

    pub fn part(self, span: Span) -> Self {
        Self {
            bytes: span.of(self.bytes),
            ..self
        }
    }

    /// Type A, given.
    pub fn is_text(self) -> bool {
        self.bytes.first() != Some(&b' ')
            && (self.known_printable || every::<Printables>(self.bytes))
    }
}
