//! The records of a text, one after the other.

use super::class::{InLines, each};
use super::line::Line;

/// Past the blocks of N bytes that have no line feed.
fn past_blocks<const N: usize>(text: &[u8], from: usize) -> usize {
    let mut at = from;
    while text.len() - at >= N {
        if !each::<InLines>(&text[at..at + N]) {
            return at;
        }
        at += N;
    }
    at
}

/// How many bytes stand before the first line feed, or in the text if it has none.
pub fn line_length(text: &[u8]) -> usize {
    let from = past_blocks::<16>(text, past_blocks::<128>(text, 0));
    let feed = text[from..].iter().position(|byte| *byte == b'\n');
    feed.map_or(text.len(), |at| from + at)
}

/// The first record of a text. Where it has the length that is expected, one pass both finds its
/// end and shows it printable.
fn first_line(text: &[u8], expected: usize) -> Line<'_> {
    if text.get(expected) == Some(&b'\n') {
        let line = Line::seen(&text[..expected]);
        if line.known_printable {
            return line;
        }
    }
    Line::of(&text[..line_length(text)])
}

/// A cursor over the records that are still to be read.
#[derive(Clone, Copy)]
pub struct Records<'a> {
    pub rest: &'a [u8],
}

impl<'a> Records<'a> {
    pub fn of(text: &'a [u8]) -> Self {
        Self { rest: text }
    }

    /// The letter of the next record.
    pub fn letter(&self) -> Option<u8> {
        self.rest.first().copied()
    }

    /// The next record, which is empty where there is none. `expected` is the length that most such
    /// records have; another is found too.
    pub fn next_line(&mut self, expected: usize) -> Line<'a> {
        let line = first_line(self.rest, expected);
        self.rest = self.rest.get(line.bytes.len() + 1..).unwrap_or_default();
        line
    }
}
