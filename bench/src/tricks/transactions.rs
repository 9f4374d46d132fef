//! The transactions of a text, one after the other, and how many there are.

use super::records::{Records, line_length};

/// A text's records, and those that begin with `H`.
pub struct Found {
    pub records: usize,
    pub headers: usize,
}

impl Found {
    pub fn of(text: &[u8]) -> Self {
        let mut rest = Records::of(text);
        let mut found = Self {
            records: 0,
            headers: 0,
        };
        while let Some(letter) = rest.letter() {
            rest.next_line(0);
            found.records += 1;
            found.headers += usize::from(letter == b'H');
        }
        found
    }
}

/// The transactions that are still to be read, each as its bytes; the first record is a header.
pub struct Transactions<'a> {
    pub rest: &'a [u8],
}

impl<'a> Iterator for Transactions<'a> {
    type Item = &'a [u8];

    fn next(&mut self) -> Option<&'a [u8]> {
        if self.rest.is_empty() {
            return None;
        }
        let (transaction, rest) = self.rest.split_at(before_header(self.rest));
        self.rest = rest;
        Some(transaction)
    }
}

/// How many bytes stand before the next header.
fn before_header(text: &[u8]) -> usize {
    let mut at = 0;
    while at < text.len() {
        at = text.len().min(at + line_length(&text[at..]) + 1);
        if text.get(at) == Some(&b'H') {
            return at;
        }
    }
    at
}
