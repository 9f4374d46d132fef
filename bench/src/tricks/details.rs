//! The details of a transaction whose records are all good, one after the other.

use super::records::Records;
use crate::transaction::{Detail, Postings};

/// No length is expected: only the ends of the records are sought.
const ANY: usize = 0;

/// The details that are still to be read, and how many records have been read.
pub struct Details<'a> {
    records: Records<'a>,
    read: usize,
}

impl<'a> Details<'a> {
    /// Of the records behind a header, of which the first is a detail.
    pub fn of(body: &'a [u8]) -> Self {
        Self {
            records: Records::of(body),
            read: 0,
        }
    }
}

impl<'a> Iterator for Details<'a> {
    type Item = Detail<'a>;

    fn next(&mut self) -> Option<Detail<'a>> {
        self.records.letter()?;
        let record = self.read + 1;
        let bytes = self.records.next_line(ANY).bytes;
        self.read = record;
        let mut postings = Postings::default();
        while self.records.letter() == Some(b'E') {
            postings.add(self.records.next_line(ANY).bytes);
            self.read += 1;
        }
        Some(Detail {
            record,
            bytes,
            postings,
        })
    }
}
