//! A transaction that passes all checks on its own.

use crate::book::{Pair, Symbol};
use crate::bytes::{is_blank, number};
use crate::layout::{SetId, Span};

/// A transaction's header and details, all of them good.
pub struct Transaction<'a> {
    pub set_id: SetId,
    pub header: &'a [u8],
    pub details: Vec<Detail<'a>>,
}

impl Transaction<'_> {
    /// Transaction Total Amount; 0 if it has none.
    pub fn total(&self) -> u64 {
        number_at(self.set_id.total(), self.header)
    }

    /// Its Sender DO Symbol and its own reference, if that is given.
    pub fn own_pair(&self) -> Option<Pair> {
        let spans = self.set_id.own_pair()?;
        let [_, reference] = spans;
        (!is_blank(reference.of(self.header))).then(|| pair_at(spans, self.header))
    }

    /// The pair of the transaction that it adjusts or posts to.
    pub fn original_pair(&self) -> Option<Pair> {
        Some(pair_at(self.set_id.original_pair()?, self.header))
    }

    /// How many lines it would enter.
    pub fn lines(&self) -> usize {
        if self.set_id.has_amounts() {
            self.details.len()
        } else {
            0
        }
    }
}

/// A detail and what its E records come to.
pub struct Detail<'a> {
    /// The number of its record, the header's being 0.
    pub record: usize,
    pub bytes: &'a [u8],
    pub postings: Postings,
}

impl Detail<'_> {
    /// Detail Amount; 0 if it has none.
    pub fn amount(&self, set_id: SetId) -> u64 {
        number_at(set_id.amount(), self.bytes)
    }

    /// The number in Original Line Item; 0 if it has none.
    pub fn original_line(&self, set_id: SetId) -> usize {
        number_at(set_id.original_line(), self.bytes) as usize
    }

    /// The sender's and the receiver's account symbol, each if it is given.
    pub fn symbols(&self, set_id: SetId) -> [Option<Symbol>; 2] {
        match set_id.symbols() {
            Some(spans) => spans.map(|span| symbol_at(span, self.bytes)),
            None => [None, None],
        }
    }
}

/// The E records of one detail.
#[derive(Clone, Copy, Debug, Default)]
pub struct Postings {
    pub debits: Side,
    pub credits: Side,
}

/// The debits or the credits of one detail.
#[derive(Clone, Copy, Debug, Default)]
pub struct Side {
    pub records: usize,
    pub sum: u128,
}

impl Postings {
    /// Counts in an E record that is good.
    pub fn add(&mut self, record: &[u8]) {
        let side = if record[22] == b'D' {
            &mut self.debits
        } else {
            &mut self.credits
        };
        side.records += 1;
        side.sum += u128::from(number(&record[8..22]));
    }

    /// Whether the E set of a detail with this amount is good; none means under 840.
    pub fn are_good(&self, amount: Option<u64>) -> bool {
        let Self { debits, credits } = self;
        if debits.records + credits.records == 0 {
            return amount.is_some();
        }
        debits.records + credits.records >= 2
            && debits.records <= 4
            && credits.records <= 4
            && debits.sum == credits.sum
            && amount.is_none_or(|amount| debits.sum == u128::from(amount))
    }
}

fn number_at(span: Option<Span>, record: &[u8]) -> u64 {
    span.map_or(0, |span| number(span.of(record)))
}

fn pair_at([office, reference]: [Span; 2], header: &[u8]) -> Pair {
    let mut pair = [0; 13];
    pair[..5].copy_from_slice(office.of(header));
    pair[5..].copy_from_slice(reference.of(header));
    pair
}

fn symbol_at(span: Span, detail: &[u8]) -> Option<Symbol> {
    let bytes = span.of(detail);
    (!is_blank(bytes)).then(|| bytes.try_into().expect("a symbol has 27 bytes"))
}
