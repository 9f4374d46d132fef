//! Transactions of every Set ID; some are meant to fail against the book.

use super::maker::{Maker, put, put_number};
use crate::bytes::{is_blank, number};
use crate::layout::{Letter, RegisterName, SetId, Span};

pub const BLANK: &[u8] = b"        ";

/// What a later transaction may name.
pub struct Posted {
    office: Vec<u8>,
    reference: Vec<u8>,
    details: Vec<Vec<u8>>,
    set_id: SetId,
    total: u64,
}

impl Posted {
    fn amounts(&self) -> impl Iterator<Item = u64> {
        let span = self.set_id.amount();
        let amount = move |detail: &Vec<u8>| span.map_or(0, |span| number(span.of(detail)));
        self.details.iter().map(amount)
    }

    /// The sender's and the receiver's symbol of a line.
    fn symbols(&self, line: usize) -> Option<[&[u8]; 2]> {
        let detail = self.details.get(line.checked_sub(1)?)?;
        Some(self.set_id.symbols()?.map(|span| span.of(detail)))
    }
}

impl Maker<'_> {
    /// A payment or collection with this reference.
    pub fn bill(
        &mut self,
        set_id: SetId,
        reference: &[u8],
        details: usize,
        out: &mut Vec<u8>,
    ) -> Posted {
        let details = (0..details)
            .map(|_| self.good(set_id, Letter::Detail))
            .collect();
        let posted = self.posted(set_id, reference, details);
        let header = self.header(&posted);
        self.write(&header, &posted, out);
        posted
    }

    /// An adjustment of what was posted; once in a while of a line, symbol or amount that is wrong.
    pub fn adjustment(
        &mut self,
        set_id: SetId,
        original: &Posted,
        reference: &[u8],
        out: &mut Vec<u8>,
    ) -> Posted {
        let lines = self.random.between(1, 3);
        let details = (0..lines)
            .map(|_| self.adjusting(set_id, original))
            .collect();
        let posted = self.posted(set_id, reference, details);
        let mut header = self.header(&posted);
        self.put_original(&mut header, set_id, original);
        self.write(&header, &posted, out);
        posted
    }

    /// The detail of an adjustment.
    fn adjusting(&mut self, set_id: SetId, original: &Posted) -> Vec<u8> {
        let mut detail = self.good(set_id, Letter::Detail);
        let line = self.line_of(original);
        put_number(&mut detail, Span::new(93, 6), line as u64);
        let share = if self.random.once_in(8) { 1 } else { 6 };
        put_number(
            &mut detail,
            Span::new(2, 14),
            (original.total / share).max(1),
        );
        if let Some(symbols) = original.symbols(line) {
            self.put_symbols(&mut detail, set_id, symbols);
        }
        detail
    }

    /// The symbols of the line, an 812's crosswise; once in a while the wrong way.
    fn put_symbols(&mut self, detail: &mut [u8], set_id: SetId, mut symbols: [&[u8]; 2]) {
        if (set_id == SetId::ReceiverAdjustment) != self.random.once_in(16) {
            symbols.reverse();
        }
        let [sender, receiver] = symbols;
        if !is_blank(sender) {
            put(detail, 100, sender);
        }
        put(detail, 135, receiver);
        if is_blank(receiver) {
            put(detail, 162, BLANK);
        }
    }

    /// The number of one of its lines; once in a while of none.
    fn line_of(&mut self, original: &Posted) -> usize {
        match self.random.below(16) {
            0 => self.random.below(2_000),
            _ => self.random.between(1, original.details.len().max(1)),
        }
    }

    fn put_original(&mut self, header: &mut [u8], set_id: SetId, original: &Posted) {
        if let Some([office, reference]) = set_id.original_pair() {
            put(header, office.column, &original.office);
            put(header, reference.column, &original.reference);
        }
    }

    pub fn zero_dollar(&mut self, reference: &[u8], out: &mut Vec<u8>) -> Posted {
        let details = vec![self.good(SetId::ZeroDollar, Letter::Detail)];
        let posted = self.posted(SetId::ZeroDollar, reference, details);
        let header = self.header(&posted);
        self.write(&header, &posted, out);
        Posted {
            details: Vec::new(),
            ..posted
        }
    }

    /// Ledger accounts for lines of what was posted.
    pub fn post_sgl(&mut self, original: &Posted, out: &mut Vec<u8>) {
        let mut header = self.good(SetId::PostSgl, Letter::Header);
        self.put_original(&mut header, SetId::PostSgl, original);
        push(&header, out);
        for _ in 0..self.random.between(1, 3) {
            let line = self.line_of(original);
            let mut detail = self.good(SetId::PostSgl, Letter::Detail);
            put_number(&mut detail, Span::new(2, 6), line as u64);
            push(&detail, out);
            let amount = original.amounts().nth(line.saturating_sub(1)).unwrap_or(7);
            let slip = u64::from(self.random.once_in(16));
            self.postings(SetId::PostSgl, amount + slip, out);
        }
    }

    pub fn good(&mut self, set_id: SetId, letter: Letter) -> Vec<u8> {
        set_id
            .layout(letter)
            .map_or_else(Vec::new, |layout| self.record(layout))
    }

    fn posted(&mut self, set_id: SetId, reference: &[u8], details: Vec<Vec<u8>>) -> Posted {
        let mut posted = Posted {
            office: self.key(RegisterName::Offices).to_vec(),
            reference: reference.to_vec(),
            details,
            set_id,
            total: 0,
        };
        posted.total = posted.amounts().sum();
        posted
    }

    /// A header with its own pair, its total and its Set ID.
    fn header(&mut self, posted: &Posted) -> Vec<u8> {
        let mut header = self.good(posted.set_id, Letter::Header);
        put(&mut header, 37, posted.set_id.digits());
        if let Some(total) = posted.set_id.total() {
            put_number(&mut header, total, posted.total);
        }
        if let Some([office, reference]) = posted.set_id.own_pair() {
            put(&mut header, office.column, &posted.office);
            put(&mut header, reference.column, &posted.reference);
        }
        header
    }

    /// The header and the details, with E sets mostly.
    fn write(&mut self, header: &[u8], posted: &Posted, out: &mut Vec<u8>) {
        push(header, out);
        let amounts: Vec<u64> = posted.amounts().collect();
        for (detail, amount) in posted.details.iter().zip(amounts) {
            push(detail, out);
            if posted.set_id.has_amounts() && !self.random.once_in(8) {
                self.postings(posted.set_id, amount, out);
            }
        }
    }

    /// One to four debits and one to four credits that each come to the amount.
    fn postings(&mut self, set_id: SetId, amount: u64, out: &mut Vec<u8>) {
        for flag in [b'D', b'C'] {
            let records = self.random.between(1, 4) as u64;
            for record in 0..records {
                let mut posting = self.good(set_id, Letter::Posting);
                let part = amount / records + if record == 0 { amount % records } else { 0 };
                put_number(&mut posting, Span::new(9, 14), part);
                put(&mut posting, 23, &[flag]);
                push(&posting, out);
            }
        }
    }
}

fn push(record: &[u8], out: &mut Vec<u8>) {
    out.extend_from_slice(record);
    out.push(b'\n');
}
