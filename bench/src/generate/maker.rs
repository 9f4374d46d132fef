//! Records whose fields are all good.

use super::random::Random;
use super::registers::Keys;
use crate::bytes::is_blank;
use crate::layout::{Field, Kind, Layout, Product, RegisterName, Rule, Span};

/// Makes records and transactions from random numbers and the keys of registers.
pub struct Maker<'k> {
    pub random: Random,
    pub keys: &'k Keys,
}

impl<'k> Maker<'k> {
    /// A record of this layout: fields, companions and product are good.
    pub fn record(&mut self, layout: &Layout) -> Vec<u8> {
        let mut record = vec![b' '; layout.length];
        for field in layout.fields {
            if field.required || self.random.once_in(2) {
                self.fill(field, &mut record);
            }
        }
        keep_companions(layout, &mut record);
        if let Some(product) = &layout.product {
            self.fill_product(product, &mut record);
        }
        record
    }

    fn fill(&mut self, field: &Field, record: &mut [u8]) {
        let length = field.span.length;
        let column = field.span.column;
        if let Some(register) = field.register {
            return put(record, column, self.key(register));
        }
        match field.kind {
            Kind::Text => put(record, column, &self.text(length)),
            Kind::Digits | Kind::AboveZero => {
                let value = self.random.between(1, 999_999) as u64;
                put_number(record, field.span, value);
            }
            Kind::Letter(letters) => put(record, column, &[*self.random.pick(letters)]),
            Kind::SetId(values) => put(record, column, values[0]),
            Kind::Symbol | Kind::Filler => {}
        }
    }

    pub fn key(&mut self, register: RegisterName) -> &'k [u8] {
        let keys: &'k [Vec<u8>] = self.keys.of_register(register);
        self.random.pick::<Vec<u8>>(keys)
    }

    /// Printable bytes, at most so many, the first being no space.
    pub fn text(&mut self, most: usize) -> Vec<u8> {
        let length = self.random.between(1, most);
        let mut text: Vec<u8> = (0..length).map(|_| self.printable()).collect();
        text[0] = text[0].max(b'!');
        text
    }

    fn printable(&mut self) -> u8 {
        self.random.between(usize::from(b' '), usize::from(b'~')) as u8
    }

    /// A quantity of whole units, a price, and the amount that they make.
    fn fill_product(&mut self, product: &Product, record: &mut [u8]) {
        let units = self.random.between(1, 10_000) as u64;
        let price = self.random.between(1, 1_000_000) as u64;
        put_number(record, product.quantity, 100 * units);
        put_number(record, product.price, price);
        put_number(record, product.amount, units * price);
    }
}

/// Takes out the fields that their companions refuse.
fn keep_companions(layout: &Layout, record: &mut [u8]) {
    for companion in layout.companions {
        let mut others = companion.others.iter().map(|span| span.of(record));
        let kept = match companion.rule {
            Rule::Needs => !others.any(is_blank),
            Rule::Excludes => others.all(is_blank),
        };
        if !kept {
            let blank = vec![b' '; companion.refused.length];
            put(record, companion.refused.column, &blank);
        }
    }
}

pub fn put(record: &mut [u8], column: usize, bytes: &[u8]) {
    record[column - 1..][..bytes.len()].copy_from_slice(bytes);
}

pub fn put_number(record: &mut [u8], span: Span, value: u64) {
    let digits = format!("{value:0width$}", width = span.length);
    put(record, span.column, digits.as_bytes());
}
