//! Whole files.

use super::maker::{Maker, put};
use super::transactions::{BLANK, Posted};
use crate::bytes::is_blank;
use crate::layout::{Letter, SetId};

pub const MOST_BYTES: usize = 16_777_216;
const OPENING_BYTES: usize = 41;

/// The file of these transactions, with a running number as its File ID Number.
pub fn with_opening(number: usize, body: &[u8]) -> Vec<u8> {
    let records = 2 + body.iter().filter(|byte| **byte == b'\n').count();
    let opening = format!("PCA    \nBIPAC{records:08}{number:019}\n");
    [opening.as_bytes(), body].concat()
}

/// As many transactions as a file can hold.
pub fn full(mut transaction: impl FnMut() -> Vec<u8>) -> Vec<u8> {
    let mut body = Vec::with_capacity(MOST_BYTES);
    loop {
        let next = transaction();
        if OPENING_BYTES + body.len() + next.len() > MOST_BYTES {
            return with_opening(1, &body);
        }
        body.extend_from_slice(&next);
    }
}

/// Payments of one to eight details, without references, all good.
pub fn payments(maker: &mut Maker) -> Vec<u8> {
    full(|| {
        let mut payment = Vec::new();
        let details = maker.random.between(1, 8);
        maker.bill(SetId::Payment, BLANK, details, &mut payment);
        payment
    })
}

/// Headers of 835 and 840 without details: fields are judged, then each gets 41.
pub fn short_headers(maker: &mut Maker) -> Vec<u8> {
    full(|| {
        let set_id = *maker.random.pick(&[SetId::ZeroDollar, SetId::PostSgl]);
        let mut header = maker.good(set_id, Letter::Header);
        header.push(b'\n');
        header
    })
}

/// Records that are the letter `H` and nothing else: the most transactions that a file can hold.
pub fn bare_headers() -> Vec<u8> {
    full(|| b"H\n".to_vec())
}

/// Some transactions of all Set IDs, later ones naming earlier ones.
pub fn mixed(maker: &mut Maker, transactions: usize) -> Vec<u8> {
    let mut body = Vec::new();
    let mut posted = Vec::new();
    for _ in 0..transactions {
        let reference = match maker.random.below(8) {
            0 => BLANK.to_vec(),
            _ => reference(maker.random.below(64)),
        };
        let new = any_transaction(maker, &posted, &reference, &mut body);
        posted.extend(new.filter(|_| !is_blank(&reference)));
    }
    with_opening(1, &body)
}

fn any_transaction(
    maker: &mut Maker,
    posted: &[Posted],
    reference: &[u8],
    out: &mut Vec<u8>,
) -> Option<Posted> {
    if posted.is_empty() || maker.random.once_in(3) {
        let set_id = *maker.random.pick(&[SetId::Payment, SetId::Collection]);
        let details = maker.random.between(1, 4);
        return Some(maker.bill(set_id, reference, details, out));
    }
    let original = maker.random.pick(posted);
    match maker.random.below(5) {
        0 => Some(maker.zero_dollar(reference, out)),
        1 => Some(maker.adjustment(SetId::ReceiverAdjustment, original, reference, out)),
        2 | 3 => Some(maker.adjustment(SetId::SenderAdjustment, original, reference, out)),
        _ => {
            maker.post_sgl(original, out);
            None
        }
    }
}

/// Eight bytes for a number.
pub fn reference(number: usize) -> Vec<u8> {
    format!("R{number:07}").into_bytes()
}

/// More entries than a small book has places.
pub fn many_entries(maker: &mut Maker) -> Vec<u8> {
    let mut body = Vec::new();
    for number in 0..maker.random.between(62, 68) {
        maker.zero_dollar(&reference(number), &mut body);
    }
    with_opening(1, &body)
}

/// About as many lines as a small book has places, or more.
pub fn many_lines(maker: &mut Maker) -> Vec<u8> {
    let mut body = Vec::new();
    for (number, details) in [200, 200, 112, 1].into_iter().enumerate() {
        let details = details + maker.random.below(2);
        maker.bill(SetId::Payment, &reference(number), details, &mut body);
    }
    with_opening(1, &body)
}

/// A transaction with as many details as it may have, or one more.
pub fn many_details(maker: &mut Maker) -> Vec<u8> {
    let mut body = Vec::new();
    let details = maker.random.between(1_000, 1_001);
    maker.bill(SetId::Collection, BLANK, details, &mut body);
    with_opening(1, &body)
}

/// Payments of one detail and no E records, each with its own reference under one office.
pub fn referenced(maker: &mut Maker, office: &[u8], references: &[usize]) -> Vec<u8> {
    let mut body = Vec::new();
    for number in references {
        let [mut header, detail] =
            [Letter::Header, Letter::Detail].map(|letter| maker.good(SetId::Payment, letter));
        put(&mut header, 10, &detail[29..43]);
        put(&mut header, 32, office);
        put(&mut header, 40, &reference(*number));
        for record in [header, detail] {
            body.extend_from_slice(&record);
            body.push(b'\n');
        }
    }
    body
}
