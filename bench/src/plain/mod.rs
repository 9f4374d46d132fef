//! First look in plain Rust, written from the documents alone.

mod field;
mod judge;
mod record;

use std::iter;

use crate::book::{Book, SMALL};
use crate::code::FileCode;
use crate::input::Input;
use crate::opening::Opening;
use crate::packet::{self, FILE_ITEM, FileItem, VERDICT_ITEM, verdict_item};
use crate::register::Registers;
use crate::settle::settle;

/// Posts the file to a new small book: the packet's length, or a file code.
pub fn first_look(input: &Input, packet: &mut [u8]) -> u64 {
    let registers = Registers::read(&input.texts);
    let mut book = Book::new(SMALL);
    match post(input, &registers, &mut book, packet) {
        Ok(length) => length as u64,
        Err(code) => code as u64,
    }
}

/// Posts the file to a book.
pub fn post(
    input: &Input,
    registers: &Registers,
    book: &mut Book,
    packet: &mut [u8],
) -> Result<usize, FileCode> {
    let opening = Opening::read(input.file)?;
    if book.is_marked(&opening.file_id) {
        return Err(FileCode::Marked);
    }
    let found = input.file.iter().filter(|b| **b == b'\n').count();
    let transactions = records(opening.body).filter(|r| is_header(r)).count();
    let length = packet::length(transactions);
    let packet = packet.get_mut(..length).ok_or(FileCode::ShortBuffer)?;
    if book.free().marks == 0 {
        return Err(FileCode::NoMarkPlace);
    }
    let (file_item, verdict_items) = packet.split_at_mut(FILE_ITEM);
    let accepted = judge_all(opening.body, input.day, registers, book, verdict_items);
    let item = FileItem {
        stated: opening.stated,
        found,
        transactions,
        accepted,
    };
    file_item.copy_from_slice(&item.bytes());
    book.set_mark(opening.file_id);
    Ok(length)
}

/// Judges and enters the transactions in file order; answers how many were accepted.
fn judge_all(
    body: &[u8],
    day: u32,
    registers: &Registers,
    book: &mut Book,
    verdict_items: &mut [u8],
) -> usize {
    let mut accepted = 0;
    let mut records = records(body).peekable();
    for (number, item) in (1..).zip(verdict_items.chunks_exact_mut(VERDICT_ITEM)) {
        let Some(header) = records.next() else { break };
        let mut followers = iter::from_fn(|| records.next_if(|record| !is_header(record)));
        let verdict = judge::judge(header, &mut followers, registers)
            .and_then(|transaction| settle(&transaction, day, book));
        followers.for_each(drop);
        accepted += usize::from(verdict.is_ok());
        item.copy_from_slice(&verdict_item(number, verdict));
    }
    accepted
}

fn is_header(record: &[u8]) -> bool {
    record.starts_with(b"H")
}

/// The records of a text that ends in a line feed.
fn records(text: &[u8]) -> impl Iterator<Item = &[u8]> {
    let text = text.strip_suffix(b"\n").unwrap_or(text);
    text.split(|byte| *byte == b'\n')
}
