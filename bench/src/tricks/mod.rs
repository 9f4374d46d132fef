//! First look in Rust with the tricks of the gateway: byte classes without early exit, blocks that
//! overlap, records found where their end is expected and shown printable in the same pass.

mod class;
mod details;
mod field;
mod judge;
mod line;
mod record;
mod records;
mod register;
mod transactions;

use crate::book::{Book, SMALL};
use crate::code::FileCode;
use crate::input::Input;
use crate::opening::Opening;
use crate::packet::{self, FILE_ITEM, FileItem, VERDICT_ITEM, verdict_item};
use crate::settle::settle;
use register::Registers;
use transactions::{Found, Transactions};

/// Posts the file to a new small book: the packet's length, or a file code.
pub fn first_look(input: &Input, packet: &mut [u8]) -> u64 {
    let registers = Registers::of(&input.texts);
    let mut book = Book::new(SMALL);
    match post(input, &registers, &mut book, packet) {
        Ok(length) => length as u64,
        Err(code) => code as u64,
    }
}

fn post(
    input: &Input,
    registers: &Registers,
    book: &mut Book,
    packet: &mut [u8],
) -> Result<usize, FileCode> {
    let opening = Opening::read(input.file)?;
    if book.is_marked(&opening.file_id) {
        return Err(FileCode::Marked);
    }
    let found = Found::of(opening.body);
    let length = packet::length(found.headers);
    let packet = packet.get_mut(..length).ok_or(FileCode::ShortBuffer)?;
    if book.free().marks == 0 {
        return Err(FileCode::NoMarkPlace);
    }
    let (file_item, verdict_items) = packet.split_at_mut(FILE_ITEM);
    let accepted = judge_all(opening.body, input.day, registers, book, verdict_items);
    let item = FileItem {
        stated: opening.stated,
        found: found.records + 2,
        transactions: found.headers,
        accepted,
    };
    file_item.copy_from_slice(&item.bytes());
    book.set_mark(opening.file_id);
    Ok(length)
}

/// Judges and enters the transactions in file order; answers how many were accepted.
fn judge_all(
    body: &[u8],
    day: u32,
    registers: &Registers,
    book: &mut Book,
    verdict_items: &mut [u8],
) -> usize {
    let mut accepted = 0;
    let mut spare = Vec::new();
    let transactions = Transactions { rest: body };
    let items = verdict_items.chunks_exact_mut(VERDICT_ITEM);
    for ((number, text), item) in (1..).zip(transactions).zip(items) {
        let verdict = judge::judge(text, registers, &mut spare).and_then(|transaction| {
            let verdict = settle(&transaction, day, book);
            spare = transaction.details;
            verdict
        });
        accepted += usize::from(verdict.is_ok());
        item.copy_from_slice(&verdict_item(number, verdict));
    }
    accepted
}
