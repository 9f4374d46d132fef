//! The items of a packet.

use crate::code::Fault;

pub const FILE_ITEM: usize = 20;
pub const VERDICT_ITEM: usize = 16;

/// What the packet says about the file.
pub struct FileItem {
    pub stated: u32,
    pub found: usize,
    pub transactions: usize,
    pub accepted: usize,
}

impl FileItem {
    pub fn bytes(&self) -> [u8; FILE_ITEM] {
        let mut item = [0; FILE_ITEM];
        item[0..2].copy_from_slice(&18_u16.to_le_bytes());
        item[2..4].copy_from_slice(&1_u16.to_le_bytes());
        item[4..8].copy_from_slice(&self.stated.to_le_bytes());
        item[8..12].copy_from_slice(&(self.found as u32).to_le_bytes());
        item[12..16].copy_from_slice(&(self.transactions as u32).to_le_bytes());
        item[16..20].copy_from_slice(&(self.accepted as u32).to_le_bytes());
        item
    }
}

/// The item of a transaction, numbered from 1, with its verdict.
pub fn verdict_item(number: usize, verdict: Result<(), Fault>) -> [u8; VERDICT_ITEM] {
    let (code, record, column) = match verdict {
        Ok(()) => (0, 0, 0),
        Err(fault) => (fault.code as u16, fault.record as u32, fault.column as u16),
    };
    let mut item = [0; VERDICT_ITEM];
    item[0..2].copy_from_slice(&14_u16.to_le_bytes());
    item[2..4].copy_from_slice(&2_u16.to_le_bytes());
    item[4..8].copy_from_slice(&(number as u32).to_le_bytes());
    item[8..10].copy_from_slice(&code.to_le_bytes());
    item[10..14].copy_from_slice(&record.to_le_bytes());
    item[14..16].copy_from_slice(&column.to_le_bytes());
    item
}

/// How long the packet of so many transactions is.
pub fn length(transactions: usize) -> usize {
    FILE_ITEM + VERDICT_ITEM * transactions
}
