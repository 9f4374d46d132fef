//! A file's first two records, and file codes 1 to 5.

use crate::bytes::{is_digits, is_text, number};
use crate::code::FileCode;

const LONGEST_FILE: usize = 16_777_216;

pub type FileId = [u8; 19];

/// What the first two records say, and the text behind them.
pub struct Opening<'a> {
    pub stated: u32,
    pub file_id: FileId,
    /// The records from the third on, each with its line feed.
    pub body: &'a [u8],
}

impl<'a> Opening<'a> {
    pub fn read(file: &'a [u8]) -> Result<Self, FileCode> {
        if file.len() > LONGEST_FILE {
            return Err(FileCode::TooLong);
        }
        if file.last() != Some(&b'\n') {
            return Err(FileCode::NotEnded);
        }
        let rest = file
            .strip_prefix(b"PCA    \n")
            .ok_or(FileCode::FileIdentifier)?;
        let (stated, file_id, body) = batch_header(rest).ok_or(FileCode::BatchHeader)?;
        if !body.starts_with(b"H") {
            return Err(FileCode::NoTransaction);
        }
        Ok(Self {
            stated,
            file_id,
            body,
        })
    }
}

/// The stated number of records, the File ID Number, and what follows the batch header.
fn batch_header(rest: &[u8]) -> Option<(u32, FileId, &[u8])> {
    let (record, body) = rest.split_at_checked(33)?;
    let fields = record.strip_suffix(b"\n")?.strip_prefix(b"BIPAC")?;
    let (stated, file_id) = fields.split_at(8);
    if !is_digits(stated) || !is_text(file_id) {
        return None;
    }
    let stated = u32::try_from(number(stated)).ok()?;
    Some((stated, file_id.try_into().ok()?, body))
}
