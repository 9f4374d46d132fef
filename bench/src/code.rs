//! Codes: why a file is refused, and why a transaction is rejected.

/// Why a file is refused as a whole.
#[derive(Clone, Copy, Debug, PartialEq, Eq)]
pub enum FileCode {
    TooLong = 1,
    NotEnded = 2,
    FileIdentifier = 3,
    BatchHeader = 4,
    NoTransaction = 5,
    Marked = 6,
    ShortBuffer = 7,
    NoMarkPlace = 8,
}

/// Why a transaction is rejected.
#[derive(Clone, Copy, Debug, PartialEq, Eq)]
pub enum Code {
    Missing = 21,
    Misshapen = 22,
    SetId = 30,
    Letter = 31,
    Length = 32,
    Companion = 33,
    Product = 34,
    Details = 41,
    Postings = 42,
    Total = 43,
    NotRegistered = 51,
    Original = 61,
    Late = 62,
    NoLine = 63,
    Differs = 64,
    AboveOpen = 65,
    Held = 66,
    NoPlace = 67,
}

/// A failed check within one record.
#[derive(Clone, Copy, Debug, PartialEq, Eq)]
pub struct RecordFault {
    pub code: Code,
    pub column: usize,
}

impl RecordFault {
    pub fn at(code: Code, column: usize) -> Self {
        Self { code, column }
    }

    pub fn in_record(self, record: usize) -> Fault {
        Fault::at(self.code, record, self.column)
    }
}

/// The first failed check of a transaction.
#[derive(Clone, Copy, Debug, PartialEq, Eq)]
pub struct Fault {
    pub code: Code,
    pub record: usize,
    pub column: usize,
}

impl Fault {
    pub fn at(code: Code, record: usize, column: usize) -> Self {
        Self {
            code,
            record,
            column,
        }
    }
}
