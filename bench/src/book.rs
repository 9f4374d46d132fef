//! The book of originals.

use std::collections::{HashMap, HashSet};

use crate::layout::SetId;
use crate::opening::FileId;

/// A DO symbol and a reference.
pub type Pair = [u8; 13];

pub type Symbol = [u8; 27];

/// What the book keeps of an accepted transaction.
#[derive(Clone, Debug)]
pub struct Entry {
    pub set_id: SetId,
    pub day: u32,
    /// What no adjustment has taken yet.
    pub open: u64,
}

/// What the book keeps of a detail; a symbol that is missing is none.
#[derive(Clone, Debug)]
pub struct Line {
    pub amount: u64,
    pub sender: Option<Symbol>,
    pub receiver: Option<Symbol>,
}

/// How much room a book has.
#[derive(Clone, Copy, Debug)]
pub struct Places {
    pub entries: usize,
    pub lines: usize,
    pub marks: usize,
}

/// The places of a small book.
pub const SMALL: Places = Places {
    entries: 64,
    lines: 512,
    marks: 16,
};

/// Entries by pair, lines by pair and number, marks by File ID Number; no call here asks for a
/// mark's counts.
pub struct Book {
    places: Places,
    entries: HashMap<Pair, Entry>,
    lines: HashMap<(Pair, usize), Line>,
    marks: HashSet<FileId>,
}

impl Book {
    pub fn new(places: Places) -> Self {
        Self {
            places,
            entries: HashMap::new(),
            lines: HashMap::new(),
            marks: HashSet::new(),
        }
    }

    pub fn entry(&self, pair: &Pair) -> Option<&Entry> {
        self.entries.get(pair)
    }

    pub fn entry_mut(&mut self, pair: &Pair) -> Option<&mut Entry> {
        self.entries.get_mut(pair)
    }

    pub fn line(&self, pair: &Pair, number: usize) -> Option<&Line> {
        self.lines.get(&(*pair, number))
    }

    pub fn is_marked(&self, file_id: &FileId) -> bool {
        self.marks.contains(file_id)
    }

    pub fn free(&self) -> Places {
        Places {
            entries: self.places.entries - self.entries.len(),
            lines: self.places.lines - self.lines.len(),
            marks: self.places.marks - self.marks.len(),
        }
    }

    /// The caller has made sure that there is a place and that none is held under the pair.
    pub fn enter_entry(&mut self, pair: Pair, entry: Entry) {
        self.entries.insert(pair, entry);
    }

    /// The caller has made sure that there is a place and that none is held under the number.
    pub fn enter_line(&mut self, pair: Pair, number: usize, line: Line) {
        self.lines.insert((pair, number), line);
    }

    /// The caller has made sure that there is a place and that the file is not marked.
    pub fn set_mark(&mut self, file_id: FileId) {
        self.marks.insert(file_id);
    }
}
