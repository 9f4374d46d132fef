//! Registers: keys sought by halving in the text itself.

use std::cmp::Ordering;

use super::class::{Digits, each};
use crate::bytes::number;
use crate::input::Texts;
use crate::layout::RegisterName;
use crate::register::check_keys;

/// Keys of one width, ascending, one after the other in a text.
struct KeyList<'a> {
    text: &'a [u8],
    width: usize,
    count: usize,
}

impl<'a> KeyList<'a> {
    /// The list of a text; it is empty where the check refuses the text.
    fn of(text: &'a [u8], width: usize) -> Self {
        let count = check_keys(text, width).map_or(0, |()| text.len() / width);
        Self { text, width, count }
    }

    fn has(&self, key: &[u8]) -> bool {
        let mut rest = self.text;
        let mut left = self.count;
        while left > 0 {
            let half = left / 2;
            let (middle, above) = rest[half * self.width..].split_at(self.width);
            match middle.cmp(key) {
                Ordering::Equal => return true,
                Ordering::Greater => left = half,
                Ordering::Less => {
                    rest = above;
                    left -= half + 1;
                }
            }
        }
        false
    }
}

/// Ledger accounts, a bit for each.
struct AccountMap<'a>(&'a [u8]);

impl AccountMap<'_> {
    fn has(&self, key: &[u8]) -> bool {
        if key.len() != 4 || !each::<Digits>(key) {
            return false;
        }
        let account = number(key) as usize;
        let byte = self.0.get(account / 8);
        byte.is_some_and(|byte| byte >> (account % 8) & 1 == 1)
    }
}

/// The five registers; one whose text is refused is empty.
pub struct Registers<'a> {
    agencies: KeyList<'a>,
    offices: KeyList<'a>,
    symbols: KeyList<'a>,
    units: KeyList<'a>,
    accounts: AccountMap<'a>,
}

impl<'a> Registers<'a> {
    pub fn of(texts: &Texts<'a>) -> Self {
        let accounts = texts.accounts;
        Self {
            agencies: KeyList::of(texts.agencies, 8),
            offices: KeyList::of(texts.offices, 5),
            symbols: KeyList::of(texts.symbols, 27),
            units: KeyList::of(texts.units, 2),
            accounts: AccountMap(if accounts.len() == 1_250 {
                accounts
            } else {
                &[]
            }),
        }
    }

    pub fn has(&self, register: RegisterName, key: &[u8]) -> bool {
        match register {
            RegisterName::Agencies => self.agencies.has(key),
            RegisterName::Offices => self.offices.has(key),
            RegisterName::Symbols => self.symbols.has(key),
            RegisterName::Units => self.units.has(key),
            RegisterName::Accounts => self.accounts.has(key),
        }
    }
}
