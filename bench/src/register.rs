//! Registers: sets of keys.

use std::collections::HashSet;

use crate::bytes::{is_digits, number};
use crate::input::Texts;
use crate::layout::RegisterName;

const MAP_BYTES: usize = 1_250;

/// Why the text of a register is refused.
#[derive(Debug, PartialEq, Eq)]
pub enum TextFault {
    Width = 11,
    Order = 12,
    Map = 13,
}

/// A text is whole keys of 1 to 27 bytes, strictly ascending.
pub fn check_keys(text: &[u8], width: usize) -> Result<(), TextFault> {
    if !(1..=27).contains(&width) || !text.len().is_multiple_of(width) {
        return Err(TextFault::Width);
    }
    let keys = text.chunks_exact(width);
    if !keys.is_sorted_by(|key, next| key < next) {
        return Err(TextFault::Order);
    }
    Ok(())
}

/// Keys of one width.
#[derive(Default)]
pub struct KeyList<'a>(HashSet<&'a [u8]>);

impl<'a> KeyList<'a> {
    pub fn read(text: &'a [u8], width: usize) -> Result<Self, TextFault> {
        check_keys(text, width)?;
        Ok(Self(text.chunks_exact(width).collect()))
    }

    fn has(&self, key: &[u8]) -> bool {
        self.0.contains(key)
    }
}

/// Ledger accounts, a bit for each.
#[derive(Default)]
pub struct AccountMap<'a>(&'a [u8]);

impl<'a> AccountMap<'a> {
    pub fn read(map: &'a [u8]) -> Result<Self, TextFault> {
        if map.len() == MAP_BYTES {
            Ok(Self(map))
        } else {
            Err(TextFault::Map)
        }
    }

    fn has(&self, key: &[u8]) -> bool {
        if key.len() != 4 || !is_digits(key) {
            return false;
        }
        let account = number(key) as usize;
        self.0
            .get(account / 8)
            .is_some_and(|byte| byte >> (account % 8) & 1 == 1)
    }
}

/// The five registers; one whose text is refused is empty.
pub struct Registers<'a> {
    agencies: KeyList<'a>,
    offices: KeyList<'a>,
    symbols: KeyList<'a>,
    units: KeyList<'a>,
    accounts: AccountMap<'a>,
}

impl<'a> Registers<'a> {
    pub fn read(texts: &Texts<'a>) -> Self {
        Self {
            agencies: KeyList::read(texts.agencies, 8).unwrap_or_default(),
            offices: KeyList::read(texts.offices, 5).unwrap_or_default(),
            symbols: KeyList::read(texts.symbols, 27).unwrap_or_default(),
            units: KeyList::read(texts.units, 2).unwrap_or_default(),
            accounts: AccountMap::read(texts.accounts).unwrap_or_default(),
        }
    }

    pub fn has(&self, register: RegisterName, key: &[u8]) -> bool {
        match register {
            RegisterName::Agencies => self.agencies.has(key),
            RegisterName::Offices => self.offices.has(key),
            RegisterName::Symbols => self.symbols.has(key),
            RegisterName::Units => self.units.has(key),
            RegisterName::Accounts => self.accounts.has(key),
        }
    }
}

#[cfg(test)]
mod tests {
    use super::*;

    #[test]
    fn texts_are_checked() {
        let fault = |text: &[u8], width| KeyList::read(text, width).err();
        assert_eq!(fault(b"BAEA", 2), None);
        assert_eq!(fault(b"EABA", 2), Some(TextFault::Order));
        assert_eq!(fault(b"BABA", 2), Some(TextFault::Order));
        assert_eq!(fault(b"BAE", 2), Some(TextFault::Width));
        assert_eq!(fault(b"BAEA", 0), Some(TextFault::Width));
        assert_eq!(fault(b"", 28), Some(TextFault::Width));
        assert_eq!(fault(b"", 27), None);
        assert_eq!(AccountMap::read(&[0; 1_249]).err(), Some(TextFault::Map));
    }

    #[test]
    fn a_map_has_the_accounts_of_its_bits() {
        let mut map = [0; MAP_BYTES];
        map[126] = 4;
        let map = AccountMap::read(&map).unwrap();
        assert!(map.has(b"1010"));
        assert!(!map.has(b"1011"));
        assert!(!map.has(b"101 "));
    }
}
