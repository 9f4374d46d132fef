//! Registers, and the keys of any registers.

use std::collections::BTreeSet;

use super::random::Random;
use crate::input::RegisterTexts;
use crate::layout::RegisterName;

/// Keys to fill fields with.
pub struct Keys {
    agencies: Vec<Vec<u8>>,
    offices: Vec<Vec<u8>>,
    symbols: Vec<Vec<u8>>,
    units: Vec<Vec<u8>>,
    accounts: Vec<Vec<u8>>,
}

impl Keys {
    pub fn of(texts: &RegisterTexts) -> Self {
        Self {
            agencies: cut(&texts.agencies, 8),
            offices: cut(&texts.offices, 5),
            symbols: cut(&texts.symbols, 27),
            units: cut(&texts.units, 2),
            accounts: accounts(&texts.accounts),
        }
    }

    pub fn of_register(&self, register: RegisterName) -> &[Vec<u8>] {
        match register {
            RegisterName::Agencies => &self.agencies,
            RegisterName::Offices => &self.offices,
            RegisterName::Symbols => &self.symbols,
            RegisterName::Units => &self.units,
            RegisterName::Accounts => &self.accounts,
        }
    }
}

fn cut(text: &[u8], width: usize) -> Vec<Vec<u8>> {
    text.chunks_exact(width).map(<[u8]>::to_vec).collect()
}

fn accounts(map: &[u8]) -> Vec<Vec<u8>> {
    let is_set = |account: &usize| map[account / 8] >> (account % 8) & 1 == 1;
    let set = (0..10_000).filter(is_set);
    set.map(|account| format!("{account:04}").into_bytes())
        .collect()
}

/// How many keys registers have.
#[derive(Clone, Copy)]
pub struct Sizes {
    agencies: usize,
    offices: usize,
    symbols: usize,
    units: usize,
}

pub const FEW: Sizes = Sizes {
    agencies: 10,
    offices: 5,
    symbols: 10,
    units: 10,
};

pub const MANY: Sizes = Sizes {
    agencies: 2_000,
    offices: 500,
    symbols: 2_000,
    units: 100,
};

/// Registers of these sizes, and about 1,000 ledger accounts.
pub fn registers(sizes: Sizes, random: &mut Random) -> RegisterTexts {
    RegisterTexts {
        agencies: key_text(sizes.agencies, || digits(random, 8)),
        offices: key_text(sizes.offices, || digits(random, 5)),
        symbols: key_text(sizes.symbols, || symbol(random)),
        units: key_text(sizes.units, || unit(random)),
        accounts: (0..1_250).map(|_| one_bit_of_ten(random)).collect(),
    }
}

/// So many different keys in ascending order.
fn key_text(count: usize, mut key: impl FnMut() -> String) -> Vec<u8> {
    let mut keys = BTreeSet::new();
    while keys.len() < count {
        keys.insert(key());
    }
    keys.into_iter().collect::<String>().into_bytes()
}

fn digits(random: &mut Random, count: usize) -> String {
    (0..count).map(|_| *random.pick(&DIGITS)).collect()
}

const DIGITS: [char; 10] = ['0', '1', '2', '3', '4', '5', '6', '7', '8', '9'];

/// A no-year account, or one of two years that another agency may have been given a part of.
fn symbol(random: &mut Random) -> String {
    let agency = digits(random, 3);
    let account = digits(random, 4);
    let transfer = match random.below(3) {
        0 => digits(random, 3),
        _ => "   ".to_owned(),
    };
    match random.below(2) {
        0 => format!("  {transfer}{agency}        X{account}000  C"),
        _ => format!("  {transfer}{agency}20252026 {account}000  C"),
    }
}

fn unit(random: &mut Random) -> String {
    let mut letter = || char::from(b'A' + random.below(26) as u8);
    [letter(), letter()].iter().collect()
}

fn one_bit_of_ten(random: &mut Random) -> u8 {
    (0..8).fold(0, |byte, bit| byte | u8::from(random.once_in(10)) << bit)
}
