//! What a first look is given.

use std::fs;
use std::io;
use std::path::Path;

/// The four key texts and the map of ledger accounts.
#[derive(Clone, Copy)]
pub struct Texts<'a> {
    pub agencies: &'a [u8],
    pub offices: &'a [u8],
    pub symbols: &'a [u8],
    pub units: &'a [u8],
    pub accounts: &'a [u8],
}

/// A bulk file, what its fields are looked up in, and the day.
#[derive(Clone, Copy)]
pub struct Input<'a> {
    pub file: &'a [u8],
    pub texts: Texts<'a>,
    pub day: u32,
}

/// An implementation of first look: answers the packet's length, or a file code below 20.
pub type FirstLook = fn(&Input, &mut [u8]) -> u64;

/// The texts of the five registers, with their memory.
#[derive(Clone)]
pub struct RegisterTexts {
    pub agencies: Vec<u8>,
    pub offices: Vec<u8>,
    pub symbols: Vec<u8>,
    pub units: Vec<u8>,
    pub accounts: Vec<u8>,
}

impl RegisterTexts {
    pub fn read(folder: &Path) -> io::Result<Self> {
        Ok(Self {
            agencies: fs::read(folder.join("alc.txt"))?,
            offices: fs::read(folder.join("do.txt"))?,
            symbols: fs::read(folder.join("tas.txt"))?,
            units: fs::read(folder.join("unit.txt"))?,
            accounts: fs::read(folder.join("sgl.map"))?,
        })
    }

    pub fn write(&self, folder: &Path) -> io::Result<()> {
        fs::write(folder.join("alc.txt"), &self.agencies)?;
        fs::write(folder.join("do.txt"), &self.offices)?;
        fs::write(folder.join("tas.txt"), &self.symbols)?;
        fs::write(folder.join("unit.txt"), &self.units)?;
        fs::write(folder.join("sgl.map"), &self.accounts)
    }

    pub fn texts(&self) -> Texts<'_> {
        Texts {
            agencies: &self.agencies,
            offices: &self.offices,
            symbols: &self.symbols,
            units: &self.units,
            accounts: &self.accounts,
        }
    }
}
