//! All implementations on many small inputs, good and damaged.

use std::collections::BTreeMap;
use std::fs;
use std::path::Path;

use crate::fault::Result;
use crate::generate::damage::{damage, damage_register};
use crate::generate::files;
use crate::generate::maker::Maker;
use crate::generate::random::Random;
use crate::generate::registers::Keys;
use crate::implementations::Implementation;
use crate::input::{FirstLook, Input, RegisterTexts};
use crate::packet::{FILE_ITEM, VERDICT_ITEM};
use crate::vectors::Vectors;

const SEED: u64 = 0x1FAC_0001;
const UNTOUCHED: u8 = 0xA5;

/// One small input.
struct Case {
    file: Vec<u8>,
    registers: RegisterTexts,
    day: u32,
    buffer: usize,
}

/// What an implementation makes of a case: its answer, and the whole buffer afterwards.
#[derive(PartialEq)]
struct Outcome {
    answer: u64,
    buffer: Vec<u8>,
}

/// How often each code was met.
#[derive(Default)]
pub struct Codes(BTreeMap<u16, usize>);

/// Compares the implementations with the first of them; keeps the inputs that tell them apart.
pub fn compare(
    vectors: &Vectors,
    implementations: &[Implementation],
    count: usize,
    kept: &Path,
) -> Result<Codes> {
    let keys = Keys::of(&vectors.registers);
    let mut codes = Codes::default();
    let mut differing = 0;
    for number in 0..count {
        let case = Case::make(number, vectors, &keys);
        let outcomes: Vec<Outcome> = implementations
            .iter()
            .map(|implementation| case.run(implementation.first_look))
            .collect();
        if outcomes.iter().any(|outcome| *outcome != outcomes[0]) {
            differing += 1;
            case.keep(&kept.join(number.to_string()))?;
        }
        codes.count(&outcomes[0]);
    }
    if differing > 0 {
        return Err(format!("{differing} inputs differ: see {}", kept.display()).into());
    }
    Ok(codes)
}

impl Case {
    fn make(number: usize, vectors: &Vectors, keys: &Keys) -> Self {
        let random = Random::new(SEED + ((number as u64) << 32));
        let mut maker = Maker { random, keys };
        let mut file = whole_file(&mut maker, vectors);
        let random = &mut maker.random;
        for _ in 0..random.below(4) {
            damage(&mut file, random);
        }
        let mut registers = vectors.registers.clone();
        if random.once_in(16) {
            damage_register(&mut registers, random);
        }
        let buffer = buffer_length(&file, random);
        let day = random.next() as u32;
        Self {
            file,
            registers,
            day,
            buffer,
        }
    }

    fn run(&self, first_look: FirstLook) -> Outcome {
        let mut buffer = vec![UNTOUCHED; self.buffer];
        let input = Input {
            file: &self.file,
            texts: self.registers.texts(),
            day: self.day,
        };
        let answer = first_look(&input, &mut buffer);
        Outcome { answer, buffer }
    }

    fn keep(&self, folder: &Path) -> Result<()> {
        fs::create_dir_all(folder)?;
        fs::write(folder.join("bulk.txt"), &self.file)?;
        self.registers.write(folder)?;
        let numbers = format!("day {}\nbuffer {}\n", self.day, self.buffer);
        Ok(fs::write(folder.join("numbers.txt"), numbers)?)
    }
}

fn whole_file(maker: &mut Maker, vectors: &Vectors) -> Vec<u8> {
    match maker.random.below(1_000) {
        0 => files::many_details(maker),
        1..5 => files::many_entries(maker),
        5..8 => files::many_lines(maker),
        8..500 => maker.random.pick(&vectors.vectors).file.clone(),
        _ => {
            let transactions = maker.random.between(1, 12);
            files::mixed(maker, transactions)
        }
    }
}

/// Mostly room enough, sometimes just enough or too little.
fn buffer_length(file: &[u8], random: &mut Random) -> usize {
    let records = file.split(|byte| *byte == b'\n').skip(2);
    let transactions = records.filter(|record| record.starts_with(b"H")).count();
    let needed = FILE_ITEM + VERDICT_ITEM * transactions;
    match random.below(32) {
        0 => needed - 1,
        1 => random.below(needed),
        2..8 => needed,
        _ => needed + random.below(100),
    }
}

impl Codes {
    fn count(&mut self, outcome: &Outcome) {
        if outcome.answer < FILE_ITEM as u64 {
            return self.add(outcome.answer as u16);
        }
        let packet = &outcome.buffer[FILE_ITEM..outcome.answer as usize];
        for item in packet.chunks_exact(VERDICT_ITEM) {
            self.add(u16::from_le_bytes([item[8], item[9]]));
        }
    }

    fn add(&mut self, code: u16) {
        *self.0.entry(code).or_default() += 1;
    }

    pub fn print(&self) {
        let times = self
            .0
            .iter()
            .map(|(code, times)| format!("{code}: {times}"));
        println!("codes met: {}", times.collect::<Vec<_>>().join(", "));
    }
}
