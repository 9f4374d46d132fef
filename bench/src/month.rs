//! How the cost of a post grows with the book: the program `month` on books of several sizes.

use std::collections::BTreeSet;
use std::fs;
use std::path::{Path, PathBuf};
use std::process::{Command, Stdio};
use std::time::{Duration, Instant};

use crate::fault::Result;
use crate::generate::files;
use crate::generate::maker::Maker;
use crate::generate::random::Random;
use crate::generate::registers::{Keys, MANY, registers};
use crate::layout::RegisterName;

const SEED: u64 = 0x1FAC_0003;
const SIZES: [usize; 3] = [1_000, 10_000, 60_000];
const MORE: usize = 1_000;
const RUNS: usize = 5;
/// Payments of one detail in a file; 14,000 of them have fewer bytes than a file may have.
const IN_A_FILE: usize = 14_000;
/// References of the book are so far apart; those of the last file lie between them.
const APART: usize = 64;
const DAY: u32 = 100;
const PLACES: [&str; 3] = ["65536", "65536", "64"];

/// What is done with the last file.
#[derive(Clone, Copy)]
enum Last {
    Nothing,
    Check,
    Post,
}

/// A folder for `month`: files that fill the book, in the order of its keys, and one more file.
struct Folder {
    path: PathBuf,
    filling: Vec<String>,
}

/// Prints what posting and checking one more transaction costs, for each size of the book.
pub fn time(program: &Path, folder: &Path) -> Result<()> {
    let program = fs::canonicalize(program)?;
    println!("month: {MORE} more payments on a lent book, best of {RUNS} runs");
    for entries in SIZES {
        let folder = Folder::write(&folder.join(entries.to_string()), entries)?;
        let [nothing, check, post] = folder.best_times(&program)?;
        println!(
            "  {entries:>6} entries: post {:>7.2} microseconds a transaction, check {:>7.2}",
            each(post, nothing),
            each(check, nothing)
        );
    }
    Ok(())
}

/// Microseconds for each of the transactions that were more.
fn each(more: Duration, less: Duration) -> f64 {
    (more.as_secs_f64() - less.as_secs_f64()) * 1e6 / MORE as f64
}

impl Folder {
    fn write(path: &Path, entries: usize) -> Result<Self> {
        fs::create_dir_all(path)?;
        let mut random = Random::new(SEED);
        let registers = registers(MANY, &mut random);
        registers.write(path)?;
        let keys = Keys::of(&registers);
        let between = references_between(entries, &mut random);
        let mut maker = Maker {
            random,
            keys: &keys,
        };
        let office = maker.key(RegisterName::Offices);
        let apart: Vec<usize> = (0..entries).map(|number| number * APART).collect();
        let mut filling = Vec::new();
        for (number, references) in apart.chunks(IN_A_FILE).enumerate() {
            let name = format!("fill-{number}.txt");
            let body = files::referenced(&mut maker, office, references);
            fs::write(path.join(&name), files::with_opening(number, &body))?;
            filling.push(name);
        }
        let body = files::referenced(&mut maker, office, &between);
        fs::write(path.join("last.txt"), files::with_opening(999, &body))?;
        Ok(Self {
            path: path.to_owned(),
            filling,
        })
    }

    /// The best time with each of the three, run by turns.
    fn best_times(&self, program: &Path) -> Result<[Duration; 3]> {
        let mut best = [Duration::MAX; 3];
        for _ in 0..RUNS {
            for (best, last) in best
                .iter_mut()
                .zip([Last::Nothing, Last::Check, Last::Post])
            {
                fs::write(self.path.join("calls.txt"), self.calls(last))?;
                *best = (*best).min(self.run(program)?);
            }
        }
        Ok(best)
    }

    fn calls(&self, last: Last) -> String {
        let mut calls: String = self
            .filling
            .iter()
            .map(|name| format!("post {DAY} {name}\n"))
            .collect();
        match last {
            Last::Nothing => {}
            Last::Check => calls += &format!("check {DAY} last.txt\n"),
            Last::Post => calls += &format!("post {DAY} last.txt\n"),
        }
        calls
    }

    fn run(&self, program: &Path) -> Result<Duration> {
        let start = Instant::now();
        let status = Command::new(program)
            .arg(&self.path)
            .arg("lent")
            .args(PLACES)
            .stdout(Stdio::null())
            .status()?;
        let time = start.elapsed();
        if status.success() {
            Ok(time)
        } else {
            Err(format!("month: {status}").into())
        }
    }
}

/// References between those of the book, all different, in no order.
fn references_between(entries: usize, random: &mut Random) -> Vec<usize> {
    let mut references = BTreeSet::new();
    while references.len() < MORE {
        let reference = random.below(entries) * APART + random.between(1, APART - 1);
        references.insert(reference);
    }
    let mut references: Vec<usize> = references.into_iter().collect();
    random.shuffle(&mut references);
    references
}

#[cfg(test)]
mod tests {
    use super::*;
    use crate::book::{Book, Places};
    use crate::input::Input;
    use crate::plain;
    use crate::register::Registers;

    #[test]
    fn payments_between_others_are_accepted() {
        let mut random = Random::new(SEED);
        let texts = registers(MANY, &mut random);
        let between = references_between(100, &mut random);
        let keys = Keys::of(&texts);
        let keys = &keys;
        let mut maker = Maker { random, keys };
        let office = maker.key(RegisterName::Offices);
        let apart: Vec<usize> = (0..100).map(|number| number * APART).collect();
        let mut book = Book::new(Places {
            entries: 1_100,
            lines: 1_100,
            marks: 2,
        });
        for (number, references) in [apart, between].iter().enumerate() {
            let body = files::referenced(&mut maker, office, references);
            let input = Input {
                file: &files::with_opening(number, &body),
                texts: texts.texts(),
                day: DAY,
            };
            let mut packet = [0; 16_020];
            let registers = Registers::read(&input.texts);
            plain::post(&input, &registers, &mut book, &mut packet).unwrap();
            let accepted = u32::from_le_bytes([packet[16], packet[17], packet[18], packet[19]]);
            assert_eq!(accepted as usize, references.len());
        }
    }
}
