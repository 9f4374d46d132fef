//! How fast each implementation is on large files, side by side.

use std::hint::black_box;
use std::time::{Duration, Instant};

use crate::fault::Result;
use crate::generate::files::{self, MOST_BYTES};
use crate::generate::maker::Maker;
use crate::generate::random::Random;
use crate::generate::registers::{FEW, Keys, MANY, Sizes, registers as generate};
use crate::implementations::{ALL, Implementation};
use crate::input::Input;
use crate::packet::{FILE_ITEM, VERDICT_ITEM};

const SEED: u64 = 0x1FAC_0002;

/// A file near the greatest length.
#[derive(Clone, Copy)]
enum LargeFile {
    Payments,
    ShortHeaders,
    BareHeaders,
}

impl LargeFile {
    fn name(self) -> &'static str {
        match self {
            Self::Payments => "payments with details and E records",
            Self::ShortHeaders => "headers of 39 bytes without details",
            Self::BareHeaders => "records of one byte, each a header",
        }
    }

    fn bytes(self, maker: &mut Maker) -> Vec<u8> {
        match self {
            Self::Payments => files::payments(maker),
            Self::ShortHeaders => files::short_headers(maker),
            Self::BareHeaders => files::bare_headers(),
        }
    }
}

/// How many keys the registers have.
#[derive(Clone, Copy)]
enum Registers {
    Few,
    Many,
}

impl Registers {
    fn name(self) -> &'static str {
        match self {
            Self::Few => "registers of 5 to 10 keys",
            Self::Many => "registers of 100 to 2,000 keys",
        }
    }

    fn sizes(self) -> Sizes {
        match self {
            Self::Few => FEW,
            Self::Many => MANY,
        }
    }
}

const RUNS: [(LargeFile, Registers); 5] = [
    (LargeFile::Payments, Registers::Few),
    (LargeFile::Payments, Registers::Many),
    (LargeFile::ShortHeaders, Registers::Few),
    (LargeFile::ShortHeaders, Registers::Many),
    (LargeFile::BareHeaders, Registers::Few),
];

/// The best time of one contestant.
struct Best {
    name: &'static str,
    time: Duration,
}

impl Best {
    fn bytes_a_second(&self, bytes: usize) -> f64 {
        bytes as f64 / self.time.as_secs_f64()
    }
}

/// Times all implementations and the counting pass on each file, so many rounds.
pub fn time(rounds: usize) -> Result<()> {
    println!("best of {rounds} rounds; packet buffers are not cleared between rounds");
    println!(
        "counting: file.iter().filter(|b| **b == b'\\n').count(), which the compiler vectorises"
    );
    for (file, registers) in RUNS {
        println!("\n{}, {}", file.name(), registers.name());
        time_file(file, registers, rounds)?;
    }
    check_too_long()
}

fn time_file(file: LargeFile, registers: Registers, rounds: usize) -> Result<()> {
    let mut random = Random::new(SEED);
    let texts = generate(registers.sizes(), &mut random);
    let keys = Keys::of(&texts);
    let mut maker = Maker {
        random,
        keys: &keys,
    };
    let bytes = file.bytes(&mut maker);
    let input = Input {
        file: &bytes,
        texts: texts.texts(),
        day: 0,
    };
    let packet = agreed_packet(&input)?;
    let length = packet.len();
    print_counts(&bytes, &packet);
    print_speeds(bytes.len(), &best_times(&input, length, rounds));
    Ok(())
}

/// The packet, on every byte of which all implementations agree.
fn agreed_packet(input: &Input) -> Result<Vec<u8>> {
    let [first, others @ ..] = ALL else {
        return Err("there is no implementation".into());
    };
    let records = count_line_feeds(input.file) as usize;
    let mut expected = vec![0; FILE_ITEM + VERDICT_ITEM * records];
    let answer = (first.first_look)(input, &mut expected);
    for Implementation { name, first_look } in others {
        let mut packet = vec![0; expected.len()];
        if first_look(input, &mut packet) != answer || packet != expected {
            return Err(format!("{name} and {} differ on a large file", first.name).into());
        }
    }
    expected.truncate(answer as usize);
    Ok(expected)
}

/// A file of one byte too many is refused with 1.
fn check_too_long() -> Result<()> {
    let texts = generate(FEW, &mut Random::new(SEED));
    let input = Input {
        file: &vec![b'\n'; MOST_BYTES + 1],
        texts: texts.texts(),
        day: 0,
    };
    match agreed_packet(&input)?.len() {
        1 => Ok(()),
        answer => Err(format!("a file that is too long gets {answer}").into()),
    }
}

/// Interleaved rounds: each contestant runs once in each round.
fn best_times(input: &Input, length: usize, rounds: usize) -> Vec<Best> {
    let mut packet = vec![0xA5; length];
    let mut best: Vec<Best> = ALL.iter().map(|one| Best::unmeasured(one.name)).collect();
    best.push(Best::unmeasured("counting"));
    for _ in 0..rounds {
        for (one, best) in ALL.iter().zip(&mut best) {
            best.measure(|| (one.first_look)(black_box(input), black_box(&mut packet)));
        }
        if let Some(counting) = best.last_mut() {
            counting.measure(|| count_line_feeds(black_box(input.file)));
        }
    }
    best
}

impl Best {
    fn unmeasured(name: &'static str) -> Self {
        Self {
            name,
            time: Duration::MAX,
        }
    }

    fn measure(&mut self, run: impl FnOnce() -> u64) {
        let start = Instant::now();
        black_box(run());
        self.time = self.time.min(start.elapsed());
    }
}

fn count_line_feeds(file: &[u8]) -> u64 {
    file.iter().filter(|byte| **byte == b'\n').count() as u64
}

fn print_counts(file: &[u8], packet: &[u8]) {
    let number = |at: usize| {
        packet[at..at + 4]
            .iter()
            .rev()
            .fold(0, |n, b| n << 8 | u32::from(*b))
    };
    println!(
        "  {} bytes, {} records, {} transactions, {} accepted",
        file.len(),
        number(8),
        number(12),
        number(16)
    );
}

/// The speeds, and that of the last implementation as a multiple of each other one's.
fn print_speeds(bytes: usize, best: &[Best]) {
    for one in best {
        let speed = one.bytes_a_second(bytes) / 1e6;
        println!("  {:<9}{speed:>8.1} million bytes a second", one.name);
    }
    let ours = &best[best.len() - 2];
    for other in best.iter().filter(|other| other.name != ours.name) {
        let ratio = ours.bytes_a_second(bytes) / other.bytes_a_second(bytes);
        println!("  {} / {:<9}{ratio:>6.2}", ours.name, other.name);
    }
}
