//! The stored vectors: files and the packets that they must get.

use std::fs;
use std::path::Path;

use crate::fault::Result;
use crate::input::{FirstLook, Input, RegisterTexts, Texts};

/// A file and what it must be answered with.
pub struct Vector {
    pub name: String,
    pub file: Vec<u8>,
    pub day: u32,
    pub buffer: usize,
    pub answer: u64,
    pub packet: Vec<u8>,
}

/// All stored vectors with their registers.
pub struct Vectors {
    pub registers: RegisterTexts,
    pub vectors: Vec<Vector>,
}

impl Vectors {
    pub fn read(folder: &Path) -> Result<Self> {
        let registers = RegisterTexts::read(&folder.join("registers"))?;
        let vectors = fs::read_to_string(folder.join("expected.txt"))?
            .lines()
            .map(|line| Vector::read(line, &folder.join("files")))
            .collect::<Result<_>>()?;
        Ok(Self { registers, vectors })
    }

    /// The names of the vectors that are answered otherwise.
    pub fn failures(&self, first_look: FirstLook) -> Vec<&str> {
        let fails = |vector: &&Vector| !vector.passes(first_look, self.registers.texts());
        let failures = self.vectors.iter().filter(fails);
        failures.map(|vector| vector.name.as_str()).collect()
    }
}

impl Vector {
    fn read(line: &str, files: &Path) -> Result<Self> {
        let parts: Vec<&str> = line.split(' ').collect();
        let [name, day, buffer, answer, packet] = parts[..] else {
            return Err(format!("expected.txt: not five parts: {line}").into());
        };
        Ok(Self {
            name: name.to_owned(),
            file: fs::read(files.join(name))?,
            day: day.parse()?,
            buffer: buffer.parse()?,
            answer: answer.parse()?,
            packet: bytes_of_hex(packet)?,
        })
    }

    /// Whether the answer, the packet and the bytes behind it are as they must be.
    fn passes(&self, first_look: FirstLook, texts: Texts) -> bool {
        const UNTOUCHED: u8 = 0xA5;
        let input = Input {
            file: &self.file,
            texts,
            day: self.day,
        };
        let mut buffer = vec![UNTOUCHED; self.buffer];
        let answer = first_look(&input, &mut buffer);
        let (packet, behind) = buffer.split_at(self.packet.len());
        answer == self.answer && packet == self.packet && behind.iter().all(|b| *b == UNTOUCHED)
    }
}

fn bytes_of_hex(text: &str) -> Result<Vec<u8>> {
    if text == "-" {
        return Ok(Vec::new());
    }
    let digits = text.as_bytes().chunks(2);
    digits
        .map(|pair| Ok(u8::from_str_radix(std::str::from_utf8(pair)?, 16)?))
        .collect()
}
