//! The benchmark of first look: `bench/run` calls it.

mod book;
mod bytes;
mod code;
mod compare;
mod fault;
#[cfg(feature = "gateway")]
mod gateway;
mod generate;
mod implementations;
mod input;
mod layout;
mod month;
mod opening;
mod packet;
mod plain;
mod register;
mod settle;
mod timing;
mod transaction;
mod tricks;
mod vectors;

use std::env;
use std::path::Path;

use fault::Result;
use vectors::Vectors;

const USAGE: &str =
    "usage: bench vectors DATA | compare DATA COUNT KEPT | time ROUNDS | month PROGRAM FOLDER";

fn main() -> Result<()> {
    let arguments: Vec<String> = env::args().skip(1).collect();
    let arguments: Vec<&str> = arguments.iter().map(String::as_str).collect();
    match arguments[..] {
        ["vectors", data] => check_vectors(Path::new(data)),
        ["compare", data, count, kept] => {
            compare_all(Path::new(data), count.parse()?, Path::new(kept))
        }
        ["time", rounds] => timing::time(rounds.parse()?),
        ["month", program, folder] => month::time(Path::new(program), Path::new(folder)),
        _ => Err(USAGE.into()),
    }
}

/// Holds every implementation against the stored vectors.
fn check_vectors(data: &Path) -> Result<()> {
    let vectors = Vectors::read(data)?;
    for implementation in implementations::ALL {
        let failures = vectors.failures(implementation.first_look);
        if let [first, ..] = failures[..] {
            let name = implementation.name;
            let count = failures.len();
            return Err(format!("{name}: {count} vectors fail, the first is {first}").into());
        }
        let count = vectors.vectors.len();
        println!("{}: {count} of {count} vectors", implementation.name);
    }
    Ok(())
}

/// Holds the implementations against one another.
fn compare_all(data: &Path, count: usize, kept: &Path) -> Result<()> {
    let vectors = Vectors::read(data)?;
    let codes = compare::compare(&vectors, implementations::ALL, count, kept)?;
    let names: Vec<&str> = implementations::ALL.iter().map(|one| one.name).collect();
    println!("{}: the same on {count} small inputs", names.join(", "));
    codes.print();
    Ok(())
}
