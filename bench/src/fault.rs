//! What can go wrong while the benchmark runs.

pub type Result<T> = std::result::Result<T, Box<dyn std::error::Error>>;
