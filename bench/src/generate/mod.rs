//! Inputs, the same in every run.

pub mod damage;
pub mod files;
pub mod maker;
pub mod random;
pub mod registers;
mod transactions;
