//! The row prover a second time, from the rules alone and by other methods than the product's: it is what
//! the product is compared with, so it is written to be read, and shares no code with it.
//!
//! Bottom up: `field`, `poly`, `qap` are the mathematics; `refusal`, `circuit`, `assignment` read words;
//! `calls`, `job`, `exported` are the rules' calls, program and exported functions. `jobs` makes inputs,
//! `harness` compares, `served` calls the product's two functions in a process of their own.

pub mod assignment;
pub mod calls;
pub mod circuit;
pub mod exported;
pub mod field;
pub mod harness;
pub mod job;
pub mod jobs;
pub mod poly;
pub mod qap;
pub mod refusal;
pub mod served;
pub mod words;
