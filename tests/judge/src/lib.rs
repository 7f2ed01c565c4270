//! The Rust side that judges the proved code: document 01's records and refusals read a second
//! time, files to try, and the forms in which cases and examples are kept.
//!
//! Nothing here is taken from the proved crates or from the Rust text.

mod aimed;
pub mod breaker;
pub mod cases;
pub mod effects;
pub mod examples;
pub mod generate;
pub mod listing;
pub mod model;
pub mod random;
pub mod reading;
pub mod real;
pub mod records;
pub mod shapes;
pub mod words;
