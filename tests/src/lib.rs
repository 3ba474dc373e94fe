//! Independent tests of the Kutimuq C library against a plain reference.

pub mod bitmaps;
pub mod cases;
pub mod compare;
pub mod completion;
pub mod examples;
pub mod fast;
pub mod generate;
pub mod isolation;
pub mod jobs;
pub mod layout;
#[cfg(feature = "library")]
pub mod library;
pub mod lists;
pub mod operations;
pub mod program;
pub mod random;
pub mod reference;
pub mod report;
pub mod rewriting;
pub mod roundtrip;
pub mod screens;
pub mod selfcheck;
pub mod spectrum;
pub mod walks;

#[cfg(test)]
mod altered;
#[cfg(test)]
mod tests;
