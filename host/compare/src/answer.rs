//! Answers, and who gives them.

use infer_image::parts::{Input, NONE};

/// The lookups of a finished run of the Rust, which counts none.
pub const UNCOUNTED: [u32; 4] = [NONE; 4];

/// What a run answers; the tables are there if the number is 0.
#[derive(Clone, Debug, Default, PartialEq)]
pub struct Answer {
    pub number: u32,
    pub steps: u32,
    pub slots: u32,
    pub bindings: u32,
    pub table_words: u32,
    /// The property lookups that found a type by the exact name, by "*", by the hook rule, and those that found none.
    pub lookups: [u32; 4],
    pub tables: Vec<u32>,
}

/// The library, or something in its place.
pub trait Library {
    /// The answer with table words enough.
    fn answer(&mut self, input: &Input) -> Answer;
}
