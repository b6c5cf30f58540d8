//! Images in their parts, and inputs with the numbers that are due.

pub use infer_image::parts::*;

/// An input with the number that the check has to answer.
pub struct Case {
    pub name: String,
    pub input: Input,
    pub expected: u32,
}
