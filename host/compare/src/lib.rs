//! The library beside the Rust: images, answers, and what has to be equal.

pub mod answer;
#[cfg(feature = "library")]
#[cfg(feature = "rust")]
pub mod around;
#[cfg(feature = "rust")]
pub mod bodies;
#[cfg(feature = "rust")]
pub mod counts;
pub mod inputs;
#[cfg(feature = "rust")]
pub mod judge;
#[cfg(feature = "library")]
pub mod linked;
pub mod rows;
pub mod screens;
pub mod stored;
#[cfg(feature = "library")]
pub mod times;
