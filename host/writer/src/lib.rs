//! Writes images for the type inference pass (document 01, "The image").
//!
//! `Builder` is for hosts: it numbers every row itself and hands out numbers that can't be mixed up. `parts` is for
//! tests: the same image in plain numbers, right or wrong.

mod block;
mod builder;
pub mod parts;
mod shape_names;
mod slot_names;

pub use block::{Argument, Block, Body, Element, Key, Prop};
pub use builder::{shapes, Builder, Function, Identifier, Image, Missing, Name, Shape, Slot, Type};
pub use shape_names::ShapeNames;
pub use slot_names::SlotNames;
