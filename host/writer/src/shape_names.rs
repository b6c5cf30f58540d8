//! Names that shapes are printed by.

use crate::builder::Shape;
use std::collections::HashMap;

/// The nine shapes' names, in the order of `shapes`.
const BUILT_IN: [&str; 9] =
    ["Props", "UseRef", "SetState", "Object", "Array", "Function", "Jsx", "RefValue", "MixedReadonly"];

/// The names of shapes: those of the nine, and those that the host gave.
#[derive(Clone, Debug, Default, PartialEq)]
pub struct ShapeNames(HashMap<Shape, String>);

impl ShapeNames {
    pub fn new() -> ShapeNames {
        ShapeNames::default()
    }

    /// Names a shape, one of the nine too.
    pub fn set(&mut self, shape: Shape, name: impl Into<String>) -> &mut Self {
        self.0.insert(shape, name.into());
        self
    }

    /// The name of a shape, if it has one.
    pub fn get(&self, shape: Shape) -> Option<&str> {
        let built_in = || BUILT_IN.get(shape.number() as usize).copied();
        self.0.get(&shape).map(String::as_str).or_else(built_in)
    }
}
