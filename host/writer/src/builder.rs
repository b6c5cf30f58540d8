//! The builder of images for hosts.

use crate::block::Body;
use crate::parts::{self, option_bits, rows, Table, NONE};
use crate::shape_names::ShapeNames;
use crate::slot_names::SlotNames;
use std::collections::HashMap;
use std::fmt;

/// Numbers of rows, one type for each table.
macro_rules! numbers {
    ($($(#[$doc:meta])* $name:ident;)*) => {
        $($(#[$doc])*
        #[derive(Clone, Copy, Debug, PartialEq, Eq, PartialOrd, Ord, Hash)]
        pub struct $name(pub(crate) u32);

        impl $name {
            /// The row of this number, for who has the words of an image and not its builder. Whether there is such a
            /// row is seen where it is used: the library refuses an image that names another, and a builder or tables
            /// that are asked for it panic. `parts::NONE` is no row's number.
            pub const fn from_number(number: u32) -> $name {
                $name(number)
            }

            /// The number in its table.
            pub const fn number(self) -> u32 {
                self.0
            }
        })*
    };
}

numbers! {
    /// A name.
    Name;
    /// An identifier: a slot and perhaps a name.
    Identifier;
    /// A slot: what the run gives a type to. Identifiers may share one.
    Slot;
    /// A type of the image.
    Type;
    /// A shape of objects and functions.
    Shape;
    /// A function.
    Function;
}

/// The shapes that every image has.
pub mod shapes {
    use super::Shape;

    pub const PROPS: Shape = Shape(0);
    pub const USE_REF: Shape = Shape(1);
    pub const SET_STATE: Shape = Shape(2);
    pub const OBJECT: Shape = Shape(3);
    pub const ARRAY: Shape = Shape(4);
    pub const FUNCTION: Shape = Shape(5);
    pub const JSX: Shape = Shape(6);
    pub const REF_VALUE: Shape = Shape(7);
    pub const MIXED_READONLY: Shape = Shape(8);
}

/// A finished image: the words and name bytes that the library takes, and what its types are printed with.
#[derive(Clone, Debug, PartialEq)]
pub struct Image {
    pub words: Vec<u32>,
    pub names: Vec<u8>,
    pub shape_names: ShapeNames,
    pub slot_names: SlotNames,
}

impl Image {
    /// The slot of an identifier. Panics if the image has no such identifier.
    pub fn slot_of(&self, identifier: Identifier) -> Slot {
        let (slot, _) = self.identifiers().nth(identifier.0 as usize).expect("an identifier of the image");
        slot
    }

    /// The slots of the identifiers, in their order, and the bytes of their names. The image has to be one that the
    /// library's check passes, or else this may panic.
    pub fn identifiers(&self) -> impl Iterator<Item = (Slot, Option<&[u8]>)> {
        rows(&self.words, Table::Identifiers).map(|row| (Slot(row[0]), self.name_bytes(row[1])))
    }

    fn name_bytes(&self, name: u32) -> Option<&[u8]> {
        let row = (name != NONE).then(|| rows(&self.words, Table::Names).nth(name as usize))?;
        let &[start, length] = row.expect("a name of the image") else { unreachable!("a row of two words") };
        Some(&self.names[start as usize..][..length as usize])
    }
}

/// A function that was announced and got no body.
#[derive(Clone, Copy, Debug, PartialEq)]
pub struct Missing(pub Function);

impl fmt::Display for Missing {
    fn fmt(&self, f: &mut fmt::Formatter<'_>) -> fmt::Result {
        write!(f, "function {} has no body", self.0.number())
    }
}

impl std::error::Error for Missing {}

/// Collects the rows of an image. It starts with no options, no hook type and the nine shapes, none registered.
#[derive(Clone, Default)]
pub struct Builder {
    image: parts::Image,
    names: HashMap<Vec<u8>, Name>,
    shape_names: ShapeNames,
    slot_names: SlotNames,
    bodies: Vec<Option<parts::Body>>,
}

impl Builder {
    pub fn new() -> Builder {
        Builder::default()
    }

    // options

    /// `enable_treat_ref_like_identifiers_as_refs`.
    pub fn treat_ref_like_identifiers_as_refs(&mut self) -> &mut Self {
        self.image.options |= option_bits::REFS;
        self
    }

    /// `enable_treat_set_identifiers_as_state_setters`.
    pub fn treat_set_identifiers_as_state_setters(&mut self) -> &mut Self {
        self.image.options |= option_bits::SETTERS;
        self
    }

    /// The type of properties that are named like hooks and stand in no shape.
    pub fn hook_type(&mut self, of: Type) -> &mut Self {
        self.image.hook = of.0;
        self
    }

    // names, slots, identifiers

    /// The name of these bytes; the same bytes get the same number.
    pub fn name(&mut self, text: impl AsRef<[u8]>) -> Name {
        let text = text.as_ref();
        if let Some(&name) = self.names.get(text) {
            return name;
        }
        let name = Name(self.image.name(text));
        self.names.insert(text.to_vec(), name);
        name
    }

    /// A slot that starts as its own variable.
    pub fn slot(&mut self) -> Slot {
        let slot = Slot(self.image.count(Table::Slots));
        let own = self.var(slot);
        self.slot_with_type(own)
    }

    /// A slot that starts with this type.
    pub fn slot_with_type(&mut self, of: Type) -> Slot {
        Slot(self.image.slot(of.0))
    }

    /// The slot of an identifier. Panics if this builder has no such identifier.
    pub fn slot_of(&self, identifier: Identifier) -> Slot {
        Slot(self.image.rows(Table::Identifiers)[Table::Identifiers.width() * identifier.0 as usize])
    }

    /// An unnamed identifier with a slot of its own.
    pub fn identifier(&mut self) -> Identifier {
        let slot = self.slot();
        self.identifier_of(slot, None)
    }

    /// The same, with a text that it is printed by: what stands in the source, for example. The library isn't told.
    pub fn described(&mut self, text: impl Into<String>) -> Identifier {
        let identifier = self.identifier();
        self.slot_names.set(self.slot_of(identifier), text);
        identifier
    }

    /// A named identifier with a slot of its own.
    pub fn named(&mut self, text: impl AsRef<[u8]>) -> Identifier {
        let (slot, name) = (self.slot(), self.name(text));
        self.identifier_of(slot, Some(name))
    }

    /// An identifier of this slot.
    pub fn identifier_of(&mut self, slot: Slot, name: Option<Name>) -> Identifier {
        Identifier(self.image.identifier(slot.0, name.map_or(NONE, |name| name.0)))
    }

    // types

    /// The variable of a slot.
    pub fn var(&mut self, slot: Slot) -> Type {
        Type(self.image.var(slot.0))
    }

    pub fn primitive(&mut self) -> Type {
        Type(self.image.primitive())
    }

    pub fn poly(&mut self) -> Type {
        Type(self.image.poly())
    }

    pub fn object_method(&mut self) -> Type {
        Type(self.image.method())
    }

    pub fn object(&mut self, shape: impl Into<Option<Shape>>) -> Type {
        Type(self.image.object(or_none(shape)))
    }

    pub fn function_type(&mut self, shape: impl Into<Option<Shape>>, returns: Type) -> Type {
        Type(self.image.function(or_none(shape), returns.0))
    }

    pub fn constructor_type(&mut self, shape: impl Into<Option<Shape>>, returns: Type) -> Type {
        Type(self.image.constructor(or_none(shape), returns.0))
    }

    pub fn phi_type(&mut self, operands: &[Type]) -> Type {
        let operands: Vec<u32> = operands.iter().map(|one| one.0).collect();
        Type(self.image.phi(&operands))
    }

    // shapes

    /// Another shape, with these properties; the names have to differ.
    pub fn shape(&mut self, properties: &[(&str, Type)]) -> Shape {
        let (first, count) = self.properties(properties);
        Shape(self.image.shape(first, count))
    }

    /// The same, with a name that it is printed by.
    pub fn shape_named(&mut self, name: impl Into<String>, properties: &[(&str, Type)]) -> Shape {
        let shape = self.shape(properties);
        self.shape_names.set(shape, name);
        shape
    }

    /// Another shape that isn't registered: its objects have no properties at all.
    pub fn absent_shape(&mut self) -> Shape {
        Shape(self.image.row(Table::Shapes, &[0, 0, 0]))
    }

    /// Registers a shape, one of the nine for example, with these properties; the names have to differ. Panics if this
    /// builder has no such shape.
    pub fn register(&mut self, shape: Shape, properties: &[(&str, Type)]) -> &mut Self {
        assert!(shape.0 < self.image.count(Table::Shapes), "no shape {}", shape.0);
        let (first, count) = self.properties(properties);
        self.image.set_shape(shape.0, [1, first, count]);
        self
    }

    fn properties(&mut self, properties: &[(&str, Type)]) -> (u32, u32) {
        let first = self.image.count(Table::Properties);
        for (text, of) in properties {
            let name = self.name(text);
            self.image.property(name.0, of.0);
        }
        (first, properties.len() as u32)
    }

    // functions

    /// Announces a function; the first is the outermost. Announce a function before those that stand in it, and name
    /// each of these in one instruction.
    pub fn function(&mut self) -> Function {
        self.bodies.push(None);
        Function(self.bodies.len() as u32 - 1)
    }

    /// Gives a function its body. Panics if this builder has no such function.
    pub fn body(&mut self, function: Function, body: Body) -> &mut Self {
        self.bodies[function.0 as usize] = Some(body.into_parts());
        self
    }

    /// The image, or a function that has no body yet.
    pub fn finish(mut self) -> Result<Image, Missing> {
        for (number, body) in self.bodies.into_iter().enumerate() {
            self.image.body(body.ok_or(Missing(Function(number as u32)))?);
        }
        let input = self.image.write();
        Ok(Image {
            words: input.image,
            names: input.names,
            shape_names: self.shape_names,
            slot_names: self.slot_names,
        })
    }
}

fn or_none(shape: impl Into<Option<Shape>>) -> u32 {
    shape.into().map_or(NONE, |shape| shape.0)
}
