//! Texts that slots are printed by.

use crate::builder::Slot;
use std::collections::HashMap;

/// The texts that the host gave slots: of a value without a name, for example, its place in the source.
#[derive(Clone, Debug, Default, PartialEq)]
pub struct SlotNames(HashMap<Slot, String>);

impl SlotNames {
    pub fn new() -> SlotNames {
        SlotNames::default()
    }

    /// Gives a slot a text; it stands before the names of the slot's identifiers.
    pub fn set(&mut self, slot: Slot, name: impl Into<String>) -> &mut Self {
        self.0.insert(slot, name.into());
        self
    }

    /// The text of a slot, if it was given one.
    pub fn get(&self, slot: Slot) -> Option<&str> {
        self.0.get(&slot).map(String::as_str)
    }

    /// The slots that were given a text, in no order.
    pub fn iter(&self) -> impl Iterator<Item = (Slot, &str)> {
        self.0.iter().map(|(&slot, name)| (slot, name.as_str()))
    }
}
