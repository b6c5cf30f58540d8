//! The tables of a run, read.

use crate::inferred::{type_words, Inferred};
use crate::{Answer, Lookups};
use infer_image::parts::{rows, Table};
use infer_image::{Identifier, Slot};
use std::fmt;
use std::ops::Range;

/// The slots' types and the variables' bindings.
///
/// Slots and identifiers are those of the image that was run. One that this image doesn't have panics, as an index past
/// the end does; one of another image that is in range can't be told from its own.
#[derive(Clone, Debug, Default, PartialEq)]
pub struct Tables {
    /// The steps that the run took.
    pub steps: u32,
    lookups: Lookups,
    pub(crate) words: Vec<u32>,
    /// Where each slot's type ends; the next one's starts there.
    slot_ends: Vec<usize>,
    /// Each bound slot, ascending, and where its binding stands.
    bindings: Vec<(Slot, Range<usize>)>,
    /// The slot of each identifier.
    identifier_slots: Vec<Slot>,
}

impl Tables {
    /// The tables in these words.
    pub(crate) fn new(answer: Answer, words: Vec<u32>, image: &[u32]) -> Tables {
        let mut tables = Tables { words, ..Tables::default() };
        tables.read(answer, image);
        tables
    }

    /// Reads what stands in the words: the tables that this answer says, of an image that passed the check.
    pub(crate) fn read(&mut self, answer: Answer, image: &[u32]) {
        self.steps = answer.steps;
        self.lookups = answer.lookups();
        self.words.truncate(answer.table_words as usize);
        let mut at = 0;
        self.slot_ends.clear();
        self.slot_ends.reserve(answer.slots as usize);
        for _ in 0..answer.slots {
            at += type_words(&self.words[at..]);
            self.slot_ends.push(at);
        }
        self.bindings.clear();
        self.bindings.reserve(answer.bindings as usize);
        for _ in 0..answer.bindings {
            let slot = Slot::from_number(self.words[at]);
            let end = at + 1 + type_words(&self.words[at + 1..]);
            self.bindings.push((slot, at + 1..end));
            at = end;
        }
        self.identifier_slots.clear();
        let identifiers = rows(image, Table::Identifiers);
        self.identifier_slots.extend(identifiers.map(|row| Slot::from_number(row[0])));
    }

    /// The words, as the library wrote them.
    pub fn words(&self) -> &[u32] {
        &self.words
    }

    /// How many property lookups the run made, by what gave each its type.
    pub fn lookups(&self) -> Lookups {
        self.lookups
    }

    /// The type of an identifier: that of its slot. Panics if there is no such identifier.
    pub fn of(&self, identifier: Identifier) -> Inferred<'_> {
        self.slot(self.slot_of(identifier))
    }

    /// The slot of an identifier. Panics if there is no such identifier.
    pub fn slot_of(&self, identifier: Identifier) -> Slot {
        self.identifier_slots[identifier.number() as usize]
    }

    /// The slots: the image's, then those that the run made.
    pub fn slot_count(&self) -> usize {
        self.slot_ends.len()
    }

    /// The type of a slot. Panics if there is no such slot.
    pub fn slot(&self, slot: Slot) -> Inferred<'_> {
        let number = slot.number() as usize;
        let start = if number == 0 { 0 } else { self.slot_ends[number - 1] };
        Inferred::new(&self.words[start..self.slot_ends[number]])
    }

    /// Slots and their types, ascending.
    pub fn slots(&self) -> impl Iterator<Item = (Slot, Inferred<'_>)> {
        (0..self.slot_count() as u32).map(Slot::from_number).map(|slot| (slot, self.slot(slot)))
    }

    pub fn binding_count(&self) -> usize {
        self.bindings.len()
    }

    /// What a slot's variable is bound to, if it is. Panics if there is no such slot.
    pub fn binding(&self, slot: Slot) -> Option<Inferred<'_>> {
        assert!(
            (slot.number() as usize) < self.slot_count(),
            "slot {} of {}",
            slot.number(),
            self.slot_count()
        );
        let at = self.bindings.binary_search_by_key(&slot, |binding| binding.0).ok()?;
        Some(self.type_at(&self.bindings[at].1))
    }

    /// Bound slots and what they are bound to, slots ascending.
    pub fn bindings(&self) -> impl Iterator<Item = (Slot, Inferred<'_>)> {
        self.bindings.iter().map(|(slot, range)| (*slot, self.type_at(range)))
    }

    fn type_at(&self, range: &Range<usize>) -> Inferred<'_> {
        Inferred::new(&self.words[range.clone()])
    }
}

impl fmt::Display for Tables {
    /// A line for each slot and each binding, as the program `infer_main` prints them.
    fn fmt(&self, f: &mut fmt::Formatter<'_>) -> fmt::Result {
        for (slot, of) in self.slots() {
            writeln!(f, "slot {} {of}", slot.number())?;
        }
        self.bindings().try_for_each(|(slot, bound)| writeln!(f, "bind {} {bound}", slot.number()))
    }
}
