//! What a call for a listing has to leave, by an own call of `infer_types` and a walk over the bindings that it wrote.

use crate::answers::{is_done, sum, without_tables, Expected};
use crate::image::{type_kinds, Input, NONE};
use crate::listings::{Asked, Left};
use infer_types::{infer_types_into, work_words, Answer, Refusal, LIMIT};
use std::collections::{HashMap, HashSet};
use std::ops::Range;

/// A run that is lent enough table words.
pub struct Run {
    pub answer: Answer,
    tables: Vec<u32>,
    /// Where the binding of each bound variable's slot stands.
    bindings: HashMap<u32, Range<usize>>,
}

impl Run {
    pub fn of(input: &Input) -> Run {
        let Input { image, names, budget, work } = input;
        let enough = work_words(image.len().min(LIMIT), (*budget).min(LIMIT as u32));
        // More than a run asks for changes nothing but the time.
        let mut work = vec![0; enough.min(*work)];
        let mut call = |tables: &mut [u32]| infer_types_into(image, names, *budget, &mut work, tables);
        let mut answer = call(&mut []);
        let mut tables = vec![0; answer.table_words as usize];
        if answer.number == Refusal::TABLE_WORDS {
            answer = call(&mut tables);
        }
        let bindings = bindings(&answer, &tables);
        Run { answer, tables, bindings }
    }

    /// The slots of bound variables, ascending.
    pub fn bound(&self) -> Vec<u32> {
        let mut slots: Vec<u32> = self.bindings.keys().copied().collect();
        slots.sort();
        slots
    }

    fn binding(&self, slot: u32) -> Option<&[u32]> {
        self.bindings.get(&slot).map(|range| &self.tables[range.clone()])
    }

    /// The words of a slot's listing: its row, then what each variable in its binding adds.
    pub fn listing(&self, slot: u32) -> Vec<u32> {
        let (mut words, mut listed) = (vec![], HashSet::new());
        let mut open = vec![vec![slot].into_iter()];
        while let Some(variables) = open.last_mut() {
            match variables.next() {
                Some(slot) if listed.insert(slot) => {
                    let binding = self.binding(slot);
                    words.push(slot);
                    words.extend(binding.unwrap_or(&[NONE]));
                    open.push(binding.map(variables_of).unwrap_or_default().into_iter());
                }
                Some(_) => {}
                None => _ = open.pop(),
            }
        }
        words
    }

    /// What a call has to leave.
    pub fn left(&self, asked: Asked) -> Left {
        let Answer { steps, slots, table_words, .. } = self.answer;
        let refused = |answer, listing_words| Left::new(Expected::refused(answer), listing_words, &[]);
        let by_listing =
            |number, listing_words| refused(Answer { number, steps, ..Answer::default() }, listing_words);
        if !is_done(&self.answer) {
            return refused(self.answer, 0);
        }
        if table_words as usize > asked.tables {
            return refused(without_tables(self.answer), 0);
        }
        if asked.slot >= slots {
            return by_listing(Refusal::SLOT, 0);
        }
        let listing = self.listing(asked.slot);
        if listing.len() > asked.listing {
            return by_listing(Refusal::LISTING_WORDS, listing.len());
        }
        let run = Expected { answer: self.answer, sum: sum(&self.tables) };
        Left::new(run, listing.len(), &listing)
    }
}

/// Where the bindings stand in the tables that this answer says.
fn bindings(answer: &Answer, tables: &[u32]) -> HashMap<u32, Range<usize>> {
    let (mut at, mut bindings) = (0, HashMap::new());
    for _ in 0..answer.slots {
        at += type_words(&tables[at..]);
    }
    for _ in 0..answer.bindings {
        let end = at + 1 + type_words(&tables[at + 1..]);
        bindings.insert(tables[at], at + 1..end);
        at = end;
    }
    bindings
}

/// How many words the type takes that these begin with.
fn type_words(words: &[u32]) -> usize {
    let (mut at, mut types) = (0, 1);
    while types > 0 {
        types -= 1;
        types += match words[at] {
            type_kinds::FUNCTION | type_kinds::CONSTRUCTOR => 1,
            type_kinds::PHI => words[at + 1],
            _ => 0,
        };
        at += kind_words(words[at]);
    }
    at
}

/// The words of a type before those of the types in it.
fn kind_words(kind: u32) -> usize {
    match kind {
        type_kinds::PRIMITIVE | type_kinds::POLY | type_kinds::OBJECT_METHOD => 1,
        _ => 2,
    }
}

/// The slots of a type's variables, from left to right.
fn variables_of(words: &[u32]) -> Vec<u32> {
    let (mut at, mut variables) = (0, vec![]);
    while at < words.len() {
        if words[at] == type_kinds::VAR {
            variables.push(words[at + 1]);
        }
        at += kind_words(words[at]);
    }
    variables
}

/// The slots of a listing's rows.
pub fn row_slots(listing: &[u32]) -> Vec<u32> {
    let (mut at, mut slots) = (0, vec![]);
    while at < listing.len() {
        slots.push(listing[at]);
        at += 1 + if listing[at + 1] == NONE { 1 } else { type_words(&listing[at + 1..]) };
    }
    slots
}
