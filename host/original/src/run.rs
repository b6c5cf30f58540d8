//! A run of the pass over an image, and its tables as document 01 writes them.

use crate::infer_types::beside::infer_types_and_look;
use crate::infer_types::infer_types;
use crate::react_compiler_hir::Type;
use crate::screen::{self, Accents, NotText, Screen};
use crate::stand_ins::oxc_allocator::Allocator;
use infer_image::parts::NONE;
use std::panic::{AssertUnwindSafe, catch_unwind};

/// Slots and bindings, as in the answer's tables.
#[derive(Clone, Debug, Default, PartialEq)]
pub struct Tables {
    pub slots: u32,
    pub bindings: u32,
    pub words: Vec<u32>,
}

/// How a run of the Rust ends.
#[derive(Clone, Debug, PartialEq)]
pub enum Outcome {
    Done(Tables),
    /// The error of a Phi without operands, document 01's 11.
    NoOperand,
    /// A variable leads back to itself, document 01's 12; nothing looked at it until types were to be applied.
    Cycle,
    /// The same, and a look at it had to be stopped.
    EndlessCycle,
    /// The name at which `[..1]` cuts a character.
    Panic,
    /// No run: a name isn't UTF-8.
    NotText,
    /// Stopped, and no variable leads back to itself; or the child process ended.
    NoEnd,
}

/// Runs the pass over an image that passed the check, with at most so many looks into maps (feature `counted`).
pub fn run(words: &[u32], names: &[u8], accents: Accents, most: u64) -> Outcome {
    let allocator = Allocator::default();
    let run = || {
        let mut screen = screen::read(words, names, accents, &allocator)?;
        let finished = infer_types_and_look(&mut screen.function, &mut screen.environment, most);
        Ok(match finished.result {
            None if finished.cyclic => Outcome::EndlessCycle,
            None => Outcome::NoEnd,
            Some(_) if finished.cyclic => Outcome::Cycle,
            Some(Err(error)) => {
                assert_eq!(error.message(), "there should be at least one operand");
                Outcome::NoOperand
            }
            Some(Ok(())) => {
                assert!(same_by_itself(words, names, accents, &screen), "infer_types gives other types");
                Outcome::Done(tables(&screen, &finished.bindings))
            }
        })
    };
    match catch_unwind(AssertUnwindSafe(run)) {
        Ok(Ok(outcome)) => outcome,
        Ok(Err(NotText)) => Outcome::NotText,
        Err(_) => Outcome::Panic,
    }
}

/// Whether `infer_types` itself, whose unifier can't be looked at, leaves the same types in the slots.
fn same_by_itself(words: &[u32], names: &[u8], accents: Accents, screen: &Screen) -> bool {
    let allocator = Allocator::default();
    let Ok(mut again) = screen::read(words, names, accents, &allocator) else { return false };
    infer_types(&mut again.function, &mut again.environment).is_ok() && slots(&again) == slots(screen)
}

fn slots(screen: &Screen) -> Vec<u32> {
    let mut words = vec![];
    for ty in screen.environment.types.iter() {
        write(screen, ty, &mut words);
    }
    words
}

fn tables(screen: &Screen, bindings: &[(crate::react_compiler_hir::TypeId, Type)]) -> Tables {
    let mut words = slots(screen);
    for (slot, bound) in bindings {
        words.push(slot.index() as u32);
        write(screen, bound, &mut words);
    }
    Tables { slots: screen.environment.types.len() as u32, bindings: bindings.len() as u32, words }
}

/// Adds a type as the tables write it.
fn write(screen: &Screen, ty: &Type, words: &mut Vec<u32>) {
    let shape =
        |id: &Option<crate::stand_ins::oxc_str::Ident>| id.map_or(NONE, |id| screen.shapes[id.as_str()]);
    match ty {
        Type::Var { id } => words.extend([0, id.index() as u32]),
        Type::Primitive => words.push(1),
        Type::Poly => words.push(2),
        Type::ObjectMethod => words.push(3),
        Type::Object { shape_id } => words.extend([4, shape(shape_id)]),
        Type::Function { shape_id, return_type, is_constructor } => {
            words.extend([if *is_constructor { 6 } else { 5 }, shape(shape_id)]);
            write(screen, return_type, words);
        }
        Type::Phi { operands } => {
            words.extend([7, operands.len() as u32]);
            for operand in operands {
                write(screen, operand, words);
            }
        }
        Type::Property { .. } => unreachable!("a property is never bound"),
    }
}

/// The pass ready to run, for a clock: what is timed is `infer_types` alone.
pub struct Prepared<'a>(Screen<'a>);

impl<'a> Prepared<'a> {
    pub fn new(words: &[u32], names: &[u8], allocator: &'a Arena) -> Option<Self> {
        screen::read(words, names, Accents::Guarded, &allocator.0).ok().map(Prepared)
    }

    pub fn run(&mut self) {
        let result = infer_types(&mut self.0.function, &mut self.0.environment);
        let _ = std::hint::black_box(result);
    }
}

/// What the strings of a prepared run live in.
#[derive(Default)]
pub struct Arena(Allocator);
