//! Calls for a listing at the edges of each of its rules, with the number of each and some of their words.

use crate::image::*;
use crate::known::{self, Screen};
use crate::listed::{row_slots, Run};
use crate::listings::{Asked, ListingCase};
use infer_types::{Answer, Refusal};
use std::sync::Arc;

const DONE: u32 = Answer::DONE;

struct Cases(Vec<ListingCase>);

impl Cases {
    /// A call that ends with this number.
    fn add(&mut self, name: impl Into<String>, number: u32, input: &Input, asked: Asked) {
        let (name, left) = (name.into(), Run::of(input).left(asked));
        assert_eq!(left.run.answer.number, number, "{name}");
        self.0.push(ListingCase { name, input: Arc::new(input.clone()), asked, left });
    }

    /// A slot's listing has these words; just enough of each are lent, or one too few, or more.
    fn listing(&mut self, name: &str, input: &Input, slot: u32, words: &[u32]) {
        let run = Run::of(input);
        assert_eq!(run.listing(slot), words, "{name}, slot {slot}");
        let (tables, listing) = (run.answer.table_words as usize, words.len());
        let mut budgeted = input.clone();
        budgeted.budget = run.answer.steps;
        budgeted.lend_enough();
        for (what, number, tables, listing) in [
            ("just enough", DONE, tables, listing),
            ("a listing word more", DONE, tables, listing + 1),
            ("more of both", DONE, tables + 1_000, listing + 1_000),
            ("a listing word too few", Refusal::LISTING_WORDS, tables, listing - 1),
            ("no listing words", Refusal::LISTING_WORDS, tables, 0),
            ("no listing words, and more table words", Refusal::LISTING_WORDS, tables + 1_000, 0),
            ("a table word too few", Refusal::TABLE_WORDS, tables - 1, listing),
            ("one too few of both", Refusal::TABLE_WORDS, tables - 1, listing - 1),
            ("none of both", Refusal::TABLE_WORDS, 0, 0),
        ] {
            let asked = Asked { slot, tables, listing };
            self.add(format!("{name}, slot {slot}: {what}"), number, input, asked);
            self.add(format!("{name}, slot {slot}: {what}, no step over"), number, &budgeted, asked);
        }
    }

    /// The slots of the rows are these.
    fn order(&mut self, name: &str, input: &Input, slots: &[u32]) {
        let listing = Run::of(input).listing(slots[0]);
        assert_eq!(row_slots(&listing), slots, "{name}");
        self.listing(name, input, slots[0], &listing);
    }
}

pub fn edges() -> Vec<ListingCase> {
    let mut cases = Cases(vec![]);
    one_row(&mut cases);
    words(&mut cases);
    chains(&mut cases);
    orders(&mut cases);
    nested(&mut cases);
    made(&mut cases);
    slots_outside(&mut cases);
    refused(&mut cases);
    work(&mut cases);
    cases.0
}

/// So many variables, numbered as their slots, some of them bound by loads of types.
fn bound(variables: u32, types: fn(&mut Image) -> Vec<(u32, u32)>) -> Input {
    let mut image = Image::new();
    let primitive = image.primitive();
    for _ in 0..variables {
        let slot = image.slot(primitive);
        image.identifier(slot, NONE);
    }
    let loads = types(&mut image).into_iter();
    let loads =
        loads.map(|(variable, of)| Instruction::new(Kind::LoadGlobal, variable, of, vec![])).collect();
    image.body(Body::of(0, loads));
    image.write()
}

/// A phi of Primitive and these variables: it is bound as it stands.
fn phi(image: &mut Image, variables: &[u32]) -> u32 {
    let mut operands = vec![image.primitive()];
    operands.extend(variables.iter().map(|&variable| image.var(variable)));
    image.phi(&operands)
}

/// A function that returns this variable.
fn function(image: &mut Image, variable: u32) -> u32 {
    let returned = image.var(variable);
    image.function(NONE, returned)
}

fn one_row(cases: &mut Cases) {
    cases.listing("the least image", &known::short().input, 0, &[0, NONE]);
    let mut image = crate::edges::least();
    for _ in 0..3 {
        image.slot(0);
    }
    for slot in 1..4 {
        cases.listing("slots that no identifier has", &image.write(), slot, &[slot, NONE]);
    }
    let long = known::short().extended_to(65_536).with_budget(65_536);
    cases.listing("the most words and steps", &with_work(long), 0, &[0, NONE]);
    let lookups = known::lookups().input;
    cases.listing("an object", &lookups, 0, &[0, type_kinds::OBJECT, 9]);
    cases.listing("a primitive", &lookups, 3, &[3, type_kinds::PRIMITIVE]);
    cases.listing("a method", &lookups, 6, &[6, type_kinds::OBJECT_METHOD]);
    cases.listing("the last slot", &lookups, 12, &[12, NONE]);
}

fn with_work(screen: Screen) -> Input {
    let mut input = screen.input;
    input.lend_enough();
    input
}

/// Row C of document 01.
fn words(cases: &mut Cases) {
    let phi = known::phi().input;
    let row_1 = [1, 7, 2, 0, 0, 0, 2];
    let row_2 = [2, 7, 1, 0, 0];
    cases.listing("row C", &phi, 0, &[0, NONE]);
    cases.listing("row C", &phi, 1, &[&row_1[..], &[0, NONE], &row_2].concat());
    cases.listing("row C", &phi, 2, &[&row_2[..], &[0, NONE]].concat());
    cases.listing("row C", &phi, 3, &[3, NONE]);
}

fn chains(cases: &mut Cases) {
    let chain = bound(6, |image| [3, 1, 4, 2].windows(2).map(|two| (two[0], image.var(two[1]))).collect());
    cases.listing("a chain", &chain, 3, &[3, 0, 1, 1, 0, 4, 4, 0, 2, 2, NONE]);
    cases.listing("the rest of a chain", &chain, 4, &[4, 0, 2, 2, NONE]);
    cases.listing("the end of a chain", &chain, 2, &[2, NONE]);
    let to_type = bound(4, |image| vec![(1, image.var(2)), (2, image.primitive())]);
    cases.listing("a chain to a type", &to_type, 1, &[1, 0, 2, 2, 1]);
    let to_function = bound(4, |image| vec![(1, image.var(2)), (2, function(image, 3))]);
    cases.listing("a chain to a function", &to_function, 1, &[1, 0, 2, 2, 5, NONE, 0, 3, 3, NONE]);
}

fn orders(cases: &mut Cases) {
    let repeated = bound(4, |image| vec![(1, phi(image, &[2, 3, 2, 3, 3, 2]))]);
    cases.order("variables of a phi more than once", &repeated, &[1, 2, 3]);
    let numbers = bound(6, |image| vec![(1, phi(image, &[4, 2, 5, 3]))]);
    cases.order("from left to right", &numbers, &[1, 4, 2, 5, 3]);
    let to_end = bound(7, |image| {
        vec![
            (1, phi(image, &[2, 3])),
            (2, function(image, 4)),
            (4, phi(image, &[5, 6])),
            (3, function(image, 6)),
        ]
    });
    cases.order("each to its end", &to_end, &[1, 2, 4, 5, 6, 3]);
    cases.order("each to its end, from within", &to_end, &[3, 6]);
    let later = bound(5, |image| vec![(1, phi(image, &[2, 3])), (2, phi(image, &[3, 4]))]);
    cases.order("one that is inside an earlier one", &later, &[1, 2, 3, 4]);
    let diamond = bound(7, |image| {
        let four = phi(image, &[5, 6, 5]);
        vec![(1, phi(image, &[2, 3])), (2, function(image, 4)), (3, function(image, 4)), (4, four)]
    });
    cases.order("two ways to one variable", &diamond, &[1, 2, 4, 5, 6, 3]);
    cases.order("two ways to one variable, from the second", &diamond, &[3, 4, 5, 6]);
}

/// Types in types.
fn nested(cases: &mut Cases) {
    let nested = bound(5, |image| {
        let mut of = function(image, 2);
        of = image.constructor(3, of);
        vec![(1, image.function(NONE, of)), (2, function(image, 4))]
    });
    cases.order("functions in functions", &nested, &[1, 2, 4]);
    let inside = bound(6, |image| {
        let returned = function(image, 3);
        let left = image.var(2);
        let left = image.phi(&[0, left, returned]);
        let right = phi(image, &[5, 2]);
        let right = image.function(NONE, right);
        let between = image.var(4);
        vec![(1, image.phi(&[left, between, right]))]
    });
    cases.order("phis and functions inside", &inside, &[1, 2, 3, 4, 5]);
}

/// Slots that the run makes: one for a call, whose callee may have been bound before.
fn made(cases: &mut Cases) {
    let with_callee = |callee: fn(&mut Image) -> Vec<(u32, u32)>| {
        let mut image = Image::new();
        let [_, callee_at, result, _] = [(); 4].map(|()| image.variable());
        let loads = callee(&mut image).into_iter();
        let mut instructions: Vec<Instruction> =
            loads.map(|(variable, of)| Instruction::new(Kind::LoadGlobal, variable, of, vec![])).collect();
        let call = Instruction::new(Kind::CallExpression, result, 0, vec![Item::place(callee_at)]);
        instructions.push(call);
        image.body(Body::of(0, instructions));
        image.write()
    };
    let unbound = with_callee(|_| vec![]);
    cases.listing("a made slot", &unbound, 4, &[4, NONE]);
    cases.listing("a callee", &unbound, 1, &[1, 5, NONE, 0, 4, 4, NONE]);
    cases.listing("a call", &unbound, 2, &[2, 0, 4, 4, NONE]);
    let primitive = with_callee(|image| {
        let primitive = image.primitive();
        vec![(1, image.function(NONE, primitive))]
    });
    cases.listing("a made slot that is bound", &primitive, 4, &[4, 1]);
    let nested = with_callee(|image| {
        let returned = function(image, 3);
        vec![(1, image.function(NONE, returned))]
    });
    cases.listing("a made slot with another inside", &nested, 4, &[4, 5, NONE, 0, 3, 3, NONE]);
}

/// 17, which comes after 14 and before 18
fn slots_outside(cases: &mut Cases) {
    let mut call = Image::new();
    let [callee, result] = [(); 2].map(|()| call.variable());
    let instruction = Instruction::new(Kind::CallExpression, result, 0, vec![Item::place(callee)]);
    call.body(Body::of(result, vec![instruction; 3]));
    for input in [known::short().input, known::phi().input, known::lookups().input, call.write()] {
        let Answer { slots, table_words, .. } = Run::of(&input).answer;
        let tables = table_words as usize;
        let mut add = |number, slot, tables, listing| {
            let name = format!("slot {slot} of {slots}, {tables} table words, {listing} listing words");
            cases.add(name, number, &input, Asked { slot, tables, listing });
        };
        add(DONE, slots - 1, tables, 1_000);
        for slot in [slots, slots + 1, 1 << 16, 1 << 29, 1 << 30, 1 << 31, NONE - 1, NONE] {
            for listing in [0, 1, 1_000] {
                add(Refusal::SLOT, slot, tables, listing);
                add(Refusal::SLOT, slot, tables + 1_000, listing);
                add(Refusal::TABLE_WORDS, slot, tables - 1, listing);
            }
        }
        for slot in [0, slots - 1] {
            add(Refusal::LISTING_WORDS, slot, tables, 1);
            add(Refusal::TABLE_WORDS, slot, tables - 1, 1);
        }
    }
}

/// Each number that a run may be refused with, whatever is asked of it.
fn refused(cases: &mut Cases) {
    for number in (1..=13).filter(|&number| number != Refusal::WORK_WORDS) {
        let mut input = known::refused(number).input;
        if number != Refusal::BUDGET {
            input.lend_enough();
        }
        for more in [0, 100] {
            input.work += more;
            for (slot, tables, listing) in [(0, 0, 0), (0, 50, 50), (NONE, 0, 0), (NONE, 50, 50), (1, 0, 50)]
            {
                let asked = Asked { slot, tables, listing };
                cases.add(format!("{number}, {more} work words more, {asked:?}"), number, &input, asked);
            }
        }
    }
}

/// 4, and work words beyond those asked for
fn work(cases: &mut Cases) {
    for screen in [known::short(), known::phi(), known::lookups()] {
        let enough = Asked { slot: 0, tables: screen.alone.written(), listing: 100 };
        for (work, number) in
            [(0, 0), (1, 0), (1_000_000, 0), (-1, 4), (-8, 4), (-(screen.input.work as i64), 4)]
        {
            let mut input = screen.input.clone();
            input.work = (input.work as i64 + work) as usize;
            for asked in [enough, Asked { slot: NONE, tables: 0, listing: 0 }] {
                let number = match (number, asked.tables) {
                    (0, 0) => Refusal::TABLE_WORDS,
                    _ => number,
                };
                cases.add(format!("{work} work words more, {asked:?}"), number, &input, asked);
            }
        }
    }
}
