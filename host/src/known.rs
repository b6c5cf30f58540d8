//! Small screens whose answers were found by hand.

use crate::answers::{sum, Expected};
use crate::edges::{edges, least};
use crate::image::*;
use infer_types::{Answer, Refusal, LIMIT};

/// An input, and what its own call answers with work words and table words enough.
#[derive(Clone)]
pub struct Screen {
    pub input: Input,
    pub alone: Expected,
}

impl Screen {
    fn done(image: &Image, answer: Answer, tables: &[u32]) -> Screen {
        let answer = Answer { number: Answer::DONE, table_words: tables.len() as u32, ..answer };
        Screen { input: image.write(), alone: Expected { answer, sum: sum(tables) } }
    }

    fn refused(input: Input, number: u32, steps: u32) -> Screen {
        let answer = Answer { number, steps, ..Answer::default() };
        Screen { input, alone: Expected::refused(answer) }
    }

    /// The same screen with a budget that its steps don't fit in.
    pub fn with_steps(&self, budget: u32) -> Screen {
        Screen::refused(Input { budget, ..self.input.clone() }, Refusal::OUT_OF_STEPS, budget)
    }

    /// The same screen with a budget that it doesn't use up.
    pub fn with_budget(&self, budget: u32) -> Screen {
        Screen { input: Input { budget, ..self.input.clone() }, alone: self.alone }
    }

    /// The same screen with words after its own that are in no table.
    pub fn extended_to(mut self, words: usize) -> Screen {
        self.input.extend_to(words);
        self
    }
}

/// One variable that nothing is said of.
pub fn short() -> Screen {
    Screen::done(&least(), Answer { steps: 1, slots: 1, ..Answer::default() }, &[0, 0])
}

/// Row C of document 01: a phi that comes to itself.
pub fn phi() -> Screen {
    let mut image = Image::new();
    let [x0, x1, x2, x3] = [(); 4].map(|()| image.variable());
    let load = Instruction::new(Kind::LoadLocal, x2, 0, vec![Item::place(x1)]);
    let block = Block { phis: vec![(x1, vec![x0, x2])], instructions: vec![load], ..Block::default() };
    image.body(Body::new(x3, vec![block]));
    let slots = [&[0, 0][..], &[7, 2, 0, 0, 7, 1, 0, 0], &[7, 1, 0, 0], &[0, 3]].concat();
    let bindings = [&[1, 7, 2, 0, 0, 0, 2][..], &[2, 7, 1, 0, 0]].concat();
    let answer = Answer { steps: 33, slots: 4, bindings: 2, ..Answer::default() };
    Screen::done(&image, answer, &[slots, bindings].concat())
}

/// Properties by their exact name, by the "*" entry and by the hook rule, and some that have no type: one, two, three
/// and four. Each takes 9, 9, 8 and 4 steps, with its visits; the global takes 5, and the last visit 1.
pub fn lookups() -> Screen {
    let mut image = Image::new();
    let primitive = image.primitive();
    image.hook = image.method();
    let [title, star, hook] = [&b"title"[..], b"*", b"useTimer"].map(|text| image.name(text));
    let first = image.property(title, primitive);
    image.property(star, primitive);
    let shape = image.shape(first, 2);
    let of_shape = image.object(shape);
    let [theme, timers, out] = [(); 3].map(|()| image.variable());
    let mut instructions = vec![Instruction::new(Kind::LoadGlobal, theme, of_shape, vec![])];
    let mut slots = vec![type_kinds::OBJECT, shape, type_kinds::VAR, timers, type_kinds::VAR, out];
    let mut bindings = vec![theme, type_kinds::OBJECT, shape];
    for (count, object, name, found) in [
        (1, theme, title, type_kinds::PRIMITIVE),
        (2, theme, hook, type_kinds::PRIMITIVE),
        (3, timers, hook, type_kinds::OBJECT_METHOD),
        (4, timers, title, type_kinds::VAR),
    ] {
        for value in (0..count).map(|_| image.variable()) {
            instructions.push(Instruction::new(Kind::PropertyLoad, value, name, vec![Item::place(object)]));
            match found {
                type_kinds::VAR => slots.extend([found, value]),
                _ => {
                    slots.push(found);
                    bindings.extend([value, found]);
                }
            }
        }
    }
    image.body(Body::of(out, instructions));
    let counts = Answer { exact: 1, star: 2, hook: 3, nothing: 4, ..Answer::default() };
    let answer = Answer { steps: 73, slots: 13, bindings: 7, ..counts };
    Screen::done(&image, answer, &[slots, bindings].concat())
}

/// 11: a phi without operands.
fn empty_phi() -> Screen {
    let mut image = Image::new();
    let x = image.variable();
    image.body(Body::new(x, vec![Block { phis: vec![(x, vec![])], ..Block::default() }]));
    Screen::refused(image.write(), Refusal::EMPTY_PHI, 2)
}

/// 12: a function that returns itself; `occurs_check` takes 2 of the steps, `try_resolve_type` 4.
fn cycle() -> Screen {
    let mut image = Image::new();
    let x = image.variable();
    let own = image.var(x);
    let function = image.function(NONE, own);
    image.body(Body::of(x, vec![Instruction::new(Kind::LoadGlobal, x, function, vec![])]));
    Screen::refused(image.write(), Refusal::CYCLE, 8)
}

/// A screen that is refused with a number from 1 to 13, but not with 4, which is no matter of the screen alone.
pub fn refused(number: u32) -> Screen {
    match number {
        Refusal::IMAGE_WORDS => Screen::refused(Input { image: vec![1; 19], ..short().input }, number, 0),
        Refusal::NAME_BYTES => {
            Screen::refused(Input { names: vec![b'a'; LIMIT + 1], ..short().input }, number, 0)
        }
        Refusal::BUDGET => Screen::refused(Input { budget: LIMIT as u32 + 1, ..short().input }, number, 0),
        Refusal::EMPTY_PHI => empty_phi(),
        Refusal::CYCLE => cycle(),
        Refusal::OUT_OF_STEPS => phi().with_steps(32),
        _ => {
            let case = edges().into_iter().find(|case| case.expected == number && case.input.work < 100_000);
            Screen::refused(case.expect("a case for each number").input, number, 0)
        }
    }
}
