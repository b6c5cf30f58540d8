//! Holds an answer to what it has to be: by the plain check, or by the Rust.

use crate::answer::{Answer, Library, UNCOUNTED};
use crate::bodies::accesses;
use host::plain;
use infer_image::parts::{option_bits, Input, NONE, OPTIONS};
use original::run::Outcome;
use original::screen::Accents;
use original::worker::Worker;

pub const MOST_BUDGET: u32 = 65_536;
/// Looks into maps that a run may take if nobody knows its steps.
const MOST_LOOKS: u32 = 100_000;

/// What an answer was held to.
#[derive(Clone, Copy, Debug, PartialEq, Eq, PartialOrd, Ord)]
pub enum Held {
    /// 1 to 10: the plain check's number.
    Check,
    /// 0: number, counts, slots and bindings of the Rust.
    Tables,
    /// The same, where the Rust itself panics at an accented name: its run with such names guarded.
    TablesGuarded,
    /// 11: the Rust's error.
    NoOperand,
    /// 12: the Rust's bindings are cyclic, and it hadn't looked at the cycle yet.
    CyclicBindings,
    /// 12: the Rust's bindings are cyclic, and its look at the cycle didn't end.
    EndlessLook,
    /// 12: the child process that ran the Rust came to its end.
    ChildEnded,
    /// 13: steps are the budget; with the whole budget the answer is held again.
    Budget,
    /// 13 with the whole budget: the Rust isn't asked.
    WholeBudget,
    /// A name isn't UTF-8: the Rust can't be asked.
    NotText,
}

/// The two sides.
pub struct Judge<L> {
    pub library: L,
    pub worker: Worker,
}

impl<L: Library> Judge<L> {
    pub fn new(library: L) -> Judge<L> {
        Judge { library, worker: Worker::start() }
    }

    /// Asks the library and judges what it says.
    pub fn ask(&mut self, input: &Input) -> (Answer, Result<Held, String>) {
        let answer = self.library.answer(input);
        let held = self.hold(input, &answer);
        (answer, held)
    }

    /// What an answer was held to, or how it differs.
    pub fn hold(&mut self, input: &Input, answer: &Answer) -> Result<Held, String> {
        let check = plain::check(&input.image, &input.names, input.budget, input.work);
        if check != 0 || (1..=10).contains(&answer.number) {
            let expected = Answer { number: check, ..Answer::default() };
            return same(answer, &expected, Held::Check);
        }
        match answer.number {
            0 => self.hold_tables(input, answer),
            11 => {
                refusal(answer)?;
                match self.rust(input, answer) {
                    (Outcome::NoOperand, _) => Ok(Held::NoOperand),
                    (Outcome::NotText, _) => Ok(Held::NotText),
                    (outcome, _) => Err(format!("11, and the Rust: {}", text(&outcome))),
                }
            }
            12 => {
                refusal(answer)?;
                let ended = self.worker.ended;
                match self.rust(input, answer) {
                    (Outcome::Cycle, _) => Ok(Held::CyclicBindings),
                    (Outcome::EndlessCycle, _) => Ok(Held::EndlessLook),
                    (Outcome::NoEnd, _) if self.worker.ended > ended => Ok(Held::ChildEnded),
                    (Outcome::NotText, _) => Ok(Held::NotText),
                    (outcome, _) => Err(format!("12, and the Rust: {}", text(&outcome))),
                }
            }
            13 => {
                refusal(answer)?;
                if answer.steps != input.budget {
                    return Err(format!("13 with {} steps of {}", answer.steps, input.budget));
                }
                self.hold_with_whole_budget(input)
            }
            number => Err(format!("answer {number}")),
        }
    }

    fn hold_tables(&mut self, input: &Input, answer: &Answer) -> Result<Held, String> {
        if answer.steps > input.budget && answer.steps != NONE {
            return Err(format!("{} steps of {}", answer.steps, input.budget));
        }
        let (outcome, accents) = self.rust(input, answer);
        let tables = match outcome {
            Outcome::Done(tables) => tables,
            Outcome::NotText => return Ok(Held::NotText),
            outcome => return Err(format!("0, and the Rust: {}", text(&outcome))),
        };
        if (answer.slots, answer.bindings) != (tables.slots, tables.bindings) {
            return Err(format!(
                "{} slots and {} bindings, the Rust's are {} and {}",
                answer.slots, answer.bindings, tables.slots, tables.bindings
            ));
        }
        if answer.tables != tables.words || answer.table_words as usize != tables.words.len() {
            let at = answer.tables.iter().zip(&tables.words).position(|(one, other)| one != other);
            return Err(format!("tables differ from the Rust's at word {at:?}"));
        }
        hold_lookups(input, answer)?;
        Ok(if accents == Accents::Kept { Held::Tables } else { Held::TablesGuarded })
    }

    /// The Rust's outcome; where it panics at an accented name, that with such names guarded.
    fn rust(&mut self, input: &Input, answer: &Answer) -> (Outcome, Accents) {
        let most = most_looks(input, answer);
        let mut run = |accents| (self.worker.run(&input.image, &input.names, accents, most), accents);
        match run(Accents::Kept) {
            (Outcome::Panic, _) => run(Accents::Guarded),
            ended => ended,
        }
    }

    /// The Rust's own answer, if document 01 has a number for it and the input passes the check.
    pub fn rust_answer(&mut self, input: &Input) -> Option<Answer> {
        if plain::check(&input.image, &input.names, input.budget, input.work) != 0 {
            return None;
        }
        let refused = |number| Some(Answer { number, steps: NONE, ..Answer::default() });
        match self.worker.run(&input.image, &input.names, Accents::Kept, MOST_LOOKS) {
            Outcome::Done(tables) => Some(Answer {
                number: 0,
                steps: NONE,
                slots: tables.slots,
                bindings: tables.bindings,
                table_words: tables.words.len() as u32,
                lookups: UNCOUNTED,
                tables: tables.words,
            }),
            Outcome::NoOperand => refused(11),
            Outcome::Cycle | Outcome::EndlessCycle => refused(12),
            _ => None,
        }
    }

    fn hold_with_whole_budget(&mut self, input: &Input) -> Result<Held, String> {
        if input.budget == MOST_BUDGET {
            return Ok(Held::WholeBudget);
        }
        let mut whole = input.clone();
        whole.budget = MOST_BUDGET;
        whole.lend_enough();
        let answer = self.library.answer(&whole);
        if answer.number == NONE {
            return Ok(Held::Budget);
        }
        if answer.steps <= input.budget {
            return Err(format!(
                "13 with {}, and {} steps with the whole budget",
                input.budget, answer.steps
            ));
        }
        self.hold(&whole, &answer).map(|_| Held::Budget)
    }
}

/// More looks into maps than the Rust takes in a run of so many steps: a step takes at most three, and so does a word
/// of the image, for names, shapes, properties and globals.
fn most_looks(input: &Input, answer: &Answer) -> u32 {
    match answer.steps {
        NONE => MOST_LOOKS,
        steps => 4 * (steps + input.image.len() as u32) + 1_000,
    }
}

/// The lookups of a finished run are its property accesses; with the option for refs they may be fewer.
fn hold_lookups(input: &Input, answer: &Answer) -> Result<(), String> {
    if answer.lookups == UNCOUNTED {
        return Ok(());
    }
    let (lookups, accesses) = (answer.lookups.iter().sum::<u32>(), accesses(input));
    let refs = input.image[OPTIONS] & option_bits::REFS != 0;
    match lookups == accesses || refs && lookups < accesses {
        true => Ok(()),
        false => Err(format!("{lookups} lookups, and {accesses} property accesses")),
    }
}

/// A refusal has no counts and no tables.
fn refusal(answer: &Answer) -> Result<(), String> {
    let expected = Answer { number: answer.number, steps: answer.steps, ..Answer::default() };
    same(answer, &expected, ()).map_err(|message| format!("a refusal with counts: {message}"))
}

fn same<T>(answer: &Answer, expected: &Answer, held: T) -> Result<T, String> {
    match answer == expected {
        true => Ok(held),
        false => Err(format!("{answer:?} where {expected:?} is due")),
    }
}

fn text(outcome: &Outcome) -> String {
    match outcome {
        Outcome::Done(tables) => format!("{} slots, {} bindings", tables.slots, tables.bindings),
        other => format!("{other:?}"),
    }
}
