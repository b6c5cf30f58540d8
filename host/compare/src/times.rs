//! What is timed: inputs of each size whose tables are compared.

use crate::answer::Library;
use crate::inputs::{self, Sort};
use crate::linked::Linked;
use crate::screens;
use host::random::Random;
use infer_image::parts::Input;
use std::ops::Range;
use std::time::Duration;

pub const WHOLE_BUDGET: u32 = 65_536;

/// Sizes by the words of an image.
pub const SIZES: [(&str, Range<usize>); 3] =
    [("under 256", 0..256), ("256 to 4,095", 256..4_096), ("4,096 and more", 4_096..65_537)];

/// An input whose run ends well, and what the run takes. Its budget is the whole one.
pub struct Timed {
    pub input: Input,
    pub steps: u32,
    pub table_words: usize,
}

impl Timed {
    /// A budget near what the run takes: its steps, rounded up to a power of two.
    pub fn fitting_budget(&self) -> u32 {
        self.steps.next_power_of_two().min(WHOLE_BUDGET)
    }
}

/// So many inputs of a size, from the one of this number on.
pub fn timed(first: u64, sizes: &Range<usize>, count: usize) -> Vec<Timed> {
    let mut asked = Linked::default();
    (first..).filter_map(|number| wanted(number, sizes, &mut asked)).take(count).collect()
}

fn wanted(number: u64, sizes: &Range<usize>, asked: &mut Linked) -> Option<Timed> {
    let (sort, input) = inputs::input(number);
    if sort != Sort::Screen
        || !sizes.contains(&input.image.len())
        || std::str::from_utf8(&input.names).is_err()
    {
        return None;
    }
    ended(input, asked)
}

/// So many screens of nearly as many words as an image may have, all of them in use.
pub fn largest(first: u64, count: usize) -> Vec<Timed> {
    let mut asked = Linked::default();
    let screen = |number| screens::screen(&mut Random::new(number), 65_000).input;
    let large = (first..).map(screen).filter(|input| input.image.len() > 60_000);
    large.filter_map(|input| ended(input, &mut asked)).take(count).collect()
}

/// The input and what its run takes, if that ends well within the whole budget.
pub fn ended(mut input: Input, asked: &mut Linked) -> Option<Timed> {
    input.budget = WHOLE_BUDGET;
    input.lend_enough();
    let answer = asked.answer(&input);
    (answer.number == 0).then_some(Timed {
        input,
        steps: answer.steps,
        table_words: answer.table_words as usize,
    })
}

/// The number of the input that the program's first argument names, or 1.
pub fn first_input() -> u64 {
    std::env::args().nth(1).map_or(1, |text| text.parse().expect("a number"))
}

pub fn median<T: PartialOrd>(mut all: Vec<T>) -> T {
    all.sort_by(|one, other| one.partial_cmp(other).expect("numbers"));
    all.swap_remove(all.len() / 2)
}

pub fn microseconds(time: Duration) -> f64 {
    time.as_secs_f64() * 1e6
}
