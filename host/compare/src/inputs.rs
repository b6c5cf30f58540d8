//! The inputs of a comparison, each by its number alone.

use crate::screens;
use host::random::Random;
use host::{damage, generate};
use infer_image::parts::*;

/// No more work words than these are lent.
const MOST_WORK: usize = 8 * (65_537 + 65_537);

/// What an input is.
#[derive(Clone, Copy, Debug, PartialEq, Eq, PartialOrd, Ord)]
pub enum Sort {
    /// A row of document 01.
    Row,
    /// An array pattern of `host::patterns`.
    Pattern,
    /// A screen that passes the check.
    Screen,
    /// A screen with a few words changed.
    DamagedScreen,
    /// An image of `host::generate`, which is hard to check.
    Hard,
    DamagedHard,
    /// An image of a few words.
    Small,
}

impl Sort {
    /// Whether its inputs have numbers.
    pub fn is_numbered(self) -> bool {
        !matches!(self, Sort::Row | Sort::Pattern)
    }
}

/// The words that an image has, or so: up to 400, 1,500, 6,000, 20,000 or all.
fn size(random: &mut Random) -> u32 {
    match random.below(1_000) {
        0..=699 => random.range(90, 400),
        700..=939 => random.range(400, 1_500),
        940..=984 => random.range(1_500, 6_000),
        985..=994 => random.range(6_000, 20_000),
        _ => random.range(20_000, 65_000),
    }
}

/// The input of this number.
pub fn input(number: u64) -> (Sort, Input) {
    let mut random = Random::new(number);
    let words = size(&mut random);
    let (sort, mut input) = match random.below(40) {
        0..=29 => {
            let mut input = screens::screen(&mut random, words).input;
            if random.below(200) == 0 {
                // words in no table, up to the most or nearly
                input.extend_to(random.pick(&[65_535, 65_536]));
            }
            (Sort::Screen, input)
        }
        30..=33 => {
            let valid = screens::screen(&mut random, words);
            (Sort::DamagedScreen, damage::damaged(&mut random, &valid))
        }
        34 | 35 => {
            let mut input = generate::valid(&mut random, words).input;
            input.budget = 65_536;
            input.lend_enough();
            (Sort::Hard, input)
        }
        36 => {
            let valid = generate::valid(&mut random, words);
            (Sort::DamagedHard, damage::damaged(&mut random, &valid))
        }
        _ => (Sort::Small, small(&mut random)),
    };
    input.work = input.work.min(MOST_WORK);
    (sort, input)
}

/// Few words: the smallest that passes, of 49 words, whose tables share zeros; other small ones; and cut ones.
fn small(random: &mut Random) -> Input {
    let mut input = match random.below(3) {
        0 => smallest(),
        _ => few_parts(random),
    };
    if random.percent(25) {
        let length = random.range(0, input.image.len() as u32);
        input.image.truncate(length as usize);
        if length as usize > LENGTH {
            input.image[LENGTH] = length;
        }
    }
    input.budget = random.pick(&[0, 1, 2, 3, 5, 6, 65_536, 65_536, 65_536, 65_537]);
    input.lend_enough();
    if random.percent(5) {
        // an image cut to no word, with a budget of 0, needs none
        input.work = input.work.saturating_sub(1);
    }
    input
}

/// One name, identifier, slot and type, nine shapes and the body of one function, all in the same 27 zeros.
fn smallest() -> Input {
    let mut image = vec![0; HEADER_WORDS + 27];
    let body = HEADER_WORDS as u32;
    image.extend([body, 5]);
    image[VERSION] = 1;
    image[HOOK] = NONE;
    for &table in Table::ALL {
        image[table.count_at()] = 1;
        image[table.offset_at()] = HEADER_WORDS as u32;
    }
    image[Table::Shapes.count_at()] = 9;
    image[Table::Functions.offset_at()] = HEADER_WORDS as u32 + 27;
    image[LENGTH] = image.len() as u32;
    Input { image, names: vec![], budget: 0, work: 0 }
}

/// One function over one or two identifiers.
fn few_parts(random: &mut Random) -> Input {
    let mut image = Image::new();
    image.options = random.below(4);
    let one = image.variable();
    let other = if random.percent(50) { image.variable() } else { one };
    let any = |random: &mut Random| random.pick(&[one, other]);
    let mut blocks = vec![];
    for _ in 0..random.below(3) {
        let mut block = Block::default();
        for _ in 0..random.below(3) {
            let operands = (0..random.below(4)).map(|_| any(random)).collect();
            block.phis.push((any(random), operands));
        }
        if random.percent(50) {
            let kind =
                random.pick(&[Kind::Primitive, Kind::ArrayExpression, Kind::JsxFragment, Kind::Debugger]);
            block.instructions.push(Instruction::new(kind, any(random), 0, vec![]));
        }
        block.returned = random.percent(50).then(|| any(random));
        blocks.push(block);
    }
    let mut body = Body::new(any(random), blocks);
    body.fn_type = random.pick(FnType::ALL);
    body.params = (0..random.below(4)).map(|_| (random.percent(25), any(random))).collect();
    body.context = (0..random.below(2)).map(|_| any(random)).collect();
    image.body(body);
    image.write()
}

#[cfg(test)]
mod tests {
    use super::*;

    /// Among so many are some that are cut to no word, with a budget of 0: they need no work word, so that none is left
    /// to take away.
    #[test]
    fn small_inputs_of_no_word() {
        let small = (0..100_000).map(|number| small(&mut Random::new(number)));
        let empty = small.filter(|input| input.image.is_empty() && input.budget == 0);
        assert!(empty.inspect(|input| assert_eq!(input.work, 0)).count() >= 20);
    }
}
