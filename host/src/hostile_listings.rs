//! Large images with long listings, and listings that cost a careless walk hours.

use crate::deep::Deep;
use crate::image::*;

const WORDS: usize = 65_536;
/// Variables in a type of under 4,096 words.
const MANY: u32 = 2_000;

/// The images, each with the slot to list.
pub fn hostile() -> Vec<(Case, u32)> {
    let mut cases = vec![];
    let mut add = |name: String, (image, slot): (Image, u32)| cases.push((case(name, image.write()), slot));
    add("a phi of 16,000 variables".into(), one_phi(16_000, 16_000, 1));
    add("a phi of 16,000 variables, from the last on".into(), one_phi(16_000, 16_000, -1));
    add("a phi of 30,000 places, which have 11,000 variables".into(), one_phi(30_000, 11_000, 1));
    add("a phi of 60,000 places, which have 1,000 variables".into(), one_phi(60_000, 1_000, -1));
    for (variables, times) in [(12, 2_040), (450, 100), (2_500, 4), (4_000, 1)] {
        let name = format!("{variables} variables, each with the next one {times} times inside");
        add(name, shared(variables, times, 1));
    }
    for (variables, window) in [(900, 30), (300, 100)] {
        let name = format!("{variables} variables, each with the next {window} inside");
        add(name, shared(variables, 1, window));
    }
    add("variables in a chain".into(), chain(8_100, 1_600));
    add("variables in functions, in a chain".into(), functions(4_500));
    add("phis of 2,000 variables each".into(), phis(6));
    add("a function that returns a phi of 2,000 variables".into(), in_function());
    add("calls, whose made variables are in a chain".into(), calls(3_300));
    add("a binding of 15,000 phis in each other".into(), deep_binding(10, 1_500));
    let (input, slot) = slots_over_types(6);
    cases.push((case("a slot in every word of the types".into(), input), slot));
    cases
}

fn case(name: String, mut input: Input) -> Case {
    assert!(input.image.len() <= WORDS, "{name} has {} words", input.image.len());
    input.budget = 65_536;
    input.extend_to(WORDS);
    Case { name, input, expected: 0 }
}

/// A phi of so many operands, which are so many variables over and over, in one or the other direction.
fn one_phi(operands: u32, variables: u32, by: i64) -> (Image, u32) {
    let mut deep = Deep::new();
    let slot = deep.variable();
    let all: Vec<u32> = (0..variables).map(|_| deep.variable()).collect();
    let at = |number: u32| (by * number as i64).rem_euclid(variables as i64) as usize;
    deep.block.phis.push((slot, (0..operands).map(|number| all[at(number)]).collect()));
    (deep.finish(), slot)
}

/// Variables with types that have the next ones of so many inside, each so many times.
fn shared(variables: u32, times: u32, window: u32) -> (Image, u32) {
    let mut deep = Deep::new();
    let all: Vec<u32> = (0..variables).map(|_| deep.variable()).collect();
    let types: Vec<u32> = all.iter().map(|&variable| deep.image.var(variable)).collect();
    for (at, &variable) in all.iter().enumerate().take(variables as usize - 1) {
        let next = types[at + 1..].iter().take(window as usize);
        let mut operands = vec![deep.primitive];
        operands.extend(next.flat_map(|&one| vec![one; times as usize]));
        let phi = deep.image.phi(&operands);
        deep.load(variable, phi);
    }
    (deep.finish(), all[0])
}

/// Each variable is bound to the next, by so many phis and so many loads.
fn chain(phis: u32, loads: u32) -> (Image, u32) {
    let mut deep = Deep::new();
    let (first, _) = deep.chain(phis, loads);
    (deep.finish(), first)
}

/// Each variable is bound to a function that returns the next.
fn functions(variables: u32) -> (Image, u32) {
    let mut deep = Deep::new();
    let first = deep.variable();
    let mut variable = first;
    for _ in 1..variables {
        let next = deep.variable();
        let returned = deep.image.var(next);
        let function = deep.image.function(NONE, returned);
        deep.load(variable, function);
        variable = next;
    }
    (deep.finish(), first)
}

/// A variable with so many inside, and each of these with many that are in no other.
fn phis(count: u32) -> (Image, u32) {
    let mut deep = Deep::new();
    let slot = deep.variable();
    let outer: Vec<u32> = (0..count).map(|_| deep.variable()).collect();
    deep.block.phis.push((slot, outer.clone()));
    for variable in outer {
        let phi = many(&mut deep);
        deep.load(variable, phi);
    }
    (deep.finish(), slot)
}

/// A phi of many new slots, which no identifier has.
fn many(deep: &mut Deep) -> u32 {
    let mut operands = vec![deep.primitive];
    for _ in 0..MANY {
        let slot = deep.image.slot(deep.primitive);
        operands.push(deep.image.var(slot));
    }
    deep.image.phi(&operands)
}

/// The steps are hardly more than the rows.
fn in_function() -> (Image, u32) {
    let mut deep = Deep::new();
    let slot = deep.variable();
    let phi = many(&mut deep);
    let function = deep.image.function(NONE, phi);
    deep.load(slot, function);
    (deep.finish(), slot)
}

/// Each call is of what the call before it gave.
fn calls(count: u32) -> (Image, u32) {
    let mut deep = Deep::new();
    let first = deep.variable();
    let mut callee = first;
    for _ in 0..count {
        let result = deep.variable();
        deep.push(Kind::CallExpression, result, 0, vec![Item::place(callee)]);
        callee = result;
    }
    (deep.finish(), first)
}

/// Variables with phis in each other, each with the next variable at their end; and one that comes to itself beside the
/// first of them, so that all these phis are put into its own binding.
fn deep_binding(variables: u32, levels: u32) -> (Image, u32) {
    let mut deep = Deep::new();
    let object = deep.image.object(NONE);
    let first = deep.variable();
    let mut variable = first;
    for _ in 0..variables {
        let next = deep.variable();
        let mut nest = deep.image.var(next);
        for _ in 0..levels {
            nest = deep.image.phi(&[nest]);
        }
        let phi = deep.image.phi(&[deep.primitive, object, nest]);
        deep.load(variable, phi);
        variable = next;
    }
    let slot = deep.variable();
    let [own, all] = [slot, first].map(|variable| deep.image.var(variable));
    let phi = deep.image.phi(&[deep.primitive, object, own, all]);
    deep.load(slot, phi);
    (deep.finish(), slot)
}

/// Phis of many variables, where the slots' table lies over the types', and the list words are all words after theirs.
fn slots_over_types(count: u32) -> (Input, u32) {
    let (mut image, slot) = phis(count);
    while image.count(Table::Types) <= image.count(Table::Slots) {
        image.primitive();
    }
    let mut input = image.write();
    input.image[Table::Slots.count_at()] = 3 * image.count(Table::Types);
    input.image[Table::Slots.offset_at()] = input.image[Table::Types.offset_at()];
    input.extend_to(WORDS);
    input.image[Table::Lists.count_at()] = WORDS as u32 - input.image[Table::Lists.offset_at()];
    (input, slot)
}
