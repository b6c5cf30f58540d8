//! Images with a few words changed, at the places and to the values where a test may turn.

use crate::generate::Valid;
use crate::image::*;
use crate::random::Random;

/// The input with one or two changes.
pub fn damaged(random: &mut Random, valid: &Valid) -> Input {
    let mut input = valid.input.clone();
    while input == valid.input {
        for _ in 0..random.pick(&[1, 1, 1, 2]) {
            change(random, valid, &mut input);
        }
    }
    input
}

fn change(random: &mut Random, valid: &Valid, input: &mut Input) {
    match random.below(20) {
        0 => change_lengths(random, input),
        1 | 2 => change_body_range(random, valid, input),
        3 | 4 => change_named_function(random, valid, input),
        5 | 6 => change_property_name(random, valid, input),
        _ => {
            let at = place(random, valid);
            put(input, at, value(random, &valid.input, valid.input.image[at]));
        }
    }
}

/// Sets a word, unless the image was cut before it.
fn put(input: &mut Input, at: usize, value: u32) {
    if let Some(word) = input.image.get_mut(at) {
        *word = value;
    }
}

/// The position of a word: of the header, of a table, of a body by its role, or any.
fn place(random: &mut Random, valid: &Valid) -> usize {
    match random.below(10) {
        0 => random.below(HEADER_WORDS as u32) as usize,
        1..=4 => {
            let table = random.pick(Table::ALL);
            match valid.input.count(table) {
                0 => table.count_at(),
                rows => {
                    let (row, field) = (random.below(rows), random.below(table.width() as u32));
                    valid.input.at(table, row, field as usize)
                }
            }
        }
        5..=8 => {
            let role = random.pick(&valid.roles).1;
            of_role(random, valid, role).unwrap_or_default()
        }
        _ => random.below(valid.input.image.len() as u32) as usize,
    }
}

fn of_role(random: &mut Random, valid: &Valid, role: Role) -> Option<usize> {
    let places: Vec<usize> = valid.roles.iter().filter(|one| one.1 == role).map(|one| one.0).collect();
    (!places.is_empty()).then(|| random.pick(&places))
}

/// A value near the old one, near a count or a length, or near the ends of the numbers.
fn value(random: &mut Random, input: &Input, old: u32) -> u32 {
    let (count, length) = (input.count(random.pick(Table::ALL)), input.image.len() as u32);
    let near = match random.below(8) {
        0 | 1 => old,
        2 | 3 => count,
        4 => length,
        5 => random.pick(&[0, NONE, 1 << 31, 0x5555_5556]),
        6 => HEADER_WORDS as u32,
        _ => random.pick(&[4, length / 2]),
    };
    near.wrapping_add(random.pick(&[0, 1, NONE]))
}

/// Image, name bytes, budget or work words of another length.
fn change_lengths(random: &mut Random, input: &mut Input) {
    match random.below(7) {
        0 => input.image.truncate(random.below(40) as usize),
        1 => {
            input.image.pop();
        }
        2 => input.image.push(0),
        3 => input.extend_to(random.pick(&[65_535, 65_536, 65_537])),
        4 => {
            let length = random.pick(&[0, input.names.len().saturating_sub(1), 65_536, 65_537]);
            input.names.resize(length, b'a');
        }
        5 => {
            input.budget = random.pick(&[65_536, 65_537, NONE]);
            input.lend_enough();
        }
        _ => {
            input.lend_enough();
            input.work = random.pick(&[input.work - 1, input.work - 1, 0, usize::MAX]);
        }
    }
}

/// A body that is moved, or longer or shorter than it is.
fn change_body_range(random: &mut Random, valid: &Valid, input: &mut Input) {
    let count = valid.input.count(Table::Functions);
    let (one, other) = (random.below(count), random.below(count));
    let field = random.below(2) as usize;
    let at = valid.input.at(Table::Functions, one, field);
    let old = valid.input.image[at];
    let new = match random.below(4) {
        0 => valid.input.image[valid.input.at(Table::Functions, other, field)],
        1 => old - 1,
        2 => old + 1,
        _ => old.wrapping_add(random.below(9)).wrapping_sub(4),
    };
    put(input, at, new);
}

/// Another function in the place of one that an instruction names.
fn change_named_function(random: &mut Random, valid: &Valid, input: &mut Input) {
    if let Some(at) = of_role(random, valid, Role::Function) {
        let other = of_role(random, valid, Role::Function).unwrap_or_default();
        let count = valid.input.count(Table::Functions);
        let old = valid.input.image[at];
        put(input, at, random.pick(&[0, old - 1, old + 1, count - 1, count, valid.input.image[other]]));
    }
}

/// The name of another property of the same shape, or of one nearby.
fn change_property_name(random: &mut Random, valid: &Valid, input: &mut Input) {
    let shape = random.below(valid.input.count(Table::Shapes));
    let first = valid.input.image[valid.input.at(Table::Shapes, shape, 1)];
    let count = valid.input.image[valid.input.at(Table::Shapes, shape, 2)];
    if count > 1 {
        let (one, other) = (first + random.below(count), first + random.below(count));
        let name = valid.input.image[valid.input.at(Table::Properties, other, 0)];
        put(input, valid.input.at(Table::Properties, one, 0), name);
    }
}
