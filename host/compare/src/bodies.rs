//! Bodies of images that passed the check, read plainly.

use infer_image::parts::*;

pub struct Read {
    pub kind: u32,
    pub aux: u32,
    /// Those of the items.
    pub tags: Vec<u32>,
}

/// The instructions of a function.
pub fn instructions(input: &Input, function: u32) -> Vec<Read> {
    let mut at = input.image[input.at(Table::Functions, function, 0)] as usize + 2;
    let mut take = |words: usize| {
        at += words;
        input.image[at - words]
    };
    let mut instructions = vec![];
    for _ in 0..take(1) {
        take(2);
    }
    for _ in 0..take(1) {
        take(1);
    }
    for _ in 0..take(1) {
        for _ in 0..take(1) {
            take(1);
            for _ in 0..take(1) {
                take(1);
            }
        }
        for _ in 0..take(1) {
            let (kind, aux) = (take(2), take(1));
            let tags = (0..take(1)).map(|_| take(3)).collect();
            instructions.push(Read { kind, aux, tags });
        }
        take(2);
    }
    instructions
}

/// The property accesses of the functions that are run. Each is a lookup, but for those of refs under their option.
pub fn accesses(input: &Input) -> u32 {
    let (mut functions, mut accesses) = (vec![0], 0);
    while let Some(function) = functions.pop() {
        for instruction in instructions(input, function) {
            accesses += accesses_of(&instruction);
            if [Kind::FunctionExpression as u32, Kind::ObjectMethod as u32].contains(&instruction.kind) {
                functions.push(instruction.aux);
            }
        }
    }
    accesses
}

fn accesses_of(instruction: &Read) -> u32 {
    const ONE: [u32; 3] = [Kind::PropertyLoad as u32, Kind::PropertyStore as u32, Kind::ComputedLoad as u32];
    const DESTRUCTURE: u32 = Kind::Destructure as u32;
    match instruction.kind {
        kind if ONE.contains(&kind) => 1,
        DESTRUCTURE => {
            let pattern = if instruction.aux == 0 { Tag::Place } else { Tag::NamedKey } as u32;
            let (_value, items) = instruction.tags.split_last().expect("a value");
            items.iter().filter(|&&tag| tag == pattern).count() as u32
        }
        _ => 0,
    }
}
