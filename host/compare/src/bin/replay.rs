//! Replays stored answers, the Rust's or the reference model's, over the library: number, slots and bindings have to
//! be the same, and steps and lookups where they are known.
//!
//!     replay FILE..

use compare::answer::{Answer, Library, UNCOUNTED};
use compare::linked::Linked;
use compare::stored;
use infer_image::parts::NONE;
use std::collections::BTreeMap;

fn text(answer: &Answer) -> String {
    let Answer { number, steps, slots, bindings, lookups, .. } = answer;
    format!("answer {number} with {steps} steps, {slots} slots, {bindings} bindings and lookups {lookups:?}")
}

fn main() {
    let mut counts: BTreeMap<u32, u64> = BTreeMap::new();
    let mut differences = 0;
    for path in std::env::args().skip(1) {
        let file = std::fs::read(&path).unwrap_or_else(|error| panic!("{path}: {error}"));
        for (number, (input, expected)) in stored::read(&file).into_iter().enumerate() {
            let mut answer = Linked::default().answer(&input);
            // the Rust counts neither
            if expected.steps == NONE {
                answer.steps = NONE;
            }
            if expected.lookups == UNCOUNTED {
                answer.lookups = UNCOUNTED;
            }
            if answer == expected {
                *counts.entry(expected.number).or_default() += 1;
            } else {
                differences += 1;
                println!("{path}, record {number}: {}, and stored is {}", text(&answer), text(&expected));
            }
        }
    }
    let counts: Vec<String> = counts.iter().map(|(number, count)| format!("{number}: {count}")).collect();
    println!("replay: answers {}; {differences} differences", counts.join(", "));
    if differences > 0 || counts.is_empty() {
        std::process::exit(1);
    }
}
