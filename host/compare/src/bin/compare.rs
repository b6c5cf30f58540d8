//! Images through the library and through the Rust; what document 01 says is equal has to be.
//!
//!     compare FIRST COUNT SECONDS         the rows, the array patterns and the inputs of these numbers,
//!                                         until the seconds are over
//!     compare --list FILE                 writes the fixed list: inputs with the Rust's answers
//!     compare --write FILE FIRST COUNT    writes the inputs of these numbers, for another judge
//!     compare --stored FILE..             holds the answers of files to the Rust

use compare::counts::Counts;
use compare::inputs;
use compare::judge::Judge;
use compare::rows::rows;
use compare::stored::{self, Stored};
use original::worker;

fn read(path: &str) -> Vec<u8> {
    std::fs::read(path).unwrap_or_else(|error| panic!("{path}: {error}"))
}

fn save(path: &str, file: Vec<u8>) {
    std::fs::write(path, file).unwrap_or_else(|error| panic!("{path}: {error}"));
}

fn write(path: &str, first: u64, count: u64) {
    let mut out = vec![];
    for number in first..first + count {
        stored::write(&mut out, &inputs::input(number).1, &stored::unanswered());
    }
    save(path, out);
}

/// Stored answers, each beside the input of its record.
fn judge_stored(paths: &[&str]) -> Counts {
    let mut counts = Counts::default();
    let mut judge = Judge::new(Stored);
    for path in paths {
        for (number, (input, answer)) in stored::read(&read(path)).iter().enumerate() {
            match judge.hold(input, answer) {
                Ok(held) => counts.add(None, input, answer.number, held),
                Err(message) => counts.difference(&format!("{path}, record {number}: {message}")),
            }
        }
    }
    counts
}

#[cfg(feature = "library")]
fn judge_library(first: u64, count: u64, seconds: u64) -> Counts {
    use compare::{around::around, inputs::Sort, linked::Linked};
    use host::patterns::patterns;
    let start = std::time::Instant::now();
    let mut counts = Counts::default();
    let mut judge = Judge::new(Linked::default());
    let rows = rows().into_iter().map(|(letter, input)| (format!("row {letter}"), Sort::Row, input));
    let patterns = patterns().into_iter().map(|case| (case.name, Sort::Pattern, case.input));
    let numbered = (first..first + count).map(|number| {
        let (sort, input) = inputs::input(number);
        (format!("input {number}"), sort, input)
    });
    for (number, (name, sort, input)) in rows.chain(patterns).chain(numbered).enumerate() {
        if start.elapsed().as_secs() >= seconds {
            break;
        }
        let (answer, held) = judge.ask(&input);
        let held =
            held.and_then(|held| match answer.number == 0 && (number % 16 == 0 || !sort.is_numbered()) {
                true => around(&mut judge.library, &input, &answer).map(|()| held),
                false => Ok(held),
            });
        match held {
            Ok(held) => counts.add(Some(sort), &input, answer.number, held),
            Err(message) => {
                counts.difference(&format!("{name}: {message}"));
                let mut file = vec![];
                stored::write(&mut file, &input, &answer);
                save("difference.stored", file);
            }
        }
    }
    counts
}

#[cfg(not(feature = "library"))]
fn judge_library(_: u64, _: u64, _: u64) -> Counts {
    panic!("built without the library: --features counted,library")
}

/// The Rust's own answers to the rows and to inputs of few words, so many of each number; 12 where its bindings are
/// cyclic.
fn list(path: &str) {
    let mut judge = Judge::new(Stored);
    let mut wanted = [(0, 96), (11, 12), (12, 16)];
    let mut out = vec![];
    for (_, input) in rows() {
        let answer = judge.rust_answer(&input).expect("an answer to a row");
        stored::write(&mut out, &input, &answer);
    }
    for number in 1_000_000.. {
        let (_, mut input) = inputs::input(number);
        input.budget = compare::judge::MOST_BUDGET;
        input.lend_enough();
        // neither the tiny ones nor such as fill the list
        if !(100..700).contains(&input.image.len()) {
            continue;
        }
        let Some(answer) = judge.rust_answer(&input) else { continue };
        if let Some((_, left)) = wanted.iter_mut().find(|one| one.0 == answer.number && one.1 > 0) {
            *left -= 1;
            stored::write(&mut out, &input, &answer);
        }
        if wanted.iter().all(|one| one.1 == 0) {
            break;
        }
    }
    save(path, out);
}

fn main() {
    let arguments: Vec<String> = std::env::args().skip(1).collect();
    let number = |text: &str| text.parse::<u64>().expect("a number");
    let counts = match arguments.iter().map(String::as_str).collect::<Vec<_>>()[..] {
        [worker::WORKER] => return worker::serve(),
        ["--write", path, first, count] => return write(path, number(first), number(count)),
        ["--list", path] => return list(path),
        ["--stored", ref paths @ ..] => judge_stored(paths),
        [first, count, seconds] => judge_library(number(first), number(count), number(seconds)),
        _ => panic!("compare FIRST COUNT SECONDS | --list FILE | --write FILE FIRST COUNT | --stored FILE.."),
    };
    counts.print();
    let missing = counts.missing();
    if !missing.is_empty() {
        println!("in no compared image: {}", missing.join(", "));
    }
    if counts.differences > 0 || !missing.is_empty() {
        std::process::exit(1);
    }
}
