//! Tests of the proved image check: inputs through the archive, answers against those expected.
//!
//!     check_tests FILE..                 every test, the corpus being these files
//!     check_tests --only FILE..          the corpus alone
//!     check_tests --write FILE COUNT     writes the inputs, so many of them generated, with the answers expected

use host::hostile::{processor_time, MOST_TIME};
use host::image::{Case, Input};
use host::lent::{Memory, Side};
use host::random::Random;
use host::report::{fail, require, row};
use host::{corpus, damage, edges, generate, hostile, plain, report};
use infer_types::image_check;
use std::time::Duration;

const GENERATED: u32 = 200_000;

struct Tests {
    words: Memory,
    bytes: Memory,
    counts: [u64; 11],
    total: [u64; 11],
}

impl Tests {
    /// The archive's answer with the input at one side of its memory, and the time that it took.
    fn ask(&mut self, case: &Case, side: Side, fill: u8) -> (u32, Duration) {
        let Input { image, names, budget, work } = &case.input;
        let lent = (self.words.lend_slice(image, side, fill), self.bytes.lend_slice(names, side, fill));
        let start = processor_time();
        let answer = image_check(lent.0, lent.1, *budget, *work);
        let time = processor_time() - start;
        if lent != (image, names) {
            fail("the lent image or names were changed", case);
        }
        (answer, time)
    }

    /// Compares the answers at both sides of the memory with the expected one; gives the longer time.
    fn compare(&mut self, case: &Case) -> Duration {
        let mut longest = Duration::ZERO;
        for (side, fill) in [(Side::End, 0), (Side::Start, 0xFF)] {
            report::start(case);
            let (answer, time) = self.ask(case, side, fill);
            if answer != case.expected {
                fail(&format!("answer {answer} at the {side:?}, expected {}", case.expected), case);
            }
            longest = longest.max(time);
        }
        self.counts[case.expected as usize] += 1;
        longest
    }

    /// Prints how often each number was answered in a part.
    fn part(&mut self, name: &str) {
        println!("{name:<28}{}", row(&self.counts));
        for (total, count) in self.total.iter_mut().zip(&mut self.counts) {
            *total += std::mem::take(count);
        }
    }
}

/// A case that expects the plain check's answer.
fn by_plain_check(name: impl Into<String>, input: Input) -> Case {
    let expected = plain::check(&input.image, &input.names, input.budget, input.work);
    Case { name: name.into(), input, expected }
}

/// The words that a generated image has, or so.
fn size(random: &mut Random) -> u32 {
    match random.below(1_000) {
        0..=699 => random.range(60, 300),
        700..=949 => random.range(300, 1_500),
        950..=989 => random.range(1_500, 6_000),
        990..=998 => random.range(6_000, 20_000),
        _ => random.range(20_000, 64_000),
    }
}

/// So many valid and damaged inputs.
fn generated(count: u32, mut each: impl FnMut(Case)) {
    let mut random = Random::new(1);
    for number in (0..count).step_by(6) {
        let words = size(&mut random);
        let valid = generate::valid(&mut random, words);
        for change in 1..6.min(count - number) {
            let damaged = damage::damaged(&mut random, &valid);
            each(by_plain_check(format!("generated {number}, change {change}"), damaged));
        }
        let case = by_plain_check(format!("generated {number}"), valid.input);
        if case.expected != 0 {
            fail("the plain check refuses a valid image", &case);
        }
        each(case);
    }
}

fn words_replaced(each: impl FnMut(Case)) {
    edges::words_replaced().into_iter().map(|input| by_plain_check("a word replaced", input)).for_each(each);
}

fn instructions(each: impl FnMut(Case)) {
    edges::instructions().into_iter().map(|input| by_plain_check("one instruction", input)).for_each(each);
}

fn run_corpus(tests: &mut Tests, files: &[String]) {
    for path in files {
        for case in corpus::read(path, &corpus::read_file(path)) {
            tests.compare(&case);
        }
    }
    tests.part("corpus");
}

fn run_edges(tests: &mut Tests) {
    for case in edges::edges() {
        if by_plain_check("", case.input.clone()).expected != case.expected {
            fail("the plain check differs", &case);
        }
        tests.compare(&case);
    }
    tests.part("edges");
}

fn run_hostile(tests: &mut Tests) {
    for case in hostile::hostile() {
        let time = tests.compare(&case);
        println!("  {:>8.1} ms  {:>2}  {}", time.as_secs_f64() * 1_000.0, case.expected, case.name);
        if time > MOST_TIME {
            fail("over a second", &case);
        }
    }
    tests.part("hostile");
}

fn run_all(tests: &mut Tests, files: &[String]) {
    println!("{:<28}{}", "answer", row(&std::array::from_fn::<u64, 11, _>(|number| number as u64)));
    run_corpus(tests, files);
    run_edges(tests);
    words_replaced(|case| _ = tests.compare(&case));
    tests.part("words replaced");
    instructions(|case| _ = tests.compare(&case));
    tests.part("instructions");
    generated(GENERATED, |case| _ = tests.compare(&case));
    tests.part("generated");
    run_hostile(tests);
    println!("{:<28}{}", "all", row(&tests.total));
    for (number, &count) in tests.total.iter().enumerate() {
        require(&format!("input with answer {number}"), count);
    }
    println!("check_tests: all passed");
}

/// Writes the inputs whose answers come from the plain check, with these, for another judge.
fn write(path: &str, count: u32) {
    let mut file = vec![];
    let mut push = |case: Case| corpus::write(&mut file, &case);
    words_replaced(&mut push);
    instructions(&mut push);
    generated(count, &mut push);
    edges::edges().into_iter().chain(hostile::hostile()).for_each(&mut push);
    std::fs::write(path, file).unwrap_or_else(|error| panic!("{path}: {error}"));
}

fn main() {
    let arguments: Vec<String> = std::env::args().skip(1).collect();
    let (words, bytes) = (Memory::new(4 * 65_537), Memory::new(65_537));
    let mut tests = Tests { words, bytes, counts: [0; 11], total: [0; 11] };
    report::watch();
    match arguments.iter().map(String::as_str).collect::<Vec<_>>()[..] {
        ["--write", path, count] => write(path, count.parse().expect("a count")),
        ["--only", ..] => run_corpus(&mut tests, &arguments[1..]),
        _ => run_all(&mut tests, &arguments),
    }
}
