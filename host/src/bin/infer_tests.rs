//! Tests of the proved run: inputs through the archive, answers, tables and lent words against those expected.
//!
//!     infer_tests FOLDER          every test; FOLDER has the corpus and the stored answers
//!     infer_tests --write FOLDER  writes the deep inputs and the array patterns, for another judge

use host::answers::{is_done, is_unrun, sum, without_tables, Expected, CORPUS, LOOKUPS};
use host::image::{option_bits, Case, Input, OPTIONS};
use host::lent::{Memory, Side, Words};
use host::report::{fail, require, row};
use host::rules::Rules;
use host::stack::{on_stack, DEFAULT_STACK, STACK, WHOLE_STACK};
use host::{answers, corpus, deep, patterns, report};
use infer_types::{infer_types, infer_types_into, Answer, Refusal, Runner, Tables, LIMIT};
use std::io::Write;
use std::time::Instant;

const MOST_WORK: usize = 8 * 2 * LIMIT + 1_000_000;
const MOST_TABLES: usize = 1_000_000;
/// What work words and table words hold before a run.
const HELD: [u32; 2] = [0xA5A5_A5A5, 0x5A5A_5A5A];
/// Words lent beyond those that are asked for, in some of the runs.
const MORE: usize = 1_000;

struct Tests {
    image: Memory,
    names: Memory,
    work: Words,
    tables: Words,
    counts: [u64; 15],
    total: [u64; 15],
}

impl Tests {
    fn new() -> Tests {
        Tests {
            image: Memory::new(4 * (LIMIT + 1)),
            names: Memory::new(LIMIT + 1),
            work: Words::new(MOST_WORK),
            tables: Words::new(MOST_TABLES),
            counts: [0; 15],
            total: [0; 15],
        }
    }

    /// One run with so many work words and table words; all that it leaves has to be as expected.
    fn run(&mut self, case: &Case, work: usize, tables: usize, expected: Expected) {
        let Input { image, names, budget, .. } = &case.input;
        let image = self.image.lend_slice(image, Side::End, 0xFF);
        let names = self.names.lend_slice(names, Side::End, 0xFF);
        let (before_work, work) = self.work.hold(work, HELD[0]);
        let (before_tables, tables) = self.tables.hold(tables, HELD[1]);
        report::start(case);
        let answer = infer_types_into(image, names, *budget, work, tables);
        let lent = (work.len(), tables.len());
        let check = |holds: bool, what: &str| {
            if !holds {
                fail(&format!("{what} with {lent:?} words: {answer:?}, not {expected:?}"), case);
            }
        };
        check(answer == expected.answer, "another answer");
        let left = if is_unrun(&answer) { HELD[0] } else { 0 };
        check(work.iter().all(|&word| word == left), "work words left");
        let written = expected.written();
        check(sum(&tables[..written]) == expected.sum, "other tables");
        check(tables[written..].iter().all(|&word| word == HELD[1]), "table words past the tables");
        check(before_work.iter().all(|&word| word == HELD[0]), "words before the work words");
        check(before_tables.iter().all(|&word| word == HELD[1]), "words before the table words");
        self.counts[answer.number as usize] += 1;
    }

    /// The runs of a case: just enough words, more of both, and too few table words.
    fn compare(&mut self, case: &Case, expected: Expected) {
        let work = case.input.work.min(MOST_WORK - MORE); // less only where the budget is refused
        let words = expected.answer.table_words as usize;
        self.run(case, work, words, expected);
        self.run(case, work, words + MORE, expected);
        if !is_unrun(&expected.answer) {
            self.run(case, work + MORE, words + MORE, expected);
        }
        if is_done(&expected.answer) {
            self.run(case, work, words - 1, Expected::refused(without_tables(expected.answer)));
        }
    }

    /// Prints how often each number was answered in a part, and gives it.
    fn part(&mut self, name: &str) -> [u64; 15] {
        println!("{name:<10}{}", row(&self.counts));
        for (total, count) in self.total.iter_mut().zip(&self.counts) {
            *total += count;
        }
        std::mem::take(&mut self.counts)
    }
}

fn run_corpus(tests: &mut Tests, name: &str, cases: &[(Case, Expected)]) -> [u64; 15] {
    for (case, expected) in cases {
        tests.compare(case, *expected);
    }
    tests.part(name)
}

/// Fails if a number was never answered.
fn require_numbers(counts: &[u64; 15]) {
    for (number, &count) in counts.iter().enumerate() {
        require(&format!("run with answer {number}"), count);
    }
}

/// Whether a finished run has refs that make no lookup, by their option: without it there are more lookups.
fn has_refs(case: &Case, answer: &Answer) -> bool {
    let Input { image, names, budget, .. } = &case.input;
    let mut without = image.clone();
    without[OPTIONS] &= !option_bits::REFS;
    infer_types(&without, names, *budget)
        .is_ok_and(|tables| tables.lookups().total() > answer.lookups().total())
}

/// What the finished runs of the inputs for lookups came to: every rule, every pair of rules, all four, and refs.
fn require_lookups(cases: &[(Case, Expected)]) {
    let (mut rules, mut refs) = (Rules::default(), 0);
    for (case, Expected { answer, .. }) in cases.iter().filter(|one| is_done(&one.1.answer)) {
        rules.add(answer.lookups());
        refs += has_refs(case, answer) as u64;
    }
    let mut met = rules.met();
    met.push(("refs without a lookup".into(), refs));
    met.iter().for_each(|(what, count)| require(&format!("finished run with {what}"), *count));
    let met: Vec<String> = met.iter().map(|(what, count)| format!("{what} {count}")).collect();
    println!("  finished runs with {}", met.join(", "));
}

fn run_deep(tests: &mut Tests, folder: &str, wanted: fn(&Case) -> bool) {
    for (case, expected) in answers::of_deep(folder).into_iter().filter(|one| wanted(&one.0)) {
        // Said before the run: a stack that is too small ends the program.
        print!("  {}:", case.name);
        _ = std::io::stdout().flush();
        let start = Instant::now();
        tests.compare(&case, expected);
        let Answer { number, steps, .. } = expected.answer;
        println!(" {number} after {steps} steps, {} ms", start.elapsed().as_millis());
    }
    tests.part("deep");
}

fn run_all(folder: &str) {
    let mut tests = Tests::new();
    println!("{:<10}{}", "answer", row(&std::array::from_fn::<u64, 15, _>(|number| number as u64)));
    for name in CORPUS {
        let cases = answers::of_corpus(folder, name);
        let counts = run_corpus(&mut tests, name, &cases);
        if name == LOOKUPS {
            require_numbers(&counts);
            require_lookups(&cases);
        }
    }
    let counts = run_corpus(&mut tests, "patterns", &answers::of_patterns(folder));
    require("finished array pattern", counts[Answer::DONE as usize]);
    run_deep(&mut tests, folder, |case| !deep::is_deepest(case));
    println!("{:<10}{}", "all", row(&tests.total));
    require_numbers(&tests.total);
}

fn run_deepest(folder: &str) {
    run_deep(&mut Tests::new(), folder, deep::is_deepest);
}

/// Every stored input through the plain function and through one Runner: the stored answer and tables, whatever ran
/// before. Both lend work words enough, so that inputs that are stored with too few are left out.
fn run_safe(folder: &str) {
    let stored = CORPUS.iter().flat_map(|name| answers::of_corpus(folder, name));
    let inputs = stored.chain(answers::of_deep(folder)).chain(answers::of_patterns(folder));
    let mut runner = Runner::new();
    let mut count = 0;
    for (case, expected) in inputs.filter(|one| one.1.answer.number != Refusal::WORK_WORDS) {
        let Input { image, names, budget, .. } = &case.input;
        report::start(&case);
        let once = infer_types(image, names, *budget);
        compare_safe(&case, once.as_ref().map_err(|&refusal| refusal), expected);
        compare_safe(&case, runner.infer_types(image, names, *budget), expected);
        count += 1;
    }
    println!("{count} inputs through infer_types and a Runner, on {DEFAULT_STACK} bytes of stack");
}

fn compare_safe(case: &Case, result: Result<&Tables, Refusal>, expected: Expected) {
    let found = Expected::of(result);
    if found != expected {
        fail(&format!("{found:?} through the binding, not {expected:?}"), case);
    }
}

fn main() {
    let arguments: Vec<String> = std::env::args().skip(1).collect();
    match arguments.iter().map(String::as_str).collect::<Vec<_>>()[..] {
        // the answers in them mean nothing
        ["--write", folder] => {
            corpus::write_file(&format!("{folder}/deep.corpus"), &deep::deep(), corpus::write);
            corpus::write_file(&format!("{folder}/patterns.corpus"), &patterns::patterns(), corpus::write);
        }
        [folder] => {
            report::watch();
            on_stack(STACK, folder, run_all);
            on_stack(WHOLE_STACK, folder, run_deepest);
            on_stack(DEFAULT_STACK, folder, run_safe);
            println!("infer_tests: all passed");
        }
        _ => panic!("infer_tests FOLDER or infer_tests --write FOLDER"),
    }
}
