//! Answers of whole runs, stored beside the inputs of a corpus file.
//!
//! A file has an answer for each record of its corpus file, in order: the number; for 0 and from 11 on the steps;
//! for 0 the slots, the bindings, the table words, the four counts of property lookups, and the sum of the tables in
//! eight bytes, lowest first. Numbers are written as in the corpus. Table words were never short.
//!
//! The rows of a list have such answers too; there a 14 has its table words, and a row that was not run its number alone.
//! So have calls for a listing, where 17 and 18 have their steps.

use crate::corpus::{self, Reader};
use crate::deep;
use crate::image::Case;
use crate::patterns;
use infer_types::{Answer, Lookups, Refusal, Tables, ANSWER_ROW};

/// The corpus files, which stand beside their answers.
pub const CORPUS: [&str; 5] = ["rows", "small", "large", "edges", LOOKUPS];
/// The one for the counts of lookups.
pub const LOOKUPS: &str = "lookups";

/// Done, and not refused.
pub fn is_done(answer: &Answer) -> bool {
    answer.number == Answer::DONE
}

/// Refused before the run, or not run since a list had ended: with nothing touched.
pub fn is_unrun(answer: &Answer) -> bool {
    (1..=10).contains(&answer.number) || answer.number == Refusal::NOT_RUN
}

/// The answer where this one's tables are longer than the lent words.
pub fn without_tables(answer: Answer) -> Answer {
    let Answer { steps, table_words, .. } = answer;
    Answer { number: Refusal::TABLE_WORDS, steps, table_words, ..Answer::default() }
}

/// An answer, and the sum of its tables.
#[derive(Clone, Copy, Debug, PartialEq)]
pub struct Expected {
    pub answer: Answer,
    pub sum: u64,
}

impl Expected {
    /// An answer that leaves no tables.
    pub fn refused(answer: Answer) -> Expected {
        Expected { answer, sum: sum(&[]) }
    }

    /// A number, and nothing else.
    pub fn number(number: u32) -> Expected {
        Expected::refused(Answer { number, ..Answer::default() })
    }

    /// What the binding's safe functions give.
    pub fn of(result: Result<&Tables, Refusal>) -> Expected {
        match result {
            Ok(tables) => Expected { answer: of_tables(tables), sum: sum(tables.words()) },
            Err(Refusal { number, steps, table_words }) => {
                Expected::refused(Answer { number, steps, table_words, ..Answer::default() })
            }
        }
    }

    /// How many table words are written.
    pub fn written(&self) -> usize {
        if is_done(&self.answer) {
            self.answer.table_words as usize
        } else {
            0
        }
    }
}

fn of_tables(tables: &Tables) -> Answer {
    let Lookups { exact_name, star_entry, hook_rule, nothing } = tables.lookups();
    Answer {
        number: Answer::DONE,
        steps: tables.steps,
        slots: tables.slot_count() as u32,
        bindings: tables.binding_count() as u32,
        table_words: tables.words().len() as u32,
        exact: exact_name,
        star: star_entry,
        hook: hook_rule,
        nothing,
    }
}

/// FNV-1a, 64 bits, over the words.
pub fn sum(words: &[u32]) -> u64 {
    let step = |sum: u64, &word: &u32| (sum ^ word as u64).wrapping_mul(0x0000_0100_0000_01B3);
    words.iter().fold(0xCBF2_9CE4_8422_2325, step)
}

/// The words of an answer, in the order in which they stand in a list's answers.
pub fn words(answer: &Answer) -> [u32; ANSWER_ROW] {
    let Answer { number, steps, slots, bindings, table_words, exact, star, hook, nothing } = *answer;
    [number, steps, slots, bindings, table_words, exact, star, hook, nothing]
}

/// Which words a file has after this number.
fn stored(number: u32) -> &'static [usize] {
    match number {
        Answer::DONE => &[1, 2, 3, 4, 5, 6, 7, 8],
        Refusal::EMPTY_PHI..=Refusal::OUT_OF_STEPS | Refusal::SLOT | Refusal::LISTING_WORDS => &[1],
        Refusal::TABLE_WORDS => &[1, 4],
        _ => &[],
    }
}

/// The next answer of a file.
pub fn next(reader: &mut Reader) -> Expected {
    let mut words = [0; ANSWER_ROW];
    words[0] = reader.number() as u32;
    stored(words[0]).iter().for_each(|&at| words[at] = reader.number() as u32);
    let mut expected = Expected::refused(Answer::of_row(&words));
    if is_done(&expected.answer) {
        expected.sum = next_sum(reader);
    }
    expected
}

/// The next sum of a file.
pub fn next_sum(reader: &mut Reader) -> u64 {
    u64::from_le_bytes(std::array::from_fn(|_| reader.byte()))
}

/// Adds an answer to a file.
pub fn push(out: &mut Vec<u8>, expected: &Expected) {
    let words = words(&expected.answer);
    corpus::push(out, words[0] as u64);
    stored(words[0]).iter().for_each(|&at| corpus::push(out, words[at] as u64));
    if is_done(&expected.answer) {
        out.extend(expected.sum.to_le_bytes());
    }
}

fn read(file: &[u8]) -> Vec<Expected> {
    let mut reader = Reader::new(file);
    let mut all = vec![];
    while !reader.is_at_end() {
        all.push(next(&mut reader));
    }
    all
}

/// A file of the folder.
pub fn file(folder: &str, name: &str) -> Vec<u8> {
    corpus::read_file(&format!("{folder}/{name}"))
}

/// The cases with the answers that a file of the folder has for them.
fn answered(cases: Vec<Case>, folder: &str, name: &str) -> Vec<(Case, Expected)> {
    let expected = read(&file(folder, &format!("{name}.answers")));
    assert_eq!(cases.len(), expected.len(), "cases and answers of {name}");
    cases.into_iter().zip(expected).collect()
}

/// A corpus file of the folder, with its answers.
pub fn of_corpus(folder: &str, name: &str) -> Vec<(Case, Expected)> {
    answered(corpus::read(name, &file(folder, &format!("{name}.corpus"))), folder, name)
}

/// The deep images, with their answers.
pub fn of_deep(folder: &str) -> Vec<(Case, Expected)> {
    answered(deep::deep(), folder, "deep")
}

/// The array patterns, with their answers.
pub fn of_patterns(folder: &str) -> Vec<(Case, Expected)> {
    answered(patterns::patterns(), folder, "patterns")
}
