//! Files of inputs with whole answers.
//!
//! A file is a list of records. A record is word count, words, name count, name bytes, budget, work words; then the
//! answer: number, steps, slots, bindings, the four counts of property lookups, table word count, table words. Numbers
//! are written as in a corpus (`host::corpus`); image words, steps, lookups and table words as the word plus 1, NONE as
//! 0. Steps that nobody counted are NONE, and so are the lookups of a finished run; those of a refusal are 0 by rule.

use crate::answer::{Answer, Library, UNCOUNTED};
use host::corpus::{push, push_word, push_words, Reader};
use infer_image::parts::{Input, NONE};

fn record(reader: &mut Reader) -> (Input, Answer) {
    let (image, names) = (reader.words(), reader.bytes());
    let input = Input { image, names, budget: reader.number() as u32, work: reader.count() };
    let (number, steps) = (reader.number() as u32, reader.word());
    let (slots, bindings) = (reader.number() as u32, reader.number() as u32);
    let lookups = std::array::from_fn(|_| reader.word());
    let tables = reader.words();
    (input, Answer { number, steps, slots, bindings, table_words: tables.len() as u32, lookups, tables })
}

pub fn read(file: &[u8]) -> Vec<(Input, Answer)> {
    let mut reader = Reader::new(file);
    let mut records = vec![];
    while !reader.is_at_end() {
        records.push(record(&mut reader));
    }
    records
}

/// Adds a record.
pub fn write(out: &mut Vec<u8>, input: &Input, answer: &Answer) {
    push_words(out, &input.image);
    push(out, input.names.len() as u64);
    out.extend(&input.names);
    push(out, input.budget as u64);
    push(out, input.work as u64);
    push(out, answer.number as u64);
    push_word(out, answer.steps);
    push(out, answer.slots as u64);
    push(out, answer.bindings as u64);
    answer.lookups.iter().for_each(|&count| push_word(out, count));
    push_words(out, &answer.tables);
}

/// The answer of a record that holds an input alone.
pub fn unanswered() -> Answer {
    Answer { number: NONE, steps: NONE, lookups: UNCOUNTED, ..Answer::default() }
}

/// Stands where a library is asked and there are stored answers only.
pub struct Stored;

impl Library for Stored {
    /// That nothing is known.
    fn answer(&mut self, _: &Input) -> Answer {
        unanswered()
    }
}
