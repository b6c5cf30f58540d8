//! Calls for a listing: what one is lent, what it has to leave, and files of both.
//!
//! A file is a list of records. A record is a run and calls for its listings: how many image words there are, and those
//! before the last zeros; how many name bytes, and those before the last zeros; budget and work words; the count of the
//! calls; and of each call its slot, written as a word, the counts of table words and listing words, its answer as
//! `answers` has them, in 0 and 18 the words of the listing, and in 0 their sum in eight bytes, lowest first. Numbers
//! and words are written as in the corpus.

use crate::answers::{self, is_done, sum, Expected};
use crate::corpus::{push, push_padded_bytes, push_padded_words, push_word, Reader};
use crate::image::Input;
use crate::report::{if_short, Tested};
use infer_types::{Answer, ListingAnswer, Refusal};
use std::sync::Arc;

/// What a call asks for, and how many words it lends for that.
#[derive(Clone, Copy, Debug)]
pub struct Asked {
    pub slot: u32,
    pub tables: usize,
    pub listing: usize,
}

/// What a call has to leave: its answer and the sums of what it writes.
#[derive(Clone, Copy, Debug, PartialEq)]
pub struct Left {
    pub run: Expected,
    pub listing_words: u32,
    pub listing: u64,
}

impl Left {
    pub fn new(run: Expected, listing_words: usize, listing: &[u32]) -> Left {
        Left { run, listing_words: listing_words as u32, listing: sum(listing) }
    }

    pub fn answer(&self) -> ListingAnswer {
        ListingAnswer { answer: self.run.answer, listing_words: self.listing_words }
    }

    /// How many listing words are written.
    pub fn written(&self) -> usize {
        if is_done(&self.run.answer) {
            self.listing_words as usize
        } else {
            0
        }
    }
}

pub struct ListingCase {
    pub name: String,
    pub input: Arc<Input>,
    pub asked: Asked,
    pub left: Left,
}

impl Tested for ListingCase {
    fn name(&self) -> &str {
        &self.name
    }

    fn describe(&self) -> String {
        let Input { image, names, budget, work } = &*self.input;
        let lengths = format!("{} words, {} name bytes", image.len(), names.len());
        let contents = if_short("image", image) + &if_short("names", names);
        format!("{lengths}, budget {budget}, work {work}, {:?}{contents}", self.asked)
    }

    fn file(&self) -> (&'static str, Vec<u8>) {
        let mut file = vec![];
        write(&mut file, self);
        ("calls", file)
    }
}

/// Adds a case as a record.
pub fn write(out: &mut Vec<u8>, case: &ListingCase) {
    let Input { image, names, budget, work } = &*case.input;
    let (Asked { slot, tables, listing }, left) = (case.asked, &case.left);
    push_padded_words(out, image);
    push_padded_bytes(out, names);
    for number in [*budget as u64, *work as u64, 1] {
        push(out, number);
    }
    push_word(out, slot);
    push(out, tables as u64);
    push(out, listing as u64);
    answers::push(out, &left.run);
    if [Answer::DONE, Refusal::LISTING_WORDS].contains(&left.run.answer.number) {
        push(out, left.listing_words as u64);
    }
    if is_done(&left.run.answer) {
        out.extend(left.listing.to_le_bytes());
    }
}

/// The calls of a file, named by it and the numbers of record and call.
pub fn read(name: &str, file: &[u8]) -> Vec<ListingCase> {
    let mut reader = Reader::new(file);
    let mut cases = vec![];
    for record in 0.. {
        if reader.is_at_end() {
            break;
        }
        let input = Arc::new(read_input(&mut reader));
        for call in 0..reader.count() {
            let asked = Asked { slot: reader.word(), tables: reader.count(), listing: reader.count() };
            let name = format!("{name}, record {record}, call {call}");
            cases.push(ListingCase { name, input: input.clone(), asked, left: read_left(&mut reader) });
        }
    }
    cases
}

fn read_input(reader: &mut Reader) -> Input {
    let (image, names) = (reader.padded_words(), reader.padded_bytes());
    Input { image, names, budget: reader.number() as u32, work: reader.count() }
}

fn read_left(reader: &mut Reader) -> Left {
    let run = answers::next(reader);
    let is_known = [Answer::DONE, Refusal::LISTING_WORDS].contains(&run.answer.number);
    let listing_words = if is_known { reader.number() as u32 } else { 0 };
    let listing = if is_done(&run.answer) { answers::next_sum(reader) } else { sum(&[]) };
    Left { run, listing_words, listing }
}
