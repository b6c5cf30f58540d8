//! Files of inputs with their answers.
//!
//! A file is a list of records. A record is either
//!   0, word count, words, name count, name bytes; or
//!   1, word count, change count, changes (position, word), name count:
//!      the image and names of the last record 0, cut or extended by zeros to these counts, then changed;
//! and then budget, work words, answer. Numbers are written in base 128, lowest digit first, with 128 added
//! to all digits but the last; an image word is written as the word plus 1, NONE as 0.

use crate::image::{Case, Input};

pub struct Reader<'a> {
    bytes: std::slice::Iter<'a, u8>,
}

impl Reader<'_> {
    pub fn new(file: &[u8]) -> Reader<'_> {
        Reader { bytes: file.iter() }
    }

    pub fn is_at_end(&self) -> bool {
        self.bytes.as_slice().is_empty()
    }

    pub fn byte(&mut self) -> u8 {
        *self.bytes.next().expect("a whole record")
    }

    pub fn number(&mut self) -> u64 {
        let mut number = 0;
        for shift in (0..).step_by(7) {
            let digit = self.byte();
            number |= (digit as u64 & 127) << shift;
            if digit < 128 {
                break;
            }
        }
        number
    }

    pub fn count(&mut self) -> usize {
        self.number() as usize
    }

    pub fn word(&mut self) -> u32 {
        (self.number() as u32).wrapping_sub(1)
    }

    /// A count, and so many words.
    pub fn words(&mut self) -> Vec<u32> {
        (0..self.number()).map(|_| self.word()).collect()
    }

    /// A count, and so many bytes.
    pub fn bytes(&mut self) -> Vec<u8> {
        (0..self.number()).map(|_| self.byte()).collect()
    }

    /// How many words there are, and those before the last zeros.
    pub fn padded_words(&mut self) -> Vec<u32> {
        let count = self.count();
        let mut words = self.words();
        words.resize(count, 0);
        words
    }

    /// The same of bytes.
    pub fn padded_bytes(&mut self) -> Vec<u8> {
        let count = self.count();
        let mut bytes = self.bytes();
        bytes.resize(count, 0);
        bytes
    }
}

/// The cases of a file, named by it and their number.
pub fn read(name: &str, file: &[u8]) -> Vec<Case> {
    let mut reader = Reader::new(file);
    let (mut words, mut bytes) = (vec![], vec![]);
    let mut cases = vec![];
    while !reader.is_at_end() {
        let (mut image, mut names);
        if reader.number() == 0 {
            words = reader.words();
            bytes = reader.bytes();
            (image, names) = (words.clone(), bytes.clone());
        } else {
            (image, names) = (words.clone(), bytes.clone());
            image.resize(reader.count(), 0);
            for _ in 0..reader.count() {
                let at = reader.count();
                image[at] = reader.word();
            }
            names.resize(reader.count(), 0);
        }
        let (budget, work) = (reader.number() as u32, reader.count());
        let name = format!("{name}, record {}", cases.len());
        cases.push(Case {
            name,
            input: Input { image, names, budget, work },
            expected: reader.number() as u32,
        });
    }
    cases
}

pub fn push(out: &mut Vec<u8>, mut number: u64) {
    while number > 127 {
        out.push(number as u8 | 128);
        number >>= 7;
    }
    out.push(number as u8);
}

pub fn push_word(out: &mut Vec<u8>, word: u32) {
    push(out, word.wrapping_add(1) as u64);
}

pub fn push_words(out: &mut Vec<u8>, words: &[u32]) {
    push(out, words.len() as u64);
    words.iter().for_each(|&word| push_word(out, word));
}

pub fn push_bytes(out: &mut Vec<u8>, bytes: &[u8]) {
    push(out, bytes.len() as u64);
    out.extend(bytes);
}

/// The items before the last zeros.
fn without_zeros<T: Copy + Into<u32>>(items: &[T]) -> &[T] {
    let zeros = items.iter().rev().take_while(|&&item| item.into() == 0).count();
    &items[..items.len() - zeros]
}

pub fn push_padded_words(out: &mut Vec<u8>, words: &[u32]) {
    push(out, words.len() as u64);
    push_words(out, without_zeros(words));
}

pub fn push_padded_bytes(out: &mut Vec<u8>, bytes: &[u8]) {
    push(out, bytes.len() as u64);
    push_bytes(out, without_zeros(bytes));
}

pub fn read_file(path: &str) -> Vec<u8> {
    std::fs::read(path).unwrap_or_else(|error| panic!("{path}: {error}"))
}

/// A file with a record for each case.
pub fn write_file<T>(path: &str, cases: &[T], write: fn(&mut Vec<u8>, &T)) {
    let mut file = vec![];
    cases.iter().for_each(|case| write(&mut file, case));
    std::fs::write(path, file).unwrap_or_else(|error| panic!("{path}: {error}"));
}

/// Adds a case as a record 0.
pub fn write(out: &mut Vec<u8>, case: &Case) {
    let Input { image, names, budget, work } = &case.input;
    push(out, 0);
    push_words(out, image);
    push_bytes(out, names);
    for number in [*budget as u64, *work as u64, case.expected as u64] {
        push(out, number);
    }
}
