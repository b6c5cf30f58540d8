//! Lists of screens: what one call over many images is lent, what it has to leave, and files of both.
//!
//! A file is a list of records: the words of the list; how many image words are lent, and those before the last zeros;
//! how many name bytes, and those before the last zeros; the counts of work words, table words and answer words; the
//! number of the call; and if that is 0 an answer for each row, as `answers` has them. Numbers and words are written as
//! in the corpus.

use crate::answers::{self, Expected};
use crate::corpus::{push, push_padded_bytes, push_padded_words, push_words, Reader};
use crate::image::Input;
use crate::report::{if_short, Tested};
use infer_types::{work_words, ANSWER_ROW, LIMIT, LIST_ROW};

/// A row of a list: where its image and its names stand, each a start and a length, and its budget.
#[derive(Clone, Copy)]
pub struct Row {
    pub image: [u32; 2],
    pub names: [u32; 2],
    pub budget: u32,
}

impl Row {
    fn words(self) -> [u32; LIST_ROW] {
        let Row { image: [image, words], names: [names, bytes], budget } = self;
        [image, words, names, bytes, budget]
    }

    /// The work words that its screen asks for, and for one that is refused by its lengths not too many.
    pub fn work(&self) -> usize {
        work_words(LIMIT.min(self.image[1] as usize), self.budget.min(LIMIT as u32))
    }
}

/// What a call over a list is lent.
#[derive(Clone, Default)]
pub struct List {
    pub words: Vec<u32>,
    pub images: Vec<u32>,
    pub names: Vec<u8>,
    /// How many words each of the three that are written to has.
    pub work: usize,
    pub tables: usize,
    pub answers: usize,
}

impl List {
    /// How many whole rows it has.
    pub fn count(&self) -> usize {
        self.words.len() / LIST_ROW
    }

    pub fn rows(&self) -> impl Iterator<Item = Row> + '_ {
        self.words.chunks_exact(LIST_ROW).map(|words| Row {
            image: [words[0], words[1]],
            names: [words[2], words[3]],
            budget: words[4],
        })
    }

    /// Lends the image and the names behind those that are lent, and gives a row for them.
    pub fn place(&mut self, input: &Input) -> Row {
        let (image, names) = (self.images.len() as u32, self.names.len() as u32);
        self.images.extend(&input.image);
        self.names.extend(&input.names);
        let (words, bytes) = (input.image.len() as u32, input.names.len() as u32);
        Row { image: [image, words], names: [names, bytes], budget: input.budget }
    }

    pub fn push(&mut self, row: Row) {
        self.words.extend(row.words());
    }

    /// As many work words and answer words as are asked for.
    pub fn lend_enough(&mut self) {
        self.work = self.rows().map(|row| row.work()).max().unwrap_or(0);
        self.answers = ANSWER_ROW * self.count();
    }
}

/// What a call has to leave: its number, and if that is 0 each row's answer.
#[derive(Clone, Debug, PartialEq)]
pub struct Left {
    pub number: u32,
    pub rows: Vec<Expected>,
}

pub struct ListCase {
    pub name: String,
    pub list: List,
    pub left: Left,
}

impl Tested for ListCase {
    fn name(&self) -> &str {
        &self.name
    }

    fn describe(&self) -> String {
        let List { words, images, names, work, tables, answers } = &self.list;
        let lengths = format!("{} image words, {} name bytes", images.len(), names.len());
        let contents = if_short("list", words) + &if_short("images", images) + &if_short("names", names);
        format!("{lengths}, work {work}, tables {tables}, answers {answers}{contents}")
    }

    fn file(&self) -> (&'static str, Vec<u8>) {
        let mut file = vec![];
        write(&mut file, self);
        ("lists", file)
    }
}

/// Adds a case as a record.
pub fn write(out: &mut Vec<u8>, case: &ListCase) {
    let List { words, images, names, work, tables, answers } = &case.list;
    push_words(out, words);
    push_padded_words(out, images);
    push_padded_bytes(out, names);
    for count in [work, tables, answers] {
        push(out, *count as u64);
    }
    push(out, case.left.number as u64);
    case.left.rows.iter().for_each(|row| answers::push(out, row));
}

/// The cases of a file, named by it and their number.
pub fn read(name: &str, file: &[u8]) -> Vec<ListCase> {
    let mut reader = Reader::new(file);
    let mut cases = vec![];
    while !reader.is_at_end() {
        let list = read_list(&mut reader);
        let number = reader.number() as u32;
        let rows = if number == 0 { list.count() } else { 0 };
        let rows = (0..rows).map(|_| answers::next(&mut reader)).collect();
        let name = format!("{name}, record {}", cases.len());
        cases.push(ListCase { name, list, left: Left { number, rows } });
    }
    cases
}

fn read_list(reader: &mut Reader) -> List {
    let (words, images, names) = (reader.words(), reader.padded_words(), reader.padded_bytes());
    let [work, tables, answers] = std::array::from_fn(|_| reader.count());
    List { words, images, names, work, tables, answers }
}
