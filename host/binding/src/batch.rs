//! Lists of screens, many in one call of the library.

use crate::listing::ListingAnswer;
use crate::runner::{lend, Lent, Runner, GROWTH};
use crate::stack::{stack_bytes, with_stack};
use crate::{infer_batch_into, work_words, Answer, Image, Refusal, Tables, LIMIT};
use std::fmt;

/// The words of a list's row: image start and words, name start and bytes, budget.
pub const LIST_ROW: usize = 5;
/// The words of an answer's row: those of an `Answer`.
pub const ANSWER_ROW: usize = 9;
/// The most images of a list that the library takes. A `Runner` takes more, and hands them over in parts.
pub const MOST_IMAGES: usize = 256;

/// A screen of a list: an image, its name bytes and the most steps of its run.
#[derive(Clone, Copy, Debug, PartialEq, Eq)]
pub struct Screen<'a> {
    pub image: &'a [u32],
    pub names: &'a [u8],
    pub budget: u32,
}

impl<'a> Screen<'a> {
    /// A finished image, in at most so many steps.
    pub fn new(image: &'a Image, budget: u32) -> Screen<'a> {
        Screen { image: &image.words, names: &image.names, budget }
    }

    /// Whether it is refused by its size alone, with 1, 2 or 3, whatever is lent.
    fn is_too_large(&self) -> bool {
        self.image.len() > LIMIT || self.names.len() > LIMIT || self.budget as usize > LIMIT
    }

    /// What its first run is lent: screens take up to 0.7 steps a word, and their tables up to 0.6 words.
    pub(crate) fn first_lent(&self) -> Lent {
        if self.is_too_large() {
            return Lent { budget: self.budget, ..Lent::default() };
        }
        let words = self.image.len();
        Lent { budget: self.budget.min(words as u32 * 3 / 4), table_words: words, ..Lent::default() }
    }

    /// The work words of a run with this budget, and the most bytes of its stack.
    pub(crate) fn needs(&self, budget: u32) -> (usize, usize) {
        if self.is_too_large() {
            return (0, 0);
        }
        (work_words(self.image.len(), budget), stack_bytes(self.image, budget))
    }
}

/// A screen of a list that has no tables: which one it is, and why.
#[derive(Clone, Copy, Debug, PartialEq, Eq)]
pub struct ScreenRefused {
    /// Its place in the list, from 0.
    pub screen: usize,
    /// Why; `Refusal::NOT_RUN` after a screen that ended the list.
    pub refusal: Refusal,
}

impl fmt::Display for ScreenRefused {
    fn fmt(&self, f: &mut fmt::Formatter<'_>) -> fmt::Result {
        write!(f, "screen {} {}", self.screen, self.refusal)
    }
}

impl std::error::Error for ScreenRefused {}

/// What is lent for a list beside the work words.
#[derive(Debug, Default)]
pub(crate) struct Lists {
    rows: Vec<u32>,
    images: Vec<u32>,
    names: Vec<u8>,
    tables: Vec<u32>,
    answers: Vec<u32>,
}

impl Lists {
    /// Puts screens together, each with the budget of its first run. Of one that is too long a word or byte too many is
    /// put there, and is refused alike.
    fn put(&mut self, screens: &[Screen]) {
        self.rows.clear();
        self.images.clear();
        self.names.clear();
        for screen in screens {
            let image = &screen.image[..screen.image.len().min(LIMIT + 1)];
            let names = &screen.names[..screen.names.len().min(LIMIT + 1)];
            let ranges = [self.images.len(), image.len(), self.names.len(), names.len()];
            self.rows.extend(ranges.map(|word| word as u32));
            self.rows.push(screen.first_lent().budget);
            self.images.extend_from_slice(image);
            self.names.extend_from_slice(names);
        }
        self.answers.resize(ANSWER_ROW * screens.len(), 0);
    }
}

/// How far a list has come.
struct Progress {
    /// A result for each screen so far.
    results: Vec<Result<Tables, Refusal>>,
    /// The table words that remain.
    left: usize,
}

impl Progress {
    fn push(&mut self, result: Result<Tables, Refusal>) {
        self.left -= result.as_ref().map_or(0, |tables| tables.words().len());
        self.results.push(result);
    }

    /// Whether the last screen has ended the list.
    fn has_ended(&self) -> bool {
        matches!(self.results.last(), Some(Err(refusal)) if refusal.number == Refusal::TABLE_WORDS)
    }
}

impl Runner {
    /// The types of every screen of a list, in its order; one that is refused says which it is.
    ///
    /// Each has the answer of its own call of the library with its budget and the table words that remain, for
    /// `table_words_at_most` is for the tables of all. The first screen whose tables are longer than what remains is
    /// refused with 14 and ends the list: those after it are not run. Other refusals don't end it.
    ///
    /// Up to 256 screens are one call of the library, on a stack of its own if one of them may take over 1 MiB. One
    /// that needs more steps or table words than it was lent at first is run again, and no other; if it was table words,
    /// those after it go in a call that is lent more. Panics if the system gives no thread for such a stack.
    ///
    /// ```
    /// # use infer_types::{Block, Body, Builder, Runner, Screen};
    /// # let mut image = Builder::new();
    /// # let (x, out) = (image.identifier(), image.identifier());
    /// # let screen = image.function();
    /// # image.body(screen, Body::other(out).block(Block::new().primitive(x).take()));
    /// # let images = [image.finish().expect("a body for each function")];
    /// let screens: Vec<Screen> = images.iter().map(|image| Screen::new(image, 65_536)).collect();
    /// for result in Runner::new().infer_batch(&screens) {
    ///     match result {
    ///         Ok(tables) => println!("{}", tables.of(x)),
    ///         Err(refused) => println!("{refused}"),
    ///     }
    /// }
    /// ```
    pub fn infer_batch(&mut self, screens: &[Screen]) -> Vec<Result<Tables, ScreenRefused>> {
        let mut progress = Progress { results: vec![], left: self.table_words_at_most };
        let mut table_words_each = 1;
        while progress.results.len() < screens.len() && !progress.has_ended() {
            let from = progress.results.len();
            let part = &screens[from..screens.len().min(from + MOST_IMAGES)];
            let answers = self.call_list(part, table_words_each, progress.left);
            self.take_answers(part, &answers, &mut progress);
            if progress.results.len() < from + part.len() {
                table_words_each *= GROWTH as usize;
            }
        }
        progress.results.resize(screens.len(), Err(Refusal::not_run()));
        let numbered = progress.results.into_iter().enumerate();
        numbered.map(|(screen, result)| result.map_err(|refusal| ScreenRefused { screen, refusal })).collect()
    }

    /// One call of the library, with so many table words for each word of the images if so many are left.
    fn call_list(&mut self, screens: &[Screen], table_words_each: usize, left: usize) -> Vec<Answer> {
        let lent = screens.iter().map(|screen| (screen, screen.first_lent()));
        let table_words = lent.clone().map(|(_, lent)| lent.table_words * table_words_each).sum();
        let (work_words, stack_bytes) = lent
            .map(|(screen, lent)| screen.needs(lent.budget))
            .fold((0, 0), |most, needs| (most.0.max(needs.0), most.1.max(needs.1)));
        self.lists.put(screens);
        let Lists { rows, images, names, tables, answers } = &mut self.lists;
        let work = lend(&mut self.work, work_words);
        let tables = lend(tables, left.min(table_words));
        let number = with_stack(stack_bytes, || infer_batch_into(rows, images, names, work, tables, answers));
        assert_eq!(number, Answer::DONE, "a list that fits");
        answers.chunks_exact(ANSWER_ROW).map(Answer::of_row).collect()
    }

    /// The results of a call, up to the first screen that wasn't run, or that ends the list.
    fn take_answers(&mut self, screens: &[Screen], answers: &[Answer], progress: &mut Progress) {
        let mut at = 0;
        for (screen, &answer) in screens.iter().zip(answers) {
            if answer.number == Refusal::NOT_RUN || progress.has_ended() {
                return;
            }
            progress.push(self.take_answer(screen, answer, at, progress.left));
            if answer.number == Answer::DONE {
                at += answer.table_words as usize;
            }
        }
    }

    /// The result of a screen. If it is done, its tables stand there.
    fn take_answer(
        &mut self,
        screen: &Screen,
        answer: Answer,
        at: usize,
        left: usize,
    ) -> Result<Tables, Refusal> {
        let most = Lent { budget: screen.budget, table_words: left, ..Lent::default() };
        if let Some(more) = screen.first_lent().more(ListingAnswer::of_run(answer), most) {
            return self.run(screen, more, most).cloned();
        }
        let refusal = Refusal::new(answer);
        match answer.number {
            // one before it was run again and has taken the words
            Answer::DONE if answer.table_words as usize > left => {
                Err(Refusal { number: Refusal::TABLE_WORDS, ..refusal })
            }
            Answer::DONE => {
                let words = self.lists.tables[at..][..answer.table_words as usize].to_vec();
                Ok(Tables::new(answer, words, screen.image))
            }
            _ => Err(refusal),
        }
    }
}
