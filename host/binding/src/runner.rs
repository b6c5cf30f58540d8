//! Runs of many images, with words and steps lent as they are needed.

use crate::batch::{Lists, Screen};
use crate::listing::{Listing, ListingAnswer};
use crate::stack::with_stack;
use crate::{infer_types_into, Answer, Refusal, Tables, LIMIT};

/// Table words that are lent at most, unless the host says otherwise: 16 MiB, 64 for each word of the longest image.
const TABLE_WORDS_AT_MOST: usize = 64 * LIMIT;
/// How many times more is lent the next time, if what was lent was used up.
pub(crate) const GROWTH: u32 = 8;

/// What a run is lent: steps, and the work words for them; table words; listing words.
#[derive(Clone, Copy, Debug, Default)]
pub(crate) struct Lent {
    pub(crate) budget: u32,
    pub(crate) table_words: usize,
    pub(crate) listing_words: usize,
}

impl Lent {
    /// More of what was the reason to refuse, if more may be lent.
    pub(crate) fn more(self, answer: ListingAnswer, most: Lent) -> Option<Lent> {
        let ListingAnswer { answer, listing_words } = answer;
        let (table_words, listing_words) = (answer.table_words as usize, listing_words as usize);
        match answer.number {
            Refusal::OUT_OF_STEPS if self.budget < most.budget => {
                Some(Lent { budget: most.budget.min(GROWTH * self.budget), ..self })
            }
            Refusal::TABLE_WORDS if table_words <= most.table_words => Some(Lent { table_words, ..self }),
            Refusal::LISTING_WORDS if listing_words <= most.listing_words => {
                Some(Lent { listing_words, ..self })
            }
            _ => None,
        }
    }
}

/// Calls with ever more steps and words, until these aren't the reason to refuse or no more may be lent.
pub(crate) fn lend_more(
    first: Lent,
    most: Lent,
    mut call: impl FnMut(Lent) -> ListingAnswer,
) -> ListingAnswer {
    let mut lent = Lent { table_words: first.table_words.min(most.table_words), ..first };
    loop {
        let answer = call(lent);
        match lent.more(answer, most) {
            Some(more) => lent = more,
            None => return answer,
        }
    }
}

/// The first so many of the words, or of new ones if there are fewer.
pub(crate) fn lend(words: &mut Vec<u32>, count: usize) -> &mut [u32] {
    if words.len() < count {
        *words = vec![0; count];
    }
    &mut words[..count]
}

/// Runs images, one by one or in lists, and keeps the words that it lends from one to the next.
///
/// The first budget is small and grows as far as the caller allows, for the library clears the work words of every
/// step that is lent; what a run answers doesn't depend on it. So a large limit costs small images nothing.
///
/// ```
/// # use infer_types::{Block, Body, Builder, Runner};
/// # let mut image = Builder::new();
/// # let (x, out) = (image.identifier(), image.identifier());
/// # let screen = image.function();
/// # image.body(screen, Body::other(out).block(Block::new().primitive(x).take()));
/// # let screens = [image.finish().expect("a body for each function")];
/// let mut runner = Runner::new();
/// for image in &screens {
///     let tables = runner.infer_types(&image.words, &image.names, 65_536).expect("types");
///     println!("{}", tables.of(x));
/// }
/// ```
#[derive(Debug)]
pub struct Runner {
    pub(crate) table_words_at_most: usize,
    pub(crate) work: Vec<u32>,
    pub(crate) tables: Tables,
    pub(crate) listing: Listing,
    pub(crate) lists: Lists,
}

impl Default for Runner {
    fn default() -> Runner {
        Runner {
            table_words_at_most: TABLE_WORDS_AT_MOST,
            work: vec![],
            tables: Tables::default(),
            listing: Listing::default(),
            lists: Lists::default(),
        }
    }
}

impl Runner {
    pub fn new() -> Runner {
        Runner::default()
    }

    /// Lends no more table words than these, to an image or to a list. An image whose tables are longer is refused with
    /// 14, and the refusal says how long they are; 268,697,600 words, 1 GB, is the most that any image can want. Without
    /// this, 4,194,304.
    pub fn table_words_at_most(mut self, words: usize) -> Runner {
        self.table_words_at_most = words;
        self
    }

    /// The types of an image's slots and the bindings of their variables, in at most so many steps. The tables are there
    /// until the next run; a clone stays.
    ///
    /// The answer is that of one call of the library with this budget, words enough and stack enough: what may take
    /// over 1 MiB runs on a stack of its own. Panics if the system gives no thread for it.
    pub fn infer_types(&mut self, image: &[u32], names: &[u8], budget: u32) -> Result<&Tables, Refusal> {
        let screen = Screen { image, names, budget };
        let most = Lent { budget, table_words: self.table_words_at_most, ..Lent::default() };
        self.run(&screen, screen.first_lent(), most)
    }

    /// A run that is lent ever more, from the first on.
    pub(crate) fn run(&mut self, screen: &Screen, first: Lent, most: Lent) -> Result<&Tables, Refusal> {
        let answer = lend_more(first, most, |lent| ListingAnswer::of_run(self.call(screen, lent)));
        self.read(answer.answer, screen.image)
    }

    /// Reads the tables that the last call left, if it succeeded.
    pub(crate) fn read(&mut self, answer: Answer, image: &[u32]) -> Result<&Tables, Refusal> {
        if answer.number != Answer::DONE {
            return Err(Refusal::new(answer));
        }
        self.tables.read(answer, image);
        Ok(&self.tables)
    }

    fn call(&mut self, screen: &Screen, lent: Lent) -> Answer {
        let (work_words, stack_bytes) = screen.needs(lent.budget);
        let (work, tables) = (lend(&mut self.work, work_words), &mut self.tables.words);
        tables.resize(lent.table_words, 0);
        let &Screen { image, names, .. } = screen;
        with_stack(stack_bytes, || infer_types_into(image, names, lent.budget, work, tables))
    }
}
