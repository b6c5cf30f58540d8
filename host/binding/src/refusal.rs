//! Refusals: a number, and a sentence of help.

use crate::parts::NONE;
use crate::Answer;
use std::fmt;

/// Why there are no tables.
#[derive(Clone, Copy, Debug, PartialEq, Eq)]
pub struct Refusal {
    pub number: u32,
    /// The steps that were taken; 0 for 1 to 10.
    pub steps: u32,
    /// The table words that were wanted; 0 for all but 14.
    pub table_words: u32,
}

/// Who can mend it.
#[derive(Clone, Copy, Debug, PartialEq, Eq)]
pub enum Fault {
    Caller,
    ImageWriter,
    ScreenAuthor,
}

impl Refusal {
    pub const IMAGE_WORDS: u32 = 1;
    pub const NAME_BYTES: u32 = 2;
    pub const BUDGET: u32 = 3;
    pub const WORK_WORDS: u32 = 4;
    pub const HEADER: u32 = 5;
    pub const REFERENCES: u32 = 6;
    pub const TYPES: u32 = 7;
    pub const SHAPES: u32 = 8;
    pub const BODIES: u32 = 9;
    pub const NESTING: u32 = 10;
    pub const EMPTY_PHI: u32 = 11;
    pub const CYCLE: u32 = 12;
    pub const OUT_OF_STEPS: u32 = 13;
    pub const TABLE_WORDS: u32 = 14;
    /// Of a whole list, as the next: no screen is run.
    pub const LIST: u32 = 15;
    pub const RANGES: u32 = 16;
    /// Of a listing, as the next: the run itself has succeeded.
    pub const SLOT: u32 = 17;
    pub const LISTING_WORDS: u32 = 18;
    /// Of a screen after the one that ended its list with 14.
    pub const NOT_RUN: u32 = NONE;

    pub(crate) fn new(answer: Answer) -> Refusal {
        Refusal { number: answer.number, steps: answer.steps, table_words: answer.table_words }
    }

    pub(crate) fn not_run() -> Refusal {
        Refusal { number: Refusal::NOT_RUN, steps: 0, table_words: 0 }
    }

    /// As document 01 groups them; 13 is the caller's too, who may allow more steps.
    pub fn fault(&self) -> Fault {
        match self.number {
            Self::IMAGE_WORDS..=Self::WORK_WORDS
            | Self::TABLE_WORDS..=Self::LISTING_WORDS
            | Self::NOT_RUN => Fault::Caller,
            Self::EMPTY_PHI..=Self::OUT_OF_STEPS => Fault::ScreenAuthor,
            _ => Fault::ImageWriter,
        }
    }

    /// What it means and what to do, in a sentence.
    pub fn help(&self) -> &'static str {
        match self.number {
            Self::IMAGE_WORDS => {
                "The image has under 20 or over 65,536 words: split the screen, or look at what was lent."
            }
            Self::NAME_BYTES => {
                "There are over 65,536 name bytes: split the screen, or look at what was lent."
            }
            Self::BUDGET => "The budget is over 65,536: ask for fewer steps.",
            Self::WORK_WORDS => {
                "Fewer work words are lent than 8 for each image word and each step of the budget: lend more."
            }
            Self::HEADER => {
                "The header is wrong (version, options, no function, length, or a table outside the image): mend the image writer."
            }
            Self::REFERENCES => {
                "A number is outside its table, a name outside the name bytes or a body outside the image: mend the image writer."
            }
            Self::TYPES => "A row of the type table breaks a rule: mend the image writer.",
            Self::SHAPES => {
                "A shape is missing or its row broken, or two of its properties have one name: mend the image writer."
            }
            Self::BODIES => {
                "A body has a word that isn't allowed where it stands, ends early, has words over or shares one: mend the image writer."
            }
            Self::NESTING => {
                "A function is named by one of its own or a larger number, or twice: announce outer functions first, and name each once."
            }
            Self::EMPTY_PHI => {
                "A value comes from nowhere (a phi without operands): look at the screen's unreachable code."
            }
            Self::CYCLE => {
                "A value would contain itself: look for a function that returns or calls itself through a variable."
            }
            Self::OUT_OF_STEPS => "The budget's steps are used up: allow more, or split the screen.",
            Self::TABLE_WORDS => {
                "The tables are longer than the words that may be lent: lend as many as are wanted, or let a Runner do so (table_words_at_most)."
            }
            Self::LIST => {
                "The list has over 256 rows or words after its last whole one, or fewer answer words are lent than nine for each: look at what was lent."
            }
            Self::RANGES => {
                "A row of the list names image words or name bytes that aren't lent: look at its starts and lengths."
            }
            Self::SLOT => {
                "The slot whose listing is asked for isn't in the tables: ask for one below the run's count of slots."
            }
            Self::LISTING_WORDS => {
                "The listing is longer than the words that are lent: lend as many as are wanted, or let a Runner do so."
            }
            Self::NOT_RUN => {
                "The tables of a screen before it were longer than what remained of the table words, which ended the list: lend more, or run the rest as another list."
            }
            _ => "This number is unknown: the library is newer than this crate.",
        }
    }
}

impl fmt::Display for Refusal {
    fn fmt(&self, f: &mut fmt::Formatter<'_>) -> fmt::Result {
        match self.number {
            Self::NOT_RUN => write!(f, "not run: {}", self.help()),
            number => write!(f, "refused with {number}: {}", self.help()),
        }
    }
}

impl std::error::Error for Refusal {}
