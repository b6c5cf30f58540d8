//! Type inference for React screens, from the proved library: an image goes in, tables of types come out.
//!
//! ```
//! use infer_types::{infer_types, Block, Body, Builder};
//!
//! let mut image = Builder::new();
//! let (x, out) = (image.identifier(), image.identifier());
//! let screen = image.function();
//! image.body(screen, Body::other(out).block(Block::new().primitive(x).returns(x).take()));
//! let image = image.finish().expect("a body for each function");
//! let tables = infer_types(&image.words, &image.names, 1_024).expect("types");
//! assert_eq!(tables.of(out).to_string(), "primitive");
//! ```
//!
//! `infer_types` lends what the library needs, `infer_batch` for a list of screens, `infer_listing` for the tables and the
//! reason of one type in them, and a `Runner` for many of each; `infer_types_into`, `infer_batch_into` and
//! `infer_listing_into` take the words that a host lends itself.

mod batch;
mod explanation;
mod inferred;
mod listing;
mod lookups;
mod refusal;
mod runner;
mod stack;
mod tables;

pub use batch::{Screen, ScreenRefused, ANSWER_ROW, LIST_ROW, MOST_IMAGES};
pub use explanation::Explanation;
pub use infer_image::*;
pub use inferred::{Inferred, Operands, TypeKind};
pub use listing::{Listing, ListingAnswer, ListingRows};
pub use lookups::Lookups;
pub use refusal::{Fault, Refusal};
pub use runner::Runner;
pub use stack::stack_bytes;
pub use tables::Tables;

/// The most words of an image, name bytes and steps.
pub const LIMIT: usize = 65_536;

/// What a call answers. The number is 0 if the tables are written, else that of a refusal.
#[repr(C)]
#[derive(Clone, Copy, Debug, Default, PartialEq, Eq)]
pub struct Answer {
    pub number: u32,
    pub steps: u32,
    pub slots: u32,
    pub bindings: u32,
    pub table_words: u32,
    /// Property lookups that found a type by the exact name; this and the next three are 0 in a refusal.
    pub exact: u32,
    /// Those that found one by the "*" entry.
    pub star: u32,
    /// Those that found one by the hook rule.
    pub hook: u32,
    /// Those that found none.
    pub nothing: u32,
}

impl Answer {
    /// The number of a run that succeeded.
    pub const DONE: u32 = 0;

    /// The answer in a row of nine words, as `infer_batch_into` leaves one for each screen. Panics at any other number
    /// of words.
    pub fn of_row(row: &[u32]) -> Answer {
        let &[number, steps, slots, bindings, table_words, exact, star, hook, nothing] = row else {
            panic!("a row of {} words", row.len());
        };
        Answer { number, steps, slots, bindings, table_words, exact, star, hook, nothing }
    }

    /// The property lookups of the run, by what gave each its type: its last four words.
    pub fn lookups(&self) -> Lookups {
        Lookups { exact_name: self.exact, star_entry: self.star, hook_rule: self.hook, nothing: self.nothing }
    }
}

mod linked {
    use super::{Answer, ListingAnswer};

    #[link(name = "infer_types", kind = "static")]
    extern "C" {
        pub fn image_check(
            image: *const u32,
            image_len: usize,
            names: *const u8,
            names_len: usize,
            budget: u32,
            work_len: usize,
        ) -> u32;

        pub fn infer_types(
            image: *const u32,
            image_len: usize,
            names: *const u8,
            names_len: usize,
            budget: u32,
            work: *mut u32,
            work_len: usize,
            tables: *mut u32,
            tables_len: usize,
        ) -> Answer;

        pub fn infer_batch(
            list: *const u32,
            list_len: usize,
            images: *const u32,
            images_len: usize,
            names: *const u8,
            names_len: usize,
            work: *mut u32,
            work_len: usize,
            tables: *mut u32,
            tables_len: usize,
            answers: *mut u32,
            answers_len: usize,
        ) -> u32;

        pub fn infer_listing(
            image: *const u32,
            image_len: usize,
            names: *const u8,
            names_len: usize,
            budget: u32,
            work: *mut u32,
            work_len: usize,
            tables: *mut u32,
            tables_len: usize,
            slot: u32,
            listing: *mut u32,
            listing_len: usize,
        ) -> ListingAnswer;
    }
}

/// The work words that a call needs: 8 for each word of the image and each step of the budget.
pub fn work_words(image_words: usize, budget: u32) -> usize {
    image_words.saturating_add(budget as usize).saturating_mul(8)
}

/// The check that every run begins with, alone: 0, or the number of the first refusal from 1 to 10 that is due if so
/// many work words are lent. Nothing is written. It takes up to 832 KiB of stack.
pub fn image_check(image: &[u32], names: &[u8], budget: u32, work_words: usize) -> u32 {
    // SAFETY: each pointer comes with its slice's length; the library reads both slices and keeps neither.
    unsafe {
        linked::image_check(image.as_ptr(), image.len(), names.as_ptr(), names.len(), budget, work_words)
    }
}

/// One call of the library with lent work and table words, on the stack of the caller.
///
/// Words of the tables past those written keep what they held; a refusal writes none. The work words are all zero
/// afterwards, or untouched in the refusals 1 to 10; what they hold before doesn't matter.
///
/// The run recurses: the stack has to have `stack_bytes(image, budget)` left, or the process ends. 1 MiB is enough for
/// 8,192 words and 4,096 steps, 10 MiB for every image. `infer_types` and `Runner` see to it themselves.
pub fn infer_types_into(
    image: &[u32],
    names: &[u8],
    budget: u32,
    work: &mut [u32],
    tables: &mut [u32],
) -> Answer {
    // SAFETY: each pointer comes with its slice's length; the library keeps none of them, reads image and names, and
    // writes within work and tables alone (its contract, proved). The slices can't overlap: two are exclusive.
    unsafe {
        linked::infer_types(
            image.as_ptr(),
            image.len(),
            names.as_ptr(),
            names.len(),
            budget,
            work.as_mut_ptr(),
            work.len(),
            tables.as_mut_ptr(),
            tables.len(),
        )
    }
}

/// One call of the library over a list of images, with lent work, table and answer words, on the stack of the caller.
///
/// A row of the list is `LIST_ROW` words: where the image starts in `images` and its words, where its names start in
/// `names` and their bytes, and its budget. There are at most `MOST_IMAGES` rows, and `ANSWER_ROW` answer words for
/// each. The call answers 0 if it has gone through the list, and then each row has its answer (`Answer::of_row`) from
/// the first answer word on; the tables of the screens that are done stand one after another from the first table word
/// on. It answers `Refusal::LIST` or `Refusal::RANGES` if the list doesn't fit what is lent, and leaves all of it as it
/// was.
///
/// Each screen has the answer of its own call with all work words and the table words that remain. The first one that is
/// refused with 14 ends the list; those after it have the number `Refusal::NOT_RUN`.
///
/// Words past those written keep what they held. The work words are all zero afterwards if the check of one screen has
/// passed, else untouched. The stack has to have the most `stack_bytes` of a screen left, or the process ends.
pub fn infer_batch_into(
    list: &[u32],
    images: &[u32],
    names: &[u8],
    work: &mut [u32],
    tables: &mut [u32],
    answers: &mut [u32],
) -> u32 {
    // SAFETY: each pointer comes with its slice's length; the library keeps none of them, reads list, images and names,
    // and writes within work, tables and answers alone (its contract, proved). The slices can't overlap: three are
    // exclusive.
    unsafe {
        linked::infer_batch(
            list.as_ptr(),
            list.len(),
            images.as_ptr(),
            images.len(),
            names.as_ptr(),
            names.len(),
            work.as_mut_ptr(),
            work.len(),
            tables.as_mut_ptr(),
            tables.len(),
            answers.as_mut_ptr(),
            answers.len(),
        )
    }
}

/// One call of the library for the tables and for the listing of a slot, with lent work, table and listing words, on the
/// stack of the caller.
///
/// The answer is that of `infer_types_into`; if that is done, the call may still be refused with `Refusal::SLOT`, or else
/// with `Refusal::LISTING_WORDS`, which says how many are wanted and never comes if four are lent for each step of the
/// budget. The listing stands from the first listing word on and is read by `ListingRows::new`. Words past those written
/// keep what they held, a refusal writes no table or listing word, and work words and stack are as `infer_types_into`
/// says.
pub fn infer_listing_into(
    image: &[u32],
    names: &[u8],
    budget: u32,
    work: &mut [u32],
    tables: &mut [u32],
    slot: Slot,
    listing: &mut [u32],
) -> ListingAnswer {
    // SAFETY: each pointer comes with its slice's length; the library keeps none of them, reads image and names, and
    // writes within work, tables and listing alone (its contract, proved). The slices can't overlap: three are exclusive.
    unsafe {
        linked::infer_listing(
            image.as_ptr(),
            image.len(),
            names.as_ptr(),
            names.len(),
            budget,
            work.as_mut_ptr(),
            work.len(),
            tables.as_mut_ptr(),
            tables.len(),
            slot.number(),
            listing.as_mut_ptr(),
            listing.len(),
        )
    }
}

/// The types of an image's slots and the bindings of their variables, in at most so many steps: one run of a new
/// `Runner`, which says what is lent. It takes at most 1 MiB of the caller's stack, and panics if the system gives no
/// thread for a deeper one.
pub fn infer_types(image: &[u32], names: &[u8], budget: u32) -> Result<Tables, Refusal> {
    let mut runner = Runner::new();
    runner.infer_types(image, names, budget)?;
    Ok(runner.tables)
}

/// The tables of an image and the listing of a slot, in at most so many steps: one run of a new `Runner`, which says what
/// is lent. It takes at most 1 MiB of the caller's stack, and panics if the system gives no thread for a deeper one.
pub fn infer_listing(
    image: &[u32],
    names: &[u8],
    budget: u32,
    slot: Slot,
) -> Result<(Tables, Listing), Refusal> {
    let mut runner = Runner::new();
    runner.infer_listing(image, names, budget, slot)?;
    Ok((runner.tables, runner.listing))
}

/// The types of every screen of a list, in its order: one run of a new `Runner`, which says what is lent. It takes at
/// most 1 MiB of the caller's stack, and panics if the system gives no thread for a deeper one.
pub fn infer_batch(screens: &[Screen]) -> Vec<Result<Tables, ScreenRefused>> {
    Runner::new().infer_batch(screens)
}
