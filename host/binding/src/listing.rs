//! The listing that explains a slot's type: its variable and those that it leads to.

use crate::batch::Screen;
use crate::explanation::Explanation;
use crate::inferred::{type_words, Inferred};
use crate::runner::{lend, lend_more, Lent, Runner};
use crate::stack::with_stack;
use crate::{infer_listing_into, Answer, Refusal, Tables};
use infer_image::parts::NONE;
use infer_image::{Image, Slot};
use std::fmt;

/// What a call for a listing answers.
#[repr(C)]
#[derive(Clone, Copy, Debug, Default, PartialEq, Eq)]
pub struct ListingAnswer {
    /// The run's, or a refusal with `Refusal::SLOT` or `Refusal::LISTING_WORDS`.
    pub answer: Answer,
    /// The words of the listing; those wanted in `Refusal::LISTING_WORDS`, and 0 in every other refusal.
    pub listing_words: u32,
}

impl ListingAnswer {
    /// The answer of a run without a listing.
    pub(crate) fn of_run(answer: Answer) -> ListingAnswer {
        ListingAnswer { answer, listing_words: 0 }
    }
}

/// The variable of a slot and those that it leads to, each in one row with what it is bound to.
///
/// The rows go depth first: after a variable come those in its binding, from left to right, each followed by all that it
/// leads to. One that has its row gets no other.
#[derive(Clone, Debug, Default, PartialEq)]
pub struct Listing {
    words: Vec<u32>,
}

impl Listing {
    /// The words, as the library wrote them.
    pub fn words(&self) -> &[u32] {
        &self.words
    }

    /// The slots, and what the variable of each is bound to, if it is. The first is that which was asked for.
    pub fn rows(&self) -> ListingRows<'_> {
        ListingRows::new(&self.words)
    }

    /// Why the slot has its type, for people to read. Tables and image are those of the same run; with others this may
    /// panic.
    pub fn explain<'a>(&'a self, tables: &'a Tables, image: &'a Image) -> Explanation<'a> {
        Explanation::new(self, tables, image)
    }
}

impl fmt::Display for Listing {
    /// A line for each row, in numbers, as the tables print theirs.
    fn fmt(&self, f: &mut fmt::Formatter<'_>) -> fmt::Result {
        self.rows().try_for_each(|(slot, binding)| match binding {
            Some(binding) => writeln!(f, "list {} {binding}", slot.number()),
            None => writeln!(f, "list {} none", slot.number()),
        })
    }
}

/// The rows of a listing, in their order, read where they stand.
#[derive(Clone, Debug)]
pub struct ListingRows<'t> {
    words: &'t [u32],
}

impl<'t> ListingRows<'t> {
    /// Those of a listing that `infer_listing_into` wrote: its first `listing_words` words.
    pub fn new(words: &'t [u32]) -> ListingRows<'t> {
        ListingRows { words }
    }
}

impl<'t> Iterator for ListingRows<'t> {
    type Item = (Slot, Option<Inferred<'t>>);

    fn next(&mut self) -> Option<Self::Item> {
        let (&slot, rest) = self.words.split_first()?;
        let (binding, rest) = match rest[0] {
            NONE => (None, &rest[1..]),
            _ => {
                let (binding, rest) = rest.split_at(type_words(rest));
                (Some(Inferred::new(binding)), rest)
            }
        };
        self.words = rest;
        Some((Slot::from_number(slot), binding))
    }
}

impl Runner {
    /// The tables of an image, in at most so many steps, and the listing of a slot: its variable and those that it leads
    /// to. Both are there until the next run; clones stay.
    ///
    /// The answer is that of `Runner::infer_types`, or a refusal with `Refusal::SLOT` if the tables have no such slot.
    /// Listing words are lent as they are needed. They have no limit of their own, for a listing has at most four words
    /// for each step.
    ///
    /// ```
    /// # use infer_types::{Block, Body, Builder, Runner};
    /// # let mut image = Builder::new();
    /// # let (draw, drawn, out) = (image.named("draw"), image.described("draw()"), image.identifier());
    /// # let screen = image.function();
    /// # image.body(screen, Body::other(out).block(Block::new().call(drawn, draw, &[]).primitive(drawn).take()));
    /// # let image = image.finish().expect("a body for each function");
    /// let (mut runner, slot) = (Runner::new(), image.slot_of(draw));
    /// let (tables, listing) = runner.infer_listing(&image.words, &image.names, 65_536, slot).expect("types");
    /// assert_eq!(
    ///     listing.explain(tables, &image).to_string(),
    ///     "Why draw is a function returning a primitive value:
    ///   draw is known to be a function returning slot 3
    ///     slot 3 is known to be a primitive value
    /// "
    /// );
    /// ```
    pub fn infer_listing(
        &mut self,
        image: &[u32],
        names: &[u8],
        budget: u32,
        slot: Slot,
    ) -> Result<(&Tables, &Listing), Refusal> {
        let screen = Screen { image, names, budget };
        let first = screen.first_lent();
        let first = Lent { listing_words: first.table_words, ..first };
        let most = Lent { budget, table_words: self.table_words_at_most, listing_words: usize::MAX };
        let answer = lend_more(first, most, |lent| self.call_listing(&screen, slot, lent));
        self.read(answer.answer, image)?;
        self.listing.words.truncate(answer.listing_words as usize);
        Ok((&self.tables, &self.listing))
    }

    fn call_listing(&mut self, screen: &Screen, slot: Slot, lent: Lent) -> ListingAnswer {
        let (work_words, stack_bytes) = screen.needs(lent.budget);
        let work = lend(&mut self.work, work_words);
        let (tables, listing) = (&mut self.tables.words, &mut self.listing.words);
        tables.resize(lent.table_words, 0);
        listing.resize(lent.listing_words, 0);
        let &Screen { image, names, .. } = screen;
        with_stack(stack_bytes, || infer_listing_into(image, names, lent.budget, work, tables, slot, listing))
    }
}
